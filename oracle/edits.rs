//! The arguments of the edits that generate makes, and the lists that they come in.

use stream::{Call, CONTROL_POINT_IN, MOST_POINTS, POINT_BOUNDS};

use crate::draw::{Class, Draw};
use crate::edges::{Kept, Point};
use crate::queries;
use crate::regions::{bent, UNREAD_SHARE};

/// The most edits that a list has.
const MOST_EDITS: u64 = 200;

/// Least and greatest number of edits, and of a hundred lists how many.
const LENGTH_SHARES: [((u64, u64), u64); 4] = [
    ((1, 8), 45),
    ((9, 40), 35),
    ((41, 120), 14),
    ((121, MOST_EDITS), 6),
];

/// Where the count of corners goes in the course of a list.
#[derive(Clone, Copy)]
enum Drift {
    Even,
    /// Towards 64.
    Up,
    /// Towards 1.
    Down,
}

const DRIFT_SHARES: [(Drift, u64); 3] = [(Drift::Even, 50), (Drift::Up, 25), (Drift::Down, 25)];

/// Of a hundred edits at the end that a list drifts to, after how many it drifts back.
const BACK_SHARE: u64 = 8;

/// Of a hundred edits how many of each kind.
type EditShares = [(Call, u64); 7];

const EVEN_SHARES: EditShares = [
    (Call::Put, 30),
    (Call::Insert, 20),
    (Call::Remove, 17),
    (Call::Turn, 5),
    (Call::Hold, 9),
    (Call::Rule, 10),
    (Call::HoldLent, 9),
];

const UP_SHARES: EditShares = [
    (Call::Put, 12),
    (Call::Insert, 60),
    (Call::Remove, 4),
    (Call::Turn, 4),
    (Call::Hold, 7),
    (Call::Rule, 6),
    (Call::HoldLent, 7),
];

const DOWN_SHARES: EditShares = [
    (Call::Put, 16),
    (Call::Insert, 8),
    (Call::Remove, 46),
    (Call::Turn, 5),
    (Call::Hold, 8),
    (Call::Rule, 9),
    (Call::HoldLent, 8),
];

/// A list of edits under way.
pub struct List {
    pub left: u64,
    drift: Drift,
}

impl List {
    pub fn empty() -> Self {
        List {
            left: 0,
            drift: Drift::Even,
        }
    }

    /// Many are short, so that a run of all kinds has many of them.
    pub fn mixed(draw: &mut Draw) -> Self {
        let (least, greatest) = draw.by_share(&LENGTH_SHARES);
        List {
            left: draw.whole(least, greatest),
            drift: draw.by_share(&DRIFT_SHARES),
        }
    }

    /// Every length as often as any other.
    pub fn uniform(draw: &mut Draw) -> Self {
        List {
            left: draw.whole(1, MOST_EDITS),
            drift: draw.by_share(&DRIFT_SHARES),
        }
    }

    /// The next edit; one must be left.
    pub fn edit(&mut self, draw: &mut Draw, kept: &Kept) -> Call {
        self.left -= 1;
        let back = match (self.drift, kept.corners.len() as u64) {
            (Drift::Up, MOST_POINTS) => Drift::Down,
            (Drift::Down, 1) => Drift::Up,
            (drift, _) => drift,
        };
        if draw.percent(BACK_SHARE) {
            self.drift = back;
        }
        draw.by_share(match self.drift {
            Drift::Even => &EVEN_SHARES,
            Drift::Up => &UP_SHARES,
            Drift::Down => &DOWN_SHARES,
        })
    }
}

/// Which index an edit names.
#[derive(Clone, Copy)]
enum Index {
    Any,
    First,
    Last,
    /// Where insert appends, and the others are refused.
    Count,
    Past,
    Far,
}

const INDEX_SHARES: [(Index, u64); 6] = [
    (Index::Any, 62),
    (Index::First, 10),
    (Index::Last, 10),
    (Index::Count, 8),
    (Index::Past, 4),
    (Index::Far, 6),
];

pub fn index(draw: &mut Draw, kept: &Kept) -> u64 {
    let count = kept.corners.len() as u64;
    match draw.by_share(&INDEX_SHARES) {
        Index::Any => draw.below(count),
        Index::First => 0,
        Index::Last => count - 1,
        Index::Count => count,
        Index::Past => count + 1,
        Index::Far => {
            let at = draw.below(count);
            // Cut down to 8 or to 32 bits some are legal.
            let far = [MOST_POINTS, 256 + at, (1 << 32) + at, 1 << 63, u64::MAX];
            draw.pick(&far)
        }
    }
}

/// Of a hundred rule edits how many by each rule.
const RULE_SHARES: [(u64, u64); 6] = [(0, 17), (1, 15), (2, 8), (3, 8), (4, 26), (5, 26)];

/// A rule and its control point.
pub fn rule(draw: &mut Draw, class: Class, kept: &Kept) -> (u64, Point) {
    let rule = draw.by_share(&RULE_SHARES);
    let control = if rule < CONTROL_POINT_IN && draw.percent(UNREAD_SHARE) {
        draw.raws()
    } else {
        queries::point(draw, class, kept)
    };
    (rule, control)
}

/// A corner to put at an index or to insert there.
pub fn corner(draw: &mut Draw, class: Class, kept: &Kept, index: u64) -> Point {
    match class {
        Class::Borderline if draw.percent(50) => {
            let corners = &kept.corners;
            // An index past the last corner has the first one after it.
            let at = if index < corners.len() as u64 {
                index as usize
            } else {
                0
            };
            let before = corners[(at + corners.len() - 1) % corners.len()];
            let other = draw.pick(corners);
            let corner = bent(draw, corners[at], before, other);
            draw.mostly_legal(corner, &POINT_BOUNDS)
        }
        _ => queries::point(draw, class, kept),
    }
}
