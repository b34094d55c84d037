//! The region files that generate makes, and the outputs that it lends to a write.

use stream::{file_length, Interval, EDITION, MOST_GIVEN, MOST_POINTS, POINT_BOUNDS, POINT_WORDS};

use crate::draw::{Class, Draw};
use crate::edges::{Kept, Point};
use crate::points::{good_points, CountShare};
use crate::regions::outline;

/// As many corners as there is room for.
const MOST_CORNERS: u64 = 102;

const FILE_SHARES: [CountShare; 9] = [
    ((0, 0), 40),
    ((1, 1), 90),
    ((2, 2), 90),
    ((3, 8), 570),
    ((9, 62), 80),
    ((63, 63), 30),
    ((64, 64), 50),
    ((65, 65), 30),
    ((66, MOST_CORNERS), 20),
];

/// Most refusals of a file need a damage of their own, so there are more of them.
const FILE_CLASS_SHARES: [(Class, u64); 4] = [
    (Class::Good, 27),
    (Class::Borderline, 20),
    (Class::Damaged, 43),
    (Class::Raw, 10),
];

/// Of a hundred files how many have the corners of the region kept.
const KEPT_SHARE: u64 = 15;

/// The bytes that stand in front of corner 0.
#[derive(Clone, Copy)]
enum Front {
    None,
    Few,
    /// As many as one corner has, or a few of them.
    Corners,
    Hundreds,
    /// A region file, or the end of one, so that a trailer ends in front of corner 0.
    File,
    /// So many that the file just has room.
    Most,
}

const FRONT_SHARES: [(Front, u64); 6] = [
    (Front::None, 48),
    (Front::Few, 22),
    (Front::Corners, 10),
    (Front::Hundreds, 8),
    (Front::File, 10),
    (Front::Most, 2),
];

/// What is wrong with a damaged file.
#[derive(Clone, Copy)]
enum Harm {
    Edition,
    Flag,
    Count,
    Distance,
    /// Fields in the wrong order, or their bytes.
    Order,
    Corners,
    /// Bytes are missing, or there are some behind the trailer.
    Length,
}

const HARM_SHARES: [(Harm, u64); 7] = [
    (Harm::Edition, 10),
    (Harm::Flag, 10),
    (Harm::Count, 15),
    (Harm::Distance, 13),
    (Harm::Order, 3),
    (Harm::Corners, 36),
    (Harm::Length, 13),
];

/// How many things are wrong at once: which of them is told shows the order of the tests.
const HARM_COUNT_SHARES: [(u64, u64); 3] = [(1, 50), (2, 35), (3, 15)];

/// A file before it is bytes.
#[derive(Clone)]
pub struct Draft {
    pub front: Vec<u8>,
    pub corners: Vec<Point>,
    /// Edition, flag, count and distance.
    pub trailer: [u32; 4],
}

impl Draft {
    fn of(draw: &mut Draw, corners: Vec<Point>) -> Self {
        let front = front(draw, MOST_GIVEN as usize - file_length(corners.len()));
        let flag = draw.below(2) as u32;
        Draft::right(front, corners, flag)
    }

    pub fn right(front: Vec<u8>, corners: Vec<Point>, flag: u32) -> Self {
        let count = corners.len();
        Draft {
            front,
            corners,
            trailer: [EDITION, flag, count as u32, file_length(count) as u32],
        }
    }

    pub fn bytes(&self) -> Vec<u8> {
        let corners = self.corners.iter().flatten();
        let corners = corners.flat_map(|field| field.to_bits().to_le_bytes());
        let trailer = self.trailer.into_iter().flat_map(u32::to_le_bytes);
        let front = self.front.iter().copied();
        front.chain(corners).chain(trailer).collect()
    }

    fn harm(&mut self, draw: &mut Draw, harm: Harm) {
        let [edition, flag, count, distance] = &mut self.trailer;
        match harm {
            Harm::Edition => *edition = wrong(draw, EDITION, &[0, 0, 2, 2, 3, u32::MAX]),
            Harm::Flag => *flag = wrong(draw, *flag, &[2, 2, 3, 255, u32::MAX]),
            // The distance goes with the count or not.
            Harm::Count => {
                *count = wrong_count(draw, *count);
                if draw.percent(50) {
                    *distance = file_length(*count as usize) as u32;
                }
            }
            Harm::Distance => *distance = wrong_distance(draw, *distance, self.front.len() as u32),
            Harm::Order => match draw.index(4) {
                3 => self.trailer = self.trailer.map(u32::swap_bytes),
                at => self.trailer.swap(at, at + 1),
            },
            Harm::Corners => harm_corners(draw, &mut self.corners),
            // Of the bytes, later.
            Harm::Length => {}
        }
    }
}

fn wrong_count(draw: &mut Draw, count: u32) -> u32 {
    match draw.below(4) {
        0 => 0,
        1 => MOST_POINTS as u32 + 1,
        2 => draw.pick(&[count.wrapping_sub(1), count.wrapping_add(1)]),
        _ => {
            // 40 times 2^29 is 0 in 32 bits.
            let wrapped = count.wrapping_add(1 << 29);
            wrong(draw, count, &[1, MOST_POINTS as u32, wrapped, u32::MAX])
        }
    }
}

/// With so many bytes in front of corner 0.
fn wrong_distance(draw: &mut Draw, distance: u32, front: u32) -> u32 {
    let near = [1, 8, 16, 40];
    match draw.below(5) {
        0 => distance.wrapping_add(draw.pick(&near)),
        1 => distance.wrapping_sub(draw.pick(&near)),
        // Counted from the front, and the length of the file.
        2 => draw.pick(&[front, distance.wrapping_add(front)]),
        _ => wrong(draw, distance, &[0, 16, distance.swap_bytes(), u32::MAX]),
    }
}

/// One of these, a random number, or the right one with a bit more, which some programs may not
/// look at.
fn wrong(draw: &mut Draw, right: u32, others: &[u32]) -> u32 {
    match draw.below(4) {
        0 => right | draw.pick(&[1 << 8, 1 << 16, 1 << 24, 1 << 31]),
        1 => (draw.word() >> 32) as u32,
        _ => draw.pick(others),
    }
}

/// Puts a value into one field, or into a few: each of the first corner, of the last or of any. Of
/// several corners outside the domain the lowest is told.
fn harm_corners(draw: &mut Draw, corners: &mut [Point]) {
    let Some(last) = corners.len().checked_sub(1) else {
        return;
    };
    let fields = if draw.percent(60) {
        1
    } else {
        draw.whole(2, 5)
    };
    for _ in 0..fields {
        let corner = match draw.below(4) {
            0 => 0,
            1 => last,
            _ => draw.index(corners.len()),
        };
        let field = draw.index(POINT_WORDS);
        let value = &mut corners[corner][field];
        *value = other(draw, *value, POINT_BOUNDS[field]);
    }
}

/// Mostly one outside the bounds; some are within.
fn other(draw: &mut Draw, value: f64, bounds: Interval) -> f64 {
    let (least, greatest) = bounds;
    match draw.below(10) {
        0..=3 => draw.bad(bounds),
        4 | 5 => draw.nan(),
        6 => f64::from_bits(value.to_bits() ^ 1 << draw.below(64)),
        7 => draw.raw(),
        _ => draw.near_one_of(&[least, greatest, greatest, 0.0, -0.0, -0.0]),
    }
}

/// Bytes of a maker's own, at most so many.
fn front(draw: &mut Draw, most: usize) -> Vec<u8> {
    let corner = (file_length(1) - file_length(0)) as u64;
    let length = match draw.by_share(&FRONT_SHARES) {
        Front::None => 0,
        Front::Few => draw.whole(1, 48),
        Front::Corners => draw.whole(1, 3) * corner,
        Front::Hundreds => draw.whole(49, 400),
        Front::File => {
            let count = draw.whole(1, 3);
            let corners = good_points(draw, count);
            let flag = draw.below(2) as u32;
            let bytes = Draft::right(Vec::new(), corners, flag).bytes();
            let cut = draw.index(bytes.len() - file_length(0) + 1);
            let from = draw.pick(&[0, cut]).max(bytes.len().saturating_sub(most));
            return bytes[from..].to_vec();
        }
        Front::Most => MOST_GIVEN,
    };
    any_bytes(draw, length.min(most as u64))
}

/// Random ones; but in two cases of three all alike, so that they would do for corners.
fn any_bytes(draw: &mut Draw, length: u64) -> Vec<u8> {
    let fixed = draw.pick(&[None, Some(0), Some(0x3F)]);
    (0..length)
        .map(|_| fixed.unwrap_or_else(|| draw.word() as u8))
        .collect()
}

/// Bytes for the readers of a file.
pub fn file(draw: &mut Draw, kept: &Kept) -> Vec<u8> {
    let class = draw.by_share(&FILE_CLASS_SHARES);
    let corners = if draw.percent(KEPT_SHARE) {
        kept.corners.clone()
    } else {
        let (least, greatest) = draw.by_share(&FILE_SHARES);
        let count = draw.whole(least, greatest);
        outline(draw, class, count)
    };
    let mut draft = Draft::of(draw, corners);
    match class {
        Class::Good | Class::Borderline => draft.bytes(),
        Class::Damaged => {
            let mut length_too = false;
            for _ in 0..draw.by_share(&HARM_COUNT_SHARES) {
                let harm = draw.by_share(&HARM_SHARES);
                length_too |= matches!(harm, Harm::Length);
                draft.harm(draw, harm);
            }
            let mut bytes = draft.bytes();
            if length_too {
                let [.., distance] = draft.trailer;
                harm_length(draw, &mut bytes, distance as usize, draft.front.len());
            }
            bytes
        }
        Class::Raw => match draw.below(4) {
            0 => {
                let most = draw.pick(&[20, 100, MOST_GIVEN]);
                let length = draw.below(most + 1);
                (0..length).map(|_| draw.word() as u8).collect()
            }
            _ => draft.bytes(),
        },
    }
}

/// Takes bytes away at either end, or adds some behind.
fn harm_length(draw: &mut Draw, bytes: &mut Vec<u8>, distance: usize, front: usize) {
    let length = bytes.len();
    let left = match draw.below(9) {
        0 | 1 => draw.index(18),
        // Next to what the trailer says.
        2 | 3 => distance.saturating_sub(draw.pick(&[0, 1, 2, 8, 16, 40])),
        4 | 5 => length.saturating_sub(draw.index(48)),
        // A maker's bytes alone, where the end is cut off.
        6 => front,
        _ => draw.index(length + 1),
    }
    .min(length);
    match draw.below(20) {
        0..=13 => drop(bytes.drain(..length - left)),
        14..=17 => bytes.truncate(left),
        _ => {
            let behind = draw.whole(1, 40).min(MOST_GIVEN - length as u64);
            bytes.extend(any_bytes(draw, behind));
        }
    }
}

/// How long an output is.
#[derive(Clone, Copy)]
enum Output {
    Needed,
    /// Next to what is needed.
    Beside,
    Short,
    Below,
    Above,
}

const OUTPUT_SHARES: [(Output, u64); 5] = [
    (Output::Needed, 28),
    (Output::Beside, 38),
    (Output::Short, 14),
    (Output::Below, 8),
    (Output::Above, 12),
];

/// The length of an output for the region kept.
pub fn output(draw: &mut Draw, kept: &Kept) -> u64 {
    let needed = file_length(kept.corners.len()) as u64;
    match draw.by_share(&OUTPUT_SHARES) {
        Output::Needed => needed,
        Output::Beside => {
            let beside = [needed - 1, needed + 1, needed + 7, needed + 8, needed + 9];
            draw.pick(&beside)
        }
        Output::Short => draw.pick(&[0, 1, 8, 15, 16, 17]),
        Output::Below => draw.below(needed),
        Output::Above => {
            let above = draw.whole(needed, MOST_GIVEN);
            draw.pick(&[above, above, above, MOST_GIVEN])
        }
    }
}
