//! The builds and region values that generate makes, and the edges that it aims its questions at.

use std::f64::consts::PI;

use stream::{
    within, Interval, CONTROL_POINT_IN, HALF_PI, MOST_POINTS, POINT_BOUNDS, POINT_WORDS, TWO_PI,
    VECTOR_WORDS,
};

use crate::draw::{stepped, Class, Draw, LARGEST_SUBNORMAL, SMALLEST, SPECIAL};
use crate::edges::{cross, vector, Kept, Point, Vector};
use crate::points::{
    around, borderline_points, damage, good_points, opposite, point_at, point_count, point_of,
    raw_points, shrunk, somewhere, sum, with_vector, CountShare,
};
use crate::queries;

const CORNER_SHARES: [CountShare; 10] = [
    ((0, 0), 15),
    ((1, 1), 40),
    ((2, 2), 80),
    ((3, 8), 705),
    ((9, 20), 60),
    ((21, 62), 20),
    ((63, 63), 20),
    ((64, 64), 30),
    ((65, 65), 20),
    ((66, 80), 10),
];

/// The counts that a region value may have, and those that are refused.
const VALUE_SHARES: [CountShare; 11] = [
    ((0, 0), 40),
    ((1, 1), 80),
    ((2, 2), 100),
    ((3, 8), 580),
    ((9, 63), 50),
    ((64, 64), 80),
    ((65, 65), 30),
    // Cut down to 8 or to 32 bits they are legal.
    ((256 + 1, 256 + 8), 10),
    (((1 << 32) + 1, (1 << 32) + 8), 10),
    ((1 << 63, 1 << 63), 10),
    ((u64::MAX, u64::MAX), 10),
];

/// How many corners an outline that costs most is to have, and counts that are refused.
const OUTLINE_SHARES: [CountShare; 8] = [
    ((0, 0), 40),
    ((1, MOST_POINTS), 830),
    ((65, 65), 40),
    // Cut down to 8 or to 32 bits they are legal.
    ((256 + 1, 256 + MOST_POINTS), 20),
    (((1 << 32) + 1, (1 << 32) + MOST_POINTS), 20),
    ((1 << 63, 1 << 63), 15),
    ((u64::MAX, u64::MAX), 15),
    ((66, u64::MAX), 20),
];

/// Of a hundred builds how many by each rule.
const RULE_SHARES: [(u64, u64); 6] = [(0, 25), (1, 20), (2, 10), (3, 10), (4, 18), (5, 17)];

/// Of a hundred control points that are not read how many are random patterns.
pub const UNREAD_SHARE: u64 = 60;

/// Values that no build gives are what they are there for.
const VALUE_CLASS_SHARES: [(Class, u64); 4] = [
    (Class::Good, 25),
    (Class::Borderline, 30),
    (Class::Damaged, 35),
    (Class::Raw, 10),
];

/// A flag is set by any word but 0.
const FLAGS: [u64; 10] = [0, 0, 0, 0, 1, 1, 1, 2, 1 << 32, u64::MAX];

/// An edge of the region kept.
pub struct Edge {
    pub start: Point,
    pub end: Point,
    pub normal: Vector,
}

impl Kept {
    pub fn corner(&self, draw: &mut Draw) -> Point {
        draw.pick(&self.corners)
    }

    /// Any edge; in a quarter of the cases one across the seam, if there is one.
    pub fn edge(&self, draw: &mut Draw) -> Edge {
        let count = self.corners.len();
        let edge = |index| Edge {
            start: self.corners[(index + count - 1) % count],
            end: self.corners[index],
            normal: self.normals[index],
        };
        let index = draw.index(count);
        if draw.percent(25) {
            let across = |edge: &Edge| (edge.end[3] - edge.start[3]).abs() > PI;
            if let Some(found) = (index..count).chain(0..index).map(edge).find(across) {
                return found;
            }
        }
        edge(index)
    }

    /// A vector in the midst of the corners.
    pub fn middle(&self) -> Vector {
        self.corners
            .iter()
            .fold([0.0; VECTOR_WORDS], |total, corner| {
                sum(&total, &vector(corner), 1.0)
            })
    }
}

impl Edge {
    /// A longitude at which the edge is in range.
    pub fn lon(&self, draw: &mut Draw) -> f64 {
        let (west, east) = in_order(self.start[3], self.end[3]);
        if east - west <= PI {
            draw.between(west, east)
        } else if draw.percent(50) {
            draw.between(0.0, west)
        } else {
            draw.between(east, TWO_PI)
        }
    }

    /// A latitude that the edge takes in.
    pub fn lat(&self, draw: &mut Draw) -> f64 {
        let (south, north) = in_order(self.start[4], self.end[4]);
        draw.between(south, north)
    }

    /// A vector between the two corners.
    pub fn between(&self, draw: &mut Draw) -> Vector {
        let share = draw.between(0.0, 1.0);
        let start = vector(&self.start).map(|component| component * (1.0 - share));
        sum(&start, &vector(&self.end), share)
    }

    /// A vector whose dot product with the normal is exactly 0.
    pub fn flat(&self, draw: &mut Draw) -> Vector {
        // Of points in the domain a normal's components go up to 8.
        let [x, y, z] = self.normal.map(|component| component * 0.25);
        draw.pick(&[[y, -x, 0.0], [-z, 0.0, x], [0.0, z, -y]])
    }
}

fn in_order(a: f64, b: f64) -> (f64, f64) {
    if a > b {
        (b, a)
    } else {
        (a, b)
    }
}

// Builds

pub struct Build {
    pub rule: u64,
    pub control: Point,
    pub corners: Vec<Point>,
}

impl Build {
    /// The region that it makes, unless it is refused.
    pub fn kept(&self) -> Option<Kept> {
        let legal = |point| within(point, &POINT_BOUNDS);
        let taken = (1..=MOST_POINTS).contains(&(self.corners.len() as u64))
            && self.corners.iter().all(legal)
            && (self.rule < CONTROL_POINT_IN || legal(&self.control));
        taken.then(|| Kept::built(self.corners.clone()))
    }
}

pub fn build(draw: &mut Draw, class: Class) -> Build {
    let count = point_count(draw, &CORNER_SHARES);
    let rule = draw.by_share(&RULE_SHARES);
    let reads_control = rule >= CONTROL_POINT_IN;
    let mut corners = outline(draw, class, count);
    let mut control = match corners.as_slice() {
        [] => somewhere(draw),
        // A long list is refused whatever stands in it.
        some => {
            let kept = Kept::built(some[..some.len().min(MOST_POINTS as usize)].to_vec());
            let aim = match class {
                Class::Damaged => Class::Good,
                _ => class,
            };
            queries::point(draw, aim, &kept)
        }
    };
    if !reads_control && draw.percent(UNREAD_SHARE) {
        control = draw.raws();
    }
    if let Class::Damaged = class {
        // The corners, the control point, or both.
        let which = draw.below(5);
        if !reads_control || which < 3 {
            damage(draw, &mut corners);
        }
        if reads_control && which > 1 {
            damage(draw, std::slice::from_mut(&mut control));
        }
    }
    Build {
        rule,
        control,
        corners,
    }
}

/// Corners of an outline; a damaged one is still good here.
pub fn outline(draw: &mut Draw, class: Class, count: u64) -> Vec<Point> {
    let mut corners = match class {
        Class::Good | Class::Damaged => good_outline(draw, count),
        Class::Borderline => borderline_outline(draw, count),
        Class::Raw => raw_points(draw, count),
    };
    if draw.percent(50) {
        corners.reverse();
    }
    corners
}

fn good_outline(draw: &mut Draw, count: u64) -> Vec<Point> {
    match draw.below(10) {
        0..=3 => ring(draw, count),
        4 | 5 => {
            let lats = draw.pick(&[(0.1, 1.5), (-1.5, -0.1), (-0.4, 0.4)]);
            belt(draw, count, lats)
        }
        6 => zigzag(draw, count),
        7 => (0..count).map(|_| somewhere(draw)).collect(),
        8 => (0..count).map(|_| exact(draw)).collect(),
        _ => good_points(draw, count),
    }
}

/// All round a place, across the seam in many cases.
fn ring(draw: &mut Draw, count: u64) -> Vec<Point> {
    let lon = match draw.below(3) {
        0 => draw.pick(&[0.0, TWO_PI]),
        _ => draw.between(0.0, TWO_PI),
    };
    let lat = match draw.below(6) {
        0 => draw.pick(&[0.0, HALF_PI, -HALF_PI]),
        _ => draw.between(-HALF_PI, HALF_PI),
    };
    let radius = match draw.below(5) {
        0 => 10f64.powi(-(draw.whole(1, 7) as i32)),
        1 => HALF_PI,
        _ => draw.between(0.05, 1.5),
    };
    let centre = vector(&point_at(lon, lat));
    let east = [-lon.sin(), lon.cos(), 0.0];
    let north = cross(&centre, &east);
    (0..count)
        .map(|index| {
            let turn = TWO_PI * (index as f64 + draw.between(0.0, 0.8)) / count as f64;
            let side = sum(&east.map(|e| e * turn.cos()), &north, turn.sin());
            let away = radius * draw.between(0.7, 1.0);
            let v = sum(&centre.map(|c| c * away.cos()), &side, away.sin());
            point_of(&v)
        })
        .collect()
}

/// All round the poles, between two latitudes.
fn belt(draw: &mut Draw, count: u64, (south, north): Interval) -> Vec<Point> {
    let first = draw.between(0.0, TWO_PI);
    (0..count)
        .map(|index| {
            let turn = TWO_PI * (index as f64 + draw.between(0.0, 0.8)) / count as f64;
            point_at(around(first + turn), draw.between(south, north))
        })
        .collect()
}

/// Round the poles and to and fro, so that a circle can meet every edge.
fn zigzag(draw: &mut Draw, count: u64) -> Vec<Point> {
    let mut corners = belt(draw, count, (0.3, 0.5));
    for corner in corners.iter_mut().step_by(2) {
        *corner = point_at(corner[3], -corner[4]);
    }
    corners
}

/// A point whose coordinates are short numbers, many of them 0.
pub fn exact(draw: &mut Draw) -> Point {
    let mut v: Vector = draw.pick(&[
        [1.0, 0.0, 0.0],
        [1.0, 0.0, 0.0],
        [0.6, 0.8, 0.0],
        [0.6, 0.8, 0.0],
        [0.5, 0.5, 0.0],
        [1.0, 0.5, 0.0],
        [0.5, 0.5, 0.5],
        [0.25, 0.5, 0.5],
    ]);
    v.rotate_left(draw.index(VECTOR_WORDS));
    if draw.percent(50) {
        v.swap(0, 1);
    }
    let mut point = point_of(&v.map(|component| draw.either_sign(component)));
    if v[0] == 0.0 && v[1] == 0.0 && draw.percent(50) {
        point[3] = draw.between(0.0, TWO_PI);
    }
    point
}

fn borderline_outline(draw: &mut Draw, count: u64) -> Vec<Point> {
    let mut corners: Vec<Point> = match draw.below(12) {
        0..=3 => (0..count).map(|_| exact(draw)).collect(),
        4 => return balanced_belt(draw, count),
        5 => return half_turn_belt(draw, count),
        6 => flat_belt(draw, count),
        7 => {
            let exponent = draw.whole(100, 600);
            good_outline(draw, count)
                .iter()
                .map(|corner| with_vector(corner, &shrunk(&vector(corner), exponent)))
                .collect()
        }
        8 => borderline_points(draw, count),
        _ => good_outline(draw, count),
    };
    if count > 0 {
        for _ in 0..draw.below(4) {
            bend(draw, &mut corners);
        }
    }
    for corner in &mut corners {
        *corner = draw.mostly_legal(*corner, &POINT_BOUNDS);
    }
    corners
}

/// Round the poles with heights whose sum is a few units in the last place at most, so that its
/// sign rests on the order.
fn balanced_belt(draw: &mut Draw, count: u64) -> Vec<Point> {
    let mut corners = belt(draw, count, (-0.7, 0.7));
    let mut total = 0.0;
    for corner in &mut corners {
        if total * corner[2] > 0.0 {
            *corner = point_at(corner[3], -corner[4]);
        }
        total += corner[2];
    }
    if let Some((last, others)) = corners.split_last_mut() {
        let rest: f64 = others.iter().rev().map(|corner| corner[2]).sum();
        last[2] = draw.near(-rest);
    }
    // Which corner is the first.
    corners.rotate_left(draw.below(count.max(1)) as usize);
    corners
}

/// Round a pole, mostly the south pole, with a step of half a turn or next to it.
fn half_turn_belt(draw: &mut Draw, count: u64) -> Vec<Point> {
    let west = match draw.below(3) {
        0 => draw.between(0.0, PI),
        _ => draw.pick(&[0.0, -0.0, PI]),
    };
    let east = draw.near(west + PI).min(TWO_PI);
    let side = if draw.percent(70) { -1.0 } else { 1.0 };
    let step = PI / count as f64;
    (0..count)
        .map(|index| {
            let lon = match index {
                0 => west,
                1 => east,
                _ => around(east + step * (index - 1) as f64),
            };
            point_at(lon, side * draw.between(0.0, 1.5))
        })
        .collect()
}

/// On the equator by the coordinates, with latitudes of their own.
fn flat_belt(draw: &mut Draw, count: u64) -> Vec<Point> {
    let mut corners = belt(draw, count, (-0.5, 0.5));
    for corner in &mut corners {
        corner[2] = draw.either_sign(0.0);
    }
    corners
}

/// Bends one corner.
fn bend(draw: &mut Draw, corners: &mut [Point]) {
    let count = corners.len();
    let at = draw.index(count);
    let before = corners[(at + count - 1) % count];
    let other = draw.pick(corners);
    corners[at] = bent(draw, corners[at], before, other);
}

/// A corner moved to where an edge or a case ends, given the one before it and any other.
pub fn bent(draw: &mut Draw, mut corner: Point, before: Point, other: Point) -> Point {
    let lons = [
        0.0,
        -0.0,
        HALF_PI,
        PI,
        TWO_PI,
        before[3],
        before[3],
        before[3] + PI,
        before[3] - PI,
        other[3],
    ];
    match draw.below(14) {
        0 => corner = before,
        1 => corner = other,
        2 | 3 => corner[3] = draw.near_one_of(&lons),
        4 => corner = point_at(draw.near_one_of(&lons), corner[4]),
        5 => {
            let lats = [0.0, -0.0, HALF_PI, -HALF_PI, before[4], other[4]];
            corner[4] = draw.near_one_of(&lats);
        }
        6 => {
            let z = draw.either_sign(1.0);
            corner = [draw.either_sign(0.0), 0.0, z, corner[3], z * HALF_PI];
        }
        7 => {
            corner[2] = draw.either_sign(0.0);
            corner[4] = draw.either_sign(0.0);
        }
        // The normal is zero, and the latitudes differ.
        8 => {
            corner = before;
            corner[4] = draw.between(-HALF_PI, HALF_PI);
        }
        9 => corner = opposite(&before),
        10 => corner = exact(draw),
        11 => {
            let factor = draw.pick(&[0.5, 2.0, 1e-3, 1e-80, 1e-160]);
            corner = with_vector(&corner, &vector(&corner).map(|c| c * factor));
        }
        12 => corner[3] = half_turn(draw, before[3]),
        _ => {
            let field = draw.index(POINT_WORDS);
            let (least, greatest) = POINT_BOUNDS[field];
            corner[field] = draw.near_one_of(&[least, greatest]);
        }
    }
    corner
}

/// A longitude whose step from this one, rounded, is PI or next to it, where there is one.
fn half_turn(draw: &mut Draw, from: f64) -> f64 {
    let size = draw.pick(&[stepped(PI, -1), PI, stepped(PI, 1)]);
    let about = if from < PI { from + size } else { from - size };
    (-4..=4)
        .map(|steps| stepped(about, steps))
        .find(|lon| (lon - from).abs() == size)
        .unwrap_or(about)
}

/// A number of corners for the outline that costs most.
pub fn outline_count(draw: &mut Draw) -> u64 {
    let (least, greatest) = draw.by_share(&OUTLINE_SHARES);
    draw.whole(least, greatest)
}

// Region values

pub struct Value {
    pub count: u64,
    pub flag: u64,
    pub seam_count: u64,
    pub corners: Vec<Point>,
    pub normals: Vec<Vector>,
}

impl Value {
    /// A value that every call refuses is aimed at all the same.
    pub fn kept(&self) -> Kept {
        let count = self.count.clamp(1, MOST_POINTS) as usize;
        Kept {
            corners: self.corners[..count].to_vec(),
            normals: self.normals[..count].to_vec(),
        }
    }
}

pub fn region_value(draw: &mut Draw) -> Value {
    let class = draw.by_share(&VALUE_CLASS_SHARES);
    let (least, greatest) = draw.by_share(&VALUE_SHARES);
    let count = draw.whole(least, greatest);
    let used = count.clamp(1, MOST_POINTS);
    let corners = outline(draw, class, used);
    let Kept {
        mut corners,
        mut normals,
    } = Kept::built(corners);
    match class {
        Class::Good => {}
        Class::Borderline => {
            for _ in 0..draw.whole(1, 4) {
                let at = draw.index(normals.len());
                twist(draw, &mut normals, at);
            }
        }
        Class::Damaged => {
            for _ in 0..draw.whole(1, 6) {
                let at = draw.index(normals.len());
                let value = wild(draw);
                match draw.index(POINT_WORDS + VECTOR_WORDS) {
                    field @ 0..POINT_WORDS => corners[at][field] = value,
                    field => normals[at][field - POINT_WORDS] = value,
                }
            }
        }
        Class::Raw => {
            for normal in &mut normals {
                *normal = draw.raws();
            }
        }
    }
    let seam_count = handed_seam_count(draw, &corners);
    // What stands past the count is free.
    corners.resize_with(MOST_POINTS as usize, || draw.raws());
    normals.resize_with(MOST_POINTS as usize, || draw.raws());
    Value {
        count,
        flag: draw.pick(&FLAGS),
        seam_count,
        corners,
        normals,
    }
}

/// What a value's seam count is handed in as: the edges' own, next to it, or any number.
fn handed_seam_count(draw: &mut Draw, corners: &[Point]) -> u64 {
    let starts = corners.last().into_iter().chain(corners);
    let crosses = |(start, end): &(&Point, &Point)| (end[3] - start[3]).abs() > PI;
    let count = starts.zip(corners).filter(crosses).count() as u64;
    match draw.below(8) {
        0 | 1 => count,
        2 => count + 1,
        3 => count.wrapping_sub(1),
        4 => draw.below(MOST_POINTS + 2),
        // Cut down to 8 or to 32 bits some are the edges' own.
        5 => draw.pick(&[256 + count, (1 << 32) + count, 1 << 63, u64::MAX]),
        _ => draw.word(),
    }
}

/// Makes a normal another than its edge's.
fn twist(draw: &mut Draw, normals: &mut [Vector], at: usize) {
    let other = draw.pick(normals);
    let normal = &mut normals[at];
    match draw.below(6) {
        0 => *normal = normal.map(|component| -component),
        1 => normal[draw.index(VECTOR_WORDS)] = draw.either_sign(0.0),
        2 => *normal = other,
        3 => *normal = vector(&exact(draw)),
        4 => {
            let factor = draw.pick(&[1e-3, 1e3, 1e-80, 1e80, 1e-160, 1e160, 1e300]);
            *normal = normal.map(|component| component * factor);
        }
        _ => {
            let place = draw.index(VECTOR_WORDS);
            normal[place] = draw.near(normal[place]);
        }
    }
}

/// A number that no corner or normal of a build has, or only on a bound.
fn wild(draw: &mut Draw) -> f64 {
    match draw.below(6) {
        0 => draw.nan(),
        1 => draw.either_sign(f64::INFINITY),
        2 => {
            let huge = draw.pick(&[f64::MAX, 1e300, 1e160, 1e155, 10.0, 7.0]);
            draw.either_sign(huge)
        }
        3 => {
            let tiny = draw.pick(&[SMALLEST, LARGEST_SUBNORMAL, f64::MIN_POSITIVE, 1e-160]);
            draw.either_sign(tiny)
        }
        4 => draw.pick(&SPECIAL),
        _ => draw.raw(),
    }
}
