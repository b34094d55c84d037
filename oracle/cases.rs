//! In which case of upstream's parallel calls an edge falls: our own reading of its conditions,
//! for compare's report alone. No comparison rests on it.

use std::f64::consts::PI;

use stream::{bytes_and_rest, Call, MOST_POINTS, POINT_WORDS};

use crate::edges::{cross, doubles, entries, vector, Kept, Point, Vector};

/// The cases, by upstream's own letters. A is a normal with an x other than 0, B one without.
#[derive(Clone, Copy, PartialEq, Eq)]
enum Case {
    /// The edge's latitudes do not take in the parallel.
    NotFitting,
    A1First,
    A1Second,
    A2,
    ANone,
    B1Point,
    B1None,
    B2First,
    B2Second,
}

pub const NAMES: [&str; 9] = [
    "latitudes do not fit",
    "A.1, first solution",
    "A.1, second solution",
    "A.2",
    "A, none",
    "B.1, point",
    "B.1, none",
    "B.2, first solution",
    "B.2, second solution",
];

/// How many edges fell in each case.
pub type Counts = [u64; NAMES.len()];

/// How many edges have a longitude step of each of these sizes.
pub type Steps = [u64; STEPS.len()];

pub const STEPS: [&str; 6] = [
    "below these",
    "next below PI",
    "of exactly PI",
    "next above PI",
    "above these",
    "that is a NaN",
];

impl Kept {
    /// What a request that was not refused leaves.
    pub fn follow(&mut self, call: Call, request: &[u64]) {
        match call {
            Call::Build => {
                *self = Kept::built(entries(&request[2 + POINT_WORDS..]).collect());
            }
            Call::RegionValue => *self = handed_in(request[0], &request[2..]),
            Call::SeamedValue => *self = handed_in(request[0], &request[3..]),
            Call::ReadFile | Call::ReadStraight => {
                let (file, _) = bytes_and_rest(request);
                *self = Kept::read(&file).unwrap_or_default();
            }
            Call::CostliestOutline => *self = Kept::outline(request[0]).unwrap_or_default(),
            Call::Put => self.put(request[0], doubles(&request[1..])),
            Call::Insert => self.insert(request[0], doubles(&request[1..])),
            Call::Remove => self.remove(request[0]),
            // The others leave corners and normals as they are.
            _ => {}
        }
    }

    /// Adds every edge by its absolute longitude step.
    pub fn count_steps(&self, steps: &mut Steps) {
        let Some(mut start) = self.corners.last() else {
            return;
        };
        for end in &self.corners {
            let size = (end[3] - start[3]).abs();
            let which = match size.to_bits().wrapping_sub(PI.to_bits()) {
                u64::MAX => 1,
                0 => 2,
                1 => 3,
                _ if size > PI => 4,
                _ if size.is_nan() => 5,
                _ => 0,
            };
            steps[which] += 1;
            start = end;
        }
    }

    /// Adds every edge, or where `first` is set those up to the one that decides the first answer.
    pub fn count(&self, parallel: &[u64], first: bool, counts: &mut Counts) {
        let [lat, sine, cosine] = doubles(parallel);
        let Some(mut start) = self.corners.last() else {
            return;
        };
        for (end, normal) in self.corners.iter().zip(&self.normals) {
            let case = case(start, end, normal, lat, sine, cosine);
            counts[case as usize] += 1;
            if first && case != Case::NotFitting {
                return;
            }
            start = end;
        }
    }
}

/// A value of a wrong count holds no edge.
fn handed_in(count: u64, lists: &[u64]) -> Kept {
    let count = match count {
        count @ 0..=MOST_POINTS => count as usize,
        _ => 0,
    };
    let (corners, normals) = lists.split_at(MOST_POINTS as usize * POINT_WORDS);
    Kept {
        corners: entries(corners).take(count).collect(),
        normals: entries(normals).take(count).collect(),
    }
}

fn case(start: &Point, end: &Point, n: &Vector, lat: f64, z: f64, cosine: f64) -> Case {
    let (low, high) = if start[4] > end[4] {
        (end, start)
    } else {
        (start, end)
    };
    if !(low[4]..high[4]).contains(&lat) {
        return Case::NotFitting;
    }
    let [nx, ny, nz] = *n;
    let (xn2, yn2, zn2) = (nx * nx, ny * ny, nz * nz);
    let between = |p: Vector| {
        let (to_low, to_high) = (cross(&p, &vector(low)), cross(&p, &vector(high)));
        dot(&to_low, &to_high) < 0.0
    };
    if nx != 0.0 {
        let two_a = 2.0 * (yn2 / xn2 + 1.0);
        let b = 2.0 * ny * nz * z / xn2;
        let c = zn2 * (z * z) / xn2 - cosine * cosine;
        let delta = b * b - 2.0 * two_a * c;
        if delta > 0.0 {
            let y = (-b - delta.sqrt()) / two_a;
            if between([-(ny * y + nz * z) / nx, y, z]) {
                Case::A1First
            } else {
                Case::A1Second
            }
        } else if delta == 0.0 {
            Case::A2
        } else {
            Case::ANone
        }
    } else if ny == 0.0 {
        if z == 0.0 && z == low[2] {
            Case::B1Point
        } else {
            Case::B1None
        }
    } else {
        let x = (cosine * cosine - zn2 * (z * z) / yn2).sqrt();
        if between([x, -nz * z / ny, z]) {
            Case::B2First
        } else {
            Case::B2Second
        }
    }
}

fn dot(a: &Vector, b: &Vector) -> f64 {
    a[0] * b[0] + a[1] * b[1] + a[2] * b[2]
}
