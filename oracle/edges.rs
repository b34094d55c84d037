//! The region kept and its edges as we read upstream: what generate aims at, and what compare's
//! table of cases rests on. No answer comes from here.

use stream::{
    corner_words, file_length, outline, trailer, within, EDITION, MOST_POINTS, POINT_BOUNDS,
    POINT_WORDS, VECTOR_WORDS,
};

/// x, y, z, lon, lat.
pub type Point = [f64; POINT_WORDS];

/// x, y, z.
pub type Vector = [f64; VECTOR_WORDS];

pub fn vector(point: &Point) -> Vector {
    [point[0], point[1], point[2]]
}

pub fn cross(a: &Vector, b: &Vector) -> Vector {
    [
        a[1] * b[2] - a[2] * b[1],
        a[2] * b[0] - a[0] * b[2],
        a[0] * b[1] - a[1] * b[0],
    ]
}

/// The corners, and the normal of the edge that ends at each.
#[derive(Default)]
pub struct Kept {
    pub corners: Vec<Point>,
    pub normals: Vec<Vector>,
}

/// An edit that is refused for its index or for the count changes nothing.
impl Kept {
    pub fn built(corners: Vec<Point>) -> Self {
        let starts = corners.last().into_iter().chain(&corners);
        Kept {
            normals: starts
                .zip(&corners)
                .map(|(start, end)| normal(start, end))
                .collect(),
            corners,
        }
    }

    /// What a file holds, where reading it is not refused.
    pub fn read(file: &[u8]) -> Option<Self> {
        let [edition, flag, count, distance] = trailer(file)?;
        let length = file_length(count as usize);
        let fits = edition == EDITION
            && flag <= 1
            && (1..=MOST_POINTS).contains(&count.into())
            && distance as usize == length
            && length <= file.len();
        let corners: Vec<Point> =
            fits.then(|| entries(&corner_words(file, count as usize)).collect())?;
        let legal = corners.iter().all(|corner| within(corner, &POINT_BOUNDS));
        legal.then(|| Kept::built(corners))
    }

    /// The outline of so many corners that costs most, where it is not refused.
    pub fn outline(count: u64) -> Option<Self> {
        let fits = (1..=MOST_POINTS).contains(&count);
        fits.then(|| Kept::built(outline::corners()[..count as usize].to_vec()))
    }

    pub fn put(&mut self, index: u64, corner: Point) {
        if index < self.corners.len() as u64 {
            let at = index as usize;
            self.corners[at] = corner;
            self.bring_in(at);
            self.bring_in(at + 1);
        }
    }

    pub fn insert(&mut self, index: u64, corner: Point) {
        let count = self.corners.len() as u64;
        if index <= count && count < MOST_POINTS {
            let at = index as usize;
            self.corners.insert(at, corner);
            self.normals.insert(at, [0.0; VECTOR_WORDS]);
            self.bring_in(at);
            self.bring_in(at + 1);
        }
    }

    pub fn remove(&mut self, index: u64) {
        let count = self.corners.len() as u64;
        if index < count && count > 1 {
            let at = index as usize;
            self.corners.remove(at);
            self.normals.remove(at);
            self.bring_in(at);
        }
    }

    /// Works out the normal of an edge; the one past the last is the first.
    fn bring_in(&mut self, edge: usize) {
        let count = self.corners.len();
        let (start, end) = ((edge + count - 1) % count, edge % count);
        self.normals[end] = normal(&self.corners[start], &self.corners[end]);
    }
}

pub fn entries<const N: usize>(words: &[u64]) -> impl Iterator<Item = [f64; N]> + '_ {
    words.chunks_exact(N).map(doubles)
}

pub fn doubles<const N: usize>(words: &[u64]) -> [f64; N] {
    std::array::from_fn(|i| f64::from_bits(words[i]))
}

fn normal(start: &Point, end: &Point) -> Vector {
    let normal = cross(&vector(start), &vector(end));
    if normal[2] < 0.0 {
        normal.map(|component| -component)
    } else {
        normal
    }
}
