//! The requests of the fixed list that are not drawn: every outline that costs most, the number
//! of edges in range where a longitude, a count or a point may be taken wrongly, whole roots round
//! squares, and damaged files (fixed_files.rs).

use std::io::{self, Write};

use stream::{outline, write_word, Call, MOST_POINTS, POINT_WORDS, TWO_PI};

use crate::edges::{Kept, Point};
use crate::points::point_at;
use crate::{fixed_files, write, write_all};

/// Longitude and latitude in degrees.
pub type Place = (f64, f64);

/// The corners of a region to build, and where the number is asked for.
const CASES: [(&[Place], &[Place]); 7] = [
    // An edge along a meridian.
    (
        &[(20.0, -10.0), (20.0, 30.0), (40.0, 10.0)],
        &[(10.0, 0.0), (20.0, -20.0), (20.0, 10.0), (20.0, 50.0)],
    ),
    // Two edges across the seam.
    (
        &[(350.0, 10.0), (10.0, 10.0), (10.0, 40.0), (350.0, 40.0)],
        &[(350.0, 20.0), (360.0, 20.0), (0.0, 60.0), (10.0, 20.0)],
    ),
    // Round a pole: 1 everywhere.
    (
        &[(60.0, 50.0), (180.0, 60.0), (300.0, 50.0)],
        &[(0.0, 80.0), (60.0, 80.0), (180.0, 0.0), (360.0, -80.0)],
    ),
    // Three times round a pole: 3 everywhere.
    (
        &[
            (0.0, 40.0),
            (100.0, 40.0),
            (200.0, 40.0),
            (300.0, 40.0),
            (40.0, 50.0),
            (140.0, 50.0),
            (240.0, 50.0),
            (340.0, 50.0),
            (80.0, 60.0),
            (180.0, 60.0),
            (280.0, 60.0),
        ],
        &[(0.0, 45.0), (40.0, 80.0), (290.0, 0.0), (360.0, 55.0)],
    ),
    // A step of half a turn.
    (
        &[(0.0, 10.0), (180.0, 20.0), (270.0, -30.0)],
        &[(0.0, 0.0), (90.0, 0.0), (180.0, 0.0), (270.0, 0.0)],
    ),
    // The only edge ends where it begins.
    (&[(30.0, 10.0)], &[(30.0, 10.0), (200.0, 0.0)]),
    // The same edge to and fro.
    (
        &[(30.0, 10.0), (60.0, 20.0)],
        &[(30.0, 0.0), (45.0, 0.0), (60.0, 0.0)],
    ),
];

pub fn requests<W: Write>(out: &mut W) -> io::Result<()> {
    for count in (0..=MOST_POINTS + 2).chain([1 << 63, u64::MAX]) {
        number(out, Call::CostliestOutline)?;
        write_word(out, count)?;
        number(out, Call::Region)?;
        number(out, Call::SeamCount)?;
        ask(out, &outline::ABREAST)?;
    }
    for (corners, points) in CASES {
        build(out, corners)?;
        for point in points {
            ask(out, &at(point))?;
        }
    }
    let outside = [1.0, 0.0, 0.0, TWO_PI.next_up(), 0.0];
    ask(out, &outside)?;
    // A wrong count is refused before a wrong point.
    for count in [0, MOST_POINTS + 1] {
        hand_in(out, count, &outline::corners())?;
        ask(out, &outline::ABREAST)?;
        ask(out, &outside)?;
    }
    // A value's longitudes count as they are.
    for lon in [f64::NAN, f64::INFINITY, -1.0] {
        let mut corners = outline::corners();
        corners[2][3] = lon;
        hand_in(out, 3, &corners)?;
        ask(out, &outline::ABREAST)?;
    }
    for n in whole_roots() {
        number(out, Call::WholeRoot)?;
        write_word(out, n)?;
    }
    fixed_files::requests(out)?;
    out.flush()
}

/// 0 to 260; round the squares of the first, the last and a middle number of each length, the
/// largest square among them, and round those of a half more; and the greatest number.
fn whole_roots() -> Vec<u64> {
    let mut all: Vec<u64> = (0..=260).collect();
    for size in 5..=32 {
        for side in [1 << (size - 1), 3 << (size - 2), (1 << size) - 1] {
            let square: u64 = side * side;
            all.extend([
                square - 1,
                square,
                square + 1,
                square + side,
                square + side + 1,
            ]);
        }
    }
    all.extend([u64::MAX - 1, u64::MAX]);
    all
}

pub fn number<W: Write>(out: &mut W, call: Call) -> io::Result<()> {
    write_word(out, call as u64)
}

pub fn at(&(lon, lat): &Place) -> Point {
    point_at(lon.to_radians(), lat.to_radians())
}

fn ask<W: Write>(out: &mut W, point: &Point) -> io::Result<()> {
    number(out, Call::RangeCount)?;
    write(out, point)
}

/// By the first rule, which reads no control point.
fn build<W: Write>(out: &mut W, corners: &[Place]) -> io::Result<()> {
    number(out, Call::Build)?;
    write_word(out, corners.len() as u64)?;
    write_word(out, 0)?;
    write(out, &[0.0; POINT_WORDS])?;
    let corners: Vec<Point> = corners.iter().map(at).collect();
    write_all(out, &corners)
}

/// With a clear flag, a seam count that no region has and the normals of the whole list.
fn hand_in<W: Write>(out: &mut W, count: u64, corners: &[Point]) -> io::Result<()> {
    number(out, Call::SeamedValue)?;
    write_word(out, count)?;
    write_word(out, 0)?;
    write_word(out, u64::MAX)?;
    let Kept { corners, normals } = Kept::built(corners.to_vec());
    write_all(out, &corners)?;
    write_all(out, &normals)
}
