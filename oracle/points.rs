//! The points and vectors that generate makes.

use stream::{HALF_PI, MOST_GIVEN, POINT_BOUNDS, POINT_WORDS, TWO_PI};

use crate::draw::{Class, Draw, LARGEST_SUBNORMAL, SMALLEST};
use crate::edges::{vector, Point, Vector};

const ORIGIN: Point = [0.0; POINT_WORDS];

/// Least and greatest number of points, and of a thousand requests how many.
pub type CountShare = ((u64, u64), u64);

/// One in so many requests has more points than any call takes, up to all that may be given.
pub const LONG_ONE_IN: u64 = 3000;

pub fn point_count(draw: &mut Draw, shares: &[CountShare]) -> u64 {
    if draw.below(LONG_ONE_IN) == 0 {
        return match draw.below(4) {
            0 => MOST_GIVEN,
            _ => draw.whole(66, MOST_GIVEN),
        };
    }
    let (least, greatest) = draw.by_share(shares);
    draw.whole(least, greatest)
}

/// a + b × factor
pub fn sum(a: &Vector, b: &Vector, factor: f64) -> Vector {
    [0, 1, 2].map(|i| a[i] + b[i] * factor)
}

pub fn length(v: &Vector) -> f64 {
    v[0].hypot(v[1]).hypot(v[2])
}

pub fn unit(v: &Vector) -> Vector {
    let length = length(v);
    v.map(|component| component / length)
}

/// v × 2^−exponent
pub fn shrunk(v: &Vector, exponent: u64) -> Vector {
    // In two steps, as 2^−1074 is no factor that keeps its digits.
    let half = 0.5f64.powi(exponent as i32 / 2);
    let rest = 0.5f64.powi(exponent as i32 - exponent as i32 / 2);
    v.map(|component| component * half * rest)
}

/// A longitude brought back from the turn before or after; both ends of the range stay.
pub fn around(lon: f64) -> f64 {
    if lon < 0.0 {
        lon + TWO_PI
    } else if lon > TWO_PI {
        lon - TWO_PI
    } else {
        lon
    }
}

pub fn point_at(lon: f64, lat: f64) -> Point {
    let (sin_lon, cos_lon) = lon.sin_cos();
    let (sin_lat, cos_lat) = lat.sin_cos();
    [cos_lat * cos_lon, cos_lat * sin_lon, sin_lat, lon, lat]
}

/// The point with these coordinates.
pub fn point_of(v: &Vector) -> Point {
    let [x, y, z] = *v;
    [x, y, z, around(y.atan2(x)), z.atan2(x.hypot(y))]
}

pub fn with_vector(point: &Point, v: &Vector) -> Point {
    [v[0], v[1], v[2], point[3], point[4]]
}

pub fn somewhere(draw: &mut Draw) -> Point {
    let lon = draw.between(0.0, TWO_PI);
    point_at(lon, draw.between(-HALF_PI, HALF_PI))
}

pub fn opposite(point: &Point) -> Point {
    with_vector(point, &vector(point).map(|component| -component))
}

/// That many points, with no thought of an outline.
pub fn points(draw: &mut Draw, class: Class, count: u64) -> Vec<Point> {
    match class {
        Class::Good => good_points(draw, count),
        Class::Borderline => borderline_points(draw, count),
        Class::Damaged => {
            let mut points = good_points(draw, count);
            damage(draw, &mut points);
            points
        }
        Class::Raw => raw_points(draw, count),
    }
}

/// Puts values outside the domain into one point, or into a few.
pub fn damage(draw: &mut Draw, points: &mut [Point]) {
    let bad = if draw.percent(70) {
        1
    } else {
        draw.whole(2, 5)
    };
    for _ in 0..bad.min(points.len() as u64) {
        let field = draw.index(POINT_WORDS);
        let value = draw.bad(POINT_BOUNDS[field]);
        points[draw.index(points.len())][field] = value;
    }
}

/// Random patterns; in every second case those of `raw_in_domain`.
pub fn raw_points(draw: &mut Draw, count: u64) -> Vec<Point> {
    let small = draw.percent(50);
    (0..count)
        .map(|_| {
            if small {
                raw_in_domain(draw)
            } else {
                draw.raws()
            }
        })
        .collect()
}

/// Coordinates of random patterns below 2 in size; longitude and latitude of their own ranges.
fn raw_in_domain(draw: &mut Draw) -> Point {
    let [x, y, z, lon, lat] = [(); POINT_WORDS].map(|()| draw.raw_small());
    [x, y, z, lon.abs(), lat.clamp(-HALF_PI, HALF_PI)]
}

pub fn good_points(draw: &mut Draw, count: u64) -> Vec<Point> {
    let scattered = draw.percent(30);
    let spread = match draw.below(10) {
        0 => 0.0, // one point again and again
        _ => 10f64.powi(-(draw.below(16) as i32)),
    };
    // Clusters lie anywhere, at a pole and on the seam.
    let lon = match draw.below(4) {
        0 => draw.pick(&[0.0, TWO_PI]),
        _ => draw.between(0.0, TWO_PI),
    };
    let lat = match draw.below(4) {
        0 => draw.pick(&[HALF_PI, -HALF_PI, 0.0]),
        _ => draw.between(-HALF_PI, HALF_PI),
    };
    let mut points = Vec::with_capacity(count as usize);
    for _ in 0..count {
        points.push(if scattered {
            somewhere(draw)
        } else {
            let lon = around(lon + draw.between(-spread, spread));
            let lat = lat + draw.between(-spread, spread);
            point_at(lon, lat.clamp(-HALF_PI, HALF_PI))
        });
    }
    points
}

pub fn borderline_points(draw: &mut Draw, count: u64) -> Vec<Point> {
    let mut points = Vec::with_capacity(count as usize);
    match draw.below(8) {
        // Opposite pairs side by side: the sum is zero, the centre is not finite.
        0 => {
            let last = if draw.percent(50) {
                ORIGIN
            } else {
                somewhere(draw)
            };
            for index in 0..count {
                points.push(match points.last() {
                    Some(before) if index % 2 == 1 => opposite(before),
                    _ if index + 1 == count => last,
                    _ => somewhere(draw),
                });
            }
        }
        // Opposite points apart from each other: what is left of the sum is rounding.
        1 => {
            points = good_points(draw, count);
            let half = count as usize / 2;
            for index in 0..half {
                points[count as usize - 1 - index] = opposite(&points[index]);
            }
        }
        // Vectors whose squares leave the range of normal numbers, or reach zero.
        2 => {
            points = good_points(draw, count);
            let each = draw.percent(30);
            let mut exponent = draw.whole(480, 1074);
            for point in &mut points {
                if each {
                    exponent = draw.whole(480, 1074);
                }
                *point = with_vector(point, &shrunk(&vector(point), exponent));
            }
        }
        // Subnormal coordinates, and some near the root of the smallest number.
        3 => {
            let edge = 0.5f64.powi(537);
            for _ in 0..count {
                let mut point = somewhere(draw);
                for field in &mut point[..3] {
                    let size = match draw.below(5) {
                        0 => draw.subnormal(),
                        1 => draw.near(edge),
                        2 => edge * draw.between(0.5, 8.0),
                        3 => 0.0,
                        _ => draw.pick(&[SMALLEST, LARGEST_SUBNORMAL, f64::MIN_POSITIVE]),
                    };
                    *field = draw.either_sign(size);
                }
                points.push(point);
            }
        }
        // Fields on the domain's bounds and beside them.
        4 => {
            points = good_points(draw, count);
            for _ in 0..draw.whole(1, 4).min(count) {
                let field = draw.index(POINT_WORDS);
                let (least, greatest) = POINT_BOUNDS[field];
                let edge = draw.near_one_of(&[least, greatest]);
                points[draw.index(count as usize)][field] = edge;
            }
        }
        // Every field a bound, a zero of either sign or one, and never beyond the bounds.
        5 => {
            for _ in 0..count {
                points.push(POINT_BOUNDS.map(|(least, greatest)| {
                    let value = match draw.below(5) {
                        0 => least,
                        1 => greatest,
                        2 => 0.0,
                        3 => -0.0,
                        _ => draw.near(1.0),
                    };
                    if value == 0.0 {
                        value
                    } else {
                        value.clamp(least, greatest)
                    }
                }));
            }
        }
        // A sum of length one, give or take a few units in the last place.
        6 => {
            for index in 0..count {
                points.push(match points.last() {
                    Some(before) if index % 2 == 1 => opposite(before),
                    _ => somewhere(draw),
                });
            }
            if let Some(last) = points.last_mut() {
                *last = somewhere(draw);
                for field in &mut last[..3] {
                    *field = draw.near(*field);
                }
            }
        }
        // Along an axis, with next to nothing beside it.
        _ => {
            let axis = draw.index(3);
            for _ in 0..count {
                let mut point = somewhere(draw);
                for (place, field) in point[..3].iter_mut().enumerate() {
                    let size = if place == axis {
                        draw.near(1.0)
                    } else {
                        let tiny = [0.0, SMALLEST, f64::MIN_POSITIVE, 1e-160, f64::EPSILON, 1e-8];
                        draw.near_one_of(&tiny)
                    };
                    *field = draw.either_sign(size);
                }
                points.push(point);
            }
        }
    }
    points
}
