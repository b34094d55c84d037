//! The arguments of the questions that generate asks of the region kept: points, arcs, great
//! circles and parallels.

use std::f64::consts::PI;

use stream::{
    HALF_PI, PARALLEL_BOUNDS, POINT_BOUNDS, POINT_WORDS, TWO_PI, VECTOR_BOUNDS, VECTOR_WORDS,
};

use crate::draw::{Class, Draw, SMALLEST};
use crate::edges::{cross, vector, Kept, Point, Vector};
use crate::points::{
    damage, length, opposite, point_at, point_of, raw_points, shrunk, somewhere, sum, unit,
    with_vector,
};
use crate::regions::exact;

/// A vector of some length in any direction.
fn offset(draw: &mut Draw) -> Vector {
    let size = 10f64.powi(-(draw.below(9) as i32));
    vector(&somewhere(draw)).map(|component| component * size)
}

fn beside(draw: &mut Draw, v: &Vector) -> Point {
    point_of(&unit(&sum(v, &offset(draw), 1.0)))
}

// Points

pub fn point(draw: &mut Draw, class: Class, kept: &Kept) -> Point {
    match class {
        Class::Good => good_point(draw, kept),
        Class::Borderline => {
            let point = borderline_point(draw, kept);
            draw.mostly_legal(point, &POINT_BOUNDS)
        }
        Class::Damaged => {
            let mut point = good_point(draw, kept);
            damage(draw, std::slice::from_mut(&mut point));
            point
        }
        Class::Raw => raw_points(draw, 1)[0],
    }
}

fn good_point(draw: &mut Draw, kept: &Kept) -> Point {
    let edge = kept.edge(draw);
    let point = match draw.below(5) {
        0 => somewhere(draw),
        1 => beside(draw, &unit(&kept.middle())),
        2 => {
            let on_edge = edge.between(draw);
            beside(draw, &on_edge)
        }
        3 => beside(draw, &vector(&edge.end)),
        _ => point_at(edge.lon(draw), draw.between(-HALF_PI, HALF_PI)),
    };
    draw.legal(point, &POINT_BOUNDS)
}

fn borderline_point(draw: &mut Draw, kept: &Kept) -> Point {
    let edge = kept.edge(draw);
    let corner = edge.end;
    match draw.below(14) {
        0 => corner,
        // On a corner's meridian, or next to it.
        1 | 2 => point_at(draw.near(corner[3]), draw.between(-HALF_PI, HALF_PI)),
        3 => {
            let mut point = good_point(draw, kept);
            point[3] = draw.near(corner[3]);
            point
        }
        4 => {
            let mut point = corner;
            let field = draw.index(POINT_WORDS);
            point[field] = draw.near(point[field]);
            point
        }
        // In the plane of an edge, or a rounding beside it.
        5 | 6 => {
            let mut point = point_of(&edge.flat(draw));
            let lon = edge.lon(draw);
            point[3] = draw.pick(&[lon, lon, edge.start[3], edge.end[3]]);
            if draw.percent(40) {
                let field = draw.index(VECTOR_WORDS);
                point[field] = draw.near(point[field]);
            }
            point
        }
        7 => {
            let mut point = point_of(&edge.between(draw));
            point[3] = edge.lon(draw);
            point
        }
        8 => exact(draw),
        9 => {
            let mut point = good_point(draw, kept);
            point[3] = draw.near_one_of(&[0.0, -0.0, HALF_PI, PI, TWO_PI]);
            point
        }
        10 => {
            let point = good_point(draw, kept);
            with_vector(&point, &shrunk(&vector(&point), draw.whole(1, 1080)))
        }
        11 | 12 => {
            let lon = edge.lon(draw);
            pole(draw, &[lon, corner[3], 0.0, -0.0, HALF_PI, PI, TWO_PI])
        }
        _ => {
            let mut point = good_point(draw, kept);
            let field = draw.index(POINT_WORDS);
            let (least, greatest) = POINT_BOUNDS[field];
            point[field] = draw.near_one_of(&[least, greatest, 0.0, -0.0]);
            point
        }
    }
}

/// A pole by its coordinates, with one of these longitudes or any, and a latitude of its own.
fn pole(draw: &mut Draw, lons: &[f64]) -> Point {
    let zero = draw.either_sign(0.0);
    let z = draw.either_sign(1.0);
    let any = draw.between(0.0, TWO_PI);
    let lon = draw.pick(lons);
    let lat = draw.between(-HALF_PI, HALF_PI);
    [
        zero,
        zero,
        z,
        draw.pick(&[lon, any]),
        draw.pick(&[HALF_PI, -HALF_PI, 0.0, -0.0, lat]),
    ]
}

// Arcs

pub fn arc(draw: &mut Draw, class: Class, kept: &Kept) -> [Point; 2] {
    match class {
        Class::Good => good_arc(draw, kept),
        Class::Borderline => {
            let mut arc = borderline_arc(draw, kept);
            if draw.percent(50) {
                arc.swap(0, 1);
            }
            arc.map(|point| draw.mostly_legal(point, &POINT_BOUNDS))
        }
        Class::Damaged => {
            let mut arc = good_arc(draw, kept);
            damage(draw, &mut arc);
            arc
        }
        Class::Raw => {
            let points = raw_points(draw, 2);
            [points[0], points[1]]
        }
    }
}

fn good_arc(draw: &mut Draw, kept: &Kept) -> [Point; 2] {
    match draw.below(5) {
        0 => [somewhere(draw), somewhere(draw)],
        1 => [good_point(draw, kept), good_point(draw, kept)],
        2 => [beside(draw, &unit(&kept.middle())), somewhere(draw)],
        _ => {
            let on_edge = kept.edge(draw).between(draw);
            across(draw, &on_edge)
        }
    }
    .map(|point| draw.legal(point, &POINT_BOUNDS))
}

/// From one side of a vector to the other.
fn across(draw: &mut Draw, v: &Vector) -> [Point; 2] {
    let away = offset(draw);
    [
        point_of(&unit(&sum(v, &away, draw.between(0.1, 1.0)))),
        point_of(&unit(&sum(v, &away, -draw.between(0.1, 1.0)))),
    ]
}

fn borderline_arc(draw: &mut Draw, kept: &Kept) -> [Point; 2] {
    let edge = kept.edge(draw);
    match draw.below(12) {
        0 => [kept.corner(draw), good_point(draw, kept)],
        1 => [edge.start, edge.end],
        2 => [kept.corner(draw), kept.corner(draw)],
        3 => across(draw, &vector(&edge.end)),
        4 => {
            let a = good_point(draw, kept);
            let lat = draw.between(-HALF_PI, HALF_PI);
            [a, point_at(draw.near(a[3]), lat)]
        }
        // Half a turn of longitude, give or take.
        5 => {
            let a = good_point(draw, kept);
            let lon = if a[3] < PI { a[3] + PI } else { a[3] - PI };
            let mut b = good_point(draw, kept);
            b[3] = draw.near(lon);
            [a, b]
        }
        // More than half a turn.
        6 => {
            let [a, b] = good_arc(draw, kept);
            let (west, east) = (draw.between(0.0, 2.0), draw.between(4.0, TWO_PI));
            [point_at(west, a[4]), point_at(east, b[4])]
        }
        // So small that squares vanish.
        7 | 8 => {
            let exponent = draw.whole(200, 560);
            good_arc(draw, kept)
                .map(|point| with_vector(&point, &shrunk(&vector(&point), exponent)))
        }
        // Longitudes that meet an edge's.
        9 => {
            let mut arc = good_arc(draw, kept);
            arc[0][3] = draw.near_one_of(&[edge.start[3], edge.end[3]]);
            if draw.percent(30) {
                arc[1][3] = draw.near_one_of(&[edge.start[3], edge.end[3]]);
            }
            arc
        }
        10 => {
            let a = borderline_point(draw, kept);
            let b = match draw.below(3) {
                0 => a,
                1 => opposite(&a),
                _ => exact(draw),
            };
            [a, b]
        }
        _ => [borderline_point(draw, kept), borderline_point(draw, kept)],
    }
}

// Great circles

/// The normal of a great circle.
pub fn great_circle(draw: &mut Draw, class: Class, kept: &Kept) -> Vector {
    match class {
        Class::Good => good_circle(draw, kept),
        Class::Borderline => {
            let normal = borderline_circle(draw, kept);
            draw.mostly_legal(normal, &VECTOR_BOUNDS)
        }
        Class::Damaged => {
            let mut normal = good_circle(draw, kept);
            let place = draw.index(VECTOR_WORDS);
            normal[place] = draw.bad(VECTOR_BOUNDS[place]);
            normal
        }
        Class::Raw => draw.raws(),
    }
}

fn good_circle(draw: &mut Draw, kept: &Kept) -> Vector {
    let through = match draw.below(3) {
        0 => vector(&somewhere(draw)),
        1 => kept.middle(),
        _ => kept.edge(draw).between(draw),
    };
    let normal = unit(&cross(&through, &vector(&somewhere(draw))));
    draw.legal(normal, &VECTOR_BOUNDS)
}

fn borderline_circle(draw: &mut Draw, kept: &Kept) -> Vector {
    let edge = kept.edge(draw);
    match draw.below(10) {
        0 | 1 => vector(&exact(draw)),
        // Along an edge: the cross product is zero, or all rounding.
        2 => {
            let factor = draw.pick(&[1.0, -1.0, 0.5, 0.1]);
            let mut normal = edge.normal.map(|component| component * factor);
            if draw.percent(40) {
                let place = draw.index(VECTOR_WORDS);
                normal[place] = draw.near(normal[place]);
            }
            normal
        }
        3 => cross(&vector(&edge.end), &vector(&somewhere(draw))),
        4 => vector(&edge.end),
        5 => {
            let factor = draw.between(0.0, 2.0);
            good_circle(draw, kept).map(|component| component * factor)
        }
        6 | 7 => shrunk(&good_circle(draw, kept), draw.whole(200, 1074)),
        8 => {
            let mut normal = good_circle(draw, kept);
            normal[draw.index(VECTOR_WORDS)] = draw.either_sign(0.0);
            normal
        }
        _ => {
            let mut normal = good_circle(draw, kept);
            normal[draw.index(VECTOR_WORDS)] = draw.near_one_of(&[2.0, -2.0, 0.0, -0.0]);
            normal
        }
    }
}

// Parallels

/// lat, sine, cosine.
type Parallel = [f64; 3];

pub fn parallel(draw: &mut Draw, class: Class, kept: &Kept) -> Parallel {
    match class {
        Class::Good => good_parallel(draw, kept),
        Class::Borderline => {
            let parallel = borderline_parallel(draw, kept);
            draw.mostly_legal(parallel, &PARALLEL_BOUNDS)
        }
        Class::Damaged => {
            let mut parallel = good_parallel(draw, kept);
            let place = draw.index(parallel.len());
            parallel[place] = draw.bad(PARALLEL_BOUNDS[place]);
            parallel
        }
        Class::Raw => {
            let parallel = draw.raws();
            if draw.percent(50) {
                draw.legal(parallel, &PARALLEL_BOUNDS)
            } else {
                parallel
            }
        }
    }
}

fn at_latitude(lat: f64) -> Parallel {
    let (sine, cosine) = lat.sin_cos();
    [lat, sine, cosine]
}

fn good_parallel(draw: &mut Draw, kept: &Kept) -> Parallel {
    let lat = if draw.percent(85) {
        kept.edge(draw).lat(draw)
    } else {
        draw.between(-HALF_PI, HALF_PI)
    };
    draw.legal(at_latitude(lat), &PARALLEL_BOUNDS)
}

fn borderline_parallel(draw: &mut Draw, kept: &Kept) -> Parallel {
    let edge = kept.edge(draw);
    let corner = edge.end;
    let lat = edge.lat(draw);
    // Only the equator can meet an edge with this normal.
    if edge.normal[..2] == [0.0, 0.0] && draw.percent(50) {
        return [lat, draw.either_sign(0.0), draw.between(-1.0, 1.0)];
    }
    match draw.below(12) {
        0..=2 => at_latitude(draw.near(corner[4])),
        3 => at_latitude(draw.near_one_of(&[HALF_PI, -HALF_PI])),
        4 => {
            let zero = draw.either_sign(0.0);
            [draw.pick(&[zero, lat]), draw.either_sign(0.0), 1.0]
        }
        // Sine and cosine of no latitude, or of another.
        5 | 6 => [lat, draw.between(-1.0, 1.0), draw.between(-1.0, 1.0)],
        7 => {
            let [_, sine, cosine] = at_latitude(draw.between(-HALF_PI, HALF_PI));
            [lat, sine, cosine]
        }
        8 => {
            let short = [0.0, -0.0, 0.25, 0.5, 0.6, 0.8, 1.0];
            let (sine, cosine) = (draw.pick(&short), draw.pick(&short));
            [lat, draw.either_sign(sine), cosine]
        }
        // Where the great circle of an edge touches the parallel.
        9 => {
            let [x, y, z] = edge.normal;
            let whole = length(&edge.normal);
            let sine = draw.near(x.hypot(y) / whole);
            [lat, draw.either_sign(sine), draw.near(z.abs() / whole)]
        }
        // Through a corner by its coordinates.
        10 => {
            let cosine = corner[0].hypot(corner[1]);
            [
                draw.pick(&[lat, corner[4]]),
                draw.near(corner[2]),
                draw.near(cosine),
            ]
        }
        _ => {
            let mut parallel = at_latitude(lat);
            let place = draw.index(parallel.len());
            let (least, greatest) = PARALLEL_BOUNDS[place];
            let edges = [least, greatest, SMALLEST, 1e-160, 1e-80];
            parallel[place] = draw.near_one_of(&edges);
            parallel
        }
    }
}
