//! The same loops over upstream's Rust. The region file, which upstream has not, is read and written here as the oracle does.

use std::f64::consts::PI;
use std::hint::black_box;

use upstream::sph_geom::cone::Cone;
use upstream::sph_geom::coo3d::{Coo3D, UnitVect3, Vec3};
use upstream::sph_geom::zone::Zone;
use upstream::sph_geom::{ContainsSouthPoleComputer, ContainsSouthPoleMethod, Polygon};

pub const CORNER_BYTES: usize = 40;
pub const TRAILER_BYTES: usize = 16;

#[inline]
pub fn mix(sum: u64, x: u64) -> u64 {
    sum.rotate_left(1) ^ x
}

#[inline]
fn mix_double(sum: u64, x: f64) -> u64 {
    mix(
        sum,
        if x.is_nan() {
            0x7ff8_0000_0000_0000
        } else {
            x.to_bits()
        },
    )
}

#[inline]
fn mix_vector<V: Vec3>(sum: u64, v: &V) -> u64 {
    mix_double(mix_double(mix_double(sum, v.x()), v.y()), v.z())
}

#[inline]
pub fn point(p: &[f64]) -> Coo3D {
    Coo3D {
        x: p[0],
        y: p[1],
        z: p[2],
        lon: p[3],
        lat: p[4],
    }
}

pub fn points(words: &[f64]) -> Vec<Coo3D> {
    words.chunks_exact(5).map(point).collect()
}

#[inline]
fn next(k: usize, count: usize) -> usize {
    if k + 1 < count {
        k + 1
    } else {
        0
    }
}

#[inline(never)]
pub fn contains(polygon: &Polygon, points: &[f64]) -> u64 {
    points
        .chunks_exact(5)
        .fold(0, |sum, p| mix(sum, polygon.contains(&point(p)).into()))
}

/// Upstream does not tell how many edges are in range: they are counted here.
pub fn contains_counting(polygon: &Polygon, points: &[f64]) -> u64 {
    points.chunks_exact(5).map(point).fold(0, |sum, p| {
        let corners = &polygon.vertices;
        let mut from = &corners[corners.len() - 1];
        let mut in_range = 0;
        for to in corners.iter() {
            let between = (from.lon <= p.lon) != (to.lon <= p.lon);
            in_range += u64::from(between == ((to.lon - from.lon).abs() <= PI));
            from = to;
        }
        mix(mix(sum, polygon.contains(&p).into()), in_range)
    })
}

#[inline]
fn mix_first(sum: u64, first: Option<UnitVect3>) -> u64 {
    match first {
        Some(p) => mix_vector(mix(sum, 1), &p),
        None => mix(sum, 0),
    }
}

#[inline]
fn mix_all(sum: u64, all: Vec<UnitVect3>) -> u64 {
    let sum = mix(sum, all.len() as u64);
    match all.first() {
        Some(p) => mix_vector(sum, p),
        None => mix_vector(sum, &UnitVect3::new_unsafe(0.0, 0.0, 0.0)),
    }
}

#[inline(never)]
pub fn arc_first(polygon: &Polygon, starts: &[f64], ends: &[f64]) -> u64 {
    let arcs = starts.chunks_exact(5).zip(ends.chunks_exact(5));
    arcs.fold(0, |sum, (a, b)| {
        mix_first(
            sum,
            polygon.intersect_great_circle_arc(&point(a), &point(b)),
        )
    })
}

#[inline(never)]
pub fn arc_all(polygon: &Polygon, starts: &[f64], ends: &[f64]) -> u64 {
    let arcs = starts.chunks_exact(5).zip(ends.chunks_exact(5));
    arcs.fold(0, |sum, (a, b)| {
        mix_all(
            sum,
            polygon.intersect_great_circle_arc_all(&point(a), &point(b)),
        )
    })
}

#[inline(never)]
pub fn circle_all(polygon: &Polygon, triples: &[f64]) -> u64 {
    triples.chunks_exact(3).fold(0, |sum, t| {
        mix_all(
            sum,
            polygon.intersect_great_circle_all(&UnitVect3::new_unsafe(t[0], t[1], t[2])),
        )
    })
}

#[inline(never)]
pub fn parallel_first(polygon: &Polygon, triples: &[f64]) -> u64 {
    triples.chunks_exact(3).fold(0, |sum, t| {
        mix_first(sum, polygon.intersect_parallel(t[0], t[1], t[2]))
    })
}

#[inline(never)]
pub fn parallel_all(polygon: &Polygon, triples: &[f64]) -> u64 {
    triples.chunks_exact(3).fold(0, |sum, t| {
        mix_all(sum, polygon.intersect_parallel_all(t[0], t[1], t[2]))
    })
}

/// Upstream keeps no such number: a host counts by itself.
#[inline]
fn seam_count(polygon: &Polygon) -> u64 {
    let corners = &polygon.vertices;
    let mut from = &corners[corners.len() - 1];
    let mut count = 0;
    for to in corners.iter() {
        count += u64::from((to.lon - from.lon).abs() > PI);
        from = to;
    }
    count
}

#[inline]
fn mix_polygon(sum: u64, polygon: &Polygon, k: usize) -> u64 {
    let sum = mix(mix(sum, 0), polygon.contains_south_pole.into());
    mix_vector(mix(sum, seam_count(polygon)), &polygon.cross_products[k])
}

#[inline(never)]
pub fn build(corners: &[f64], entries: &[f64]) -> u64 {
    let (mut given, mut k) = (points(corners), 0);
    entries.chunks_exact(5).fold(0, |sum, p| {
        given[k] = point(p);
        let polygon =
            Polygon::new_custom_vec3(given.clone().into(), &ContainsSouthPoleMethod::Default);
        let sum = mix_polygon(sum, &polygon, 0);
        k = next(k, given.len());
        sum
    })
}

#[inline(never)]
pub fn cone(corners: &[f64], entries: &[f64]) -> u64 {
    let (mut given, mut k) = (points(corners), 0);
    entries.chunks_exact(5).fold(0, |sum, p| {
        given[k] = point(p);
        let cone = Cone::bounding_cone(&given);
        k = next(k, given.len());
        mix_vector(mix_double(sum, cone.radius()), cone.center())
    })
}

pub fn afresh(corners: &[Coo3D], flag: bool) -> Polygon {
    let method = match flag {
        true => ContainsSouthPoleMethod::ContainsSouthPole,
        false => ContainsSouthPoleMethod::DoNotContainsSouthPole,
    };
    Polygon::new_custom_vec3(corners.into(), &method)
}

/// What the loops over edits answer, by fresh builds.
pub fn put(corners: &[f64], flag: bool, entries: &[f64]) -> u64 {
    let (given, mut k) = (points(corners), 0);
    entries.chunks_exact(5).fold(0, |sum, p| {
        let mut changed = given.clone();
        changed[k] = point(p);
        let sum = mix_polygon(sum, &afresh(&changed, flag), 0);
        k = next(k, given.len());
        sum
    })
}

pub fn insert(corners: &[f64], flag: bool, entries: &[f64]) -> u64 {
    let (given, mut k) = (points(corners), 0);
    entries.chunks_exact(5).fold(0, |sum, p| {
        let mut longer = given.clone();
        longer.insert(k, point(p));
        let sum = mix_polygon(sum, &afresh(&longer, flag), 0);
        k = next(k, longer.len());
        sum
    })
}

pub fn remove(corners: &[f64], flag: bool, times: usize) -> u64 {
    let (given, mut k) = (points(corners), 0);
    (0..times).fold(0, |sum, _| {
        let mut shorter = given.clone();
        shorter.remove(k);
        let sum = mix_polygon(sum, &afresh(&shorter, flag), 0);
        k = next(k, shorter.len());
        sum
    })
}

fn mix_flagged(sum: u64, polygon: &Polygon, flag: bool, k: usize) -> u64 {
    mix_vector(mix(mix(sum, 0), flag.into()), &polygon.cross_products[k])
}

pub fn turn(polygon: &Polygon, times: usize) -> u64 {
    let mut k = 0;
    (0..times).fold(0, |sum, _| {
        let sum = mix_flagged(sum, polygon, !polygon.contains_south_pole, k);
        k = next(k, polygon.vertices.len());
        sum
    })
}

pub fn hold(polygon: &Polygon, entries: &[f64]) -> u64 {
    entries.chunks_exact(5).fold(0, |sum, p| {
        let flag = polygon.contains_south_pole == polygon.contains(&point(p));
        mix_flagged(sum, polygon, flag, 0)
    })
}

pub fn rule(polygon: &Polygon, rule: u64, entries: &[f64]) -> u64 {
    let mut k = 0;
    entries.chunks_exact(5).fold(0, |sum, p| {
        let method = match rule {
            4 => ContainsSouthPoleMethod::ControlPointIn(point(p)),
            _ => ContainsSouthPoleMethod::Default,
        };
        let flag = method.contains_south_pole(polygon);
        let sum = mix_flagged(sum, polygon, flag, k);
        k = next(k, polygon.vertices.len());
        sum
    })
}

// The region file

fn number(bytes: &[u8]) -> usize {
    u32::from_le_bytes(bytes.try_into().unwrap()) as usize
}

fn is_legal(p: &Coo3D) -> bool {
    use std::f64::consts::{FRAC_PI_2, TAU};
    [p.x, p.y, p.z].iter().all(|c| (-2.0..=2.0).contains(c))
        && (0.0..=TAU).contains(&p.lon)
        && (-FRAC_PI_2..=FRAC_PI_2).contains(&p.lat)
}

#[inline]
fn polygon_of(file: &[u8]) -> Option<Polygon> {
    let trailer = file.len().checked_sub(TRAILER_BYTES)?;
    let [edition, flag, count, distance] =
        [0, 4, 8, 12].map(|at| number(&file[trailer + at..trailer + at + 4]));
    if edition != 1
        || flag > 1
        || !(1..=64).contains(&count)
        || distance != CORNER_BYTES * count + TRAILER_BYTES
    {
        return None;
    }
    let corners = &file[file.len().checked_sub(distance)?..trailer];
    let corners: Vec<Coo3D> = corners
        .chunks_exact(CORNER_BYTES)
        .map(|bytes| {
            let double = |at: usize| f64::from_le_bytes(bytes[at..at + 8].try_into().unwrap());
            Coo3D {
                x: double(0),
                y: double(8),
                z: double(16),
                lon: double(24),
                lat: double(32),
            }
        })
        .collect();
    corners.iter().all(is_legal).then(|| {
        let method = match flag {
            1 => ContainsSouthPoleMethod::ContainsSouthPole,
            _ => ContainsSouthPoleMethod::DoNotContainsSouthPole,
        };
        Polygon::new_custom_vec3(corners.into(), &method)
    })
}

#[inline(never)]
pub fn read(files: &[u8], len: usize, times: usize) -> u64 {
    let mut end = 0;
    (0..times).fold(0, |sum, _| {
        end = if len <= files.len() - end {
            end + len
        } else {
            len
        };
        let polygon = polygon_of(&files[..end]).unwrap();
        mix_polygon(sum, &polygon, 0)
    })
}

#[inline]
fn write_file(corners: &[Coo3D], flag: bool, out: &mut [u8]) -> Option<usize> {
    let len = CORNER_BYTES * corners.len() + TRAILER_BYTES;
    let (front, trailer) = out.get_mut(..len)?.split_at_mut(len - TRAILER_BYTES);
    for (corner, bytes) in corners.iter().zip(front.chunks_exact_mut(CORNER_BYTES)) {
        for (value, to) in [corner.x, corner.y, corner.z, corner.lon, corner.lat]
            .iter()
            .zip(bytes.chunks_exact_mut(8))
        {
            to.copy_from_slice(&value.to_le_bytes());
        }
    }
    for (value, to) in [1, flag as u32, corners.len() as u32, len as u32]
        .iter()
        .zip(trailer.chunks_exact_mut(4))
    {
        to.copy_from_slice(&value.to_le_bytes());
    }
    Some(len)
}

#[inline(never)]
pub fn write(corners: &[f64], flag: bool, entries: &[f64], out: &mut [u8]) -> u64 {
    let (mut given, mut k) = (points(corners), 0);
    entries.chunks_exact(5).fold(0, |sum, p| {
        given[k] = point(p);
        let len = write_file(&given, flag, black_box(&mut *out)).unwrap();
        k = next(k, given.len());
        mix(sum, len as u64)
    })
}

/// As the C doors do.
#[inline(never)]
pub fn door_contains(file: &[u8], entries: &[f64]) -> u64 {
    entries.chunks_exact(5).fold(0, |sum, p| {
        let p = point(p);
        let polygon = polygon_of(black_box(file)).unwrap();
        mix(sum, u64::from(is_legal(&p) && polygon.contains(&p)))
    })
}

#[inline(never)]
pub fn door_hold(file: &mut [u8], entries: &[f64]) -> u64 {
    let flag_at = file.len() - 12;
    entries.chunks_exact(5).fold(0, |sum, p| {
        let p = point(p);
        let polygon = polygon_of(black_box(&*file)).unwrap();
        if is_legal(&p) {
            let flag = polygon.contains_south_pole == polygon.contains(&p);
            file[flag_at..flag_at + 4].copy_from_slice(&u32::from(flag).to_le_bytes());
        }
        mix(sum, file[flag_at].into())
    })
}

// Root and zone

#[inline(never)]
pub fn root(values: &[f64]) -> u64 {
    values.iter().fold(0, |sum, x| mix_double(sum, x.sqrt()))
}

#[inline(never)]
pub fn root_chain(values: &[f64]) -> u64 {
    values
        .iter()
        .fold(1.0, |x: f64, y| (x + y).sqrt())
        .to_bits()
}

type WholeRoot = (u64, u64);

fn mix_whole_root(sum: u64, (root, remainder): WholeRoot) -> u64 {
    mix(mix(sum, root), remainder)
}

/// The standard library's.
fn isqrt(n: u64) -> WholeRoot {
    let root = n.isqrt();
    (root, n - root * root)
}

/// By the hardware's root of the number as a double, which is the whole root or one more.
fn hardware_root(n: u64) -> WholeRoot {
    let root = ((n as f64).sqrt() as u64).min(u32::MAX.into());
    match n.checked_sub(root * root) {
        Some(remainder) => (root, remainder),
        None => (root - 1, n - (root - 1) * (root - 1)),
    }
}

#[inline(always)]
fn at_once(values: &[u64], root: impl Fn(u64) -> WholeRoot) -> u64 {
    let mixed = |sum, n: &u64| mix_whole_root(sum, root(*n));
    values.iter().fold(0, mixed)
}

#[inline(always)]
fn chained(values: &[u64], root: impl Fn(u64) -> WholeRoot) -> u64 {
    let last = |sum, n: &u64| mix_whole_root(0, root(n ^ (sum % 2)));
    values.iter().fold(0, last)
}

#[inline(never)]
pub fn whole_root(values: &[u64]) -> u64 {
    at_once(values, isqrt)
}

#[inline(never)]
pub fn whole_root_chain(values: &[u64]) -> u64 {
    chained(values, isqrt)
}

#[inline(never)]
pub fn hardware_whole_root(values: &[u64]) -> u64 {
    at_once(values, hardware_root)
}

#[inline(never)]
pub fn hardware_whole_root_chain(values: &[u64]) -> u64 {
    chained(values, hardware_root)
}

#[inline(never)]
pub fn zone_new(bounds: &[f64]) -> u64 {
    bounds.chunks_exact(5).fold(0, |sum, b| {
        let zone = Zone::new(b[0], b[1], b[2], b[3]);
        let [_, (_, lat_max), ..] = zone.vertices();
        mix(mix_double(sum, lat_max), u64::from(b[0] > b[2]))
    })
}

#[inline(never)]
pub fn zone_questions(bounds: &[f64], triples: &[f64]) -> u64 {
    let zone = black_box(Zone::new(bounds[0], bounds[1], bounds[2], bounds[3]));
    triples.chunks_exact(3).fold(0, |sum, t| {
        let sum = mix_double(sum, zone.dlon());
        let sum = mix(sum, zone.crossed_vertically(t[0], t[1], t[2]).into());
        let sum = mix(sum, zone.crossed_horizontally(t[0], t[1], t[2]).into());
        let sum = mix(sum, zone.is_lon_range_compatible(t[0], t[1]).into());
        let sum = mix(sum, zone.contains(t[0], t[1]).into());
        mix(sum, zone.contains_exclusive(t[0], t[1]).into())
    })
}
