//! Outlines, and what is asked of them.

use std::cell::Cell;
use std::f64::consts::{FRAC_PI_2, TAU};

use upstream::sph_geom::coo3d::Vec3;
use upstream::sph_geom::{ContainsSouthPoleMethod, Polygon};

use crate::ours::{
    bench_contains, bench_contains_counting, bench_idle_region, costliest_outline, Region,
};
use crate::upstream_loops::{afresh, contains, contains_counting, mix, points};

/// Entries of each input: so many that a branch predictor has much to learn by heart.
pub const ENTRIES: usize = 2048;

pub const COUNTS: [usize; 4] = [1, 4, 16, 64];
/// Of the outline that costs most.
pub const ASKED_COUNTS: [usize; 3] = [4, 16, 64];

#[derive(Clone, Copy)]
pub enum Outline {
    Pole,
    Seam,
    Small,
}

pub const OUTLINES: [(Outline, &str); 3] = [
    (Outline::Pole, "round the south pole"),
    (Outline::Seam, "across the seam"),
    (Outline::Small, "small"),
];

/// A stream of numbers that is the same in every run (splitmix64).
pub struct Draw(pub u64);

impl Draw {
    fn word(&mut self) -> u64 {
        self.0 = self.0.wrapping_add(0x9e37_79b9_7f4a_7c15);
        let x = (self.0 ^ (self.0 >> 30)).wrapping_mul(0xbf58_476d_1ce4_e5b9);
        let x = (x ^ (x >> 27)).wrapping_mul(0x94d0_49bb_1331_11eb);
        x ^ (x >> 31)
    }

    pub fn between(&mut self, low: f64, high: f64) -> f64 {
        low + (high - low) * (self.word() >> 11) as f64 / (1u64 << 53) as f64
    }

    pub fn below(&mut self, bound: u64) -> u64 {
        self.word() % bound
    }
}

type Vector = [f64; 3];

pub fn at(lon: f64, lat: f64) -> [f64; 5] {
    [
        lat.cos() * lon.cos(),
        lat.cos() * lon.sin(),
        lat.sin(),
        lon,
        lat,
    ]
}

fn of([x, y, z]: Vector) -> [f64; 5] {
    let lon = y.atan2(x);
    let lat = z.clamp(-1.0, 1.0).asin();
    [
        x,
        y,
        z,
        if lon < 0.0 { (lon + TAU).min(TAU) } else { lon },
        lat,
    ]
}

fn cross(a: &[f64], b: &[f64]) -> Vector {
    [
        a[1] * b[2] - a[2] * b[1],
        a[2] * b[0] - a[0] * b[2],
        a[0] * b[1] - a[1] * b[0],
    ]
}

fn unit(v: Vector) -> Vector {
    let norm = v.iter().map(|c| c * c).sum::<f64>().sqrt();
    v.map(|c| c / norm)
}

/// The point at this distance from a place, in this direction.
fn around(lon: f64, lat: f64, distance: f64, turn: f64) -> [f64; 5] {
    let centre = at(lon, lat);
    let east = [-lon.sin(), lon.cos(), 0.0];
    let north = cross(&centre, &east);
    of(unit([0, 1, 2].map(|i| {
        distance.cos() * centre[i] + distance.sin() * (turn.cos() * east[i] + turn.sin() * north[i])
    })))
}

impl Outline {
    /// A point of the outline, at this part of the way round.
    fn corner(self, part: f64, draw: &mut Draw) -> [f64; 5] {
        match self {
            Outline::Pole => at(TAU * part, draw.between(-1.3, -1.1)),
            Outline::Seam => around(0.0, 0.4, draw.between(0.4, 0.5), TAU * part),
            Outline::Small => around(2.0, 0.7, draw.between(0.0008, 0.001), TAU * part),
        }
    }

    /// Inside, or outside not far away.
    fn near(self, draw: &mut Draw) -> [f64; 5] {
        match self {
            Outline::Pole => at(draw.between(0.0, TAU), draw.between(-FRAC_PI_2, -0.9)),
            Outline::Seam => around(0.0, 0.4, draw.between(0.0, 0.7), draw.between(0.0, TAU)),
            Outline::Small => around(2.0, 0.7, draw.between(0.0, 0.0015), draw.between(0.0, TAU)),
        }
    }
}

/// The polygon's fields.
pub fn region_of(polygon: &Polygon) -> Region {
    Region {
        corners: polygon
            .vertices
            .iter()
            .flat_map(|c| [c.x, c.y, c.z, c.lon, c.lat])
            .collect(),
        normals: polygon
            .cross_products
            .iter()
            .flat_map(|n| [n.x(), n.y(), n.z()])
            .collect(),
        flag: polygon.contains_south_pole.into(),
    }
}

/// A region with what it is asked, flat.
pub struct Case {
    pub polygon: Polygon,
    pub region: Region,
    /// Points, five doubles each; every second one is near the outline, the others are anywhere.
    pub points: Vec<f64>,
    /// Arcs run from `near` to `ends`.
    pub near: Vec<f64>,
    pub ends: Vec<f64>,
    /// Normals of great circles through two points near the outline.
    pub circles: Vec<f64>,
    /// Latitudes near the outline, each with its sine and cosine.
    pub parallels: Vec<f64>,
    /// Entry i takes the place of corner i, over and over.
    pub moved: Vec<f64>,
}

pub fn case(outline: Outline, count: usize) -> Case {
    let mut draw = Draw(count as u64);
    let part = |k: usize| (k % count) as f64 / count as f64 + 0.003;
    let corners: Vec<f64> = (0..count)
        .flat_map(|k| outline.corner(part(k), &mut draw))
        .collect();
    let polygon =
        Polygon::new_custom_vec3(points(&corners).into(), &ContainsSouthPoleMethod::Default);
    let region = region_of(&polygon);
    let mut many = |make: &mut dyn FnMut(usize, &mut Draw) -> Vec<f64>| -> Vec<f64> {
        (0..ENTRIES).flat_map(|i| make(i, &mut draw)).collect()
    };
    let near = many(&mut |_, draw| outline.near(draw).to_vec());
    let ends = many(&mut |_, draw| outline.near(draw).to_vec());
    let points = many(&mut |i, draw| match i % 2 {
        0 => outline.near(draw).to_vec(),
        _ => at(draw.between(0.0, TAU), draw.between(-1.0f64, 1.0).asin()).to_vec(),
    });
    let circles =
        many(&mut |_, draw| unit(cross(&outline.near(draw), &outline.near(draw))).to_vec());
    let parallels = many(&mut |_, draw| {
        let lat = outline.near(draw)[4];
        vec![lat, lat.sin(), lat.cos()]
    });
    let moved = many(&mut |i, draw| outline.corner(part(i), draw).to_vec());
    Case {
        polygon,
        region,
        points,
        near,
        ends,
        circles,
        parallels,
        moved,
    }
}

/// Points that containment is asked of, as many in a row of each outline. There may be more than one pass takes: a run of a whole pass goes on with
/// the next ones, since a processor learns the way of a few thousand calls by heart.
pub struct Asked {
    outlines: Vec<(Polygon, Region)>,
    points: Vec<f64>,
    /// The next pass of each side.
    next: [Cell<usize>; 2],
}

impl Asked {
    pub fn new(outlines: Vec<Vec<f64>>, asked: Vec<f64>) -> Asked {
        let built = |corners: Vec<f64>| {
            let polygon = afresh(&points(&corners), false);
            let region = region_of(&polygon);
            (polygon, region)
        };
        Asked {
            outlines: outlines.into_iter().map(built).collect(),
            points: asked,
            next: Default::default(),
        }
    }

    /// Where the outlines are more than one, each pass sets each of them up anew.
    fn each(&self, side: usize, n: usize, ask: impl Fn(&Polygon, &Region, &[f64]) -> u64) -> u64 {
        let mut pass = 0;
        if n == ENTRIES {
            pass = self.next[side].get();
            self.next[side].set((pass + 1) % (self.points.len() / (5 * ENTRIES)));
        }
        self.points[5 * ENTRIES * pass..][..5 * n]
            .chunks(5 * ENTRIES / self.outlines.len())
            .zip(&self.outlines)
            .fold(0, |sum, (some, (polygon, region))| {
                mix(sum, ask(polygon, region, some))
            })
    }

    pub fn run(&self, side: &str, n: usize) -> u64 {
        match side {
            "ours" => self.each(0, n, |_, region, some| region.entries(bench_contains, some)),
            _ => self.each(1, n, |polygon, _, some| contains(polygon, some)),
        }
    }

    pub fn counting(&self, side: &str, n: usize) -> u64 {
        match side {
            "ours" => self.each(0, n, |_, region, some| {
                region.entries(bench_contains_counting, some)
            }),
            _ => self.each(1, n, |polygon, _, some| contains_counting(polygon, some)),
        }
    }

    pub fn idle(&self, n: usize) -> u64 {
        self.each(0, n, |_, region, some| {
            region.entries(bench_idle_region, some)
        })
    }
}

/// The outline that costs most, and its own point in every call: all edges are in range there.
pub fn costliest(count: usize) -> Asked {
    assert_eq!(
        costliest_outline(count, count, 5),
        count as u64,
        "the edges in range at the point"
    );
    let numbers =
        |k: usize| [0, 1, 2, 3, 4].map(|i| f64::from_bits(costliest_outline(count, k, i)));
    let corners = (0..count).flat_map(numbers).collect();
    Asked::new(vec![corners], numbers(count).repeat(ENTRIES))
}

/// The file of a region with one corner moved.
pub fn files(case: &Case, number: usize) -> (Vec<u8>, usize) {
    let count = case.region.corners.len() / 5;
    let len = 40 * count + 16;
    let mut all = Vec::new();
    for i in 0..number {
        let mut corners = case.region.corners.clone();
        let k = 5 * (i % count);
        corners[k..k + 5].copy_from_slice(&case.moved[5 * i..5 * i + 5]);
        all.extend(corners.iter().flat_map(|x| x.to_le_bytes()));
        all.extend(
            [1, case.region.flag as u32, count as u32, len as u32]
                .iter()
                .flat_map(|n| n.to_le_bytes()),
        );
    }
    (all, len)
}

/// Bounds of zones, of every five doubles the first four.
pub fn zones() -> Vec<f64> {
    let mut draw = Draw(1);
    (0..ENTRIES)
        .flat_map(|_| {
            let (south, north) = (draw.between(-1.5, 0.0), draw.between(0.1, 1.5));
            [
                draw.between(0.0, 6.2),
                south,
                draw.between(0.1, 6.2),
                north,
                0.0,
            ]
        })
        .collect()
}

pub fn zone_triples() -> Vec<f64> {
    let mut draw = Draw(2);
    (0..3 * ENTRIES).map(|_| draw.between(-1.5, 6.2)).collect()
}

/// Of many sizes.
pub fn radicands() -> Vec<f64> {
    let mut draw = Draw(3);
    (0..ENTRIES)
        .map(|_| draw.between(-40.0, 40.0).exp2())
        .collect()
}

/// Numbers of at most so many binary digits, or where none is said of at most 1 to 64, each as often.
pub fn numbers(digits: Option<u32>) -> Vec<u64> {
    let mut draw = Draw(4);
    (0..ENTRIES)
        .map(|_| {
            let digits = digits.unwrap_or_else(|| draw.below(64) as u32 + 1);
            draw.word() >> (64 - digits)
        })
        .collect()
}
