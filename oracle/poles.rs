//! What a made region's seam count says of its poles. A value handed in, and what edits leave of
//! one, may say otherwise.

use upstream::sph_geom::coo3d::{Coo3D, Vec3};

use crate::record::{edges_in_range, ends, Region};
use crate::statements::{fails, listed, WAYS};

const STATEMENTS: [&str; 4] = [
    "the number of edges in range is odd exactly when the seam count is",
    "(0, 0, -1) is contained exactly when the flag is set",
    "where every normal has z above 0, (0, 0, 1) is contained exactly when exactly one of flag set \
     and seam count odd holds",
    "so it is where every edge has a normal with z above 0 or joins equal longitudes",
];

/// Flag and seam count, by twice the one and whether the other is odd.
const KINDS: [&str; 4] = [
    "flag 0 and even",
    "flag 0 and odd",
    "flag 1 and even",
    "flag 1 and odd",
];

/// A pole's x and y.
const ZEROS: [(f64, f64); 4] = [(0.0, 0.0), (0.0, -0.0), (-0.0, 0.0), (-0.0, -0.0)];

/// How often a statement was tried.
#[derive(Clone, Copy, Default)]
struct Times {
    by_way: [u64; WAYS.len()],
    by_kind: [u64; KINDS.len()],
    /// How often it said nothing, since some normal's z is not above 0.
    left_out: u64,
}

#[derive(Default)]
pub struct Tried([Times; STATEMENTS.len()]);

impl Tried {
    pub fn at(&mut self, region: &Region, point: &Coo3D) -> Result<(), String> {
        let Some(way) = region.way() else {
            return Ok(());
        };
        let polygon = &region.polygon;
        let flag = polygon.contains_south_pole;
        let odd = region.seam_count % 2 == 1;
        let pole_is = |z, contained| {
            ZEROS
                .iter()
                .all(|&(x, y)| polygon.contains(&Coo3D { x, y, z, ..*point }) == contained)
        };
        let normals = polygon.cross_products.iter();
        let all_north = normals.clone().all(|normal| normal.z() > 0.0);
        let all_but_meridians = normals
            .zip(ends(polygon))
            .all(|(normal, (start, end))| normal.z() > 0.0 || start.lon == end.lon);
        let held = [
            Some((edges_in_range(polygon, point) % 2 == 1) == odd),
            Some(pole_is(-1.0, flag)),
            all_north.then(|| pole_is(1.0, flag != odd)),
            all_but_meridians.then(|| pole_is(1.0, flag != odd)),
        ];
        for (index, held) in held.into_iter().enumerate() {
            let times = &mut self.0[index];
            match held {
                Some(true) => {
                    times.by_way[way as usize] += 1;
                    times.by_kind[2 * usize::from(flag) + usize::from(odd)] += 1;
                }
                Some(false) => return Err(fails("pole", &STATEMENTS, index, region, point)),
                None => times.left_out += 1,
            }
        }
        Ok(())
    }

    pub fn print(&self) {
        for (number, times) in (1..).zip(&self.0) {
            let ways = listed(&WAYS, &times.by_way);
            let kinds = listed(&KINDS, &times.by_kind);
            let left_out = times.left_out;
            eprintln!("pole statement {number}: {ways}; {kinds}; left out {left_out}");
        }
    }
}
