//! How many edges are in range at a point at most, and how many at the point of an outline.

use upstream::sph_geom::coo3d::Coo3D;

use crate::record::{edges_in_range, Region};
use crate::statements::{fails, listed, WAYS};

const STATEMENTS: [&str; 3] = [
    "no more edges are in range than the region has corners",
    "one edge at least is not in range where a made region has an odd number of corners",
    "the outline of n corners has n corners, a seam count of 0 and n edges in range at its point, \
     or n - 1 where n is odd",
];

/// The ways, and a value handed in, whatever edits it went through since.
const ORIGINS: [&str; 4] = [WAYS[0], WAYS[1], WAYS[2], "handed in"];

/// How often one of the first two statements was tried.
#[derive(Default)]
struct Times {
    by_origin: [u64; ORIGINS.len()],
    /// With an even and with an odd seam count, which is to make no difference.
    by_seam_count: [u64; 2],
    /// How often some edges were in range, and as many as it allows.
    reached: u64,
    /// How often it said nothing.
    left_out: u64,
}

#[derive(Default)]
pub struct Tried {
    bounds: [Times; 2],
    /// Outlines of an even and of an odd number of corners.
    outlines: [u64; 2],
}

impl Tried {
    pub fn at(&mut self, region: &Region, point: &Coo3D) -> Result<(), String> {
        let count = region.count();
        let way = region.way();
        let one_less = way.is_some() && count % 2 == 1;
        let number = edges_in_range(&region.polygon, point);
        let bounds = [Some(count), one_less.then(|| count - 1)];
        for (index, (times, most)) in self.bounds.iter_mut().zip(bounds).enumerate() {
            match most {
                Some(most) if number <= most => {
                    times.by_origin[way.map_or(WAYS.len(), |way| way as usize)] += 1;
                    times.by_seam_count[region.seam_count as usize % 2] += 1;
                    times.reached += u64::from(number > 0 && number == most);
                }
                Some(_) => return Err(fails("range", &STATEMENTS, index, region, point)),
                None => times.left_out += 1,
            }
        }
        Ok(())
    }

    pub fn outline(&mut self, region: &Region, count: u64, point: &Coo3D) -> Result<(), String> {
        let odd = count % 2;
        let number = edges_in_range(&region.polygon, point);
        if (region.count(), region.seam_count, number) != (count, 0, count - odd) {
            return Err(fails("range", &STATEMENTS, 2, region, point));
        }
        self.outlines[odd as usize] += 1;
        Ok(())
    }

    pub fn print(&self) {
        let [any, odd] = &self.bounds;
        eprintln!(
            "range statement 1: {}; reached {}",
            listed(&ORIGINS, &any.by_origin),
            any.reached
        );
        eprintln!(
            "range statement 2: {}; {}; reached {}; left out {}",
            listed(&WAYS, &odd.by_origin),
            listed(&["seam count even", "seam count odd"], &odd.by_seam_count),
            odd.reached,
            odd.left_out
        );
        eprintln!(
            "range statement 3: {}",
            listed(&["n even", "n odd"], &self.outlines)
        );
    }
}
