//! What is said of regions, tried on upstream's own answers: by poles.rs and ranges.rs, which share
//! the words for it.

use stream::describe_fields;
use upstream::sph_geom::coo3d::{Coo3D, Vec3};

use crate::record::{edges_in_range, Region};
use crate::{fields, poles, ranges};

/// By the order of `Way`.
pub const WAYS: [&str; 3] = ["built", "read", "edited"];

#[derive(Default)]
pub struct Tried {
    poles: poles::Tried,
    ranges: ranges::Tried,
}

impl Tried {
    /// Tries them at the longitude and latitude of a legal point.
    pub fn at(&mut self, region: &Region, point: &Coo3D) -> Result<(), String> {
        self.poles.at(region, point)?;
        self.ranges.at(region, point)
    }

    /// The same at the point of an outline of so many corners, which has a statement of its own.
    pub fn outline(&mut self, region: &Region, count: u64, point: &Coo3D) -> Result<(), String> {
        self.ranges.outline(region, count, point)?;
        self.at(region, point)
    }

    pub fn print(&self) {
        self.poles.print();
        self.ranges.print();
    }
}

/// The form of these lines is what tests/differential looks for: only what follows 'left out' may
/// be 0.
pub fn listed(names: &[&str], times: &[u64]) -> String {
    let parts: Vec<String> = names
        .iter()
        .zip(times)
        .map(|(name, times)| format!("{name} {times}"))
        .collect();
    parts.join(", ")
}

/// That a statement, of these the one with this index, is false of a region at a point.
pub fn fails(
    of: &str,
    statements: &[&str],
    index: usize,
    region: &Region,
    point: &Coo3D,
) -> String {
    let Region {
        polygon,
        seam_count,
        ..
    } = region;
    let mut lines = vec![
        format!("{of} statement {} fails: {}", index + 1, statements[index]),
        format!("at the longitude and latitude of {}", described(point)),
        format!("flag = {}", u8::from(polygon.contains_south_pole)),
        format!("seam count = {seam_count}"),
        format!("edges in range = {}", edges_in_range(polygon, point)),
    ];
    for (index, (corner, normal)) in polygon
        .vertices
        .iter()
        .zip(&polygon.cross_products)
        .enumerate()
    {
        let z = normal.z();
        let corner = described(corner);
        lines.push(format!("corner {index}: {corner}; z of the normal = {z:?}"));
    }
    lines.join("\n  ")
}

fn described(point: &Coo3D) -> String {
    describe_fields(&fields(point))
}
