//! The region that answer keeps, and its edits.
//!
//! A region that was made, by a build, as an outline or from a file and by edits of it, is the plain
//! record: of each edit only the corners and the flag that it leaves are taken on, and upstream
//! builds them afresh. A value handed in may have normals that no build gives, so it is edited as it
//! stands, and only the edges that an edit brings in are worked out.

use std::f64::consts::PI;

use stream::{status, CONTROL_POINT_IN, MOST_POINTS};
use upstream::sph_geom::coo3d::{cross_product, Coo3D, Vec3, Vect3};
use upstream::sph_geom::{
    is_in_lon_range, ContainsSouthPoleComputer, ContainsSouthPoleMethod, Polygon,
};

use crate::{point, Answer, Refusal};

/// A region of 1 to 64 corners.
pub struct Region {
    pub polygon: Polygon,
    /// How many edges cross the seam, which upstream does not keep. A value is handed in with any.
    pub seam_count: u64,
    origin: Origin,
}

#[derive(Clone, Copy)]
enum Origin {
    Made(Way),
    HandedIn,
}

/// The way in which a region was made, the last one where there were several.
#[derive(Clone, Copy)]
pub enum Way {
    Built,
    Read,
    Edited,
}

impl Region {
    pub fn built(polygon: Polygon) -> Self {
        Self::made(polygon, Way::Built)
    }

    pub fn read(polygon: Polygon) -> Self {
        Self::made(polygon, Way::Read)
    }

    fn made(polygon: Polygon, way: Way) -> Self {
        Region {
            seam_count: seam_count(&polygon),
            polygon,
            origin: Origin::Made(way),
        }
    }

    pub fn handed_in(polygon: Polygon, seam_count: u64) -> Self {
        Region {
            polygon,
            seam_count,
            origin: Origin::HandedIn,
        }
    }

    /// None where it was handed in, whatever edits it went through since.
    pub fn way(&self) -> Option<Way> {
        match self.origin {
            Origin::Made(way) => Some(way),
            Origin::HandedIn => None,
        }
    }

    pub fn count(&self) -> u64 {
        self.polygon.vertices.len() as u64
    }

    pub fn put(&mut self, index: u64, words: &[u64]) -> Answer<()> {
        let at = place(index, self.count())?;
        let corner = point(words, 0)?;
        let (mut corners, normals) = self.lists();
        corners[at] = corner;
        self.leave(corners, normals, &[at, at + 1]);
        self.seam_count = seam_count(&self.polygon);
        Ok(())
    }

    pub fn insert(&mut self, index: u64, words: &[u64]) -> Answer<()> {
        if self.count() == MOST_POINTS {
            return Err(Refusal::Alone(status::TOO_MANY));
        }
        let at = place(index, self.count() + 1)?;
        let corner = point(words, 0)?;
        let (mut corners, mut normals) = self.lists();
        // Of a value the normals after it shift with their corners; its own is worked out below.
        normals.insert(at, normal(&corner, &corner));
        corners.insert(at, corner);
        self.leave(corners, normals, &[at, at + 1]);
        self.seam_count = seam_count(&self.polygon);
        Ok(())
    }

    pub fn remove(&mut self, index: u64) -> Answer<()> {
        if self.count() == 1 {
            return Err(Refusal::Alone(status::NONE_GIVEN));
        }
        let at = place(index, self.count())?;
        let (mut corners, mut normals) = self.lists();
        corners.remove(at);
        normals.remove(at);
        self.leave(corners, normals, &[at]);
        self.seam_count = seam_count(&self.polygon);
        Ok(())
    }

    pub fn turn(&mut self) {
        self.set_flag(!self.polygon.contains_south_pole);
    }

    pub fn hold(&mut self, words: &[u64]) -> Answer<()> {
        if !self.polygon.contains(&point(words, 0)?) {
            self.turn();
        }
        Ok(())
    }

    pub fn rule(&mut self, rule: u64, control: &[u64]) -> Answer<()> {
        let method = method(rule, control, self.count())?;
        self.set_flag(method.contains_south_pole(&self.polygon));
        Ok(())
    }

    fn set_flag(&mut self, flag: bool) {
        self.polygon.contains_south_pole = flag;
        let (corners, normals) = self.lists();
        self.leave(corners, normals, &[]);
    }

    /// Takes out corners and normals, which `leave` puts back.
    fn lists(&mut self) -> (Vec<Coo3D>, Vec<Vect3>) {
        let Polygon {
            vertices,
            cross_products,
            ..
        } = &mut self.polygon;
        (
            std::mem::take(vertices).into_vec(),
            std::mem::take(cross_products).into_vec(),
        )
    }

    /// What an edit leaves; edges are those that it brings in, counted on past the last.
    fn leave(&mut self, corners: Vec<Coo3D>, mut normals: Vec<Vect3>, edges: &[usize]) {
        let flag = self.polygon.contains_south_pole;
        self.polygon = match self.origin {
            Origin::Made(_) => {
                self.origin = Origin::Made(Way::Edited);
                afresh(corners, flag)
            }
            Origin::HandedIn => {
                let count = corners.len();
                for edge in edges {
                    let (start, end) = ((edge + count - 1) % count, edge % count);
                    normals[end] = normal(&corners[start], &corners[end]);
                }
                Polygon {
                    vertices: corners.into(),
                    cross_products: normals.into(),
                    contains_south_pole: flag,
                }
            }
        };
    }
}

/// Upstream's build of these corners with this flag.
pub fn afresh(corners: Vec<Coo3D>, flag: bool) -> Polygon {
    let method = if flag {
        ContainsSouthPoleMethod::ContainsSouthPole
    } else {
        ContainsSouthPoleMethod::DoNotContainsSouthPole
    };
    Polygon::new_custom_vec3(corners.into(), &method)
}

/// How many edges have an absolute longitude step above PI.
fn seam_count(polygon: &Polygon) -> u64 {
    let steps = ends(polygon).map(|(start, end)| (end.lon - start.lon).abs());
    steps.filter(|&step| step > PI).count() as u64
}

/// How many edges upstream takes to be in range at a point.
pub fn edges_in_range(polygon: &Polygon, point: &Coo3D) -> u64 {
    let in_range = |(start, end): &(&Coo3D, &Coo3D)| is_in_lon_range(point, *start, *end);
    ends(polygon).filter(in_range).count() as u64
}

/// Each edge's start and end.
pub fn ends(polygon: &Polygon) -> impl Iterator<Item = (&Coo3D, &Coo3D)> {
    let corners = &polygon.vertices;
    let starts = corners.iter().cycle().skip(corners.len() - 1);
    starts.zip(corners.iter())
}

/// An index below this count.
fn place(index: u64, count: u64) -> Answer<usize> {
    if index < count {
        Ok(index as usize)
    } else {
        Err(Refusal::Alone(status::NO_SUCH_INDEX))
    }
}

/// The normal of one edge, as upstream works out those of all.
fn normal(start: &Coo3D, end: &Coo3D) -> Vect3 {
    let normal = cross_product(start, end);
    if normal.z() < 0.0 {
        normal.opposite()
    } else {
        normal
    }
}

/// A rule, whose control point a refusal names by this index.
pub fn method(rule: u64, control: &[u64], index: u64) -> Answer<ContainsSouthPoleMethod> {
    Ok(match rule {
        0 => ContainsSouthPoleMethod::Default,
        1 => ContainsSouthPoleMethod::DefaultComplement,
        2 => ContainsSouthPoleMethod::ContainsSouthPole,
        3 => ContainsSouthPoleMethod::DoNotContainsSouthPole,
        CONTROL_POINT_IN => ContainsSouthPoleMethod::ControlPointIn(point(control, index)?),
        _ => ContainsSouthPoleMethod::ControlPointOut(point(control, index)?),
    })
}
