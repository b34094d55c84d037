//! The root of the crate that the changed copies of upstream's sph_geom form: what upstream's own
//! root supplies to them, and nothing else.

pub mod sph_geom;

pub const TWICE_PI: f64 = 2.0 * std::f64::consts::PI;

/// Cone names the first entry alone, as the limit of calls that the scope drops.
static SMALLER_EDGE2OPEDGE_DIST: [f64; 1] = [0.8410686705679302];

/// The two of its methods that sph_geom calls.
pub trait Customf64 {
    fn pow2(self) -> f64;
    fn twice(self) -> f64;
}

impl Customf64 for f64 {
    #[inline]
    fn pow2(self) -> f64 {
        self * self
    }

    #[inline]
    fn twice(self) -> f64 {
        2.0 * self
    }
}
