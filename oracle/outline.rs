//! The outline that costs most, which upstream has not: a saw whose teeth lie between two
//! meridians, and a point between these. Constants are given by their bits, as a machine's own
//! sine and cosine may differ, and no operation is fused with another.

use crate::{MOST_POINTS, POINT_WORDS};

const DEGREE: f64 = f64::from_bits(0x3F91_DF46_A252_9D39);
const COS_DEGREE: f64 = f64::from_bits(0x3FEF_FEC0_97F5_AF8A);
const SIN_DEGREE: f64 = f64::from_bits(0x3F91_DF0B_2B89_DD1E);

/// The meridians of 60 and of 120 degrees east: cosine and longitude of each, and the sine of both.
const WEST: (f64, f64) = (0.5, f64::from_bits(0x3FF0_C152_382D_7365));
const EAST: (f64, f64) = (-0.5, f64::from_bits(0x4000_C152_382D_7365));
const SIN_60: f64 = f64::from_bits(0x3FEB_B67A_E858_4CAA);

/// The point of every outline, 75 degrees east and 31 degrees north.
pub const ABREAST: [f64; POINT_WORDS] = [
    f64::from_bits(0x3FCC_659E_F018_0C47),
    f64::from_bits(0x3FEA_7EA6_0A1F_7749),
    f64::from_bits(0x3FE0_7B31_20FD_DF13),
    f64::from_bits(0x3FF4_F1A6_C638_D03F),
    f64::from_bits(0x3FE1_504C_6D40_084F),
];

/// The corners of the longest outline; a shorter one has the first of them. From corner 1 on they
/// lie on the two meridians in turn, each a degree further north.
pub fn corners() -> [[f64; POINT_WORDS]; MOST_POINTS as usize] {
    let mut corners = [[1.0, 0.0, 0.0, 0.0, 0.0]; MOST_POINTS as usize];
    let (mut lat, mut cos, mut sin) = (DEGREE, COS_DEGREE, SIN_DEGREE);
    let meridians = [EAST, WEST].into_iter().cycle();
    for (corner, (cos_lon, lon)) in corners.iter_mut().skip(1).zip(meridians) {
        *corner = [cos * cos_lon, cos * SIN_60, sin, lon, lat];
        lat += DEGREE;
        (cos, sin) = (
            cos * COS_DEGREE - sin * SIN_DEGREE,
            sin * COS_DEGREE + cos * SIN_DEGREE,
        );
    }
    corners
}
