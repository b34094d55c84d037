//! Roots of doubles, and whole roots.

use crate::draw::{stepped, Class, Draw, LARGEST_SUBNORMAL, SPECIAL};

pub fn root(draw: &mut Draw, class: Class) -> f64 {
    match class {
        Class::Good => match draw.below(3) {
            0 => draw.between(0.0, 4.0),
            1 => draw.between(0.0, 1e6),
            _ => any_exponent(draw),
        },
        Class::Borderline => match draw.below(10) {
            0 => {
                let side = draw.whole(1, 1 << 26) as f64;
                let scale = 4f64.powi(draw.whole(0, 960) as i32 - 480);
                draw.near(side * side * scale)
            }
            1 => {
                let side = draw.below(1 << 26);
                // A square in units of 2^−1074, which is an even power itself.
                draw.near(f64::from_bits(side * side))
            }
            2 => draw.near(1.0),
            3 => stepped(1.0, -(draw.whole(1, 4) as i64)),
            4 => {
                let exponent = draw.whole(1, 2046);
                draw.near(f64::from_bits(exponent << 52))
            }
            5 => {
                let exponent = draw.below(52);
                draw.near(f64::from_bits(1 << exponent))
            }
            6 => near_midpoint(draw),
            7 => nearest_to_midpoint(draw),
            8 => draw.subnormal(),
            _ => {
                let edges = [f64::MAX, f64::MIN_POSITIVE, LARGEST_SUBNORMAL, 0.0, -0.0];
                match draw.below(3) {
                    0 => draw.near_one_of(&edges),
                    1 => draw.near_one_of(&SPECIAL),
                    _ => draw.pick(&SPECIAL),
                }
            }
        },
        Class::Damaged => match draw.below(4) {
            0 => draw.nan(),
            1 => -any_exponent(draw),
            2 => -draw.subnormal(),
            _ => draw.pick(&[f64::NEG_INFINITY, f64::INFINITY, -0.0, -1.0, f64::MIN]),
        },
        Class::Raw => draw.raw(),
    }
}

/// A positive normal double.
fn any_exponent(draw: &mut Draw) -> f64 {
    let exponent = draw.whole(1, 2046);
    f64::from_bits((exponent << 52) | (draw.word() >> 12))
}

/// The double nearest to (R + 1/2)² for some R of 53 bits, scaled, or a neighbour of it.
fn near_midpoint(draw: &mut Draw) -> f64 {
    let twice = u128::from(((1 << 52) | (draw.word() >> 12)) * 2 + 1);
    let square = twice * twice; // four times (R + 1/2)²
    let shift = if square >> 107 == 0 { 54 } else { 55 };
    let significand = ((square >> (shift - 1)) as u64 + 1) >> 1;
    // Rounded up to 2^53 it is no significand; its neighbour serves as well.
    let a = scaled(draw, significand.min((1 << 53) - 1), shift);
    draw.near(a)
}

/// A double whose root lies as near to a midpoint as any does: X² = 4A + c with a small c, where X
/// is 2R + 1 and 4A a multiple of 2^shift. X is found digit by digit.
fn nearest_to_midpoint(draw: &mut Draw) -> f64 {
    loop {
        let shift = draw.whole(54, 55);
        let size = draw.below(16);
        let eights = draw.below(1 << size) as i64;
        // Only what is 1 modulo 8 is a square modulo 2^shift.
        let c = if draw.percent(50) {
            1 + 8 * eights
        } else {
            1 - 8 * eights
        };
        let mut x: u64 = 1;
        for digit in 3..shift {
            if (x.wrapping_mul(x) ^ c as u64) >> digit & 1 == 1 {
                x += 1 << (digit - 1);
            }
        }
        // One of the four roots.
        if draw.percent(50) {
            x = x.wrapping_neg();
        }
        if draw.percent(50) {
            x = x.wrapping_add(1 << (shift - 1));
        }
        x &= (1 << shift) - 1;
        let square = i128::from(x) * i128::from(x);
        if square >> (shift + 52) == 1 {
            return scaled(draw, ((square - i128::from(c)) >> shift) as u64, shift);
        }
    }
}

/// significand × 2^(shift − 2) × 2^(2k) for some k that keeps it a normal double.
fn scaled(draw: &mut Draw, significand: u64, shift: u64) -> f64 {
    let pairs = if draw.percent(50) {
        draw.below(1023)
    } else {
        draw.whole(510, 513)
    };
    let exponent = 1 + 2 * pairs + (shift & 1);
    f64::from_bits((exponent << 52) | (significand & ((1 << 52) - 1)))
}

/// The largest number whose square is a word.
const LARGEST: u64 = u32::MAX as u64;

/// A number whose whole root is asked for. No class is refused, so damaged ones are raw.
pub fn whole(draw: &mut Draw, class: Class) -> u64 {
    match class {
        // The squared distance of two places on a grid of whole metres, and any number of digits.
        Class::Good => match draw.below(2) {
            0 => {
                let size = draw.whole(1, 31);
                let [x, y] = [draw.below(1 << size), draw.below(1 << size)];
                x * x + y * y
            }
            _ => any_size(draw),
        },
        Class::Borderline => {
            let middle = match draw.below(8) {
                // Every second time of a number that is as long as can be.
                0..=3 => {
                    let size = if draw.percent(50) {
                        32
                    } else {
                        draw.whole(1, 32)
                    };
                    let side = (1 << (size - 1)) + draw.below(1 << (size - 1));
                    match draw.below(3) {
                        0 | 1 => side * side,
                        // The number nearest to the square of a half more.
                        _ => side * side + side,
                    }
                }
                4 => 1 << draw.below(64),
                // Where a guess from the first digits changes.
                5 => draw.whole(64, 127) << draw.below(58),
                6 => draw.below(512),
                _ => draw.pick(&[
                    0,
                    u64::MAX,
                    LARGEST * LARGEST,
                    (LARGEST - 1) * (LARGEST - 1),
                ]),
            };
            middle.wrapping_add(draw.below(7)).wrapping_sub(3)
        }
        Class::Damaged | Class::Raw => draw.word(),
    }
}

/// A number of at most 64 binary digits, each length about as often.
fn any_size(draw: &mut Draw) -> u64 {
    let zeros = draw.below(64);
    draw.word() >> zeros
}
