//! What generate draws from: a sequence of random words, and numbers made of it.

use std::f64::consts::PI;

use stream::{Interval, HALF_PI, TWO_PI};

/// How far a request is from an ordinary one.
#[derive(Clone, Copy)]
pub enum Class {
    Good,
    Borderline,
    Damaged,
    Raw,
}

/// Where `Zone::new` puts a north edge of HALF_PI.
pub const RAISED_NORTH: f64 = HALF_PI + 1e-15;

pub const SMALLEST: f64 = f64::from_bits(1);
pub const LARGEST_SUBNORMAL: f64 = f64::from_bits((1 << 52) - 1);

pub const NANS: [u64; 8] = [
    0x7FF8_0000_0000_0000, // quiet
    0xFFF8_0000_0000_0000, // negative
    0x7FF0_0000_0000_0001, // signalling
    0xFFF0_0000_0000_0001,
    0x7FF7_FFFF_FFFF_FFFF,
    0x7FF8_0000_DEAD_BEEF, // with a payload
    0x7FFF_FFFF_FFFF_FFFF,
    0xFFFF_FFFF_FFFF_FFFF,
];

/// Values of no one place that any number may meet.
pub const SPECIAL: [f64; 20] = [
    0.0,
    -0.0,
    SMALLEST,
    -SMALLEST,
    LARGEST_SUBNORMAL,
    -LARGEST_SUBNORMAL,
    f64::MIN_POSITIVE,
    -f64::MIN_POSITIVE,
    0.5,
    1.0,
    -1.0,
    2.0,
    -2.0,
    HALF_PI,
    -HALF_PI,
    RAISED_NORTH,
    PI,
    TWO_PI,
    f64::INFINITY,
    f64::NEG_INFINITY,
];

/// A splitmix64 sequence and what is drawn from it.
pub struct Draw {
    pub state: u64,
}

impl Draw {
    pub fn word(&mut self) -> u64 {
        self.state = self.state.wrapping_add(0x9E37_79B9_7F4A_7C15);
        let mut z = self.state;
        z = (z ^ (z >> 30)).wrapping_mul(0xBF58_476D_1CE4_E5B9);
        z = (z ^ (z >> 27)).wrapping_mul(0x94D0_49BB_1331_11EB);
        z ^ (z >> 31)
    }

    /// From 0 to n − 1.
    pub fn below(&mut self, n: u64) -> u64 {
        ((u128::from(self.word()) * u128::from(n)) >> 64) as u64
    }

    /// Both ends included.
    pub fn whole(&mut self, least: u64, greatest: u64) -> u64 {
        least + self.below(greatest - least + 1)
    }

    pub fn percent(&mut self, share: u64) -> bool {
        self.below(100) < share
    }

    /// A place in a list of this length.
    pub fn index(&mut self, length: usize) -> usize {
        self.below(length as u64) as usize
    }

    pub fn pick<T: Copy>(&mut self, from: &[T]) -> T {
        from[self.index(from.len())]
    }

    pub fn by_share<T: Copy>(&mut self, shares: &[(T, u64)]) -> T {
        let mut at = self.below(shares.iter().map(|(_, share)| share).sum());
        for &(item, share) in shares {
            if at < share {
                return item;
            }
            at -= share;
        }
        shares[0].0
    }

    pub fn between(&mut self, least: f64, greatest: f64) -> f64 {
        let unit = (self.word() >> 11) as f64 * (0.5 * f64::EPSILON);
        least + (greatest - least) * unit
    }

    pub fn either_sign(&mut self, x: f64) -> f64 {
        if self.percent(50) {
            -x
        } else {
            x
        }
    }

    /// The value itself, a neighbour, or a few units in the last place away.
    pub fn near(&mut self, x: f64) -> f64 {
        let steps = match self.below(10) {
            0..=3 => 0,
            4..=5 => 1,
            6..=7 => -1,
            8 => self.whole(2, 20) as i64,
            _ => -(self.whole(2, 20) as i64),
        };
        // A step of none leaves −0 as it is.
        if steps == 0 {
            x
        } else {
            stepped(x, steps)
        }
    }

    pub fn near_one_of(&mut self, from: &[f64]) -> f64 {
        let x = self.pick(from);
        self.near(x)
    }

    pub fn nan(&mut self) -> f64 {
        // A payload of one bit, and any.
        let bit = 1 << self.below(52);
        let bits = match self.below(10) {
            0..=5 => self.pick(&NANS),
            6 | 7 => self.pick(&[0, 1 << 63]) | 0x7FF0_0000_0000_0000 | bit,
            _ => self.word() | 0x7FF0_0000_0000_0000 | bit,
        };
        f64::from_bits(bits)
    }

    /// Outside the two bounds, or no number.
    pub fn bad(&mut self, (least, greatest): Interval) -> f64 {
        match self.below(8) {
            0 | 1 => self.nan(),
            2 => self.either_sign(f64::INFINITY),
            3 => stepped(greatest, 1),
            4 => stepped(least, -1),
            5 => stepped(greatest, self.whole(1, 1000) as i64),
            6 => greatest + self.between(0.001, 10.0),
            _ => least - self.between(0.001, 10.0),
        }
    }

    /// Within the bounds, but for one in ten.
    pub fn mostly_legal<const N: usize>(
        &mut self,
        values: [f64; N],
        bounds: &[Interval; N],
    ) -> [f64; N] {
        if self.percent(90) {
            self.legal(values, bounds)
        } else {
            values
        }
    }

    /// Each value within its bounds: the nearest one that is, and any for a NaN.
    pub fn legal<const N: usize>(&mut self, values: [f64; N], bounds: &[Interval; N]) -> [f64; N] {
        let mut legal = values;
        for (value, &(least, greatest)) in legal.iter_mut().zip(bounds) {
            *value = if value.is_nan() {
                self.between(least, greatest)
            } else {
                value.clamp(least, greatest)
            };
        }
        legal
    }

    pub fn raw(&mut self) -> f64 {
        f64::from_bits(self.word())
    }

    /// A random pattern below 2 in size, of any exponent there.
    pub fn raw_small(&mut self) -> f64 {
        f64::from_bits(self.word() & !(1 << 62))
    }

    /// Random patterns, in every second case below 2 in size.
    pub fn raws<const N: usize>(&mut self) -> [f64; N] {
        let small = self.percent(50);
        [(); N].map(|()| if small { self.raw_small() } else { self.raw() })
    }

    /// A subnormal number, or just above, of any length.
    pub fn subnormal(&mut self) -> f64 {
        let length = self.whole(1, 53);
        f64::from_bits(self.word() >> (64 - length))
    }
}

/// The double this many steps up, −0 and +0 being one.
pub fn stepped(x: f64, steps: i64) -> f64 {
    let size = (x.to_bits() & i64::MAX as u64) as i64;
    // A NaN has no place of its own and stays one.
    let place = if x.is_sign_negative() { -size } else { size }.saturating_add(steps);
    let moved = f64::from_bits(place.unsigned_abs());
    if place < 0 {
        -moved
    } else {
        moved
    }
}
