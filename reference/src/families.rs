//! Families of random finite numbers: plain ones, ties, zeros of both signs, subnormals, extremes.

use crate::numbers::{LARGEST, SMALLEST};
use crate::rng::Rng;

pub const FAMILIES: usize = 10;

/// The smallest number that is not subnormal.
const NORMAL: f64 = f64::MIN_POSITIVE;

/// A number of a family, 0 to FAMILIES − 1; always finite.
pub fn number(rng: &mut Rng, family: usize) -> f64 {
    match family {
        0 => plain(rng),
        1 => rng.below(7) as f64 - 3.0,
        2 => rng.pick(&[0.0, -0.0, 1.0, -1.0]),
        3 => extreme(rng),
        4 => any_finite(rng),
        5 => subnormal(rng),
        6 => rng.pick(&[0.0, -0.0, 0.0, 2.0, -2.0, 3.0, 0.5, 1.0]),
        7 => mostly_ones(rng),
        8 => rng.pick(&[1e300, -1e300, 1e-300, -1e-300, 1.0, SMALLEST, 0.0]),
        _ => {
            let family = rng.below(FAMILIES - 1);
            number(rng, family)
        }
    }
}

pub fn numbers(rng: &mut Rng, family: usize, count: usize) -> Vec<f64> {
    let mut numbers = Vec::new();
    for _ in 0..count {
        numbers.push(number(rng, family));
    }
    numbers
}

/// Between −1 and 1.
fn plain(rng: &mut Rng) -> f64 {
    (rng.next() >> 11) as f64 / (1u64 << 52) as f64 - 1.0
}

fn extreme(rng: &mut Rng) -> f64 {
    let magnitude = rng.pick(&[LARGEST, LARGEST / 2.0, 1.0, 0.5, 2.0, NORMAL, SMALLEST, 0.0]);
    signed(rng, magnitude)
}

fn any_finite(rng: &mut Rng) -> f64 {
    loop {
        let number = f64::from_bits(rng.next());
        if number.is_finite() {
            return number;
        }
    }
}

fn subnormal(rng: &mut Rng) -> f64 {
    let magnitude = f64::from_bits(rng.next() >> (12 + rng.below(52)));
    signed(rng, magnitude)
}

fn mostly_ones(rng: &mut Rng) -> f64 {
    let magnitude = if rng.percent(12) { LARGEST } else { 1.0 };
    signed(rng, magnitude)
}

fn signed(rng: &mut Rng, magnitude: f64) -> f64 {
    if rng.percent(50) {
        -magnitude
    } else {
        magnitude
    }
}

/// A number that is not finite: an infinity or one of several that are no numbers.
pub fn not_finite(rng: &mut Rng) -> f64 {
    f64::from_bits(rng.pick(&[
        0x7FF0_0000_0000_0000, 0xFFF0_0000_0000_0000, 0x7FF8_0000_0000_0000, 0xFFF8_0000_0000_0000,
        0x7FF8_0000_0000_1234, 0x7FFF_FFFF_FFFF_FFFF, 0x7FF0_0000_0000_0001,
    ]))
}
