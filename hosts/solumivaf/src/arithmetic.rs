//! Whether this thread computes as the library must: in IEEE 754's default mode.

use std::hint::black_box;

/// 2 to a power from -1022 to 1023.
const fn two_to(power: i64) -> f64 {
    f64::from_bits(((1023 + power) as u64) << 52)
}

/// The space between 1 and the next number, half of it, and little of it.
const SPACE: f64 = two_to(-52);
const HALF: f64 = two_to(-53);
const LITTLE: f64 = two_to(-60);

/// Sums with the bits that they have in the default mode. Rounding up, down or toward zero, or ties that do not go to even, give one of them
/// other bits.
const SUMS: [(f64, f64, u64); 5] = [
    (1.0, LITTLE, 1.0f64.to_bits()),
    (-1.0, -LITTLE, (-1.0f64).to_bits()),
    (1.0, HALF + LITTLE, (1.0 + SPACE).to_bits()),
    (1.0, HALF, 1.0f64.to_bits()),
    (1.0 + SPACE, HALF, (1.0 + 2.0 * SPACE).to_bits()),
];

/// The smallest normal number and 2, whose quotient 2^-1023 is lost where results are flushed to zero; then the smallest number of all and
/// 2^1000, whose product 2^-74 is lost where subnormal operands count as zero.
const SUBNORMAL: [f64; 4] = [two_to(-1022), 2.0, f64::from_bits(1), two_to(1000)];

/// Whether the floating-point mode of this thread is IEEE 754's default: rounding to nearest, ties to even, with subnormal numbers kept as
/// operands and as results. In another mode the library would get other bits without a word, so the calls on [`Lent`](crate::Lent) ask this.
///
/// It computes a few sums, a quotient and a product, which takes some nanoseconds, and compares bits.
#[inline(never)]
pub fn arithmetic_is_default() -> bool {
    // What comes through a black box is not known when this is compiled, so it is computed here and now.
    let (sums, [normal, two, smallest, large]) = (black_box(&SUMS), black_box(&SUBNORMAL));
    let rounded = sums.iter().all(|(x, y, sum)| (x + y).to_bits() == *sum);
    let results = (normal / two).to_bits() == two_to(-1022).to_bits() / 2;
    let operands = (smallest * large).to_bits() == two_to(-74).to_bits();
    rounded && results && operands
}
