//! The arithmetic of one element: binary64, every operation rounded by itself.

/// The largest finite number.
pub const LARGEST: f64 = f64::MAX;

/// The smallest number above zero.
pub const SMALLEST: f64 = f64::from_bits(1);

/// x − m·y, product and difference each rounded; x with its bits where m is a zero of either sign.
/// Nothing where one of the two computed numbers is not finite.
pub fn update(x: f64, m: f64, y: f64) -> Option<f64> {
    if m == 0.0 {
        return Some(x);
    }
    let product = m * y;
    if !product.is_finite() {
        return None;
    }
    let difference = x - product;
    if !difference.is_finite() {
        return None;
    }
    Some(difference)
}

/// x divided by d; nothing where the quotient is not finite.
pub fn divide(x: f64, d: f64) -> Option<f64> {
    let quotient = x / d;
    if !quotient.is_finite() {
        return None;
    }
    Some(quotient)
}

/// The numbers' bits, by which a result is compared.
pub fn bits(numbers: &[f64]) -> Vec<u64> {
    numbers.iter().map(|number| number.to_bits()).collect()
}

/// The offset of the first element that is not finite.
pub fn first_not_finite(numbers: &[f64]) -> Option<usize> {
    for offset in 0..numbers.len() {
        if !numbers[offset].is_finite() {
            return Some(offset);
        }
    }
    None
}
