//! Numbers as decimals, in the forms that tools/table prints.

/// The decimal digits of a finite number in scientific form: its sign, the digits, and the power of ten of the first.
struct Digits {
    sign: &'static str,
    digits: String,
    power: i32,
}

/// Takes what `{:e}` prints apart.
fn digits(text: &str) -> Digits {
    let (sign, rest) = text.strip_prefix('-').map_or(("", text), |rest| ("-", rest));
    let (number, power) = rest.split_once('e').expect("a power of ten");
    Digits { sign, digits: number.replace('.', ""), power: power.parse().expect("a power of ten") }
}

impl Digits {
    /// With a point and no power, where the first digit stands at 10^-6 or above. A whole number has no point.
    fn plain(&self) -> String {
        let Digits { sign, digits, power } = self;
        if *power < 0 {
            return format!("{sign}0.{}{digits}", "0".repeat((-power - 1) as usize));
        }
        let whole = *power as usize + 1;
        if digits.len() <= whole {
            return format!("{sign}{digits}{}", "0".repeat(whole - digits.len()));
        }
        format!("{sign}{}.{}", &digits[..whole], &digits[whole..])
    }

    /// The first digit, a point before the others, without the power.
    fn leading(&self) -> String {
        let (first, others) = self.digits.split_at(1);
        let point = if others.is_empty() { "" } else { "." };
        format!("{}{first}{point}{others}", self.sign)
    }
}

/// The fewest digits that read back as the same number: 0.1, 4.0, 1e-05.
pub fn short(x: f64) -> String {
    let digits = digits(&format!("{x:e}"));
    if !(-4..16).contains(&digits.power) {
        return format!("{}e{:+03}", digits.leading(), digits.power);
    }
    let plain = digits.plain();
    if plain.contains('.') {
        plain
    } else {
        plain + ".0"
    }
}

/// The exact value: all digits, with a power of ten where the first one stands below 10^-6.
pub fn exact(x: f64) -> String {
    if x == 0.0 || x.fract() != 0.0 {
        // No binary64 number has more than 767 digits.
        let mut digits = digits(&format!("{x:.770e}"));
        let kept = digits.digits.trim_end_matches('0').len().max(1);
        digits.digits.truncate(kept);
        return if digits.power < -6 {
            format!("{}E{:+}", digits.leading(), digits.power)
        } else {
            digits.plain()
        };
    }
    format!("{x:.0}")
}

#[cfg(test)]
mod tests {
    use super::*;

    #[test]
    fn forms() {
        for (x, few, all) in [
            (0.0, "0.0", "0"),
            (-0.0, "-0.0", "-0"),
            (4.0, "4.0", "4"),
            (0.5, "0.5", "0.5"),
            (-0.1, "-0.1", "-0.1000000000000000055511151231257827021181583404541015625"),
            (0.0001220703125, "0.0001220703125", "0.0001220703125"),
            (6.103515625e-5, "6.103515625e-05", "0.00006103515625"),
            (9.5367431640625e-7, "9.5367431640625e-07", "9.5367431640625E-7"),
            (1e15, "1000000000000000.0", "1000000000000000"),
            (1e16, "1e+16", "10000000000000000"),
            (1e23, "1e+23", "99999999999999991611392"),
        ] {
            assert_eq!((short(x).as_str(), exact(x).as_str()), (few, all));
        }
        assert_eq!(short(f64::from_bits(1)), "5e-324");
        assert!(
            exact(f64::from_bits(1)).starts_with("4.9406564584124654")
                && exact(f64::from_bits(1)).ends_with("E-324")
        );
        assert_eq!(exact(f64::MAX).len(), 309);
    }
}
