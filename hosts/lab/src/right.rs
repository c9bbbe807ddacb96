//! Reading a right side: a table of decimals, or of bits.

use std::path::Path;

use crate::failure::Failure;
use crate::files;

/// The n numbers of a table. They are parted by blanks, commas or line ends, and from # to the end of its line is comment.
pub fn numbers(path: &Path, bits: bool, n: usize) -> Result<Vec<f64>, Failure> {
    let wrong = |why: String| Failure::unusable(format!("{}: {why}", files::name(path)));
    let text = String::from_utf8(files::contents(path)?)
        .map_err(|_| wrong("a table is a text in UTF-8".to_string()))?;
    let numbers = numbers_in(&text, bits).map_err(wrong)?;
    if numbers.len() != n {
        return Err(wrong(format!("the right side has n = {n} numbers, this table has {}", numbers.len())));
    }
    Ok(numbers)
}

fn numbers_in(text: &str, bits: bool) -> Result<Vec<f64>, String> {
    let mut numbers = Vec::new();
    for (at, line) in text.lines().enumerate() {
        let said = line.split('#').next().unwrap_or("");
        if said.trim().is_empty() {
            continue;
        }
        for part in said.split(',') {
            if part.trim().is_empty() {
                return Err(format!("line {}: a number is missing beside a comma", at + 1));
            }
            for word in part.split_whitespace() {
                let number = if bits { number_of_bits(word) } else { number_of_decimal(word) };
                numbers.push(number.map_err(|why| format!("line {}: {why}", at + 1))?);
            }
        }
    }
    Ok(numbers)
}

/// Whether a word is 16 hexadecimal digits.
fn has_bits(word: &str) -> bool {
    word.len() == 16 && word.bytes().all(|byte| byte.is_ascii_hexdigit())
}

fn number_of_bits(word: &str) -> Result<f64, String> {
    if !has_bits(word) {
        return Err(format!("'{word}' is not 16 hexadecimal digits, as --bits asks for"));
    }
    match u64::from_str_radix(word, 16).map(f64::from_bits) {
        Ok(number) if number.is_finite() => Ok(number),
        Ok(number) if number.is_nan() => {
            Err(format!("'{word}' is no number; a right side has finite numbers"))
        }
        _ => Err(format!("'{word}' is an infinity; a right side has finite numbers")),
    }
}

/// The binary64 number nearest to a decimal, ties to even. 16 digits alone can be the bits of a number, so they are not taken for a decimal.
fn number_of_decimal(word: &str) -> Result<f64, String> {
    if has_bits(word) {
        return Err(format!(
            "'{word}' looks like the bits of a number: add --bits, or write a decimal with a point"
        ));
    }
    if !is_decimal(word) {
        return Err(format!("'{word}' is not a decimal such as 0.25 or -1e-3"));
    }
    match word.parse() {
        Ok(number) if f64::is_finite(number) => Ok(number),
        _ => Err(format!("'{word}' is beyond the largest binary64 number")),
    }
}

/// A sign, digits with a point or none, and a power or none: what `parse` takes, but for infinities and what is no number.
fn is_decimal(word: &str) -> bool {
    let unsigned = |part: &'_ str| part.strip_prefix(['+', '-']).unwrap_or(part).to_string();
    let digits = |part: &str| part.bytes().all(|byte| byte.is_ascii_digit());
    let word = unsigned(word);
    let (number, power) = word.split_once(['e', 'E']).unwrap_or((&word, "0"));
    let (whole, fraction) = number.split_once('.').unwrap_or((number, ""));
    let power = unsigned(power);
    digits(whole)
        && digits(fraction)
        && digits(&power)
        && !power.is_empty()
        && whole.len() + fraction.len() > 0
}

#[cfg(test)]
mod tests {
    use super::*;

    #[test]
    fn decimals() {
        for word in ["0", "-0", "+1", "1.", ".5", "0.25", "-1e-3", "1E+5", "00012", "1e-400"] {
            assert!(is_decimal(word) && number_of_decimal(word).is_ok(), "{word}");
        }
        for word in [
            "", ".", "-", "e5", "1e", "1e+", "inf", "nan", "infinity", "--1", "1e5.0", "0x1p3", "1_0", "1-2",
            "+-1",
        ] {
            assert!(!is_decimal(word) && number_of_decimal(word).is_err(), "{word}");
        }
        assert_eq!(
            number_of_decimal("1.00000000000000011102230246251565404236316680908203125").unwrap(),
            1.0
        );
        assert_eq!(
            number_of_decimal("1.00000000000000011102230246251565404236316680908203126").unwrap(),
            1.0 + f64::EPSILON
        );
        assert!(number_of_decimal("1e309").unwrap_err().contains("beyond the largest"));
        for word in ["3FD0000000000000", "4014000000000000", "0000000000000000", "12345678901234e5"] {
            assert!(number_of_decimal(word).unwrap_err().contains("--bits"), "{word}");
        }
        assert_eq!(number_of_decimal("4014000000000000."), Ok(4014e12));
    }

    #[test]
    fn bits() {
        assert_eq!(number_of_bits("3FD0000000000000"), Ok(0.25));
        assert_eq!(number_of_bits("3fd0000000000000"), Ok(0.25));
        for word in [
            "3FD000000000000", "3FD00000000000000", "0.25", "7FF0000000000000", "fff8000000000000",
            "+3FD000000000000",
        ] {
            assert!(number_of_bits(word).is_err(), "{word}");
        }
    }

    #[test]
    fn tables() {
        let table = "# pay\n\n 1 2,3\t4 , 5 # 9 9\r\n6\n#";
        assert_eq!(numbers_in(table, false), Ok(vec![1.0, 2.0, 3.0, 4.0, 5.0, 6.0]));
        assert_eq!(numbers_in("", false), Ok(vec![]));
        for (table, line) in [("1\n,2", 2), ("1,,2", 1), ("\n\n1,", 3), ("#\n1 x", 2)] {
            assert!(numbers_in(table, false).unwrap_err().starts_with(&format!("line {line}: ")), "{table}");
        }
    }
}
