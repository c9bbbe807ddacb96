//! Upper-case hexadecimal digits of fixed width, read and written.

/// Writes the value in exactly `width` digits; higher digits are cut off.
pub fn put(out: &mut String, value: u64, width: usize) {
    for place in (0..width).rev() {
        let digit = (value >> (4 * place)) & 15;
        out.push(char::from(b"0123456789ABCDEF"[digit as usize]));
    }
}

/// The value of one upper-case digit.
pub fn digit(byte: u8) -> Option<u64> {
    match byte {
        b'0'..=b'9' => Some((byte - b'0') as u64),
        b'A'..=b'F' => Some((byte - b'A') as u64 + 10),
        _ => None,
    }
}

/// The value of digits already known to be good.
pub fn value(digits: &[u8]) -> u64 {
    let mut total = 0;
    for &byte in digits {
        total = total * 16 + digit(byte).expect("a hexadecimal digit");
    }
    total
}

/// Takes fields of fixed width off the front of a line.
pub struct Fields<'a> {
    digits: &'a [u8],
}

impl<'a> Fields<'a> {
    pub fn new(line: &'a str) -> Fields<'a> {
        Fields { digits: line.as_bytes() }
    }

    pub fn take(&mut self, width: usize) -> u64 {
        assert!(self.digits.len() >= width, "a line of the script is too short");
        let (field, rest) = self.digits.split_at(width);
        self.digits = rest;
        value(field)
    }

    pub fn numbers(&mut self, count: usize) -> Vec<f64> {
        let mut numbers = Vec::new();
        for _ in 0..count {
            let number = f64::from_bits(self.take(16));
            numbers.push(if number.is_nan() { f64::from_bits(0x7FF8_0000_0000_0000) } else { number });
        }
        numbers
    }

    /// A count of 8 digits, and that many numbers.
    pub fn counted_numbers(&mut self) -> Vec<f64> {
        let count = self.take(8) as usize;
        self.numbers(count)
    }

    pub fn bytes(&mut self, count: usize) -> Vec<u8> {
        let mut bytes = Vec::new();
        for _ in 0..count {
            bytes.push(self.take(2) as u8);
        }
        bytes
    }

    pub fn end(&self) {
        assert!(self.digits.is_empty(), "a line of the script is too long");
    }
}

pub fn put_numbers(out: &mut String, numbers: &[f64]) {
    for number in numbers {
        put(out, number.to_bits(), 16);
    }
}

pub fn put_bytes(out: &mut String, bytes: &[u8]) {
    for &byte in bytes {
        put(out, byte as u64, 2);
    }
}
