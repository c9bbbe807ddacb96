//! System files in Rust: a text is checked line by line before the matrix is written, and a matrix is written as a text.
use crate::plain::Shape;

fn is_digit(b: u8) -> bool {
    matches!(b, b'0'..=b'9' | b'A'..=b'F')
}

/// The digits' values are looked up, since which come is not foreseen. The table has all bytes, so that no index is tested.
const VALUES: [u8; 256] = {
    let mut values = [0; 256];
    let mut v = 0;
    while v < 16 {
        values[DIGITS[v] as usize] = v as u8;
        v += 1;
    }
    values
};

const DIGITS: [u8; 16] = *b"0123456789ABCDEF";

fn digit_value(b: u8) -> u64 {
    VALUES[b as usize] as u64
}

/// The number that the digits stand for.
fn field(digits: &[u8]) -> u64 {
    digits.iter().fold(0, |v, b| v << 4 | digit_value(*b))
}

/// All bytes are looked at, so that the loop has no branch.
fn all_digits(bytes: &[u8]) -> bool {
    bytes.iter().fold(true, |good, b| good & is_digit(*b))
}

/// 12: not digits ended by 0A, a kind that is unknown, or a content that is bad for the line's own kind.
fn bad_line(line: &[u8], t: usize) -> bool {
    let (digits, end) = line.split_at(line.len() - 1);
    if end[0] != 10 || !all_digits(digits) {
        return true;
    }
    match field(&line[..2]) {
        1 | 2 | 5 => false,
        3 => line.len() == 7 + 2 * t && digits[6..].chunks_exact(2).any(|e| field(e) > t as u64),
        4 => line.len() == 9 && (field(&line[2..4]) > 2 || field(&line[2..4]) == 0 && field(&line[4..8]) != 0),
        _ => true,
    }
}

/// The numbers on a tile's line.
fn numbers(line: &[u8]) -> impl Iterator<Item = f64> + '_ {
    line[6..line.len() - 1].chunks_exact(16).map(|d| f64::from_bits(field(d)))
}

/// The number with these 16 digits is finite. The bits of its exponent end in the third; three are in the first, all ones in '7' and 'F' alone.
fn finite(digits: &[u8]) -> bool {
    (digits[0] != b'7' && digits[0] != b'F') || field(&digits[..3]) & 0x7FF != 0x7FF
}

/// Checks the line where tile (i,j) is due: the refusal's number, or 0.
fn tile_refusal(line: &[u8], t: usize, i: usize, j: usize) -> u8 {
    if bad_line(line, t) {
        return 12;
    }
    if field(&line[..2]) != 2 || field(&line[2..4]) != i as u64 || field(&line[4..6]) != j as u64 {
        return 13;
    }
    if !line[6..].chunks_exact(16).all(finite) {
        return 3;
    }
    0
}

/// N and t of a text, or a refusal's number and place.
pub fn read_system(text: &[u8], matrix: &mut [f64]) -> Result<(usize, usize), (u8, usize)> {
    if text.is_empty() {
        return Err((14, 1));
    }
    if text.len() < 7 || bad_line(&text[..7], 0) {
        return Err((12, 1));
    }
    if field(&text[..2]) != 1 {
        return Err((13, 1));
    }
    let (n, t) = (field(&text[2..4]) as usize, field(&text[4..6]) as usize);
    if !(Shape { tiles: n, side: t }.in_range()) {
        return Err((1, 1));
    }
    if matrix.len() != n * t * n * t {
        return Err((2, 0));
    }
    let size = 7 + 16 * t * t;
    let mut rest = &text[7..];
    for i in 0..n {
        for j in 0..n {
            let place = 2 + i * n + j;
            if rest.is_empty() {
                return Err((14, place));
            }
            if rest.len() < size {
                return Err((12, place));
            }
            let (line, after) = rest.split_at(size);
            let number = tile_refusal(line, t, i, j);
            if number != 0 {
                return Err((number, place));
            }
            rest = after;
        }
    }
    if !rest.is_empty() {
        return Err((14, 2 + n * n));
    }
    for (line, tile) in text[7..].chunks_exact(size).zip(matrix.chunks_exact_mut(t * t)) {
        for (x, v) in tile.iter_mut().zip(numbers(line)) {
            *x = v;
        }
    }
    Ok((n, t))
}

/// Writes the value's lowest digits, as many as there is room for.
fn put(text: &mut [u8], value: u64) {
    let mut rest = value;
    for d in text.iter_mut().rev() {
        *d = DIGITS[(rest & 15) as usize];
        rest >>= 4;
    }
}

/// The length written, or a refusal's number.
pub fn write_system(n: usize, t: usize, matrix: &[f64], text: &mut [u8]) -> Result<usize, u8> {
    if !(Shape { tiles: n, side: t }.in_range()) {
        return Err(1);
    }
    if matrix.len() != n * t * n * t {
        return Err(2);
    }
    let size = 7 + 16 * t * t;
    let length = 7 + n * n * size;
    if text.len() < length {
        return Err(15);
    }
    put(&mut text[..2], 1);
    put(&mut text[2..4], n as u64);
    put(&mut text[4..6], t as u64);
    text[6] = 10;
    let tiles = text[7..length].chunks_exact_mut(size).zip(matrix.chunks_exact(t * t));
    for (p, (line, tile)) in tiles.enumerate() {
        put(&mut line[..2], 2);
        put(&mut line[2..4], (p / n) as u64);
        put(&mut line[4..6], (p % n) as u64);
        for (d, x) in line[6..].chunks_exact_mut(16).zip(tile) {
            put(d, if x.is_nan() { 0x7FF8_0000_0000_0000 } else { x.to_bits() });
        }
        line[size - 1] = 10;
    }
    Ok(length)
}
