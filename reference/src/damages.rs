//! Random texts for the file readers, with none to three random damages.

use crate::families::{not_finite, numbers, FAMILIES};
use crate::hex::put;
use crate::judge::{text_line, PROGRAM, RESULT, SYSTEM};
use crate::loops::published_loops;
use crate::rng::Rng;
use crate::tile::Shape;
use crate::write::{result_text, system_text};

pub fn split(text: &[u8]) -> Vec<Vec<u8>> {
    let mut lines: Vec<Vec<u8>> = text.split(|&byte| byte == b'\n').map(|line| line.to_vec()).collect();
    lines.pop();
    lines
}

pub fn whole(lines: &[Vec<u8>]) -> Vec<u8> {
    let mut text = Vec::new();
    for line in lines {
        text.extend_from_slice(line);
        text.push(b'\n');
    }
    text
}

pub fn random_text(rng: &mut Rng) -> String {
    let shape = Shape { tiles: rng.pick(&[1, 1, 2, 2, 2, 3]), side: rng.pick(&[1, 1, 2, 2, 3]) };
    let family = rng.below(FAMILIES);
    let matrix = numbers(rng, family, shape.matrix_length());
    let what = rng.pick(&[SYSTEM, RESULT, RESULT, PROGRAM]);
    let text = if what == RESULT {
        let last = published_loops(shape, &matrix);
        result_text(shape, &last.matrix, &last.lists, last.outcome)
    } else {
        system_text(shape, &matrix)
    };
    let mut bytes = text.into_bytes();
    for _ in 0..rng.pick(&[0, 0, 1, 1, 1, 2, 2, 3]) {
        bytes = damaged(rng, &bytes);
    }
    text_line(what, &bytes)
}

/// One random damage; a text without a line is left.
fn damaged(rng: &mut Rng, text: &[u8]) -> Vec<u8> {
    let mut lines = split(text);
    if lines.is_empty() {
        return text.to_vec();
    }
    let place = rng.below(lines.len());
    match rng.below(8) {
        0 => drop(lines.remove(place)),
        1 => {
            let copy = lines[place].clone();
            lines.insert(place, copy);
        }
        2 => {
            let other = rng.below(lines.len());
            lines.swap(place, other);
        }
        3 => {
            let mut bytes = whole(&lines);
            let length = rng.below(bytes.len() + 1);
            bytes.truncate(length);
            return bytes;
        }
        4 => {
            let mut bytes = whole(&lines);
            bytes.push(rng.pick(b"\n0A \r"));
            return bytes;
        }
        _ => damaged_line(rng, &mut lines[place]),
    }
    whole(&lines)
}

fn damaged_line(rng: &mut Rng, line: &mut Vec<u8>) {
    if line.is_empty() {
        line.push(b'0');
        return;
    }
    let place = rng.below(line.len());
    match rng.below(8) {
        0 => line[place] = rng.pick(b"abcdef \r\tGg-\x00\x80\xFF/:@`"),
        1 => drop(line.remove(place)),
        2 => line.insert(place, b'0'),
        3 => line[place] = rng.pick(b"0123456789ABCDEF"),
        4 => line.push(b'\r'),
        5 if line.len() >= 2 => line[1] = rng.pick(b"01234567"),
        6 if line.len() >= 22 => not_finite_at(rng, line),
        7 if line.len() >= 8 => {
            let end = line.len();
            line[end - 1] = rng.pick(b"0123456789ABCDEF");
        }
        _ if line.len() >= 6 => line[3 + 2 * rng.below(2)] = rng.pick(b"01234F"),
        _ => line.clear(),
    }
}

/// One number of a tile line made infinite or no number.
fn not_finite_at(rng: &mut Rng, line: &mut [u8]) {
    let count = (line.len() - 6) / 16;
    let start = 6 + 16 * rng.below(count);
    let mut digits = String::new();
    put(&mut digits, not_finite(rng).to_bits(), 16);
    line[start..start + 16].copy_from_slice(digits.as_bytes());
}
