//! Makes undamaged and damaged texts for the file readers: every row and rank of the file refusals by
//! hand, then random ones.

use crate::damages::{random_text, split, whole};
use crate::families::numbers;
use crate::judge::{text_line, PROGRAM, RESULT, SYSTEM};
use crate::loops::published_loops;
use crate::rng::Rng;
use crate::solve::Outcome;
use crate::tile::Shape;
use crate::write::{result_text, system_text};

const RANDOM_TEXTS: usize = 330;

/// All lines for the judge.
pub fn all_texts(seed: u64) -> Vec<String> {
    let mut rng = Rng::new(seed);
    let mut lines = Vec::new();
    for text in crafted_systems() {
        lines.push(text_line(SYSTEM, text.as_bytes()));
        lines.push(text_line(PROGRAM, text.as_bytes()));
    }
    for text in crafted_results() {
        lines.push(text_line(RESULT, text.as_bytes()));
    }
    for text in large_programs(&mut rng) {
        lines.push(text_line(PROGRAM, text.as_bytes()));
    }
    lines.extend(long_texts(&mut rng));
    lines.extend(wide_results(&mut rng));
    for _ in 0..RANDOM_TEXTS {
        lines.push(random_text(&mut rng));
    }
    lines
}

const TWO: [&str; 5] = [
    "010201", "0200003FF0000000000000", "0200014000000000000000", "0201004010000000000000",
    "0201014010000000000000",
];

const TWO_RESULT: [&str; 9] = [
    "010201", "0200004010000000000000", "0200014010000000000000", "0201003FD0000000000000",
    "0201013FF0000000000000", "03000000", "03010001", "03010100", "04000000",
];

const PAIR_RESULT: [&str; 4] = [
    "010102",
    "02000040100000000000004010000000000000\
     3FD00000000000003FF0000000000000",
    "0300000101",
    "04000000",
];

fn joined(lines: &[&str]) -> String {
    let mut text = String::new();
    for line in lines {
        text.push_str(line);
        text.push('\n');
    }
    text
}

/// The lines with one replaced, counted from 1.
fn with(lines: &[&str], line: usize, replacement: &str) -> String {
    let mut changed = lines.to_vec();
    changed[line - 1] = replacement;
    joined(&changed)
}

/// Headers alone and headers before the tiles of two by two.
fn crafted_headers() -> Vec<String> {
    let mut texts = Vec::new();
    for header in [
        "010001", "010100", "011101", "010111", "01FFFF", "010000", "010210", "010410", "010401", "010310",
        "011003", "010704", "010707", "011010", "020000", "030000", "040000", "050000", "060000", "000000",
        "FF0000", "0A0201", "01020", "0102011", "01020100", "01", "0", "", "0102 1", "01020a", "0102\r1",
        "g10201", "110201", "F10201", "010201\r", " 010201", "03000000", "04000000", "05000000", "010102",
        "020201",
    ] {
        texts.push(with(&TWO, 1, header));
    }
    for alone in ["010410", "010707", "011003", "010201", "011101", "010101", "020000", "0"] {
        texts.push(format!("{alone}\n"));
        texts.push(alone.to_string());
    }
    texts
}

fn crafted_systems() -> Vec<String> {
    let mut texts = vec![joined(&TWO), String::new(), "\n".to_string(), "\n\n".to_string()];
    texts.extend(crafted_headers());
    for line in [
        "0200007FF0000000000000",
        "020000FFF0000000000000",
        "0200007FF8000000000001",
        "0201007FF0000000000000",
        "0200013FF0000000000000",
        "0302007FF0000000000000",
        "0200113FF0000000000000",
        "02FFFF7FF0000000000000",
        "0600007FF0000000000000",
        "0000003FF0000000000000",
        "0100003FF0000000000000",
        "0300003FF0000000000000",
        "0400003FF0000000000000",
        "0500003FF0000000000000",
        "1200003FF0000000000000",
        "F200003FF0000000000000",
        "0200003ff0000000000000",
        "0200003FF000000000000",
        "0200003FF00000000000000",
        "0200003FF000000000000G",
        "0200007FEFFFFFFFFFFFFF",
        "0200008000000000000000",
        "0200000000000000000001",
        "03000000",
        "04000000",
        "010201",
        "",
        "\r",
        "0200003FF0000000000000\r",
    ] {
        texts.push(with(&TWO, 2, line));
        texts.push(with(&TWO, 4, line));
    }
    let whole = joined(&TWO);
    for extra in ["\n", "0", "04000000\n", "0201014010000000000000\n", "x", "\r\n", " "] {
        texts.push(format!("{whole}{extra}"));
    }
    for length in [1, 5, 6, 7, 8, 29, 30, 31, 53, 98, 99] {
        texts.push(whole[..length].to_string());
    }
    texts
}

/// Lines tried in place of the lists and the outcome of a result with t = 1.
const SHORT_LINES: [&str; 30] = [
    "03000005", "03000002", "03000001", "03000000", "03010000", "03010001", "03010100", "03110000",
    "030000FF", "03000010", "04000000", "04000001", "04000010", "04000100", "04001000", "04010000",
    "04010003", "0401FFFF", "04020000", "0402FFFF", "04030000", "04100000", "04FF0000", "05010001",
    "05000000", "06000000", "00000000", "01000000", "02000000", "10000000",
];

/// Outcomes whose place has one digit other than 0, or four others.
const PLACES: [&str; 8] =
    ["0401000A", "04010010", "04020010", "04010100", "04020B00", "04011000", "0402F000", "04019ABC"];

fn crafted_results() -> Vec<String> {
    let mut texts = vec![joined(&TWO_RESULT), joined(&PAIR_RESULT), joined(&TWO), String::new()];
    for line in SHORT_LINES {
        texts.push(with(&TWO_RESULT, 6, line));
        texts.push(with(&TWO_RESULT, 9, line));
    }
    for line in PLACES {
        texts.push(with(&TWO_RESULT, 9, line));
    }
    for line in ["13000000", "F3000000", "14000000", "A4000000"] {
        texts.push(with(&TWO_RESULT, 6, line));
        texts.push(with(&TWO_RESULT, 9, line));
    }
    for line in ["0300000102", "0300000103", "03000002FF", "0300010103", "0300010101", "03000001", "04000000"]
    {
        texts.push(with(&PAIR_RESULT, 3, line));
    }
    for line in
        ["0300000101", "0400000", "040000001", "0400000a", "04030001", "05030001", "0403000", "", "01"]
    {
        texts.push(with(&PAIR_RESULT, 4, line));
    }
    for (line, first, second) in [
        (3, "0200017FF0000000000000", "03000005"),
        (3, "0200113FF0000000000000", "03000005"),
        (2, "0200017FF0000000000000", "0300000"),
        (2, "0600007FF0000000000000", "04000001"),
    ] {
        let mut lines = TWO_RESULT;
        lines[line - 1] = first;
        lines[5] = second;
        texts.push(joined(&lines));
    }
    let whole = joined(&TWO_RESULT);
    for extra in ["\n", "0", "04000000\n", "05010001\n", "04000000"] {
        texts.push(format!("{whole}{extra}"));
    }
    for length in [whole.len() - 1, whole.len() - 2, whole.len() - 9, whole.len() - 10, 99, 100, 107, 108] {
        texts.push(whole[..length].to_string());
    }
    for header in ["010001", "010100", "011101", "010111", "010202", "020201", "060201", "01020"] {
        texts.push(with(&TWO_RESULT, 1, header));
    }
    for alone in ["010707", "010410", "011010"] {
        texts.push(format!("{alone}\n"));
    }
    texts.push(with(&TWO_RESULT, 2, "0200007FF0000000000000"));
    texts.push(with(&TWO_RESULT, 5, "020101FFF8000000000000"));
    texts
}

/// The greatest system the program takes, and smaller ones.
fn large_programs(rng: &mut Rng) -> Vec<String> {
    let mut texts = Vec::new();
    for (tiles, side) in [(16, 3), (4, 4), (16, 1), (1, 16), (3, 16), (2, 11)] {
        let shape = Shape { tiles, side };
        let matrix = numbers(rng, 0, shape.matrix_length());
        texts.push(system_text(shape, &matrix));
    }
    texts
}

/// A system and results of many lines, damaged beyond line 255.
fn long_texts(rng: &mut Rng) -> Vec<String> {
    let shape = Shape { tiles: 13, side: 1 };
    let matrix = numbers(rng, 1, shape.matrix_length());
    let last = published_loops(shape, &matrix);
    let text = result_text(shape, &last.matrix, &last.lists, last.outcome);
    let mut lines = vec![text_line(RESULT, text.as_bytes())];
    for line in [256, 257, 262] {
        let mut parts = split(text.as_bytes());
        parts[line - 1][1] = b'6';
        lines.push(text_line(RESULT, &whole(&parts)));
        parts.truncate(line - 1);
        lines.push(text_line(RESULT, &whole(&parts)));
    }
    let mut numbers = [1.0; 256];
    numbers[255] = f64::INFINITY;
    let text = system_text(Shape { tiles: 16, side: 1 }, &numbers);
    lines.push(text_line(SYSTEM, text.as_bytes()));
    lines
}

/// Results of one large tile, whose entries have digits above 9 or two digits: up to t, and one above it.
fn wide_results(rng: &mut Rng) -> Vec<String> {
    let mut lines = Vec::new();
    for side in [11, 16] {
        let shape = Shape { tiles: 1, side };
        let matrix = numbers(rng, 4, shape.matrix_length());
        for most in [side, side + 1] {
            let lists: Vec<u8> = (0..side).map(|c| (most - c) as u8).collect();
            let text = result_text(shape, &matrix, &lists, Outcome::Singular(16 + side as u16));
            lines.push(text_line(RESULT, text.as_bytes()));
        }
    }
    lines
}
