//! What the writers are told and lent, well and badly: sizes, lengths and room that fit or not, any entries and outcomes.

use crate::families::{not_finite, numbers, FAMILIES};
use crate::rng::Rng;
use crate::solve::Outcome;
use crate::tile::Shape;
use crate::write::{result_text, system_text};

/// One call of a writer; a system's has no lists and no outcome.
pub struct Writing {
    pub tiles: u64,
    pub side: u64,
    pub matrix: Vec<f64>,
    pub lists: Vec<u8>,
    pub outcome: Outcome,
    pub room: usize,
    pub is_result: bool,
}

const SHAPES: [(usize, usize); 8] = [(1, 1), (2, 1), (1, 2), (2, 3), (3, 2), (11, 1), (1, 16), (16, 2)];

const OUTCOMES: [Outcome; 8] = [
    Outcome::Good,
    Outcome::Overflow(0),
    Outcome::Overflow(10),
    Outcome::Overflow(0x0100),
    Outcome::Overflow(0xABCD),
    Outcome::Singular(0),
    Outcome::Singular(16),
    Outcome::Singular(0xFFFF),
];

/// Wrong sizes, lengths and room, alone and together, beside what is right.
pub fn all_writings(seed: u64) -> Vec<Writing> {
    let mut rng = Rng::new(seed);
    let mut all = Vec::new();
    for (tiles, side) in SHAPES {
        let shape = Shape { tiles, side };
        for is_result in [false, true] {
            for size in 0..8 {
                for length in 0..5 {
                    for room in 0..4 {
                        all.push(writing(&mut rng, shape, is_result, size, length, room));
                    }
                }
            }
        }
    }
    all
}

/// The writing of a shape; the ways in which size, length and room are wrong count from 1, and 0 is right.
fn writing(rng: &mut Rng, shape: Shape, is_result: bool, size: usize, length: usize, room: usize) -> Writing {
    let family = rng.below(FAMILIES);
    let mut matrix = numbers(rng, family, shape.matrix_length());
    if rng.percent(20) {
        let place = rng.below(matrix.len());
        let number = not_finite(rng);
        matrix[place] = if number.is_nan() { f64::from_bits(0x7FF8_0000_0000_0000) } else { number };
    }
    let mut lists: Vec<u8> = (0..shape.lists_length()).map(|_| rng.below(256) as u8).collect();
    let outcome = rng.pick(&OUTCOMES);
    let text =
        if is_result { result_text(shape, &matrix, &lists, outcome) } else { system_text(shape, &matrix) };
    let (mut tiles, mut side) = (shape.tiles as u64, shape.side as u64);
    match size {
        1 => tiles = 0,
        2 => tiles = 17,
        3 => side = rng.pick(&[0, 17]),
        4 => tiles += 256,
        5 => side += 256,
        6 => tiles += 1 << 32,
        7 => side += 1 << 32,
        _ => {}
    }
    match length {
        1 => matrix.push(1.0),
        2 => drop(matrix.pop()),
        3 => lists.push(0),
        4 => drop(lists.pop()),
        _ => {}
    }
    let room = [text.len(), text.len() + 3, text.len() - 1, 0][room];
    Writing { tiles, side, matrix, lists, outcome, room, is_result }
}
