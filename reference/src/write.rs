//! Writing system, result and refusal texts, and what the program prints for a text.

use crate::checks::accept_shape;
use crate::frames::{frames_due, HEADER, LIST, OUTCOME, REFUSAL, TILE};
use crate::hex::{put, put_bytes, put_numbers};
use crate::lent::{refuse, Refusal};
use crate::loops::published_loops;
use crate::read::{read_header, read_system, NO_LIMIT, PROGRAM_ROWS};
use crate::solve::Outcome;
use crate::tile::Shape;

/// The text of a system, of a result where lists and outcome are given.
fn text_of(shape: Shape, matrix: &[f64], result: Option<(&[u8], Outcome)>) -> String {
    let mut text = String::new();
    put(&mut text, HEADER, 2);
    put(&mut text, shape.tiles as u64, 2);
    put(&mut text, shape.side as u64, 2);
    text.push('\n');
    for due in frames_due(shape, result.is_some()) {
        put(&mut text, due.kind, 2);
        if due.kind == TILE || due.kind == LIST {
            put(&mut text, due.i as u64, 2);
            put(&mut text, due.j as u64, 2);
        }
        if due.kind == TILE {
            let start = shape.element(due.i, due.j, 0, 0);
            put_numbers(&mut text, &matrix[start..start + shape.side * shape.side]);
        }
        if let Some((lists, outcome)) = result {
            if due.kind == LIST {
                let start = shape.entry(due.i, due.j, 0);
                put_bytes(&mut text, &lists[start..start + shape.side]);
            }
            if due.kind == OUTCOME {
                put(&mut text, outcome.kind() as u64, 2);
                put(&mut text, outcome.place() as u64, 4);
            }
        }
        text.push('\n');
    }
    text
}

pub fn system_text(shape: Shape, matrix: &[f64]) -> String {
    text_of(shape, matrix, None)
}

pub fn result_text(shape: Shape, matrix: &[f64], lists: &[u8], outcome: Outcome) -> String {
    text_of(shape, matrix, Some((lists, outcome)))
}

/// The one line of a refusal.
pub fn refusal_text(refusal: Refusal) -> String {
    let mut text = String::new();
    put(&mut text, REFUSAL, 2);
    put(&mut text, refusal.number as u64, 2);
    put(&mut text, refusal.place, 4);
    text.push('\n');
    text
}

/// Writes a system to the front of the lent text and tells its length.
pub fn write_system(tiles: u64, side: u64, matrix: &[f64], text: &mut [u8]) -> Result<usize, Refusal> {
    let shape = accept_shape(tiles, side)?;
    if matrix.len() != shape.matrix_length() {
        return refuse(2, 0);
    }
    fill_front(&system_text(shape, matrix), text)
}

/// Writes a result to the front of the lent text and tells its length.
pub fn write_result(
    tiles: u64,
    side: u64,
    matrix: &[f64],
    lists: &[u8],
    outcome: Outcome,
    text: &mut [u8],
) -> Result<usize, Refusal> {
    let shape = accept_shape(tiles, side)?;
    if matrix.len() != shape.matrix_length() || lists.len() != shape.lists_length() {
        return refuse(2, 0);
    }
    fill_front(&result_text(shape, matrix, lists, outcome), text)
}

fn fill_front(written: &str, text: &mut [u8]) -> Result<usize, Refusal> {
    if text.len() < written.len() {
        return refuse(15, 0);
    }
    text[..written.len()].copy_from_slice(written.as_bytes());
    Ok(written.len())
}

/// What the program prints: the result of the published loops, or one refusal line.
pub fn program_text(text: &[u8]) -> String {
    factored_text(text, PROGRAM_ROWS)
}

/// The same for every n.
pub fn loops_text(text: &[u8]) -> String {
    factored_text(text, NO_LIMIT)
}

fn factored_text(text: &[u8], most_rows: usize) -> String {
    let shape = match read_header(text, most_rows) {
        Ok(shape) => shape,
        Err(refusal) => return refusal_text(refusal),
    };
    let mut system = vec![0.0; shape.matrix_length()];
    if let Err(refusal) = read_system(text, &mut system) {
        return refusal_text(refusal);
    }
    let last = published_loops(shape, &system);
    result_text(shape, &last.matrix, &last.lists, last.outcome)
}
