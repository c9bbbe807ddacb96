//! Reading system and result texts into lent buffers. A refused text changes nothing.

use crate::checks::accept_shape;
use crate::frames::{accept_frame, frames_due, Due, Lines, HEADER, LIST, OUTCOME, TILE};
use crate::hex::value;
use crate::lent::{refuse, Refusal};
use crate::solve::Outcome;
use crate::tile::Shape;

/// The largest n of the program; the readers themselves have no such limit.
pub const PROGRAM_ROWS: usize = 48;
pub const NO_LIMIT: usize = 256;

/// The shape told by line 1: refusals 12, 13 and 14, then 1 for the ranges or for n above the limit.
pub fn read_header(text: &[u8], most_rows: usize) -> Result<Shape, Refusal> {
    let mut lines = Lines::new(text);
    take_header(&mut lines, most_rows)
}

fn take_header(lines: &mut Lines, most_rows: usize) -> Result<Shape, Refusal> {
    let digits = lines.next()?;
    accept_frame(digits, Due { kind: HEADER, i: 0, j: 0 }, 0, lines.line)?;
    match accept_shape(value(&digits[2..4]), value(&digits[4..6])) {
        Ok(shape) if shape.rows() <= most_rows => Ok(shape),
        _ => refuse(1, lines.line),
    }
}

/// What a text holds, before it is handed to the lent buffers.
struct Content {
    shape: Shape,
    matrix: Vec<f64>,
    lists: Vec<u8>,
    outcome: Outcome,
}

/// Reads a system into a matrix of exactly n² numbers.
pub fn read_system(text: &[u8], matrix: &mut [f64]) -> Result<Shape, Refusal> {
    let mut lines = Lines::new(text);
    let shape = take_header(&mut lines, NO_LIMIT)?;
    if matrix.len() != shape.matrix_length() {
        return refuse(2, 0);
    }
    let content = take_content(&mut lines, shape, false)?;
    matrix.copy_from_slice(&content.matrix);
    Ok(content.shape)
}

/// Reads a result into a matrix and lists of exactly the lengths its header calls for.
pub fn read_result(text: &[u8], matrix: &mut [f64], lists: &mut [u8]) -> Result<(Shape, Outcome), Refusal> {
    let mut lines = Lines::new(text);
    let shape = take_header(&mut lines, NO_LIMIT)?;
    if matrix.len() != shape.matrix_length() || lists.len() != shape.lists_length() {
        return refuse(2, 0);
    }
    let content = take_content(&mut lines, shape, true)?;
    matrix.copy_from_slice(&content.matrix);
    lists.copy_from_slice(&content.lists);
    Ok((content.shape, content.outcome))
}

/// Everything after the header, line by line.
fn take_content(lines: &mut Lines, shape: Shape, is_result: bool) -> Result<Content, Refusal> {
    let mut content = Content {
        shape,
        matrix: vec![0.0; shape.matrix_length()],
        lists: vec![0; shape.lists_length()],
        outcome: Outcome::Good,
    };
    for due in frames_due(shape, is_result) {
        let digits = lines.next()?;
        accept_frame(digits, due, shape.side, lines.line)?;
        match due.kind {
            TILE => take_tile(&mut content, digits, due, lines.line)?,
            LIST => take_list(&mut content, digits, due),
            OUTCOME => content.outcome = outcome_told(digits),
            _ => {}
        }
    }
    lines.end()?;
    Ok(content)
}

/// The numbers of a tile, row by row; refusal 3 where one is not finite.
fn take_tile(content: &mut Content, digits: &[u8], due: Due, line: u64) -> Result<(), Refusal> {
    let start = content.shape.element(due.i, due.j, 0, 0);
    for place in 0..content.shape.side * content.shape.side {
        let field = &digits[6 + 16 * place..22 + 16 * place];
        let number = f64::from_bits(value(field));
        if !number.is_finite() {
            return refuse(3, line);
        }
        content.matrix[start + place] = number;
    }
    Ok(())
}

fn take_list(content: &mut Content, digits: &[u8], due: Due) {
    for c in 0..content.shape.side {
        let entry = value(&digits[6 + 2 * c..8 + 2 * c]) as u8;
        content.lists[content.shape.entry(due.i, due.j, c)] = entry;
    }
}

fn outcome_told(digits: &[u8]) -> Outcome {
    let place = value(&digits[4..8]) as u16;
    match value(&digits[2..4]) {
        0 => Outcome::Good,
        1 => Outcome::Overflow(place),
        _ => Outcome::Singular(place),
    }
}
