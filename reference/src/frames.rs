//! The frames of system and result files: their lengths, their order, and the tests on one line.

use crate::hex::{digit, value};
use crate::lent::{refuse, Refusal};
use crate::tile::Shape;

pub const HEADER: u64 = 1;
pub const TILE: u64 = 2;
pub const LIST: u64 = 3;
pub const OUTCOME: u64 = 4;
pub const REFUSAL: u64 = 5;

/// The count of digits of a frame; side is t, or 0 while the header is not read yet.
pub fn frame_length(kind: u64, side: usize) -> usize {
    match kind {
        HEADER => 6,
        TILE => 6 + 16 * side * side,
        LIST => 6 + 2 * side,
        _ => 8,
    }
}

/// A frame that is due: its kind, and I and J where it has them.
#[derive(Clone, Copy, Debug, PartialEq, Eq)]
pub struct Due {
    pub kind: u64,
    pub i: usize,
    pub j: usize,
}

/// The frames due after the header: the tiles, and for a result the lists and the outcome.
pub fn frames_due(shape: Shape, is_result: bool) -> Vec<Due> {
    let mut due = Vec::new();
    for i in 0..shape.tiles {
        for j in 0..shape.tiles {
            due.push(Due { kind: TILE, i, j });
        }
    }
    if is_result {
        for i in 0..shape.tiles {
            for j in 0..i + 1 {
                due.push(Due { kind: LIST, i, j });
            }
        }
        due.push(Due { kind: OUTCOME, i: 0, j: 0 });
    }
    due
}

/// Takes lines off the front of a text, counting them from 1.
pub struct Lines<'a> {
    rest: &'a [u8],
    pub line: u64,
}

impl<'a> Lines<'a> {
    pub fn new(text: &'a [u8]) -> Lines<'a> {
        Lines { rest: text, line: 0 }
    }

    /// The digits of the next line without its 0A: 14 where the text has ended, 12 where a byte is no
    /// digit or the 0A is missing.
    pub fn next(&mut self) -> Result<&'a [u8], Refusal> {
        self.line += 1;
        if self.rest.is_empty() {
            return refuse(14, self.line);
        }
        let mut length = 0;
        while length < self.rest.len() && digit(self.rest[length]).is_some() {
            length += 1;
        }
        if length == self.rest.len() || self.rest[length] != 0x0A {
            return refuse(12, self.line);
        }
        let digits = &self.rest[..length];
        self.rest = &self.rest[length + 1..];
        Ok(digits)
    }

    /// After the last frame nothing may follow.
    pub fn end(&self) -> Result<(), Refusal> {
        if !self.rest.is_empty() {
            return refuse(14, self.line + 1);
        }
        Ok(())
    }
}

/// Refusals 12 and 13 of one line of digits, against the frame due there.
pub fn accept_frame(digits: &[u8], due: Due, side: usize, line: u64) -> Result<(), Refusal> {
    if digits.len() != frame_length(due.kind, side) {
        return refuse(12, line);
    }
    let kind = value(&digits[0..2]);
    if kind < HEADER || kind > REFUSAL {
        return refuse(12, line);
    }
    if digits.len() == frame_length(kind, side) && !content_fits(digits, kind, side) {
        return refuse(12, line);
    }
    if kind != due.kind {
        return refuse(13, line);
    }
    if kind == TILE || kind == LIST {
        let i = value(&digits[2..4]) as usize;
        let j = value(&digits[4..6]) as usize;
        if i != due.i || j != due.j {
            return refuse(13, line);
        }
    }
    Ok(())
}

/// List entries up to t; an outcome up to 02, and good without a place.
fn content_fits(digits: &[u8], kind: u64, side: usize) -> bool {
    if kind == LIST {
        for c in 0..side {
            if value(&digits[6 + 2 * c..8 + 2 * c]) > side as u64 {
                return false;
            }
        }
    }
    if kind == OUTCOME {
        let outcome = value(&digits[2..4]);
        let place = value(&digits[4..8]);
        if outcome > 2 || (outcome == 0 && place != 0) {
            return false;
        }
    }
    true
}
