//! Reading and writing system and result files as texts. None of these computes, so any floating-point mode will do.

use crate::{accepted, outcome_of, raw, Outcome, Refusal};

// SAFETY, of each call below: each pointer is a slice's and goes with its length, the slices written are borrowed alone, and wrong sizes
// and lengths are refused.

/// N and t by line 1 of a text, of a system or of a result alike. What follows line 1 is not looked at.
pub fn read_sizes(text: &[u8]) -> Result<(usize, usize), Refusal> {
    let read = unsafe { raw::solumivaf_read_sizes(text.as_ptr(), text.len()) };
    accepted(read.number, read.place)?;
    Ok((read.tiles, read.side))
}

/// Reads a system into the lent matrix, which has the [`matrix_length`](crate::matrix_length) of line 1, and tells N and t.
pub fn read_system(text: &[u8], matrix: &mut [f64]) -> Result<(usize, usize), Refusal> {
    let read =
        unsafe { raw::solumivaf_read_system(text.as_ptr(), text.len(), matrix.as_mut_ptr(), matrix.len()) };
    accepted(read.number, read.place)?;
    Ok((read.tiles, read.side))
}

/// Reads a result into the lent matrix and lists, which have the lengths that line 1 calls for, and tells N, t and the outcome.
pub fn read_result(
    text: &[u8],
    matrix: &mut [f64],
    lists: &mut [u8],
) -> Result<(usize, usize, Outcome), Refusal> {
    let (numbers, entries) = (matrix.len(), lists.len());
    let (matrix, lists) = (matrix.as_mut_ptr(), lists.as_mut_ptr());
    let read =
        unsafe { raw::solumivaf_read_result(text.as_ptr(), text.len(), matrix, numbers, lists, entries) };
    accepted(read.number, read.place)?;
    Ok((read.tiles, read.side, outcome_of(read.kind, read.at)))
}

/// Writes a system into the front of the lent text, which has [`system_length`](crate::system_length) bytes or more, and tells its length.
pub fn write_system(tiles: usize, side: usize, matrix: &[f64], text: &mut [u8]) -> Result<usize, Refusal> {
    let told = unsafe {
        raw::solumivaf_write_system(tiles, side, matrix.as_ptr(), matrix.len(), text.as_mut_ptr(), text.len())
    };
    accepted(told.number, told.place)?;
    Ok(told.count as usize)
}

/// Writes a result into the front of the lent text, which has [`result_length`](crate::result_length) bytes or more, and tells its length.
pub fn write_result(
    tiles: usize,
    side: usize,
    matrix: &[f64],
    lists: &[u8],
    outcome: Outcome,
    text: &mut [u8],
) -> Result<usize, Refusal> {
    let (kind, place) = match outcome {
        Outcome::Good => (0, 0),
        Outcome::Overflow(task) => (1, task),
        Outcome::Singular(row) => (2, row),
    };
    let (numbers, entries, room) = (matrix.len(), lists.len(), text.len());
    let (matrix, lists, text) = (matrix.as_ptr(), lists.as_ptr(), text.as_mut_ptr());
    let told = unsafe {
        raw::solumivaf_write_result(tiles, side, matrix, numbers, lists, entries, kind, place, text, room)
    };
    accepted(told.number, told.place)?;
    Ok(told.count as usize)
}
