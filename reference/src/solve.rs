//! The outcome of a finished system, and solving with its factors.

use crate::calls::is_finished;
use crate::checks::{accept_elements, accept_lengths, accept_sizes, accept_state};
use crate::lent::{refuse, Lent, Refusal, Sizes, FAILED};
use crate::numbers::{divide, first_not_finite, update};
use crate::tile::Shape;

#[derive(Clone, Copy, Debug, PartialEq, Eq)]
pub enum Outcome {
    Good,
    Overflow(u16),
    Singular(u16),
}

impl Outcome {
    /// The two digits of an outcome frame.
    pub fn kind(self) -> u8 {
        match self {
            Outcome::Good => 0,
            Outcome::Overflow(_) => 1,
            Outcome::Singular(_) => 2,
        }
    }

    /// The place of an outcome frame, 0 for good.
    pub fn place(self) -> u16 {
        match self {
            Outcome::Good => 0,
            Outcome::Overflow(task) => task,
            Outcome::Singular(row) => row,
        }
    }
}

/// The outcome by the marks of all tasks, each finished, and the final diagonal.
pub fn outcome(shape: Shape, matrix: &[f64], marks: &[u8]) -> Outcome {
    for number in 0..marks.len() {
        if marks[number] == FAILED {
            return Outcome::Overflow(number as u16);
        }
    }
    for row in 0..shape.rows() {
        if matrix[shape.global(row, row)] == 0.0 {
            return Outcome::Singular(row as u16);
        }
    }
    Outcome::Good
}

/// The marks alone, in task order.
pub fn marks(lent: &Lent) -> Vec<u8> {
    let mut marks = Vec::new();
    for record in &lent.records {
        marks.push(record.mark);
    }
    marks
}

/// The lowest task that is neither done nor failed nor spoiled.
fn lowest_unfinished(lent: &Lent) -> Option<usize> {
    lent.records.iter().position(|record| !is_finished(record.mark))
}

/// What the outcome call tells: the outcome, or the lowest unfinished task.
#[derive(Clone, Copy, Debug, PartialEq, Eq)]
pub enum Ending {
    Unfinished(usize),
    Ended(Outcome),
}

/// The outcome call.
pub fn ending(sizes: Sizes, lent: &Lent) -> Result<Ending, Refusal> {
    let (shape, workers) = accept_sizes(sizes)?;
    accept_lengths(shape, workers, lent)?;
    Ok(match lowest_unfinished(lent) {
        Some(number) => Ending::Unfinished(number),
        None => Ending::Ended(outcome(shape, &lent.matrix, &marks(lent))),
    })
}

/// Solves for one right side; the answers are written only when nothing is refused.
pub fn solve(sizes: Sizes, lent: &Lent, right: &[f64], answers: &mut [f64]) -> Result<(), Refusal> {
    let (shape, workers) = accept_sizes(sizes)?;
    accept_lengths(shape, workers, lent)?;
    if right.len() != shape.rows() || answers.len() != shape.rows() {
        return refuse(2, 0);
    }
    accept_state(shape, workers, lent)?;
    accept_elements(lent)?;
    if let Some(number) = lowest_unfinished(lent) {
        return refuse(8, number as u64);
    }
    match outcome(shape, &lent.matrix, &marks(lent)) {
        Outcome::Overflow(task) => return refuse(9, task as u64),
        Outcome::Singular(row) => return refuse(10, row as u64),
        Outcome::Good => {}
    }
    if let Some(offset) = first_not_finite(right) {
        return refuse(3, offset as u64);
    }
    let mut numbers = right.to_vec();
    forward(shape, lent, &mut numbers)?;
    for row in (0..shape.rows()).rev() {
        match backward_row(shape, &lent.matrix, &numbers, row) {
            Some(number) => numbers[row] = number,
            None => return refuse(11, row as u64),
        }
    }
    answers.copy_from_slice(&numbers);
    Ok(())
}

/// The right side as one more tile column of width 1, through T-2 and T-4 in task order.
fn forward(shape: Shape, lent: &Lent, numbers: &mut [f64]) -> Result<(), Refusal> {
    for k in 0..shape.tiles {
        if apply_right(shape, lent, numbers, k).is_none() {
            return refuse(11, k as u64);
        }
        for i in k + 1..shape.tiles {
            if pair_right(shape, lent, numbers, k, i).is_none() {
                return refuse(11, i as u64);
            }
        }
    }
    Ok(())
}

fn apply_right(shape: Shape, lent: &Lent, numbers: &mut [f64], k: usize) -> Option<()> {
    let t = shape.side;
    for c in 0..t {
        let row = lent.lists[shape.entry(k, k, c)] as usize;
        numbers.swap(k * t + c, k * t + row);
    }
    for c in 0..t {
        for r in c + 1..t {
            let m = lent.matrix[shape.element(k, k, r, c)];
            numbers[k * t + r] = update(numbers[k * t + r], m, numbers[k * t + c])?;
        }
    }
    Some(())
}

fn pair_right(shape: Shape, lent: &Lent, numbers: &mut [f64], k: usize, i: usize) -> Option<()> {
    let t = shape.side;
    for c in 0..t {
        let entry = lent.lists[shape.entry(i, k, c)] as usize;
        if entry > 0 {
            numbers.swap(k * t + c, i * t + entry - 1);
        }
        for r in 0..t {
            let m = lent.matrix[shape.element(i, k, r, c)];
            numbers[i * t + r] = update(numbers[i * t + r], m, numbers[k * t + c])?;
        }
    }
    Some(())
}

/// One row of the backward work: its number, or nothing where it left the finite range.
fn backward_row(shape: Shape, matrix: &[f64], numbers: &[f64], row: usize) -> Option<f64> {
    let mut number = numbers[row];
    for column in row + 1..shape.rows() {
        number = update(number, matrix[shape.global(row, column)], numbers[column])?;
    }
    divide(number, matrix[shape.global(row, row)])
}
