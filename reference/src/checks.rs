//! Refusals 1, 2 and 4: the tests that the calls share.

use crate::lent::{refuse, Lent, Refusal, Sizes, Worker, DONE, FAILED, SPOILED, TAKEN};
use crate::numbers::first_not_finite;
use crate::tasks::{table, Task, Thing};
use crate::tile::Shape;

/// Refusal 1 for N and t.
pub fn accept_shape(tiles: u64, side: u64) -> Result<Shape, Refusal> {
    if tiles < 1 || tiles > 16 || side < 1 || side > 16 {
        return refuse(1, 0);
    }
    Ok(Shape { tiles: tiles as usize, side: side as usize })
}

/// Refusal 1 for N, t and W; hands back the shape and W.
pub fn accept_sizes(sizes: Sizes) -> Result<(Shape, usize), Refusal> {
    let shape = accept_shape(sizes.tiles, sizes.side)?;
    if sizes.workers < 1 || sizes.workers > 32 {
        return refuse(1, 0);
    }
    Ok((shape, sizes.workers as usize))
}

/// Matrix, lists and records have the lengths that N and t call for, and W workers are lent.
pub fn lengths_fit(shape: Shape, workers: usize, lent: &Lent) -> bool {
    lent.matrix.len() == shape.matrix_length()
        && lent.lists.len() == shape.lists_length()
        && lent.records.len() == table(shape.tiles).tasks.len()
        && lent.count == workers as u64
}

/// Refusal 2 for matrix, lists, records and workers.
pub fn accept_lengths(shape: Shape, workers: usize, lent: &Lent) -> Result<(), Refusal> {
    if !lengths_fit(shape, workers, lent) {
        return refuse(2, 0);
    }
    Ok(())
}

/// Refusal 4 but for the elements: records, marks, tie sums, call numbers, workers and list entries.
pub fn accept_state(shape: Shape, workers: usize, lent: &Lent) -> Result<(), Refusal> {
    if !records_fit(shape, lent) || !holders_fit(workers, lent) || !sums_fit(shape, workers, lent) {
        return refuse(4, 0);
    }
    if !workers_fit(shape, workers, lent) || !entries_fit(shape, lent) || !numbers_fit(shape, workers, lent) {
        return refuse(4, 0);
    }
    Ok(())
}

fn records_fit(shape: Shape, lent: &Lent) -> bool {
    let tasks = &table(shape.tiles).tasks;
    for number in 0..tasks.len() {
        let record = lent.records[number];
        let recorded =
            Task { kind: record.kind, k: record.k as usize, i: record.i as usize, j: record.j as usize };
        if recorded != tasks[number] || record.mark > SPOILED {
            return false;
        }
    }
    true
}

/// Every task with mark 1 is held by exactly one worker.
fn holders_fit(workers: usize, lent: &Lent) -> bool {
    for number in 0..lent.records.len() {
        if lent.records[number].mark == TAKEN && holders(workers, lent, number).len() != 1 {
            return false;
        }
    }
    true
}

/// The workers that hold a task.
fn holders(workers: usize, lent: &Lent, number: usize) -> Vec<Worker> {
    let mut holders = Vec::new();
    for worker in 0..workers {
        let held = lent.workers[worker];
        if held.busy && held.task as usize == number {
            holders.push(held);
        }
    }
    holders
}

/// The column at which the worker that holds a taken task stands.
fn next_column(workers: usize, lent: &Lent, number: usize) -> usize {
    holders(workers, lent, number).iter().map(|held| held.column as usize).sum()
}

/// No tie sum is above the most that it may be.
fn sums_fit(shape: Shape, workers: usize, lent: &Lent) -> bool {
    for number in 0..lent.records.len() {
        if lent.records[number].tie_sum as usize > largest_sum(shape, workers, lent, number) {
            return false;
        }
    }
    true
}

/// The most that a task's tie sum may be: t for each column where it is done or failed, t for each before the next one where it is taken, else 0.
pub fn largest_sum(shape: Shape, workers: usize, lent: &Lent, number: usize) -> usize {
    let columns = match lent.records[number].mark {
        DONE | FAILED => shape.side,
        TAKEN => next_column(workers, lent, number),
        _ => 0,
    };
    shape.side * columns
}

/// The run's number is not above its most nor below a call number in a record, and every record names a worker below W.
fn numbers_fit(shape: Shape, workers: usize, lent: &Lent) -> bool {
    for record in &lent.records {
        if record.took > lent.run_number || record.ended > lent.run_number {
            return false;
        }
        if record.worker as usize >= workers {
            return false;
        }
    }
    lent.run_number as u64 <= largest_number(shape, workers, lent)
}

/// The most that the run's number may be: a finished task had t + 1 calls at most, a taken one its take and the columns before the next.
pub fn largest_number(shape: Shape, workers: usize, lent: &Lent) -> u64 {
    let mut most = 0;
    for number in 0..lent.records.len() {
        most += match lent.records[number].mark {
            DONE | FAILED | SPOILED => 1 + shape.side as u64,
            TAKEN => 1 + next_column(workers, lent, number) as u64,
            _ => 0,
        };
    }
    most
}

/// Every busy worker holds an existing task with mark 1 and stands at a column below t.
fn workers_fit(shape: Shape, workers: usize, lent: &Lent) -> bool {
    for worker in 0..workers {
        let held = lent.workers[worker];
        if !held.busy {
            continue;
        }
        let number = held.task as usize;
        if number >= lent.records.len() || lent.records[number].mark != TAKEN {
            return false;
        }
        if held.column as usize >= shape.side {
            return false;
        }
    }
    true
}

fn entries_fit(shape: Shape, lent: &Lent) -> bool {
    for i in 0..shape.tiles {
        for j in 0..shape.tiles {
            for c in 0..shape.side {
                if lent.lists[shape.entry(i, j, c)] as usize > shape.largest_entry(i, j) {
                    return false;
                }
            }
        }
    }
    true
}

/// Refusal 4 for the elements of the tiles a task touches, each of them whole.
pub fn accept_touched(shape: Shape, lent: &Lent, task: Task) -> Result<(), Refusal> {
    for thing in task.whole_uses().touched() {
        if let Thing::Tile(i, j) = thing {
            let start = shape.element(i, j, 0, 0);
            let part = &lent.matrix[start..start + shape.side * shape.side];
            if first_not_finite(part).is_some() {
                return refuse(4, 0);
            }
        }
    }
    Ok(())
}

/// Refusal 4 for all elements.
pub fn accept_elements(lent: &Lent) -> Result<(), Refusal> {
    if first_not_finite(&lent.matrix).is_some() {
        return refuse(4, 0);
    }
    Ok(())
}
