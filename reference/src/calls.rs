//! Opening, take, column and whole run. A refused call changes nothing.

use crate::checks::{accept_elements, accept_lengths, accept_sizes, accept_state, accept_touched};
use crate::lent::{refuse, Lent, Record, Refusal, Sizes, Worker};
use crate::lent::{DONE, FAILED, IDLE, SPOILED, TAKEN, WAITING};
use crate::numbers::first_not_finite;
use crate::tasks::table;
use crate::tile::{fill, work_column, Shape};

/// Checks sizes, lengths and elements, then makes lists, records and workers new and sets the run's number to 0.
pub fn opening(sizes: Sizes, lent: &mut Lent) -> Result<(), Refusal> {
    let (shape, workers) = accept_sizes(sizes)?;
    accept_lengths(shape, workers, lent)?;
    if let Some(offset) = first_not_finite(&lent.matrix) {
        return refuse(3, offset as u64);
    }
    for entry in &mut lent.lists {
        *entry = 0;
    }
    let tasks = &table(shape.tiles).tasks;
    for number in 0..tasks.len() {
        let task = tasks[number];
        lent.records[number] = Record {
            kind: task.kind,
            k: task.k as u8,
            i: task.i as u8,
            j: task.j as u8,
            mark: WAITING,
            tie_sum: 0,
            worker: 0,
            took: 0,
            ended: 0,
        };
    }
    for worker in 0..workers {
        lent.workers[worker] = IDLE;
    }
    lent.run_number = 0;
    Ok(())
}

/// A task is finished with mark 2, 3 or 4.
pub fn is_finished(mark: u8) -> bool {
    mark == DONE || mark == FAILED || mark == SPOILED
}

/// A waiting task all of whose links are finished.
pub fn is_ready(shape: Shape, records: &[Record], number: usize) -> bool {
    if records[number].mark != WAITING {
        return false;
    }
    for &earlier in &table(shape.tiles).links[number] {
        if !is_finished(records[earlier].mark) {
            return false;
        }
    }
    true
}

/// Gives a ready task to an idle worker.
pub fn take(sizes: Sizes, lent: &mut Lent, worker: u64, task: u64) -> Result<(), Refusal> {
    let (shape, workers) = accept_sizes(sizes)?;
    accept_lengths(shape, workers, lent)?;
    accept_state(shape, workers, lent)?;
    if worker >= workers as u64 || lent.workers[worker as usize].busy {
        return refuse(5, worker);
    }
    if task >= lent.records.len() as u64 {
        return refuse(6, 0);
    }
    if !is_ready(shape, &lent.records, task as usize) {
        return refuse(7, task);
    }
    make_take(lent, worker as usize, task as usize);
    Ok(())
}

/// An accepted take, counted.
fn make_take(lent: &mut Lent, worker: usize, task: usize) {
    lent.run_number += 1;
    lent.records[task].mark = TAKEN;
    lent.records[task].took = lent.run_number;
    lent.workers[worker] = Worker { busy: true, task: task as u16, column: 0 };
}

/// Has a busy worker do the next column of its task.
pub fn column(sizes: Sizes, lent: &mut Lent, worker: u64) -> Result<(), Refusal> {
    let (shape, workers) = accept_sizes(sizes)?;
    accept_lengths(shape, workers, lent)?;
    accept_state(shape, workers, lent)?;
    if worker >= workers as u64 {
        return refuse(5, worker);
    }
    let held = lent.workers[worker as usize];
    if !held.busy {
        return refuse(5, worker);
    }
    accept_touched(shape, lent, table(shape.tiles).tasks[held.task as usize])?;
    make_column(shape, lent, worker as usize);
    Ok(())
}

/// An accepted column, counted.
fn make_column(shape: Shape, lent: &mut Lent, worker: usize) {
    lent.run_number += 1;
    let held = lent.workers[worker];
    let number = held.task as usize;
    let c = held.column as usize;
    let task = table(shape.tiles).tasks[number];
    let sum = lent.records[number].tie_sum;
    let (mark, tie_sum) = if c == 0 && is_spoiled(shape, &lent.records, number) {
        (SPOILED, 0)
    } else if let Some(ties) = work_column(shape, &mut lent.matrix, &mut lent.lists, task, c) {
        (if c == shape.side - 1 { DONE } else { TAKEN }, sum + ties)
    } else {
        (FAILED, sum)
    };
    lent.records[number].tie_sum = tie_sum;
    if mark == TAKEN {
        lent.workers[worker].column += 1;
        return;
    }
    if mark != DONE {
        fill(shape, &mut lent.matrix, &mut lent.lists, task);
    }
    lent.records[number].mark = mark;
    lent.records[number].worker = worker as u8;
    lent.records[number].ended = lent.run_number;
    lent.workers[worker] = IDLE;
}

/// Of the tasks that last wrote what this one touches, one is failed or spoiled.
fn is_spoiled(shape: Shape, records: &[Record], number: usize) -> bool {
    for &writer in &table(shape.tiles).writers[number] {
        if records[writer].mark == FAILED || records[writer].mark == SPOILED {
            return true;
        }
    }
    false
}

/// How a whole run ended, and the count of takes and columns it made.
#[derive(Clone, Copy, Debug, PartialEq, Eq)]
pub enum Run {
    Finished(u64),
    Spent(u64),
}

/// Workers take turns from 0 until all tasks are finished or the budget is used.
pub fn run(sizes: Sizes, lent: &mut Lent, budget: u64) -> Result<Run, Refusal> {
    let (shape, workers) = accept_sizes(sizes)?;
    accept_lengths(shape, workers, lent)?;
    accept_state(shape, workers, lent)?;
    accept_elements(lent)?;
    let mut count = 0;
    let mut worker = 0;
    loop {
        if all_finished(&lent.records) {
            return Ok(Run::Finished(count));
        }
        if count == budget {
            return Ok(Run::Spent(count));
        }
        if lent.workers[worker].busy {
            make_column(shape, lent, worker);
            count += 1;
        } else if let Some(task) = lowest_ready(shape, &lent.records) {
            make_take(lent, worker, task);
            count += 1;
        }
        worker = (worker + 1) % workers;
    }
}

pub fn all_finished(records: &[Record]) -> bool {
    for record in records {
        if !is_finished(record.mark) {
            return false;
        }
    }
    true
}

pub fn lowest_ready(shape: Shape, records: &[Record]) -> Option<usize> {
    for number in 0..records.len() {
        if is_ready(shape, records, number) {
            return Some(number);
        }
    }
    None
}
