//! States for the scripts: fresh ones, odd ones that pass refusal 4 though no opening reaches them,
//! and single damages that break it.

use crate::cases::random_lists;
use crate::checks::{largest_number, largest_sum};
use crate::families::{not_finite, numbers};
use crate::lent::{Lent, Record, Worker, IDLE, SLOTS, TAKEN};
use crate::rng::Rng;
use crate::tasks::{table, Thing};
use crate::tile::Shape;

/// A record of zeros.
pub const EMPTY: Record =
    Record { kind: 0, k: 0, i: 0, j: 0, mark: 0, tie_sum: 0, worker: 0, took: 0, ended: 0 };

/// The record of a task by the numbering, with all else zero.
pub fn record_of(shape: Shape, number: usize, mark: u8) -> Record {
    let task = table(shape.tiles).tasks[number];
    Record { kind: task.kind, k: task.k as u8, i: task.i as u8, j: task.j as u8, mark, ..EMPTY }
}

/// The right lengths around a matrix; what lists, records and workers hold is of no account to opening.
pub fn before_opening(rng: &mut Rng, shape: Shape, workers: usize, matrix: Vec<f64>) -> Lent {
    let count = table(shape.tiles).tasks.len();
    let junk = rng.percent(40);
    let mut lent = Lent {
        matrix,
        lists: vec![0; shape.lists_length()],
        records: vec![EMPTY; count],
        count: workers as u64,
        run_number: 0,
        workers: [IDLE; SLOTS],
    };
    if junk {
        for entry in &mut lent.lists {
            *entry = rng.below(256) as u8;
        }
        for record in &mut lent.records {
            record.kind = rng.below(256) as u8;
            record.mark = rng.below(256) as u8;
            record.tie_sum = rng.below(65536) as u16;
            record.worker = rng.below(256) as u8;
            record.took = rng.next() as u32;
            record.ended = rng.next() as u32;
        }
        lent.run_number = rng.next() as u32;
        for slot in 0..SLOTS {
            lent.workers[slot] = junk_worker(rng);
        }
    }
    lent
}

/// A slot that holds anything at all.
pub fn junk_worker(rng: &mut Rng) -> Worker {
    Worker { busy: rng.percent(50), task: rng.below(65536) as u16, column: rng.below(256) as u8 }
}

/// Random marks, lists, columns, tie sums and call numbers that refusal 4 lets pass.
pub fn odd_state(rng: &mut Rng, shape: Shape, workers: usize, family: usize, all_finished: bool) -> Lent {
    let count = table(shape.tiles).tasks.len();
    let mut lent = Lent {
        matrix: numbers(rng, family, shape.matrix_length()),
        lists: random_lists(rng, shape),
        records: Vec::new(),
        count: workers as u64,
        run_number: 0,
        workers: [IDLE; SLOTS],
    };
    let no_failure = rng.percent(50);
    for number in 0..count {
        let mark = match (all_finished, no_failure) {
            (true, true) => rng.pick(&[2, 2, 2, 4]),
            (true, false) => rng.pick(&[2, 2, 3, 4]),
            (false, true) => rng.pick(&[0, 0, 2, 2, 4]),
            (false, false) => rng.pick(&[0, 0, 2, 2, 3, 4]),
        };
        lent.records.push(record_of(shape, number, mark));
    }
    for worker in 0..SLOTS {
        if worker >= workers {
            lent.workers[worker] = junk_worker(rng);
        } else if !all_finished && rng.percent(60) {
            hold_random(rng, shape, &mut lent, worker);
        } else if rng.percent(30) {
            lent.workers[worker] =
                Worker { busy: false, task: rng.below(65536) as u16, column: rng.below(256) as u8 };
        }
    }
    set_sums(rng, shape, workers, &mut lent);
    set_numbers(rng, shape, workers, &mut lent);
    lent
}

/// Gives each task a tie sum up to its most, and often the most.
pub fn set_sums(rng: &mut Rng, shape: Shape, workers: usize, lent: &mut Lent) {
    for task in 0..lent.records.len() {
        let most = largest_sum(shape, workers, lent, task);
        lent.records[task].tie_sum = if rng.percent(25) { most } else { rng.below(most + 1) } as u16;
    }
}

/// Gives the run a number up to its most, and often the most, and each record call numbers up to the run's and a worker below W; some records
/// keep what they have.
pub fn set_numbers(rng: &mut Rng, shape: Shape, workers: usize, lent: &mut Lent) {
    let most = largest_number(shape, workers, lent) as usize;
    let number = if rng.percent(35) { most } else { rng.below(most + 1) };
    lent.run_number = number as u32;
    for record in &mut lent.records {
        if rng.percent(75) {
            record.worker = rng.below(workers) as u8;
            record.took = rng.between(number / 2, number) as u32;
            record.ended = if rng.percent(30) { number } else { rng.below(number + 1) } as u32;
        }
    }
}

/// Gives the worker any task that nobody holds, at any column.
fn hold_random(rng: &mut Rng, shape: Shape, lent: &mut Lent, worker: usize) {
    let task = rng.below(lent.records.len());
    if lent.records[task].mark == TAKEN {
        return;
    }
    lent.records[task].mark = TAKEN;
    lent.workers[worker] = Worker { busy: true, task: task as u16, column: rng.below(shape.side) as u8 };
}

pub const DAMAGES: usize = 19;

/// One damage of a state that passed refusal 4; a few find nothing to damage in some states.
pub fn damage(rng: &mut Rng, shape: Shape, workers: usize, lent: &mut Lent, which: usize) {
    let count = lent.records.len();
    let task = rng.below(count);
    let worker = idle_worker(workers, lent).unwrap_or(rng.below(workers));
    match which {
        0 => lent.records[task].kind = rng.pick(&[0, 5, 255]),
        1 => lent.records[task].k = lent.records[task].k.wrapping_add(1),
        2 => lent.records[task].i = lent.records[task].i.wrapping_sub(1),
        3 => lent.records[task].j = lent.records[task].j.wrapping_add(16),
        4 => free_mark(lent, 5),
        5 => free_mark(lent, 255),
        6 => free_mark(lent, TAKEN),
        7 => lent.workers[worker] = Worker { busy: true, task: count as u16, column: 0 },
        8 => lent.workers[worker] = Worker { busy: true, task: 65535, column: 0 },
        9 => hold_unmarked(workers, lent),
        10 => double_holder(workers, lent),
        11 => raise_entry(rng, shape, lent),
        12 => raise_column(rng, shape, workers, lent),
        13 => raise_sum(rng, shape, workers, lent, task),
        14 => raise_number(rng, shape, workers, lent),
        15 => lent.records[task].took = above_number(rng, lent),
        16 => lent.records[task].ended = above_number(rng, lent),
        17 => lent.records[task].worker = rng.pick(&[workers as u8, 255]),
        _ => spoil_element(rng, shape, workers, lent),
    }
}

fn idle_worker(workers: usize, lent: &Lent) -> Option<usize> {
    (0..workers).find(|&worker| !lent.workers[worker].busy)
}

fn busy_worker(workers: usize, lent: &Lent) -> Option<usize> {
    (0..workers).find(|&worker| lent.workers[worker].busy)
}

/// A mark set on the last task that nobody holds.
fn free_mark(lent: &mut Lent, mark: u8) {
    for task in (0..lent.records.len()).rev() {
        if lent.records[task].mark != TAKEN {
            lent.records[task].mark = mark;
            return;
        }
    }
}

/// An idle worker made to hold a task without mark 1.
fn hold_unmarked(workers: usize, lent: &mut Lent) {
    for task in 0..lent.records.len() {
        if lent.records[task].mark != TAKEN {
            if let Some(worker) = idle_worker(workers, lent) {
                lent.workers[worker] = Worker { busy: true, task: task as u16, column: 0 };
            }
            return;
        }
    }
}

/// An idle worker made to hold what a busy one holds.
fn double_holder(workers: usize, lent: &mut Lent) {
    if let (Some(idle), Some(busy)) = (idle_worker(workers, lent), busy_worker(workers, lent)) {
        lent.workers[idle] = lent.workers[busy];
    }
}

/// An element that is not finite: anywhere, or in a tile that a held task touches.
fn spoil_element(rng: &mut Rng, shape: Shape, workers: usize, lent: &mut Lent) {
    let mut place = rng.below(lent.matrix.len());
    if let Some(worker) = busy_worker(workers, lent) {
        let held = lent.workers[worker].task as usize;
        if held < lent.records.len() && rng.percent(70) {
            let touched = table(shape.tiles).tasks[held].whole_uses().touched();
            if let Thing::Tile(i, j) = rng.pick(&touched) {
                place = shape.element(i, j, rng.below(shape.side), rng.below(shape.side));
            }
        }
    }
    lent.matrix[place] = not_finite(rng);
}

/// One entry just above its most, or far above it.
fn raise_entry(rng: &mut Rng, shape: Shape, lent: &mut Lent) {
    let i = rng.below(shape.tiles);
    let j = rng.below(shape.tiles);
    let c = rng.below(shape.side);
    let most = shape.largest_entry(i, j) as u8;
    lent.lists[shape.entry(i, j, c)] = if rng.percent(70) { most + 1 } else { 255 };
}

/// A busy worker's column set to t or beyond, where one is busy.
fn raise_column(rng: &mut Rng, shape: Shape, workers: usize, lent: &mut Lent) {
    for worker in 0..workers {
        if lent.workers[worker].busy {
            lent.workers[worker].column = rng.pick(&[shape.side as u8, 255]);
            return;
        }
    }
}

/// A tie sum above its most: just above it, by its high byte, or far above it.
fn raise_sum(rng: &mut Rng, shape: Shape, workers: usize, lent: &mut Lent, task: usize) {
    let most = largest_sum(shape, workers, lent, task) as u16;
    lent.records[task].tie_sum = rng.pick(&[most + 1, most + 256, 65535]);
}

/// The run's number above its most: just above it, by its higher bytes, or far above it.
fn raise_number(rng: &mut Rng, shape: Shape, workers: usize, lent: &mut Lent) {
    let most = largest_number(shape, workers, lent) as u32;
    lent.run_number = rng.pick(&[most + 1, most + 256, most + 65536, u32::MAX]);
}

/// A call number above the run's: just above it, by its higher bytes, or far above it.
fn above_number(rng: &mut Rng, lent: &Lent) -> u32 {
    lent.run_number.saturating_add(rng.pick(&[1, 256, 65536, u32::MAX]))
}
