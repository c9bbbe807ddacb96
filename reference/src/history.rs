//! The calls of a script about who did the task and when: runs mixed with single calls of many workers, call numbers that are there before a
//! call, and numbers and workers at and just beyond what refusal 4 lets pass.

use crate::checks::largest_number;
use crate::crafted::{couple_overflows, overflows};
use crate::families::{not_finite, numbers};
use crate::lent::{Lent, Record, Worker, DONE, FAILED, SPOILED, TAKEN, WAITING};
use crate::numbers::LARGEST as M;
use crate::oddities::{before_opening, set_numbers};
use crate::tasks::table;
use crate::tile::Shape;
use crate::writer::Writer;

/// A mark, and the column at which the task stands where it is taken.
const STANDS: [(u8, u8); 7] =
    [(WAITING, 0), (TAKEN, 0), (TAKEN, 1), (TAKEN, 2), (DONE, 0), (FAILED, 0), (SPOILED, 0)];

/// The first numbers that 8, 16 and 24 bits don't hold, and the last that 32 do.
const WIDE: [u32; 4] = [1 << 8, 1 << 16, 1 << 24, u32::MAX];

/// Tiles of N = 2 of which every task fails at its first column, where lists are 0.
const FAILING: [[f64; 4]; 4] = [[1.0, M, -1.0, M], [M; 4], [-1.0, M, 1.0, 1.0], [1.0, M, -1.0, M]];

/// A record in which every bit is 1.
const FULL: Record = Record {
    kind: 255,
    k: 255,
    i: 255,
    j: 255,
    mark: 255,
    tie_sum: 65535,
    worker: 255,
    took: u32::MAX,
    ended: u32::MAX,
};

impl Writer {
    pub fn call_numbers(&mut self) {
        self.mixed_calls();
        self.whole_runs();
        self.other_openings();
        self.states_gone_on_with();
        self.own_calls();
        self.limits_of_the_number();
        self.number_by_its_workers();
        self.number_of_a_high_task();
        self.wide_run_numbers();
        self.limits_of_call_numbers();
        self.limits_of_workers();
    }

    /// Every call that looks for refusal 4; the take is worker W − 1's and the column worker 0's.
    fn all_calls(&mut self) {
        self.run(0);
        let right = numbers(&mut self.rng, 1, self.shape.rows());
        self.solve(&right);
        let ready = self.ready_tasks();
        self.take(self.workers as u64 - 1, ready.first().map_or(0, |&task| task as u64));
        self.column(0);
    }

    // ---- counting

    /// Single calls of any workers, refused ones and runs of 0, 1 and 2 calls by turns, to the end and beyond it.
    fn mixed_calls(&mut self) {
        let mut systems: Vec<(Shape, Vec<f64>)> = Vec::new();
        for (tiles, side) in [(2, 1), (1, 3), (2, 2), (3, 1), (2, 3), (3, 2)] {
            let shape = Shape { tiles, side };
            systems.push((shape, numbers(&mut self.rng, 0, shape.matrix_length())));
        }
        for crafted in overflows().into_iter().skip(1).chain(couple_overflows()).step_by(2) {
            systems.push((crafted.shape, crafted.matrix));
        }
        for (place, (shape, matrix)) in systems.into_iter().enumerate() {
            self.start(shape, [2, 3, 5, 32, 1, 7][place % 6]);
            let lent = before_opening(&mut self.rng, shape, self.workers, matrix);
            self.lend(&lent);
            self.open();
            let mut budget = place as u64;
            while self.step() && !self.is_full() {
                self.refused_calls();
                self.run(budget % 3);
                self.step();
                budget += 1;
            }
            for budget in [1, 0, u64::MAX] {
                self.run(budget);
            }
            self.refused_calls();
            self.outcome();
        }
    }

    /// Whole runs of two and more workers, in which tasks fail and are spoiled.
    fn whole_runs(&mut self) {
        for (place, crafted) in overflows().into_iter().chain(couple_overflows()).enumerate() {
            self.start(crafted.shape, [2, 3, 32][place % 3]);
            let lent = before_opening(&mut self.rng, crafted.shape, self.workers, crafted.matrix);
            self.lend(&lent);
            self.open();
            self.run(u64::MAX);
        }
    }

    /// A take of a task that isn't ready, and a column of an idle worker or of none.
    fn refused_calls(&mut self) {
        let worker = self.rng.below(self.workers) as u64;
        let task = self.rng.below(table(self.shape.tiles).tasks.len());
        if !self.ready_tasks().contains(&task) {
            self.take(worker, task as u64);
        }
        let idle = self.idle_workers();
        self.column(idle.last().map_or(self.workers, |&worker| worker) as u64);
    }

    /// Openings over full records and the largest number, one of them refused; openings amid a run.
    fn other_openings(&mut self) {
        for (tiles, side, workers) in [(1, 2, 1), (2, 1, 3), (3, 1, 32)] {
            let shape = Shape { tiles, side };
            self.start(shape, workers);
            let matrix = numbers(&mut self.rng, 0, shape.matrix_length());
            let mut lent = before_opening(&mut self.rng, shape, workers, matrix);
            lent.lists.fill(255);
            lent.run_number = u32::MAX;
            lent.records.fill(FULL);
            let mut refused = lent.clone();
            refused.matrix[0] = not_finite(&mut self.rng);
            self.lend(&refused);
            self.open();
            self.lend(&lent);
            self.all_calls();
            self.open();
            self.run(4);
            self.step();
            self.open();
            self.take(workers as u64 - 1, 0);
            self.run(u64::MAX);
        }
    }

    /// States in which some tasks are finished and others under work, with a number from none to the most: columns, then runs to the end.
    fn states_gone_on_with(&mut self) {
        self.start(Shape { tiles: 3, side: 2 }, 4);
        let marks = [DONE, DONE, TAKEN, DONE, DONE, TAKEN, FAILED, WAITING, SPOILED];
        for turn in 0..6 {
            let mut lent = self.marked(|task| *marks.get(task).unwrap_or(&WAITING));
            lent.workers.swap(turn % 2, 3);
            lent.workers[3].column = 1;
            set_numbers(&mut self.rng, self.shape, 4, &mut lent);
            match turn {
                0 => lent.run_number = largest_number(self.shape, 4, &lent) as u32,
                1 => lent.run_number = lent.records.iter().map(|r| r.took.max(r.ended)).max().unwrap_or(0),
                _ => {}
            }
            self.lend(&lent);
            self.column(3);
            for budget in [0, 2, 1, 3, u64::MAX] {
                self.run(budget);
            }
            self.outcome();
        }
        // Above 255.
        self.start(Shape { tiles: 7, side: 1 }, 32);
        for run_number in [253, 254] {
            let mut lent = self.marked(|task| if task < 135 { DONE } else { WAITING });
            lent.run_number = run_number;
            self.lend(&lent);
            for (worker, task) in [(31, 135), (1, 136)] {
                self.take(worker, task);
                self.column(worker);
            }
            self.run(u64::MAX);
        }
    }

    // ---- what is there before

    /// Each task of N = 2 with a worker and call numbers before it is taken: calls on another task, then its take and its columns by
    /// worker 1, so that it is done, failed or spoiled.
    fn own_calls(&mut self) {
        self.start(Shape { tiles: 2, side: 2 }, 3);
        for task in 0..5 {
            for mark in [DONE, FAILED, SPOILED] {
                let link = table(2).links[task].first().copied();
                if mark == SPOILED && link.is_none() {
                    continue;
                }
                let other = if task == 4 { 3 } else { 4 };
                let spoiler = if mark == SPOILED { link } else { None };
                let mut lent = self.marked(|number| match number {
                    number if number == task || number == other => WAITING,
                    number if Some(number) == spoiler => FAILED,
                    _ => DONE,
                });
                if mark == FAILED {
                    lent.lists.fill(0);
                    lent.matrix = FAILING.concat();
                }
                lent.run_number = 5 + task as u32 % 3;
                lent.records[task] = Record { worker: 2, took: 3, ended: 4, ..lent.records[task] };
                lent.records[other] = Record { worker: 1, took: 5, ended: 2, ..lent.records[other] };
                self.lend(&lent);
                self.take(0, other as u64);
                self.take(1, task as u64);
                self.work(1);
                self.run(1);
                self.work(0);
                self.take(1, task as u64);
                self.work(1);
                self.run(2);
            }
        }
    }

    // ---- refusal 4

    /// Lends the state with a run's number, and makes all calls.
    fn with_number(&mut self, lent: &Lent, run_number: u32) {
        let mut lent = lent.clone();
        lent.run_number = run_number;
        self.lend(&lent);
        self.all_calls();
    }

    /// The run's number at its most, and one above it.
    fn at_and_above_number(&mut self, lent: &Lent) {
        let most = largest_number(self.shape, self.workers, lent) as u32;
        for run_number in [most, most + 1] {
            self.with_number(lent, run_number);
        }
    }

    /// One task in each stand, the others waiting, or finished in one way.
    fn limits_of_the_number(&mut self) {
        for (place, (mark, column)) in STANDS.into_iter().enumerate() {
            self.start(Shape { tiles: 2, side: [3, 1 + column as usize][place % 2] }, 2);
            for (task, others) in [(0, WAITING), (place % 5, [DONE, FAILED, SPOILED][place % 3])] {
                let mut lent = self.marked(|other| if other == task { mark } else { others });
                lent.workers[0].column = column;
                self.at_and_above_number(&lent);
            }
        }
        // Tasks in all stands.
        self.start(Shape { tiles: 3, side: 3 }, 4);
        let marks = [DONE, TAKEN, FAILED, TAKEN, SPOILED, WAITING, TAKEN];
        let mut lent = self.marked(|task| *marks.get(task).unwrap_or(&WAITING));
        for column in [0, 1, 2] {
            lent.workers[column as usize].column = column;
        }
        self.at_and_above_number(&lent);
    }

    /// Two tasks held at different columns, in either order; and a worker that is idle, or beyond W, with the task that another one holds and
    /// a higher column.
    fn number_by_its_workers(&mut self) {
        self.start(Shape { tiles: 2, side: 3 }, 3);
        for columns in [[0, 2], [2, 0], [1, 2]] {
            let mut lent = self.marked(|task| [DONE, TAKEN, TAKEN, WAITING, WAITING][task]);
            lent.workers[0].column = columns[0];
            lent.workers[1].column = columns[1];
            lent.workers.swap(1, 2);
            self.at_and_above_number(&lent);
        }
        for (worker, busy) in [(0, false), (2, false), (3, true)] {
            let mut lent = self.marked(|task| [DONE, TAKEN, WAITING, WAITING, WAITING][task]);
            lent.workers.swap(0, 1);
            lent.workers[1].column = 1;
            lent.workers[worker] = Worker { busy, task: 1, column: 2 };
            self.at_and_above_number(&lent);
        }
    }

    /// A task above 255 at a later column, which N = 9 has.
    fn number_of_a_high_task(&mut self) {
        self.start(Shape { tiles: 9, side: 2 }, 2);
        let mut lent = self.marked(|task| if task == 258 { TAKEN } else { DONE });
        lent.workers[0].column = 1;
        self.at_and_above_number(&lent);
    }

    /// Run's numbers whose low bytes would pass, the largest, and none.
    fn wide_run_numbers(&mut self) {
        self.start(Shape { tiles: 2, side: 1 }, 2);
        let lent = self.marked(|task| [DONE, TAKEN, WAITING, WAITING, WAITING][task]);
        for wide in WIDE {
            self.with_number(&lent, wide);
        }
        self.with_number(&lent, 0);
        let fresh = self.marked(|_| WAITING);
        for run_number in [0, 1, u32::MAX] {
            self.with_number(&fresh, run_number);
        }
        let mut full = self.marked(|_| DONE);
        full.records[3] = Record { took: u32::MAX, ended: u32::MAX, ..full.records[3] };
        self.with_number(&full, u32::MAX);
        self.outcome();
        // Above 255.
        self.start(Shape { tiles: 7, side: 1 }, 2);
        let mut lent = self.marked(|task| if task == 139 { TAKEN } else { DONE });
        self.at_and_above_number(&lent);
        lent.records[20] = Record { took: 257, ended: 258, ..lent.records[20] };
        for run_number in [258, 257, 256] {
            self.with_number(&lent, run_number);
        }
    }

    /// A task of N = 2 in a stand, the others done; where it isn't taken, worker 0 holds task 4.
    fn in_stand(&mut self, task: usize, mark: u8, column: u8) -> Lent {
        let held = if mark == TAKEN { task } else { 4 };
        let mut lent = self.marked(|other| match other {
            other if other == held => TAKEN,
            other if other == task => mark,
            _ => DONE,
        });
        lent.workers[0].column = column;
        lent
    }

    /// A record in each stand with one of its two call numbers at the run's number, just above it, and above it by higher bytes alone.
    fn limits_of_call_numbers(&mut self) {
        for (place, (mark, column)) in STANDS.into_iter().enumerate() {
            self.start(Shape { tiles: 2, side: 3 }, 2);
            let task = [2, 1, 3, 0, 3, 1, 2][place];
            let mut lent = self.in_stand(task, mark, column);
            lent.run_number = [1, 3, 9, 0, 12, 7, 5][place];
            for which in [0, 1] {
                let wide = WIDE[(place / 2 + which) % 4];
                for more in [0, 1, if place % 2 == 0 { wide } else { u32::MAX - lent.run_number }] {
                    let mut lent = lent.clone();
                    let number = lent.run_number.saturating_add(more);
                    match which {
                        0 => lent.records[task].took = number,
                        _ => lent.records[task].ended = number,
                    }
                    self.lend(&lent);
                    self.all_calls();
                }
            }
        }
    }

    /// A record in each stand that names worker W − 1, W, and others beyond it.
    fn limits_of_workers(&mut self) {
        for (place, (mark, column)) in STANDS.into_iter().enumerate() {
            let workers = [2, 1, 3, 32, 2, 5, 4][place];
            self.start(Shape { tiles: 2, side: 3 }, workers);
            let task = [1, 0, 2, 3, 3, 2, 1][place];
            let mut lent = self.in_stand(task, mark, column);
            for worker in [workers - 1, workers, if place % 2 == 0 { 255 } else { 128 }] {
                lent.records[task].worker = worker as u8;
                self.lend(&lent);
                self.all_calls();
            }
        }
    }
}
