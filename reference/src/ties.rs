//! The calls of a script about tied pivots: systems with ties from their opening, tie sums that are there before a column is called for,
//! and sums at and just above what refusal 4 lets pass.

use crate::checks::largest_sum;
use crate::crafted::{all_tied, ties};
use crate::families::numbers;
use crate::lent::{Lent, Worker, DONE, FAILED, SPOILED, TAKEN, WAITING};
use crate::oddities::set_sums;
use crate::parts::ORDERS;
use crate::tile::Shape;
use crate::writer::Writer;

impl Writer {
    pub fn tied_pivots(&mut self) {
        self.tied_systems();
        self.grown_sums();
        self.limits_of_sums();
        self.limits_when_finished();
        self.sums_by_their_worker();
        self.wide_sums();
    }

    // ---- sums

    /// Systems with ties, task by task, and the T-2 and T-3 of stage 0 in another order.
    fn tied_systems(&mut self) {
        let mut systems: Vec<(Shape, Vec<f64>)> =
            ties().into_iter().map(|crafted| (crafted.shape, crafted.matrix)).collect();
        for (tiles, side) in [(2, 2), (2, 3), (3, 2), (1, 5)] {
            let shape = Shape { tiles, side };
            systems.push((shape, numbers(&mut self.rng, 2, shape.matrix_length())));
        }
        for (place, (shape, matrix)) in systems.iter().enumerate() {
            self.open_system(*shape, matrix);
            for task in 0..self.player.lent.records.len() {
                self.take(0, task as u64);
                self.work(0);
            }
            self.stage_0(*shape, matrix, ORDERS[place % 4]);
        }
    }

    /// Each task of N = 2 in the middle and at its last column, with the most ties so far and others to come; to its end by columns or by a
    /// run, and a solve.
    fn grown_sums(&mut self) {
        self.start(Shape { tiles: 2, side: 3 }, 2);
        for task in 0..5 {
            for column in [1, 2] {
                let mut lent = self.marked(|other| if other == task { TAKEN } else { DONE });
                lent.matrix = numbers(&mut self.rng, 2, 36);
                lent.workers[0].column = column;
                set_sums(&mut self.rng, self.shape, 2, &mut lent);
                lent.records[task].tie_sum = 3 * column as u16;
                self.lend(&lent);
                if (task as u8 + column) % 2 == 0 {
                    self.work(0);
                }
                self.run(u64::MAX);
                self.random_solves(1);
            }
        }
    }

    // ---- refusal 4

    /// The task's tie sum at its most, and one above it.
    fn at_and_above(&mut self, lent: &Lent, task: usize) {
        let most = largest_sum(self.shape, self.workers, lent, task) as u16;
        for tie_sum in [most, most + 1] {
            self.with_sum(lent, task, tie_sum);
        }
    }

    /// Lends the state with a tie sum of the task, and makes every call but an opening.
    fn with_sum(&mut self, lent: &Lent, task: usize, tie_sum: u16) {
        let mut lent = lent.clone();
        lent.records[task].tie_sum = tie_sum;
        self.lend(&lent);
        self.outcome();
        self.run(0);
        let right = numbers(&mut self.rng, 1, self.shape.rows());
        self.solve(&right);
        let ready = self.ready_tasks();
        self.take(1, ready.first().map_or(0, |&task| task as u64));
        self.column(0);
    }

    /// A task of each kind waiting, taken at column 0, in the middle and at t − 1, done, failed and spoiled; the tasks before it are done,
    /// those after it wait, and worker 0 holds a task.
    fn limits_of_sums(&mut self) {
        for (mark, side, column) in [
            (WAITING, 2, 0),
            (TAKEN, 2, 0),
            (TAKEN, 3, 1),
            (TAKEN, 2, 1),
            (DONE, 2, 0),
            (FAILED, 2, 0),
            (SPOILED, 2, 0),
        ] {
            self.start(Shape { tiles: 2, side }, 2);
            for task in 0..4 {
                let held = if mark == TAKEN { task } else { task + 1 };
                let mut lent = self.marked(|other| match other {
                    other if other == held => TAKEN,
                    other if other == task => mark,
                    other if other < task => DONE,
                    _ => WAITING,
                });
                lent.workers[0].column = column;
                self.at_and_above(&lent, task);
            }
        }
    }

    /// A T-3 and a T-4 done, failed and spoiled, all others done.
    fn limits_when_finished(&mut self) {
        self.start(Shape { tiles: 2, side: 2 }, 2);
        for task in [2, 3] {
            for mark in [DONE, FAILED, SPOILED] {
                let lent = self.marked(|other| if other == task { mark } else { DONE });
                self.at_and_above(&lent, task);
            }
        }
    }

    /// T-2 and T-3 held by two workers at different columns, in either order; and a worker that is idle, or beyond W, with the task that
    /// another one holds and a higher column.
    fn sums_by_their_worker(&mut self) {
        self.start(Shape { tiles: 2, side: 2 }, 3);
        for turn in 0..4 {
            let mut lent = self.marked(|task| [DONE, TAKEN, TAKEN, WAITING, WAITING][task]);
            if turn % 2 == 1 {
                lent.workers.swap(0, 1);
            }
            lent.workers[turn / 2].column = 1;
            self.at_and_above(&lent, 1);
            self.at_and_above(&lent, 2);
        }
        for (worker, busy) in [(0, false), (2, false), (3, true)] {
            let mut lent = self.marked(|task| [DONE, TAKEN, WAITING, WAITING, WAITING][task]);
            lent.workers.swap(0, 1);
            lent.workers[worker] = Worker { busy, task: 1, column: 1 };
            self.at_and_above(&lent, 1);
        }
    }

    /// Sums of more than 8 bits: those that t = 16 lets pass, and those that only their low byte would.
    fn wide_sums(&mut self) {
        let most = all_tied(16);
        self.open_system(most.shape, &most.matrix);
        self.run(u64::MAX);
        self.outcome();
        self.random_solves(1);

        self.start(Shape { tiles: 1, side: 16 }, 2);
        for (mark, column) in [(DONE, 0), (TAKEN, 15)] {
            let mut lent = self.marked(|_| mark);
            lent.workers[0].column = column;
            self.at_and_above(&lent, 0);
        }
        let lent = self.marked(|_| FAILED);
        self.with_sum(&lent, 0, 256);

        self.start(Shape { tiles: 2, side: 1 }, 2);
        for mark in [WAITING, TAKEN, DONE, FAILED, SPOILED] {
            let lent = self.marked(|task| if task == 2 { mark } else { DONE });
            for tie_sum in [256, 257, 65535] {
                self.with_sum(&lent, 2, tie_sum);
            }
        }
    }
}
