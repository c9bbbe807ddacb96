//! The calls of a script about the two things that a diagonal tile holds: T-3 before and beside the T-2 of
//! its stage, states in which one task decides whether another is ready or spoiled, and elements that are
//! not finite in a part that a task does not use.

use crate::crafted::{couple_overflows, overflows};
use crate::families::{not_finite, numbers};
use crate::lent::{DONE, FAILED, SPOILED, TAKEN, WAITING};
use crate::oddities::before_opening;
use crate::tasks::table;
use crate::tile::Shape;
use crate::writer::Writer;

/// As many calls as a worker finds to make.
const ALL: usize = usize::MAX;

/// How worker 0, who does the T-2 of stage 0, and worker 1, who does its T-3, follow each other: a worker and
/// its calls, over and over. T-3 before T-2; turn about; T-2 inside T-3; T-3 inside T-2.
pub const ORDERS: [&[(usize, usize)]; 4] =
    [&[(1, ALL), (0, ALL)], &[(1, 1), (0, 1)], &[(1, 2), (0, ALL), (1, ALL)], &[(0, 2), (1, ALL), (0, ALL)]];

impl Writer {
    pub fn diagonal_parts(&mut self) {
        for crafted in overflows() {
            self.stage_0(crafted.shape, &crafted.matrix, ORDERS[0]);
        }
        for crafted in couple_overflows() {
            for order in ORDERS {
                self.stage_0(crafted.shape, &crafted.matrix, order);
            }
        }
        for (tiles, order) in [(2, 1), (2, 2), (2, 3), (3, 1), (3, 2), (3, 3)] {
            let shape = Shape { tiles, side: 2 };
            let matrix = numbers(&mut self.rng, 0, shape.matrix_length());
            self.stage_0(shape, &matrix, ORDERS[order]);
        }
        for (tiles, side) in [(2, 1), (2, 2), (3, 1)] {
            self.couples_first(Shape { tiles, side });
        }
        self.single_links();
        self.whole_tiles();
    }

    pub fn open_system(&mut self, shape: Shape, matrix: &[f64]) {
        self.start(shape, 2);
        let lent = before_opening(&mut self.rng, shape, 2, matrix.to_vec());
        self.lend(&lent);
        self.open();
    }

    /// All columns of the task that a worker holds.
    pub fn work(&mut self, worker: usize) {
        while self.player.lent.workers[worker].busy && self.column(worker as u64) {}
    }

    /// T-2 and T-3 of stage 0 in the order given, then a run.
    pub fn stage_0(&mut self, shape: Shape, matrix: &[f64], order: &[(usize, usize)]) {
        if self.is_full() || shape.tiles == 1 {
            return;
        }
        self.open_system(shape, matrix);
        self.take(0, 0);
        self.work(0);
        loop {
            let before = self.calls;
            for &(worker, calls) in order {
                let mut left = calls;
                while left > 0 && self.turn(worker) {
                    left -= 1;
                }
            }
            if self.calls == before {
                break;
            }
        }
        self.run(u64::MAX);
        self.outcome();
    }

    /// Worker 0's next call for a T-2 of stage 0, worker 1's for a T-3; false where there is none.
    fn turn(&mut self, worker: usize) -> bool {
        if self.player.lent.workers[worker].busy {
            return self.column(worker as u64);
        }
        let records = &self.player.lent.records;
        let wanted = |&task: &usize| records[task].k == 0 && records[task].kind == [2, 3][worker];
        match self.ready_tasks().into_iter().find(wanted) {
            Some(task) => self.take(worker as u64, task as u64),
            None => false,
        }
    }

    /// A random system to its end, a T-3 wherever one is ready; at every take worker 1 asks for each task
    /// that waits and is not ready.
    fn couples_first(&mut self, shape: Shape) {
        let matrix = numbers(&mut self.rng, 0, shape.matrix_length());
        self.open_system(shape, &matrix);
        self.ask_unready();
        while !self.is_full() {
            let records = &self.player.lent.records;
            let ready = self.ready_tasks();
            let Some(task) = ready.into_iter().min_by_key(|&task| (records[task].kind != 3, task)) else {
                break;
            };
            self.take(0, task as u64);
            self.ask_unready();
            self.work(0);
        }
        self.outcome();
        self.random_solves(1);
    }

    fn ask_unready(&mut self) {
        let ready = self.ready_tasks();
        for task in 0..self.player.lent.records.len() {
            if self.player.lent.records[task].mark == WAITING && !ready.contains(&task) {
                self.take(1, task as u64);
            }
        }
    }

    /// Each task of N = 3 with one of those linked to it unfinished, or failed or spoiled, and all others
    /// done; then with those linked to it done, and all others unfinished, or failed or spoiled.
    fn single_links(&mut self) {
        self.start(Shape { tiles: 3, side: 1 }, 2);
        let table = table(3);
        for task in 0..table.tasks.len() {
            let links = &table.links[task];
            for (place, &link) in links.iter().enumerate() {
                let unfinished = [WAITING, TAKEN][place % 2];
                self.ask_marked(task, |other| if other == link { unfinished } else { DONE });
                for ended in [FAILED, SPOILED] {
                    self.work_marked(task, |other| if other == link { ended } else { DONE });
                }
            }
            self.ask_marked(task, |other| if links.contains(&other) { DONE } else { WAITING });
            let ended = |other| if links.contains(&other) { DONE } else { [FAILED, SPOILED][other % 2] };
            self.work_marked(task, ended);
        }
    }

    /// Worker 1 asks for the task, which waits; the others are marked as told.
    fn ask_marked(&mut self, task: usize, mark: impl Fn(usize) -> u8) {
        let lent = self.marked(|other| if other == task { WAITING } else { mark(other) });
        self.lend(&lent);
        self.take(1, task as u64);
    }

    /// Worker 0, who holds the task, does its first column; the others are marked as told.
    fn work_marked(&mut self, task: usize, mark: impl Fn(usize) -> u8) {
        let lent = self.marked(|other| if other == task { TAKEN } else { mark(other) });
        self.lend(&lent);
        self.column(0);
    }

    /// T-2(0,1) and T-3(0,1) under work side by side, with one element that is not finite: below, on and
    /// above the diagonal of tile (0,0), and in each of the other tiles.
    fn whole_tiles(&mut self) {
        let shape = Shape { tiles: 2, side: 2 };
        self.start(shape, 2);
        for (i, j, row, column) in
            [(0, 0, 1, 0), (0, 0, 0, 0), (0, 0, 1, 1), (0, 0, 0, 1), (0, 1, 1, 0), (1, 0, 0, 1), (1, 1, 1, 0)]
        {
            let mut lent = self.marked(|task| [DONE, TAKEN, TAKEN, WAITING, WAITING][task]);
            lent.matrix[shape.element(i, j, row, column)] = not_finite(&mut self.rng);
            self.lend(&lent);
            self.columns_of_all();
        }
    }
}
