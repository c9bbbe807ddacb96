//! Writes scripts for the player by playing them: the edges of what calls are told and answer, walks through random
//! and crafted systems, the parts of the diagonal tile, tied pivots, call numbers, odd and damaged states, wrong sizes and lengths.

use crate::crafted::{all_crafted, Crafted};
use crate::families::{not_finite, numbers, FAMILIES};
use crate::lent::{Lent, SLOTS};
use crate::oddities::{before_opening, damage, odd_state, DAMAGES};
use crate::tasks::table;
use crate::tile::Shape;
use crate::writer::{Options, Writer};

/// The bytes of the lend line of a shape with its right lengths.
fn lend_bytes(shape: Shape) -> usize {
    let count = table(shape.tiles).tasks.len();
    3 + 40 + 16 * shape.matrix_length() + 2 * shape.lists_length() + 32 * count + 8 * SLOTS
}

/// The whole script.
pub fn script(options: Options) -> String {
    let mut writer = Writer::new(options);
    writer.nothing_lent();
    writer.large_systems();
    writer.edges();
    writer.crafted_systems();
    writer.diagonal_parts();
    writer.tied_pivots();
    writer.call_numbers();
    writer.damaged_systems();
    while !writer.is_full() {
        match writer.rng.below(10) {
            0..=4 => writer.random_system(),
            5..=7 => writer.odd_system(),
            8 => writer.damaged_system(),
            _ => writer.wrong_lengths(),
        }
    }
    writer.script
}

// ---- the kinds of systems

impl Writer {
    /// Calls before anything is lent.
    fn nothing_lent(&mut self) {
        self.lend(&Lent::nothing());
        self.open();
        self.take(0, 0);
        self.column(0);
        self.run(0);
        self.solve(&[]);
        self.outcome();
        self.wrong_sizes();
    }

    /// Systems whose lend line is long: as many as the room allows, a second one of N = t = 16 where half of it stays free.
    fn large_systems(&mut self) {
        let full = Shape { tiles: 16, side: 16 };
        for (family, lends) in [(0, 1), (1, 2)] {
            if self.spare() > lends * lend_bytes(full) + 60_000 {
                let workers = self.rng.between(3, 32);
                self.walk_system(full, workers, family, 40);
            }
        }
        for (tiles, side) in [(16, 1), (1, 16), (4, 4), (8, 2), (2, 8), (5, 3), (3, 5), (7, 1), (1, 9)] {
            let shape = Shape { tiles, side };
            if self.spare() > 3 * lend_bytes(shape) {
                let workers = self.rng.pick(&[1, 2, 5, 16, 32]);
                let family = self.rng.pick(&[0, 0, 1, 7]);
                self.walk_system(shape, workers, family, 60);
            }
        }
    }

    fn crafted_systems(&mut self) {
        for crafted in all_crafted() {
            if self.is_full() {
                return;
            }
            self.crafted_system(&crafted);
        }
    }

    fn crafted_system(&mut self, crafted: &Crafted) {
        let workers = self.rng.between(1, 4);
        self.start(crafted.shape, workers);
        let lent = before_opening(&mut self.rng, crafted.shape, workers, crafted.matrix.clone());
        self.lend(&lent);
        self.open();
        self.walk(30, 8);
        self.run(u64::MAX);
        self.outcome();
        for right in &crafted.rights {
            self.solve(right);
        }
        self.random_solves(1);
    }

    /// Opening, a random walk of accepted and refused calls, a run to the end, solves.
    fn walk_system(&mut self, shape: Shape, workers: usize, family: usize, steps: usize) {
        self.start(shape, workers);
        let matrix = numbers(&mut self.rng, family, shape.matrix_length());
        let lent = before_opening(&mut self.rng, shape, workers, matrix);
        self.lend(&lent);
        if self.rng.percent(30) {
            self.wrong_sizes();
        }
        self.open();
        self.walk(steps, 12);
        if self.rng.percent(70) {
            self.run(u64::MAX);
        } else {
            let budget = self.rng.below(60) as u64;
            self.run(budget);
        }
        self.outcome();
        let solves = if shape.rows() > 16 { 1 } else { 2 };
        self.random_solves(solves);
        self.refused();
    }

    fn random_system(&mut self) {
        let shape = self.small_shape();
        let workers = self.rng.pick(&[1, 1, 2, 2, 3, 4, 7, 32]);
        let family = self.rng.below(FAMILIES);
        let steps = self.rng.between(10, 60);
        self.walk_system(shape, workers, family, steps);
    }

    fn odd_system(&mut self) {
        let shape = self.small_shape();
        let workers = self.rng.pick(&[1, 2, 3, 4, 5]);
        self.start(shape, workers);
        let family = self.rng.below(FAMILIES);
        let all_finished = self.rng.percent(35);
        let lent = odd_state(&mut self.rng, shape, workers, family, all_finished);
        self.lend(&lent);
        self.random_solves(1);
        self.columns_of_all();
        let steps = self.rng.between(6, 30);
        self.walk(steps, 15);
        let budget = self.rng.pick(&[0, 1, 5, 1000, u64::MAX]);
        self.run(budget);
        self.outcome();
        self.random_solves(2);
    }

    /// Each damage by itself, on states with tasks under work.
    fn damaged_systems(&mut self) {
        for which in 0..3 * DAMAGES {
            if self.is_full() {
                return;
            }
            let side = 1 + which % 2;
            self.start(Shape { tiles: 2, side }, 3);
            let family = self.rng.pick(&[0, 1, 6]);
            let mut lent = odd_state(&mut self.rng, self.shape, 3, family, false);
            damage(&mut self.rng, self.shape, 3, &mut lent, which % DAMAGES);
            self.lend(&lent);
            self.columns_of_all();
            let task = self.rng.below(5) as u64;
            self.take(0, task);
            self.run(1);
            self.random_solves(1);
        }
    }

    /// A state with one or two damages, and any calls on it.
    fn damaged_system(&mut self) {
        let shape = self.small_shape();
        let workers = self.rng.pick(&[1, 2, 3, 4, 5]);
        self.start(shape, workers);
        let family = self.rng.pick(&[0, 1, 2, 6]);
        let all_finished = self.rng.percent(35);
        let mut lent = odd_state(&mut self.rng, shape, workers, family, all_finished);
        for _ in 0..self.rng.pick(&[1, 1, 1, 2]) {
            let which = self.rng.below(DAMAGES);
            damage(&mut self.rng, shape, workers, &mut lent, which);
        }
        self.lend(&lent);
        for _ in 0..self.rng.between(3, 7) {
            self.any_call();
        }
        if self.rng.percent(60) {
            self.open();
            self.walk(5, 10);
        }
    }

    /// Buffers of lengths that fit no sizes, or other sizes than those told.
    fn wrong_lengths(&mut self) {
        let shape = self.small_shape();
        let workers = self.rng.between(1, 4);
        self.start(shape, workers);
        let mut lent = odd_state(&mut self.rng, shape, workers, 0, false);
        match self.rng.below(8) {
            0 => lent.matrix.push(1.0),
            1 => drop(lent.matrix.pop()),
            2 => lent.lists.push(0),
            3 => drop(lent.lists.pop()),
            4 => lent.records.push(lent.records[0]),
            5 => drop(lent.records.pop()),
            6 => lent.matrix.clear(),
            _ => {}
        }
        if self.rng.percent(30) && !lent.matrix.is_empty() {
            lent.matrix[0] = not_finite(&mut self.rng);
        }
        self.lend(&lent);
        self.open();
        for _ in 0..self.rng.between(2, 5) {
            self.any_call();
        }
        self.wrong_solve_lengths();
    }

    fn small_shape(&mut self) -> Shape {
        let room = self.spare() / 10;
        loop {
            let (tiles, side) = match self.rng.below(20) {
                0..=2 => (1, self.rng.between(1, 4)),
                3..=8 => (2, self.rng.between(1, 3)),
                9..=13 => (3, self.rng.between(1, 2)),
                14 => (4, self.rng.between(1, 2)),
                15 => (self.rng.between(2, 3), self.rng.between(3, 4)),
                16 => (self.rng.between(4, 6), 1),
                17 => (1, self.rng.between(5, 8)),
                18 => (self.rng.between(1, 8), self.rng.between(1, 2)),
                _ => (1, 1),
            };
            let shape = Shape { tiles, side };
            if shape.rows() <= 2 || lend_bytes(shape) < room {
                return shape;
            }
        }
    }
}
