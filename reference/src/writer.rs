//! A script in the making: its lines, played as they are written, and single steps of a walk.

use crate::calls::is_ready;
use crate::cases::random_lists;
use crate::families::{not_finite, number, numbers};
use crate::lent::{Lent, Sizes, Worker, IDLE, SLOTS, TAKEN};
use crate::oddities::record_of;
use crate::rng::Rng;
use crate::script::{call_line, lend_line, solve_line, Player, COLUMN, OPENING, OUTCOME, RUN, TAKE};
use crate::tasks::table;
use crate::tile::Shape;

pub struct Options {
    pub seed: u64,
    pub calls: usize,
    pub max_bytes: usize,
}

/// A script in the making, the player that follows it, and the sizes of the system at hand.
pub struct Writer {
    pub rng: Rng,
    pub player: Player,
    pub script: String,
    pub calls: usize,
    pub options: Options,
    pub shape: Shape,
    pub workers: usize,
}

// ---- lines

impl Writer {
    pub fn new(options: Options) -> Writer {
        Writer {
            rng: Rng::new(options.seed),
            player: Player::new(),
            script: String::new(),
            calls: 0,
            options,
            shape: Shape { tiles: 1, side: 1 },
            workers: 1,
        }
    }

    /// The calls asked for are written, or no room is left for another small system.
    pub fn is_full(&self) -> bool {
        self.calls >= self.options.calls || self.script.len() + 8000 > self.options.max_bytes
    }

    /// Bytes that lend lines may still use, past what the missing calls need.
    pub fn spare(&self) -> usize {
        let used = self.script.len() + self.options.calls.saturating_sub(self.calls) * 100;
        self.options.max_bytes.saturating_sub(used)
    }

    /// Adds a line and plays it: its answer. A line that would pass the greatest size is left out.
    fn add(&mut self, line: &str) -> Option<String> {
        if self.script.len() + line.len() + 1 > self.options.max_bytes {
            return None;
        }
        self.script.push_str(line);
        self.script.push('\n');
        Some(self.player.play(line))
    }

    /// Adds a call, where there is room for it; true where it was accepted.
    pub fn say(&mut self, line: String) -> bool {
        match self.add(&line) {
            Some(answer) => {
                self.calls += 1;
                answer.starts_with("00")
            }
            None => false,
        }
    }

    /// Adds a lend line, which is no call.
    pub fn lend(&mut self, lent: &Lent) {
        self.add(&lend_line(lent));
    }

    pub fn told(&self) -> Sizes {
        Sizes { tiles: self.shape.tiles as u64, side: self.shape.side as u64, workers: self.workers as u64 }
    }

    pub fn say_with(&mut self, command: u64, told: Sizes, more: &[u64]) -> bool {
        let mut fields = vec![told.tiles, told.side, told.workers];
        fields.extend_from_slice(more);
        self.say(call_line(command, &fields))
    }

    pub fn open(&mut self) -> bool {
        self.say_with(OPENING, self.told(), &[])
    }

    pub fn take(&mut self, worker: u64, task: u64) -> bool {
        self.say_with(TAKE, self.told(), &[worker, task])
    }

    pub fn column(&mut self, worker: u64) -> bool {
        self.say_with(COLUMN, self.told(), &[worker])
    }

    pub fn run(&mut self, budget: u64) -> bool {
        self.say_with(RUN, self.told(), &[budget])
    }

    pub fn solve(&mut self, right: &[f64]) -> bool {
        let answers = vec![7.0; self.shape.rows()];
        self.say(solve_line(self.told(), right, &answers))
    }

    pub fn outcome(&mut self) -> bool {
        self.say_with(OUTCOME, self.told(), &[])
    }

    pub fn start(&mut self, shape: Shape, workers: usize) {
        self.shape = shape;
        self.workers = workers;
    }

    /// A state of these marks, with entries that fit and no calls counted; workers from 0 on hold the taken tasks and stand at column 0.
    pub fn marked(&mut self, mark: impl Fn(usize) -> u8) -> Lent {
        let count = table(self.shape.tiles).tasks.len();
        let mut workers = [IDLE; SLOTS];
        for (worker, task) in (0..count).filter(|&task| mark(task) == TAKEN).enumerate() {
            workers[worker] = Worker { busy: true, task: task as u16, column: 0 };
        }
        Lent {
            matrix: numbers(&mut self.rng, 0, self.shape.matrix_length()),
            lists: random_lists(&mut self.rng, self.shape),
            records: (0..count).map(|task| record_of(self.shape, task, mark(task))).collect(),
            count: self.workers as u64,
            run_number: 0,
            workers,
        }
    }
}

// ---- steps

impl Writer {
    pub fn busy_workers(&self) -> Vec<usize> {
        (0..self.workers).filter(|&worker| self.player.lent.workers[worker].busy).collect()
    }

    pub fn idle_workers(&self) -> Vec<usize> {
        (0..self.workers).filter(|&worker| !self.player.lent.workers[worker].busy).collect()
    }

    /// The ready tasks, where the records lent have the right count.
    pub fn ready_tasks(&self) -> Vec<usize> {
        let records = &self.player.lent.records;
        if records.len() != table(self.shape.tiles).tasks.len() {
            return Vec::new();
        }
        (0..records.len()).filter(|&task| is_ready(self.shape, records, task)).collect()
    }

    /// Steps of any workers in any order, the given share of a hundred refused or beside the way.
    pub fn walk(&mut self, steps: usize, share: usize) {
        for _ in 0..steps {
            if self.is_full() {
                return;
            }
            if self.rng.percent(share) {
                self.any_call();
            } else if !self.step() {
                return;
            }
        }
    }

    /// One take or column that should be accepted; false where there is none.
    pub fn step(&mut self) -> bool {
        let busy = self.busy_workers();
        let idle = self.idle_workers();
        let ready = self.ready_tasks();
        let may_take = !idle.is_empty() && !ready.is_empty();
        if busy.is_empty() && !may_take {
            return false;
        }
        if may_take && (busy.is_empty() || self.rng.percent(40)) {
            let worker = self.rng.pick(&idle) as u64;
            let task = self.rng.pick(&ready) as u64;
            self.take(worker, task)
        } else {
            let worker = self.rng.pick(&busy) as u64;
            self.column(worker)
        }
    }

    /// One column of every worker that is busy now.
    pub fn columns_of_all(&mut self) {
        for worker in self.busy_workers() {
            self.column(worker as u64);
        }
    }

    pub fn any_call(&mut self) {
        match self.rng.below(10) {
            0..=4 => self.refused(),
            5 => {
                let budget = self.rng.below(7) as u64;
                self.run(budget);
            }
            6 => self.random_solves(1),
            7 => self.wrong_sizes(),
            8 => drop(self.outcome()),
            _ => drop(self.step()),
        }
    }

    /// A take or column that names a worker or a task it should not.
    pub fn refused(&mut self) {
        let count = table(self.shape.tiles).tasks.len();
        let worker = self.rng.below(self.workers) as u64;
        let task = self.rng.below(count) as u64;
        let beyond = self.rng.pick(&[self.workers as u64, 32, 65536, 1 << 32, u64::MAX]);
        let no_task = self.rng.pick(&[count as u64, 65535, 65536, 1 << 32, u64::MAX]);
        match self.rng.below(8) {
            0 => self.take(beyond, task),
            1 => self.take(worker, no_task),
            2 => self.take(beyond, no_task),
            3 => self.column(beyond),
            4 => self.column(worker),
            5 => {
                let right = numbers(&mut self.rng, 1, self.shape.rows());
                self.solve(&right)
            }
            _ => self.take(worker, task),
        };
    }

    pub fn random_solves(&mut self, count: usize) {
        for _ in 0..count {
            let family = self.rng.pick(&[0, 0, 1, 2, 3, 4, 7]);
            let mut right = numbers(&mut self.rng, family, self.shape.rows());
            if self.rng.percent(12) {
                let place = self.rng.below(right.len());
                right[place] = not_finite(&mut self.rng);
            }
            if self.rng.percent(10) {
                self.wrong_solve_lengths();
            } else {
                self.solve(&right);
            }
        }
    }

    pub fn wrong_solve_lengths(&mut self) {
        let rows = self.shape.rows();
        let (long, short) = (rows + 1, rows - 1);
        let (right, answers) =
            self.rng.pick(&[(long, rows), (rows, short), (short, short), (0, rows), (rows, long)]);
        let mut rights = numbers(&mut self.rng, 0, right);
        if right > 0 && self.rng.percent(30) {
            rights[0] = number(&mut self.rng, 3);
        }
        self.say(solve_line(self.told(), &rights, &vec![7.0; answers]));
    }

    /// Each kind of call told sizes out of range, or in range but not those of the buffers.
    pub fn wrong_sizes(&mut self) {
        let mut told = self.told();
        let wrong = self.rng.pick(&[0, 17, 33, 256, 1 << 32, u64::MAX]);
        match self.rng.below(7) {
            0 | 1 => told.tiles = wrong,
            2 | 3 => told.side = wrong,
            4 => told.workers = self.rng.pick(&[0, 33, 1 << 32, u64::MAX]),
            5 => {
                told.tiles = self.rng.between(1, 16) as u64;
                told.side = self.rng.between(1, 16) as u64;
            }
            _ => told.workers = self.rng.between(1, 32) as u64,
        }
        let worker = self.rng.below(self.workers) as u64;
        match self.rng.below(6) {
            0 if told.workers != self.workers as u64 || told.tiles > 16 || told.side > 16 => {
                self.say_with(OPENING, told, &[]);
            }
            0 | 1 => drop(self.say_with(TAKE, told, &[worker, 0])),
            2 => drop(self.say_with(COLUMN, told, &[worker])),
            3 => drop(self.say_with(RUN, told, &[3])),
            4 => {
                let right = numbers(&mut self.rng, 1, self.shape.rows());
                let answers = vec![7.0; self.shape.rows()];
                self.say(solve_line(told, &right, &answers));
            }
            _ => drop(self.say_with(OUTCOME, told, &[])),
        }
    }
}
