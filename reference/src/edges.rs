//! The calls of a script at the edges of what they are told and answer: numbers that need more than 8 or 32 bits, places above 255, two
//! refusals due at once, runs that end with their budget, and zeros that a backward row skips.

use std::cmp::Ordering;

use crate::checks::{largest_number, largest_sum};
use crate::families::{not_finite, number, numbers};
use crate::lent::{Lent, Record, Sizes, Worker, DONE, FAILED, SPOILED, TAKEN, WAITING};
use crate::numbers::{LARGEST, SMALLEST};
use crate::oddities::before_opening;
use crate::script::{lend_line, solve_line, COLUMN, OPENING, OUTCOME, RUN, SOLVE, TAKE};
use crate::tasks::table;
use crate::tile::Shape;
use crate::writer::Writer;

const CALLS: [u64; 6] = [OPENING, TAKE, COLUMN, RUN, SOLVE, OUTCOME];

/// A fault of the matrix that is refusal 4 in column, run and solve.
const ELEMENT: u8 = 0;

/// A tie sum above its most, which is refusal 4 wherever it is looked for.
const SUM: u8 = 0xFF;

/// The run's number above its most, a call number above the run's, or a worker that is W: refusal 4 wherever it is looked for.
const NUMBER: u8 = 0xFE;

/// Counts of workers lent, each with a W that differs from it.
const OTHER_COUNTS: [(u64, u64); 5] = [(3, 2), (3, 4), (0, 1), (33, 32), (u32::MAX as u64, 32)];

/// The faults that a call may meet, by the refusal's number, in the order in which they are looked for. A column's own tiles come last.
fn faults(command: u64) -> &'static [u8] {
    match command {
        OPENING => &[1, 2, 3],
        TAKE => &[1, 2, 4, SUM, NUMBER, 5, 6, 7],
        COLUMN => &[1, 2, 4, SUM, NUMBER, 5, ELEMENT],
        RUN => &[1, 2, 4, SUM, NUMBER, ELEMENT],
        SOLVE => &[1, 2, 4, SUM, NUMBER, ELEMENT, 8, 9, 10, 3, 11],
        _ => &[1, 2],
    }
}

/// A call, and what is lent to it.
#[derive(Clone)]
struct Call {
    command: u64,
    shape: Shape,
    lent: Lent,
    told: Sizes,
    worker: u64,
    task: u64,
    budget: u64,
    right: Vec<f64>,
    answers: Vec<f64>,
}

impl Writer {
    pub fn edges(&mut self) {
        self.two_faults();
        self.other_counts();
        self.told_other_workers();
        self.limits();
        self.other_sizes();
        self.wide_numbers();
        self.wide_budgets();
        self.exact_budgets();
        self.offsets();
        self.high_tasks();
        self.odd_outcomes();
        self.lower_parts();
        self.filled_lists();
        self.skipped_zeros();
    }

    fn say_call(&mut self, call: &Call) {
        let told = call.told;
        match call.command {
            TAKE => self.say_with(TAKE, told, &[call.worker, call.task]),
            COLUMN => self.say_with(COLUMN, told, &[call.worker]),
            RUN => self.say_with(RUN, told, &[call.budget]),
            SOLVE => self.say(solve_line(told, &call.right, &call.answers)),
            command => self.say_with(command, told, &[]),
        };
    }

    // ---- two refusals at once

    /// Each call with each fault, and with each two of them, these in two ways where they are few.
    fn two_faults(&mut self) {
        for command in CALLS {
            let faults = faults(command);
            let good = [self.accepted_call(command, 1), self.accepted_call(command, 2)];
            for first in 0..faults.len() {
                for second in first..faults.len() {
                    for way in 0..if first == second || faults.len() > 7 { 1 } else { 2 } {
                        let turn = first + second + way;
                        let mut call = good[usize::from(turn % 3 == 2)].clone();
                        call.budget = [0, 3][turn % 2];
                        self.add_fault(&mut call, faults[second], first + way);
                        if second != first {
                            self.add_fault(&mut call, faults[first], turn);
                        }
                        self.lend_other(&call.lent);
                        self.say_call(&call);
                    }
                }
            }
        }
    }

    /// Each call with a count of workers lent that is not W, by itself and beside each other fault.
    fn other_counts(&mut self) {
        for command in CALLS {
            let mut good = self.accepted_call(command, 1);
            let beside = faults(command).iter().map(|&fault| Some(fault));
            for (turn, fault) in [None; 5].into_iter().chain(beside).enumerate() {
                let mut call = good.clone();
                (call.lent.count, call.told.workers) = OTHER_COUNTS[turn % 5];
                if let Some(fault) = fault {
                    self.add_fault(&mut call, fault, turn);
                }
                self.lend_other(&call.lent);
                self.say_call(&call);
            }
            // W and the count beyond the slots: sizes go first.
            good.told.workers = 33;
            good.lent.count = 33;
            self.lend_other(&good.lent);
            self.say_call(&good);
        }
    }

    /// What was opened for one worker told that there are two, and the other way round.
    fn told_other_workers(&mut self) {
        for (lent, told) in [(1, 2), (2, 1)] {
            self.fresh(Shape { tiles: 2, side: 1 }, lent);
            let sizes = Sizes { workers: told, ..self.told() };
            self.say_with(RUN, sizes, &[u64::MAX]);
            self.say_with(TAKE, sizes, &[1, 0]);
            self.say_with(TAKE, sizes, &[0, 0]);
            self.take(0, 0);
            self.say_with(COLUMN, sizes, &[0]);
            self.say_with(OUTCOME, sizes, &[]);
            self.say_with(OPENING, sizes, &[]);
            self.run(u64::MAX);
            self.say(solve_line(sizes, &[1.0, 2.0], &[7.0; 2]));
            self.solve(&[1.0, 2.0]);
        }
    }

    /// Lends what is not lent yet.
    fn lend_other(&mut self, lent: &Lent) {
        if lend_line(lent) != self.player.state_line() {
            self.lend(lent);
        }
    }

    /// A call of N = 2 that nothing refuses. For a take and a column, task 0 is done, worker 0 holds task 1 and worker 1 may take task 2; a solve
    /// finds all tasks done; a run does so for t = 2.
    fn accepted_call(&mut self, command: u64, side: usize) -> Call {
        let shape = Shape { tiles: 2, side };
        self.start(shape, 3);
        let ended = command == SOLVE || command == RUN && side == 2;
        let mark = |task: usize| if ended { DONE } else { [DONE, TAKEN, WAITING, WAITING, WAITING][task] };
        let mut lent = self.marked(mark);
        let rows = shape.rows();
        for row in 0..rows {
            lent.matrix[shape.global(row, row)] = 2.0;
        }
        Call {
            command,
            shape,
            lent,
            told: self.told(),
            worker: if command == TAKE { 1 } else { 0 },
            task: 2,
            budget: 3,
            right: numbers(&mut self.rng, 0, rows),
            answers: vec![7.0; rows],
        }
    }

    fn add_fault(&mut self, call: &mut Call, fault: u8, way: usize) {
        let (shape, lent) = (call.shape, &mut call.lent);
        let last = shape.rows() - 1;
        match fault {
            ELEMENT => lent.matrix[shape.element(0, way % 2, 0, 0)] = not_finite(&mut self.rng),
            SUM => {
                let task = [4, 1, 0][way % 3];
                let most = largest_sum(shape, self.workers, lent, task) as u16;
                lent.records[task].tie_sum = most + 1;
            }
            NUMBER => match way % 4 {
                0 => lent.run_number = largest_number(shape, self.workers, lent) as u32 + 1,
                1 => lent.records[4].took = lent.run_number + 1,
                2 => lent.records[0].ended = lent.run_number + 1,
                _ => lent.records[1].worker = self.workers as u8,
            },
            1 => match way % 3 {
                0 => call.told.workers = 33,
                1 => call.told.tiles = 17,
                _ => call.told.side = 0,
            },
            2 => match way % if call.command == SOLVE { 5 } else { 3 } {
                0 => lent.lists.push(0),
                1 => lent.records.push(lent.records[0]),
                2 => lent.matrix.push(1.0),
                3 => drop(call.right.pop()),
                _ => call.answers.push(7.0),
            },
            3 if call.command == OPENING => lent.matrix[way % 4] = not_finite(&mut self.rng),
            3 => call.right[way % 2] = not_finite(&mut self.rng),
            4 => match way % 4 {
                0 => lent.records[4].mark = 5,
                1 => lent.lists[shape.entry(0, 1, 0)] = 1,
                2 => lent.records[3].j = 0,
                _ => lent.workers[2] = Worker { busy: true, task: 65535, column: 0 },
            },
            5 => call.worker = if way % 2 == 0 { 3 } else { 1 - call.worker },
            6 => call.task = [5, 1 << 32][way % 2],
            7 => call.task = [3, 1][way % 2],
            8 => lent.records[[3, 4][way % 2]].mark = WAITING,
            9 => lent.records[[2, 0][way % 2]].mark = FAILED,
            10 => lent.matrix[shape.global(last, last)] = [0.0, -0.0][way % 2],
            _ => {
                lent.matrix[shape.global(0, 0)] = SMALLEST;
                call.right[0] = LARGEST;
            }
        }
    }

    /// States at and just beyond what refusal 4 lets pass: columns, marks, tasks and entries.
    fn limits(&mut self) {
        let shape = Shape { tiles: 2, side: 2 };
        for beyond in [0, 1] {
            for which in 0..9 {
                self.start(shape, 3);
                let mut lent = self.marked(|task| [DONE, TAKEN, WAITING, WAITING, WAITING][task]);
                match which {
                    0 => lent.workers[0].column = 1 + beyond,
                    1 => lent.records[2].mark = SPOILED + beyond,
                    2 => lent.workers[2] = Worker { busy: beyond == 1, task: 5, column: 0 },
                    3 => lent.lists[shape.entry(1, 1, 1)] = 1 + beyond,
                    4 => lent.lists[shape.entry(1, 0, 0)] = 2 + beyond,
                    5 => lent.lists[shape.entry(0, 1, 1)] = beyond,
                    6 => lent.records[0].mark = DONE - beyond,
                    7 => lent.records[4].mark = WAITING + beyond,
                    _ => lent.workers[3 - beyond as usize] = lent.workers[0],
                }
                self.lend(&lent);
                self.take(1, 2);
                self.run(0);
                let right = numbers(&mut self.rng, 1, 4);
                self.solve(&right);
                self.column(0);
            }
        }
        // An idle worker and a slot beyond W that have a task, with an element of its tiles that is not finite.
        let mut lent = self.marked(|task| [DONE, TAKEN, WAITING, WAITING, WAITING][task]);
        lent.workers[2] = Worker { busy: false, ..lent.workers[0] };
        lent.workers[3] = lent.workers[0];
        lent.matrix[shape.element(0, 1, 0, 0)] = not_finite(&mut self.rng);
        self.lend(&lent);
        self.column(2);
        self.column(3);
        self.take(4, 2);
        self.column(0);
    }

    // ---- sizes beyond their range, and numbers of many bits

    /// Each call told that one of its sizes is 0, or just above its most.
    fn other_sizes(&mut self) {
        for wrong in [Sizes { tiles: 0, side: 0, workers: 0 }, Sizes { tiles: 17, side: 17, workers: 33 }] {
            for field in 0..3 {
                for command in CALLS {
                    let mut call = self.accepted_call(command, 2);
                    match field {
                        0 => call.told.tiles = wrong.tiles,
                        1 => call.told.side = wrong.side,
                        _ => call.told.workers = wrong.workers,
                    }
                    self.say_call(&call);
                }
            }
        }
    }

    /// Sizes, workers and tasks that are those of the state but for a bit above the lowest 8, 16 or 32.
    fn wide_numbers(&mut self) {
        self.start(Shape { tiles: 2, side: 2 }, 3);
        let lent = self.marked(|task| [DONE, TAKEN, WAITING, WAITING, WAITING][task]);
        self.lend(&lent);
        for more in [1 << 8, 1 << 16, 1 << 32] {
            for field in 0..3 {
                for command in CALLS {
                    let mut call = self.accepted_call(command, 2);
                    match field {
                        0 => call.told.tiles += more,
                        1 => call.told.side += more,
                        _ => call.told.workers += more,
                    }
                    self.say_call(&call);
                }
            }
            self.take(1 + more, 2);
            self.take(1, 2 + more);
            self.column(more);
        }
    }

    /// Budgets that are large, but not the largest.
    fn wide_budgets(&mut self) {
        for budget in [1 << 32, (1 << 32) + 3, 1 << 16, 256, 1 << 63, u64::MAX - 1] {
            self.fresh(Shape { tiles: 2, side: 1 }, 2);
            self.run(budget);
            self.outcome();
        }
    }

    /// Budgets of all the calls that are due, of one less, and none on what is finished.
    fn exact_budgets(&mut self) {
        for (tiles, side, workers) in [(1, 1, 1), (2, 1, 2), (2, 2, 1), (1, 3, 32), (3, 1, 3)] {
            let shape = Shape { tiles, side };
            let due = (table(tiles).tasks.len() * (side + 1)) as u64;
            self.fresh(shape, workers);
            self.run(due);
            self.run(0);
            self.run(1);
            self.fresh(shape, workers);
            self.run(due - 1);
            self.run(0);
            self.run(1);
            self.run(0);
        }
    }

    /// A system of plain numbers, opened.
    fn fresh(&mut self, shape: Shape, workers: usize) {
        self.start(shape, workers);
        let matrix = numbers(&mut self.rng, 0, shape.matrix_length());
        let lent = before_opening(&mut self.rng, shape, workers, matrix);
        self.lend(&lent);
        self.open();
    }

    // ---- places

    /// Openings and solves with one or two numbers that are not finite, the lower one above offset 255 too.
    fn offsets(&mut self) {
        let cases: [(usize, usize, &[usize]); 5] =
            [(2, 1, &[1, 3]), (1, 2, &[3, 0]), (2, 2, &[9, 12]), (2, 9, &[256]), (3, 6, &[319, 261])];
        for (tiles, side, offsets) in cases {
            let shape = Shape { tiles, side };
            self.start(shape, 1);
            let mut matrix = numbers(&mut self.rng, 1, shape.matrix_length());
            for &offset in offsets {
                matrix[offset] = not_finite(&mut self.rng);
            }
            let lent = before_opening(&mut self.rng, shape, 1, matrix);
            self.lend(&lent);
            self.open();
        }
        let shape = Shape { tiles: 2, side: 2 };
        self.start(shape, 2);
        let mut lent = self.marked(|_| DONE);
        for row in 0..4 {
            lent.matrix[shape.global(row, row)] = 1.0;
        }
        self.lend(&lent);
        for offsets in [[1, 2], [3, 0], [2, 3], [3, 3]] {
            let mut right = numbers(&mut self.rng, 1, 4);
            for offset in offsets {
                right[offset] = not_finite(&mut self.rng);
            }
            self.solve(&right);
        }
    }

    /// Tasks above 255, which N = 9 has: waiting, held, failed, and asked for.
    fn high_tasks(&mut self) {
        self.start(Shape { tiles: 9, side: 1 }, 3);
        for marks in
            [[WAITING, DONE, DONE, DONE], [DONE, TAKEN, WAITING, DONE], [DONE, DONE, FAILED, SPOILED]]
        {
            let lent = self.marked(|task| match task {
                256 => marks[0],
                258 => marks[1],
                270 => marks[2],
                284 => marks[3],
                _ => DONE,
            });
            self.lend(&lent);
            let right = numbers(&mut self.rng, 1, 9);
            self.solve(&right);
            self.outcome();
            self.take(1, 256);
            self.columns_of_all();
            self.take(2, 270);
            self.outcome();
        }
        // Task 0 waits, which has the low bits of 256; that one waits for another, is held, is spoiled by it, or is done with a tie.
        let link = table(9).links[256][0];
        for (mark, linked, tie_sum) in
            [(WAITING, WAITING, 0), (TAKEN, WAITING, 0), (TAKEN, FAILED, 0), (DONE, DONE, 1)]
        {
            let mut lent = self.marked(|task| match task {
                256 => mark,
                0 => WAITING,
                task if task == link => linked,
                _ => DONE,
            });
            lent.records[256].tie_sum = tie_sum;
            self.lend(&lent);
            self.take(1, 256);
            self.column(0);
            self.take(0, 0);
        }
        // An element of a tile that task 258 touches, and task 2 does not.
        let task = table(9).tasks[258];
        let mut lent = self.marked(|other| if other == 258 { TAKEN } else { DONE });
        lent.matrix[self.shape.element(task.i.max(task.k), task.k, 0, 0)] = not_finite(&mut self.rng);
        self.lend(&lent);
        self.column(0);
    }

    /// Outcomes of states that refusal 4 would stop: any marks, records, lists and elements.
    fn odd_outcomes(&mut self) {
        let shape = Shape { tiles: 2, side: 1 };
        self.start(shape, 2);
        for mark in [5, 16, 18, 19, 130, 255] {
            for task in [0, 4] {
                let mut lent = self.marked(|_| DONE);
                lent.records[task].mark = mark;
                self.lend(&lent);
                self.outcome();
            }
        }
        for (row, other) in [(0, 1), (1, 0)] {
            let mut lent = self.marked(|_| DONE);
            lent.matrix[shape.global(row, row)] = not_finite(&mut self.rng);
            lent.matrix[shape.global(other, other)] = [0.0, 3.0][row];
            lent.lists.fill(255);
            lent.records[1].kind = 9;
            lent.records[3].tie_sum = 65535;
            lent.records[2] = Record { worker: 255, took: u32::MAX, ended: u32::MAX, ..lent.records[2] };
            lent.run_number = 9;
            lent.workers[0] = Worker { busy: true, task: 65535, column: 255 };
            self.lend(&lent);
            self.outcome();
        }
    }

    /// T-3(k,i) at each column, with an element below the diagonal of A(k,k) that is not finite.
    fn lower_parts(&mut self) {
        let shape = Shape { tiles: 3, side: 3 };
        self.start(shape, 1);
        for (number, &task) in
            table(3).tasks.iter().enumerate().filter(|(_, task)| task.kind == 3 && task.i == task.k + 1)
        {
            for (column, (row, below)) in [(1, 0), (2, 0), (2, 1)].into_iter().enumerate() {
                let mut lent = self.marked(|other| if other == number { TAKEN } else { DONE });
                lent.workers[0].column = column as u8;
                lent.matrix[shape.element(task.k, task.k, row, below)] = not_finite(&mut self.rng);
                self.lend(&lent);
                self.column(0);
            }
        }
    }

    /// T-1(1), T-3(0,1) and T-3(1,2) spoiled beside lists that hold entries, and a T-1(1) that fails after an exchange.
    fn filled_lists(&mut self) {
        for (tiles, number, spoiler) in [(2, 4, 3), (2, 2, 0), (3, 11, 9)] {
            self.start(Shape { tiles, side: 2 }, 1);
            let mut lent = self.marked(|task| match task {
                task if task == number => TAKEN,
                task if task == spoiler => FAILED,
                _ => DONE,
            });
            for tile in 0..tiles {
                for column in 0..2 {
                    lent.lists[self.shape.entry(tile, tile, column)] = 1;
                }
            }
            self.lend(&lent);
            self.column(0);
        }
        self.start(Shape { tiles: 2, side: 2 }, 1);
        let mut lent = self.marked(|task| if task == 4 { TAKEN } else { DONE });
        lent.matrix[12..].copy_from_slice(&[0.5, LARGEST, -1.0, LARGEST]);
        self.lend(&lent);
        self.column(0);
        // A worker that stands at a later column is not spoiled any more.
        let mut lent = self.marked(|task| [FAILED, TAKEN, DONE, DONE, DONE][task]);
        lent.workers[0].column = 1;
        self.lend(&lent);
        self.column(0);
    }

    // ---- zeros

    /// Solves in which a zero above the diagonal meets a number that would change the sign of a row's −0.
    fn skipped_zeros(&mut self) {
        for (tiles, side) in [(1, 2), (2, 1), (1, 3), (2, 2), (3, 1)] {
            for (zero, diagonal) in [(0.0, 1.0), (-0.0, 1.0), (0.0, -4.0)] {
                let rows = self.factored(Shape { tiles, side }, diagonal, zero, zero);
                for last in [-3.0, 3.0, number(&mut self.rng, 5)] {
                    let mut right = vec![-0.0; rows];
                    right[rows - 1] = last;
                    self.solve(&right);
                }
            }
        }
        // The same of the multipliers below it: where one is zero a −0 stays, where the number it meets is zero it is computed.
        for (tiles, side) in [(1, 2), (2, 1), (2, 2)] {
            for lower in [0.0, -0.0, 1.0, -1.0] {
                let rows = self.factored(Shape { tiles, side }, 2.0, 0.0, lower);
                for first in [3.0, -3.0, 0.0, -0.0] {
                    let mut right = vec![-0.0; rows];
                    right[0] = first;
                    self.solve(&right);
                }
            }
        }
        // A diagonal list whose last entry names an earlier row.
        self.start(Shape { tiles: 1, side: 2 }, 1);
        let mut lent = self.marked(|_| DONE);
        lent.lists.fill(0);
        self.lend(&lent);
        self.solve(&[1.0, 2.0]);
    }

    /// Lends factors without exchanges, of one number each on, above and below the diagonal; tells n.
    fn factored(&mut self, shape: Shape, diagonal: f64, upper: f64, lower: f64) -> usize {
        self.start(shape, 1);
        let mut lent = self.marked(|_| DONE);
        lent.lists.fill(0);
        for row in 0..shape.rows() {
            for column in 0..shape.rows() {
                lent.matrix[shape.global(row, column)] = match row.cmp(&column) {
                    Ordering::Less => upper,
                    Ordering::Equal => diagonal,
                    Ordering::Greater => lower,
                };
            }
            lent.lists[shape.entry(row / shape.side, row / shape.side, row % shape.side)] =
                (row % shape.side) as u8;
        }
        self.lend(&lent);
        shape.rows()
    }
}
