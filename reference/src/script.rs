//! Plays a script of calls, one a line of digits, and answers each with one line of digits.

use crate::calls::{column, opening, run, take, Run};
use crate::hex::{put, put_numbers, Fields};
use crate::lent::{Lent, Refusal, Sizes};
use crate::solve::{ending, solve, Ending};

pub const LEND: u64 = 0x10;
pub const OPENING: u64 = 0x11;
pub const TAKE: u64 = 0x12;
pub const COLUMN: u64 = 0x13;
pub const RUN: u64 = 0x14;
pub const SOLVE: u64 = 0x15;
pub const OUTCOME: u64 = 0x16;

/// The player and all that is lent to it.
pub struct Player {
    pub lent: Lent,
}

fn sizes(fields: &mut Fields) -> Sizes {
    let tiles = fields.take(16);
    let side = fields.take(16);
    let workers = fields.take(16);
    Sizes { tiles, side, workers }
}

/// What an answer says: a refusal's number and place; how a run or a system ended, the task or row it
/// ended at, and a run's count.
#[derive(Clone, Copy, Default)]
struct Said {
    number: u8,
    place: u64,
    kind: u8,
    count: u64,
}

impl Said {
    fn of(answer: Result<Said, Refusal>) -> Said {
        answer.unwrap_or_else(|refusal| Said {
            number: refusal.number,
            place: refusal.place,
            ..Said::default()
        })
    }

    fn put(self, out: &mut String) {
        put(out, self.number as u64, 2);
        put(out, self.place, 16);
        put(out, self.kind as u64, 2);
        put(out, self.count, 16);
    }
}

fn said(answer: Result<(), Refusal>) -> Said {
    Said::of(answer.map(|_| Said::default()))
}

fn run_said(answer: Result<Run, Refusal>) -> Said {
    Said::of(answer.map(|end| match end {
        Run::Finished(count) => Said { kind: 1, count, ..Said::default() },
        Run::Spent(count) => Said { kind: 2, count, ..Said::default() },
    }))
}

fn ending_said(answer: Result<Ending, Refusal>) -> Said {
    Said::of(answer.map(|end| match end {
        Ending::Unfinished(task) => Said { kind: 3, place: task as u64, ..Said::default() },
        Ending::Ended(outcome) => {
            Said { kind: outcome.kind(), place: outcome.place() as u64, ..Said::default() }
        }
    }))
}

impl Player {
    pub fn new() -> Player {
        Player { lent: Lent::nothing() }
    }

    /// Makes the call of one line; the answer ends with the digest of everything lent.
    pub fn play(&mut self, line: &str) -> String {
        let mut fields = Fields::new(line);
        let command = fields.take(2);
        let mut answers = Vec::new();
        let answer = if command == LEND {
            self.lent = Lent::get(&mut fields);
            Said::default()
        } else {
            let told = sizes(&mut fields);
            self.call(command, told, &mut fields, &mut answers)
        };
        fields.end();
        let mut out = String::new();
        answer.put(&mut out);
        put_numbers(&mut out, &answers);
        put(&mut out, self.lent.digest(), 16);
        out
    }

    /// The call of a command; a solve leaves its answers.
    fn call(&mut self, command: u64, told: Sizes, fields: &mut Fields, answers: &mut Vec<f64>) -> Said {
        let lent = &mut self.lent;
        match command {
            OPENING => said(opening(told, lent)),
            TAKE => {
                let worker = fields.take(16);
                said(take(told, lent, worker, fields.take(16)))
            }
            COLUMN => said(column(told, lent, fields.take(16))),
            RUN => run_said(run(told, lent, fields.take(16))),
            SOLVE => {
                let right = fields.counted_numbers();
                *answers = fields.counted_numbers();
                said(solve(told, lent, &right, answers))
            }
            OUTCOME => ending_said(ending(told, lent)),
            _ => panic!("a line of the script has no known command"),
        }
    }

    /// The lend line of the present state.
    pub fn state_line(&self) -> String {
        lend_line(&self.lent)
    }
}

impl Default for Player {
    fn default() -> Player {
        Player::new()
    }
}

pub fn lend_line(lent: &Lent) -> String {
    let mut line = String::new();
    put(&mut line, LEND, 2);
    lent.put(&mut line);
    line
}

/// A line of a command and numbers of 16 digits.
pub fn call_line(command: u64, numbers: &[u64]) -> String {
    let mut line = String::new();
    put(&mut line, command, 2);
    for &number in numbers {
        put(&mut line, number, 16);
    }
    line
}

pub fn solve_line(told: Sizes, right: &[f64], answers: &[f64]) -> String {
    let mut line = call_line(SOLVE, &[told.tiles, told.side, told.workers]);
    for numbers in [right, answers] {
        put(&mut line, numbers.len() as u64, 8);
        put_numbers(&mut line, numbers);
    }
    line
}
