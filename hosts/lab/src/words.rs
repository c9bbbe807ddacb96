//! What the command says: its help, outcomes, tasks, the history of a run, refusals' lines and answers.

use std::fmt::Write;

use solumivaf::{Outcome, Record, Refusal};

use crate::decimals::short;

pub const HELP: &str = "\
lab: factors systems on threads, solves them, checks archived results, lists tasks and the history of a run, and shows files

  lab factor SYSTEM --workers W [--output FILE]
      prints the result file of a system file, or writes it to FILE
  lab solve SYSTEM RIGHT-SIDE [--bits] [--workers W] [--output FILE]
      prints the answers, a line for each row: the row from 0 on, the 16 digits of the answer's bits, and the shortest decimal for them
  lab verify SYSTEM RESULT --workers W
      works a system again and compares every bit with its archived result: prints 'equal', or the first difference
  lab tasks SYSTEM [--workers W] [--output FILE]
      prints a line for each task of a system: its number from 0 on, its name, done, failed or spoiled, and the sum of its ties
  lab history SYSTEM [--workers W] [--output FILE]
      factors a system and prints who did what when: a line for each take and each end of a task, by the numbers of the calls from 1 on
  lab show FILE [--exact]
      prints a system, a result or a refusal's line as a table, with the fewest digits that stand for the same bits, or with exact decimals
  lab --help
      prints this

W, from 1 to 32, is the number of workers, each a thread of its own; solve, tasks and history have 1 where none is told. No number of workers
changes a bit of what factor, solve, verify and tasks print. A history tells the order of work: with one worker it is always the same, with more it
may be another one each time. A task has a call for each column besides its take; those that neither take nor end a task have no line.
Ties show where a pivot could have come from another row: every other candidate of its magnitude is one, and a pivot of zero has none.
RIGHT-SIDE has a number for each row, parted by blanks, commas or line ends; from # to the end of its line is comment. A number is a decimal
such as 0.25 or -1e-3, or with --bits the 16 hexadecimal digits of its bits. 16 digits without --bits and without a point are refused.
A file named - is standard input. With --output the file named is replaced once the new one is whole. Progress goes to standard error.

Status: 0 done, or equal; 1 refused, or different; 2 a wrong use, a file that cannot be read or written, a right side that is no such table, or
a floating-point mode other than the default.
";

/// What `show` prints above the row lists.
pub const LISTS: &str = "\
# row lists by tile, entries for columns 0 to t - 1
#   on the diagonal: the row that is exchanged with the column's own
#   below it: 0 for no exchange, r + 1 for row r of this tile exchanged with the tile on the diagonal
";

/// A task's name by its number, for N tiles a side.
fn task_name(tiles: usize, number: usize) -> Option<String> {
    let mut first = 0;
    for k in 0..tiles {
        let width = tiles - k;
        if number < first + width * width {
            let (i, j) = (k + (number - first) / width, k + (number - first) % width);
            return Some(match (i == k, j == k) {
                (true, true) => format!("T-1({k})"),
                (true, false) => format!("T-2({k},{j})"),
                (false, true) => format!("T-3({k},{i})"),
                (false, false) => format!("T-4({k},{i},{j})"),
            });
        }
        first += width * width;
    }
    None
}

/// An outcome in words.
pub fn outcome(tiles: usize, outcome: Outcome) -> String {
    match outcome {
        Outcome::Good => "good".to_string(),
        Outcome::Overflow(task) => {
            let name = task_name(tiles, task as usize).unwrap_or_else(|| "which does not exist".to_string());
            format!("overflow at task {task}, {name}: it computed a number that isn't finite")
        }
        Outcome::Singular(row) => {
            format!("singular at row {row}: its number on the final diagonal is zero")
        }
    }
}

/// How a finished task ended.
fn mark_name(record: &Record) -> &'static str {
    match record.mark {
        2 => "done",
        3 => "failed",
        _ => "spoiled",
    }
}

/// A line for each task of a finished system: its number, its name, how it ended, and the sum of its ties.
pub fn task_lines(tiles: usize, records: &[Record]) -> String {
    let mut text = String::new();
    for (number, record) in records.iter().enumerate() {
        let name = task_name(tiles, number).unwrap_or_default();
        let _ = writeln!(text, "{number} {name} {} {}", mark_name(record), record.ties());
    }
    text
}

/// A line for each take and each end of a task of a finished system, in the order of the calls, and one for how many calls there were. A task stays
/// with the worker that took it.
pub fn history_lines(tiles: usize, workers: usize, calls: u32, records: &[Record]) -> String {
    let mut lines = Vec::new();
    for (number, record) in records.iter().enumerate() {
        let (worker, name) = (record.worker, task_name(tiles, number).unwrap_or_default());
        lines.push((record.took(), format!("worker {worker} takes {number} {name}")));
        lines.push((record.ended(), format!("worker {worker} ends {number} {name}: {}", mark_name(record))));
    }
    lines.sort();
    let mut text = String::new();
    for (call, line) in lines {
        let _ = writeln!(text, "{call} {line}");
    }
    let plural = if workers == 1 { "" } else { "s" };
    let _ = writeln!(text, "{calls} calls by {workers} worker{plural}");
    text
}

/// A line 05 in words, as tools/table says it: the program's refusal 1 has one reason more than the library's.
pub fn refusal_line(refusal: Refusal) -> String {
    let thing = match refusal.number {
        1 | 3 | 12..=14 => "line",
        5 => "worker",
        7..=9 => "task",
        10 => "row",
        11 => "tile row, or row in backward work,",
        _ => "place",
    };
    let meaning = match refusal.number {
        1 => "N or t is outside 1 to 16, W outside 1 to 32, or n is more than the program takes, 48",
        _ => refusal.meaning(),
    };
    format!("# refusal {}, {thing} {}: {meaning}\n", refusal.number, refusal.place)
}

/// A line for each answer.
pub fn answer_lines(answers: &[f64]) -> String {
    let mut text = String::new();
    for (row, answer) in answers.iter().enumerate() {
        let _ = writeln!(text, "{row} {:016X} {}", answer.to_bits(), short(*answer));
    }
    text
}
