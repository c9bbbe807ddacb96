//! The calls over task records as structs beside the reference program, through what crates/bench_structs exports: every call of a script, refused
//! ones too. Those functions make the workers themselves: all idle, or for a column worker 0 with its task. So each call is made on a copy of
//! what the script has lent, with such workers, and once more with no task marked as taken and with call numbers that fit. Compared are the refusal's
//! number, a run's count, an outcome's kind, and every bit of what is left.

use reference::checks::{accept_sizes, largest_number};
use reference::hex::Fields;
use reference::lent::{Lent, Refusal, Worker, IDLE, SLOTS, TAKEN, WAITING};
use reference::numbers::bits;
use reference::script::{Player, COLUMN, LEND, OPENING, OUTCOME, RUN, SOLVE, TAKE};
use reference::solve::{Ending, Outcome};
use reference::vectors::script;
use reference::writer::Options;

/// N, t and W, as C has them.
#[repr(C)]
struct Sizes {
    tiles: usize,
    side: usize,
    workers: usize,
}

/// A task's record, as C has it.
#[repr(C)]
#[derive(Debug, PartialEq)]
struct TaskRecord {
    kind: u8,
    k: u8,
    i: u8,
    j: u8,
    mark: u8,
    worker: u8,
    ties: u16,
    took: u32,
    ended: u32,
}

// A slice is its start and its length. To be safe a call needs starts and lengths that belong together, of buffers that do not overlap and that
// no one else writes: each is that of a Vec of its own, borrowed for the call. The functions require nothing else.
#[rustfmt::skip]
#[link(name = "bench_structs", kind = "static")]
extern "C" {
    fn bench_open(z: Sizes, matrix: *const f64, matrix_length: usize, lists: *mut u8, lists_length: usize, records: *mut TaskRecord, records_length: usize, number: u32) -> u8;
    fn bench_take(z: Sizes, matrix: *const f64, matrix_length: usize, lists: *const u8, lists_length: usize, records: *mut TaskRecord, records_length: usize, number: u32, w: usize, p: usize) -> u8;
    fn bench_column(z: Sizes, matrix: *mut f64, matrix_length: usize, lists: *mut u8, lists_length: usize, records: *mut TaskRecord, records_length: usize, number: u32, w: usize, p: u16, c: u8) -> u8;
    fn bench_run(z: Sizes, matrix: *mut f64, matrix_length: usize, lists: *mut u8, lists_length: usize, records: *mut TaskRecord, records_length: usize, number: u32, budget: u64) -> u64;
    fn bench_outcome(z: Sizes, matrix: *const f64, matrix_length: usize, lists: *const u8, lists_length: usize, records: *const TaskRecord, records_length: usize, number: u32) -> u8;
    fn bench_solve(z: Sizes, matrix: *const f64, matrix_length: usize, lists: *const u8, lists_length: usize, records: *const TaskRecord, records_length: usize, number: u32, right: *const f64, right_length: usize, answers: *mut f64, answers_length: usize) -> u8;
}

/// A call's own numbers.
struct Told {
    command: u64,
    sizes: reference::lent::Sizes,
    first: u64,
    second: u64,
    right: Vec<f64>,
    answers: Vec<f64>,
}

fn told(line: &str) -> Told {
    let mut fields = Fields::new(line);
    let command = fields.take(2);
    let sizes =
        reference::lent::Sizes { tiles: fields.take(16), side: fields.take(16), workers: fields.take(16) };
    let mut told = Told { command, sizes, first: 0, second: 0, right: Vec::new(), answers: Vec::new() };
    if [TAKE, COLUMN, RUN].contains(&command) {
        told.first = fields.take(16);
    }
    if command == TAKE {
        told.second = fields.take(16);
    }
    if command == SOLVE {
        told.right = fields.counted_numbers();
        told.answers = fields.counted_numbers();
    }
    told
}

/// What is lent with workers that the library's functions make, as many as they are told; without taken tasks but for the held one where that is
/// asked for, and then with calls that the other tasks allow.
fn with_workers(lent: &Lent, sizes: reference::lent::Sizes, held: Option<Worker>, no_other: bool) -> Lent {
    let mut copy = lent.clone();
    copy.count = sizes.workers;
    copy.workers = [IDLE; SLOTS];
    if let Some(held) = held {
        copy.workers[0] = Worker { busy: true, ..held };
    }
    let mut dropped = false;
    for (task, record) in copy.records.iter_mut().enumerate() {
        let own = held.is_some_and(|held| held.task as usize == task);
        if no_other && !own && record.mark == TAKEN {
            record.mark = WAITING;
            dropped = true;
        }
    }
    if dropped {
        lower_calls(sizes, &mut copy);
    }
    copy
}

/// The run's number and the calls in the records at most what the marks allow.
fn lower_calls(sizes: reference::lent::Sizes, lent: &mut Lent) {
    let Ok((shape, workers)) = accept_sizes(sizes) else { return };
    let most = largest_number(shape, workers, lent) as u32;
    lent.run_number = lent.run_number.min(most);
    for record in &mut lent.records {
        record.took = record.took.min(most);
        record.ended = record.ended.min(most);
    }
}

fn records_of(lent: &Lent) -> Vec<TaskRecord> {
    let of = |r: &reference::lent::Record| TaskRecord {
        kind: r.kind,
        k: r.k,
        i: r.i,
        j: r.j,
        mark: r.mark,
        worker: r.worker,
        ties: r.tie_sum,
        took: r.took,
        ended: r.ended,
    };
    lent.records.iter().map(of).collect()
}

fn number(answer: Result<(), Refusal>) -> u64 {
    answer.map_or_else(|refusal| refusal.number as u64, |_| 0)
}

/// An outcome's kind as the library's function tells it.
fn outcome_number(answer: Result<Ending, Refusal>) -> u64 {
    match answer {
        Ok(Ending::Ended(Outcome::Good)) => 128,
        Ok(Ending::Ended(Outcome::Overflow(_))) => 129,
        Ok(Ending::Ended(Outcome::Singular(_))) => 130,
        Ok(Ending::Unfinished(_)) => 131,
        Err(refusal) => refusal.number as u64,
    }
}

/// The reference program's call: the refusal's number, the count of a run, or an outcome's kind.
fn theirs(told: &Told, lent: &mut Lent, answers: &mut [f64]) -> u64 {
    use reference::calls::{column, opening, run, take, Run};
    match told.command {
        OPENING => number(opening(told.sizes, lent)),
        TAKE => number(take(told.sizes, lent, told.first, told.second)),
        COLUMN => number(column(told.sizes, lent, told.first)),
        RUN => match run(told.sizes, lent, told.first) {
            Ok(Run::Finished(count) | Run::Spent(count)) => count,
            Err(_) => 0,
        },
        OUTCOME => outcome_number(reference::solve::ending(told.sizes, lent)),
        _ => number(reference::solve::solve(told.sizes, lent, &told.right, answers)),
    }
}

/// The library's call on buffers of its own, which it leaves: the same number.
fn ours(told: &Told, held: Worker, lent: &mut Lent, records: &mut [TaskRecord], answers: &mut [f64]) -> u64 {
    let z = Sizes {
        tiles: told.sizes.tiles as usize,
        side: told.sizes.side as usize,
        workers: told.sizes.workers as usize,
    };
    let (ml, ll, rl, bl, al) =
        (lent.matrix.len(), lent.lists.len(), records.len(), told.right.len(), answers.len());
    let (m, l, r) = (lent.matrix.as_mut_ptr(), lent.lists.as_mut_ptr(), records.as_mut_ptr());
    let (n, w, p) = (lent.run_number, told.first as usize, told.second as usize);
    // SAFETY: as above the functions' declarations.
    unsafe {
        match told.command {
            OPENING => bench_open(z, m, ml, l, ll, r, rl, n) as u64,
            TAKE => bench_take(z, m, ml, l, ll, r, rl, n, w, p) as u64,
            COLUMN => bench_column(z, m, ml, l, ll, r, rl, n, w, held.task, held.column) as u64,
            RUN => bench_run(z, m, ml, l, ll, r, rl, n, told.first),
            OUTCOME => bench_outcome(z, m, ml, l, ll, r, rl, n) as u64,
            _ => {
                bench_solve(z, m, ml, l, ll, r, rl, n, told.right.as_ptr(), bl, answers.as_mut_ptr(), al) as u64
            }
        }
    }
}

/// Makes one call on both sides; tells that number.
fn same(told: &Told, held: Worker, lent: &Lent) -> u64 {
    let (mut left, mut their_left) = (lent.clone(), lent.clone());
    let (mut answers, mut their_answers) = (told.answers.clone(), told.answers.clone());
    let mut records = records_of(lent);
    let answer = ours(told, held, &mut left, &mut records, &mut answers);
    assert_eq!(answer, theirs(told, &mut their_left, &mut their_answers), "command {:X}", told.command);
    assert_eq!(bits(&left.matrix), bits(&their_left.matrix), "matrix after {:X}", told.command);
    assert_eq!(left.lists, their_left.lists, "lists after {:X}", told.command);
    assert_eq!(records, records_of(&their_left), "records after {:X}", told.command);
    assert_eq!(bits(&answers), bits(&their_answers), "answers after {:X}", told.command);
    answer
}

#[test]
fn same_calls_over_structs() {
    let mut met = std::collections::BTreeMap::new();
    for seed in 1..=3 {
        let mut player = Player::new();
        for line in script(Options { seed, calls: 5600, max_bytes: 2_900_000 }).lines() {
            if !line.starts_with(&format!("{LEND:X}")) {
                let mut told = told(line);
                let held = player.lent.workers.get(told.first as usize).copied().unwrap_or(IDLE);
                let column = told.command == COLUMN;
                if column && told.first < told.sizes.workers {
                    told.first = if held.busy { 0 } else { 1 };
                }
                for no_other in [false, true] {
                    let lent = with_workers(&player.lent, told.sizes, column.then_some(held), no_other);
                    let answer = same(&told, held, &lent);
                    *met.entry((told.command, if told.command == RUN { answer.min(1) } else { answer }))
                        .or_insert(0) += 1;
                }
            }
            player.play(line);
        }
    }
    for (command, numbers) in [
        (OPENING, &[0, 1, 2, 3][..]),
        (TAKE, &[0, 1, 2, 4, 5, 6, 7]),
        (COLUMN, &[0, 1, 2, 4, 5]),
        (RUN, &[0, 1]),
        (OUTCOME, &[1, 2, 128, 129, 130, 131]),
        (SOLVE, &[0, 1, 2, 3, 4, 8, 9, 10, 11]),
    ] {
        for &number in numbers {
            assert!(
                met.get(&(command, number)).is_some_and(|&count| count > 2),
                "{command:X} {number}: {met:?}"
            );
        }
    }
}
