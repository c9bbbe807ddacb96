//! Times Rattle beside plain Rust loops on the same data, in turn, and prints the table of docs/PERFORMANCE.md.
//! A time is one that a fiftieth of many rounds stay below. All is timed three times, and a row is printed with the median of its three ratios.
//! `bench/run` builds and runs it; a number after it multiplies the rounds.
mod calls;
mod files;
mod loops;
mod plain;
mod solving;
mod structs;

use calls::{Worker, IDLE};
use loops::Record;
use plain::{Collected, Fours, Leaving, Shape, Version, Widths};
use solumivaf::{Run, Sizes};
use std::hint::black_box;
use structs::TaskRecord;

// The functions of crates/bench_host. A slice is its start and its length.
extern "C" {
    fn bench_factor_column(tiles: usize, side: usize, matrix: *mut f64, matrix_length: usize, lists: *mut u8, lists_length: usize, k: usize, c: usize) -> u32;
    fn bench_apply_column(tiles: usize, side: usize, matrix: *mut f64, matrix_length: usize, lists: *const u8, lists_length: usize, k: usize, j: usize, c: usize) -> u32;
    fn bench_couple_column(tiles: usize, side: usize, matrix: *mut f64, matrix_length: usize, lists: *mut u8, lists_length: usize, k: usize, i: usize, c: usize) -> u32;
    fn bench_pair_column(tiles: usize, side: usize, matrix: *mut f64, matrix_length: usize, lists: *const u8, lists_length: usize, k: usize, i: usize, j: usize, c: usize) -> u32;
}

// ---- time

#[repr(C)]
struct Spent {
    seconds: i64,
    nanoseconds: i64,
}

extern "C" {
    fn clock_gettime(clock: i32, spent: *mut Spent) -> i32;
}

/// The processor's time that this thread has had, in nanoseconds: what other programs take is not in it.
fn thread_time() -> f64 {
    const THREAD: i32 = 3;
    let mut spent = Spent { seconds: 0, nanoseconds: 0 };
    // SAFETY: `spent` is laid out as C's timespec on x86-64 Linux, and is written alone.
    assert_eq!(unsafe { clock_gettime(THREAD, &mut spent) }, 0);
    spent.seconds as f64 * 1e9 + spent.nanoseconds as f64
}

// ---- what is timed

/// What both sides are lent; answers and text are empty where a call has none, and so are the records as structs where no call is over structs. The
/// workers but for the run's number are Rattle's: the Rust calls have their own. In any order of work the records may tell other workers and calls.
#[derive(Clone)]
struct Lent {
    to: solumivaf::Lent,
    any_order: bool,
    structs: Vec<TaskRecord>,
    answers: Vec<f64>,
    text: Vec<u8>,
}

impl Lent {
    fn copy_from(&mut self, other: &Lent) {
        self.to.matrix.copy_from_slice(&other.to.matrix);
        self.to.lists.copy_from_slice(&other.to.lists);
        self.to.records.copy_from_slice(&other.to.records);
        self.to.workers.clone_from(&other.to.workers);
        self.structs.copy_from_slice(&other.structs);
        self.answers.copy_from_slice(&other.answers);
        self.text.copy_from_slice(&other.text);
    }

    /// The same with its records as structs too.
    fn with_structs(&self) -> Lent {
        let mut other = self.clone();
        other.structs = bytes(&mut other.to.records).iter().map(TaskRecord::of).collect();
        other
    }

    /// Puts what a call over structs has written into the records that the other calls write.
    fn put_structs(&mut self, start: &Lent) {
        if self.structs != start.structs {
            for (record, written) in bytes(&mut self.to.records).iter_mut().zip(&self.structs) {
                *record = written.bytes();
            }
        }
    }

    fn same(&self, other: &Lent) -> bool {
        let bits = |a: &[f64], b: &[f64]| a.iter().zip(b).all(|(a, b)| a.to_bits() == b.to_bits());
        let (x, y) = (&self.to, &other.to);
        let work = |r: &solumivaf::Record| (r.kind, r.k, r.i, r.j, r.mark, r.ties());
        x.lists == y.lists
            && x.records.iter().map(work).eq(y.records.iter().map(work))
            && (self.any_order || x.records == y.records)
            && x.workers.number == y.workers.number
            && self.text == other.text
            && bits(&x.matrix, &y.matrix)
            && bits(&self.answers, &other.answers)
    }
}

/// Numbers between -1 and 1 from a seed, no zero among them.
fn numbers(seed: u64, count: usize) -> Vec<f64> {
    let mut state = seed;
    let mut out = Vec::new();
    for _ in 0..count {
        state = state.wrapping_mul(6364136223846793005).wrapping_add(1442695040888963407);
        out.push((state >> 11) as f64 / 4503599627370496.0 - 1.0 + 1e-9);
    }
    out
}

fn fresh(s: &Shape, seed: u64) -> Lent {
    let n = s.tiles * s.side;
    let mut to = solumivaf::Lent::of(sizes(s, 1), numbers(seed, n * n));
    bytes(&mut to.records).copy_from_slice(&loops::numbering(s.tiles));
    Lent { to, any_order: false, structs: Vec::new(), answers: Vec::new(), text: Vec::new() }
}

/// The records as the Rust side has them, 16 bytes each.
fn bytes(records: &mut [solumivaf::Record]) -> &mut [Record] {
    // SAFETY: a `solumivaf::Record` is 16 `u8` in C's layout, so it has the size and alignment of 16 bytes; the borrow passes on.
    unsafe { std::slice::from_raw_parts_mut(records.as_mut_ptr().cast(), records.len()) }
}

fn sizes(s: &Shape, workers: usize) -> Sizes {
    Sizes { tiles: s.tiles, side: s.side, workers }
}

/// What looking at the clock takes itself.
fn look() -> f64 {
    let mut times = Vec::new();
    for _ in 0..10000 {
        let begin = thread_time();
        times.push(thread_time() - begin);
    }
    low(times)
}

type Step<'a> = Box<dyn FnMut(&mut Lent) + 'a>;

/// The step in each version of the Rust loops, by name.
macro_rules! versions {
    ($($of:ident)::+, |$x:ident| $($argument:expr),*) => {
        vec![
            ("leaving", Box::new(|$x: &mut Lent| $($of)::+::<Leaving>($($argument),*)) as Step),
            ("collected", Box::new(|$x: &mut Lent| $($of)::+::<Collected>($($argument),*)) as Step),
            ("widths", Box::new(|$x: &mut Lent| $($of)::+::<Widths>($($argument),*)) as Step),
            ("fours", Box::new(|$x: &mut Lent| $($of)::+::<Fours>($($argument),*)) as Step),
        ]
    };
}

fn timed(data: &mut [Lent], start: &Lent, step: &mut Step) -> f64 {
    for x in data.iter_mut() {
        x.copy_from(start);
    }
    let begin = thread_time();
    for x in data.iter_mut() {
        step(x);
    }
    (thread_time() - begin) / data.len() as f64
}

/// The time that a fiftieth of the rounds stay below: a clock's reading is now and then some microseconds late, and the least time too short.
fn low(mut times: Vec<f64>) -> f64 {
    times.sort_by(f64::total_cmp);
    times[times.len() / 50]
}

/// Times in nanoseconds: those of the Rust versions, and Rattle's.
#[derive(Clone)]
struct Times {
    rust: Vec<(&'static str, f64)>,
    rattle: f64,
}

impl Times {
    fn fastest(&self) -> (&'static str, f64) {
        *self.rust.iter().min_by(|a, b| a.1.total_cmp(&b.1)).unwrap()
    }

    fn ratio(&self) -> f64 {
        self.rattle / self.fastest().1
    }

    /// A part of each time.
    fn over(&self, parts: usize) -> Times {
        let part = |x: f64| x / parts as f64;
        Times { rust: self.rust.iter().map(|(v, x)| (*v, part(*x))).collect(), rattle: part(self.rattle) }
    }

    fn plus(&self, other: &Times) -> Times {
        let rust = self.rust.iter().zip(&other.rust).map(|(a, b)| (a.0, a.1 + b.1)).collect();
        Times { rust, rattle: self.rattle + other.rattle }
    }
}

/// The times of the steps. In a round each works on the same data, and each round begins with another one. What they leave must have the
/// same bits.
fn compare<'a>(rounds: usize, copies: usize, start: &Lent, rust: Vec<(&'static str, Step<'a>)>, rattle: impl FnMut(&mut Lent) + 'a) -> Times {
    let (names, mut steps): (Vec<&str>, Vec<Step>) = rust.into_iter().unzip();
    steps.push(Box::new(rattle));
    let mut data = vec![start.clone(); copies];
    let mut times = vec![Vec::new(); steps.len()];
    let mut left = None;
    for round in 0..rounds {
        for turn in 0..steps.len() {
            let x = (round + turn) % steps.len();
            times[x].push(timed(&mut data, start, &mut steps[x]));
            data[0].put_structs(start);
            let want = left.get_or_insert_with(|| data[0].clone());
            assert!(data[0].same(want));
        }
    }
    let own = look() / copies as f64;
    let mut each: Vec<f64> = times.into_iter().map(|x| low(x) - own).collect();
    let rattle = each.pop().unwrap();
    Times { rust: names.into_iter().zip(each).collect(), rattle }
}

/// The rows in order, each with its times in every pass.
#[derive(Default)]
struct Table {
    rows: Vec<(String, Vec<Times>)>,
}

impl Table {
    fn row(&mut self, name: String, times: Times) {
        match self.rows.iter_mut().find(|x| x.0 == name) {
            Some(row) => row.1.push(times),
            None => self.rows.push((name, vec![times])),
        }
    }

    fn print(&mut self) {
        println!("| What | Rust, ns | version | Rattle, ns | ratio |");
        println!("|---|---|---|---|---|");
        for (name, passes) in &mut self.rows {
            passes.sort_by(|a, b| a.ratio().total_cmp(&b.ratio()));
            let middle = &passes[passes.len() / 2];
            let (version, rust) = middle.fastest();
            println!("| {name} | {rust:.0} | {version} | {:.0} | {:.2} |", middle.rattle, middle.ratio());
        }
    }
}

// ---- a column of each step

/// Column c of a task of stage k, at row and column i. Like Rattle's, it is called and told its indices.
#[inline(never)]
fn plain_step<V: Version>(kind: usize, s: &Shape, m: &mut [f64], l: &mut [u8], k: usize, i: usize, c: usize) -> Option<u16> {
    match kind {
        1 => plain::factor::<V>(s, m, l, k, c),
        2 => plain::apply::<V>(s, m, l, k, i, c).then_some(0),
        3 => plain::couple::<V>(s, m, l, k, i, c),
        _ => plain::pair::<V>(s, m, l, k, i, i, c).then_some(0),
    }
}

fn plain_columns<V: Version>(kind: usize, s: &Shape, k: usize, i: usize, x: &mut Lent) {
    for c in 0..s.side {
        // The ties are asked for, so that they are counted.
        assert!(black_box(plain_step::<V>(kind, s, &mut x.to.matrix, &mut x.to.lists, k, i, c)).is_some());
    }
}

fn rattle_columns(kind: usize, s: &Shape, k: usize, i: usize, x: &mut Lent) {
    let (n, t, ml, ll) = (s.tiles, s.side, x.to.matrix.len(), x.to.lists.len());
    let (m, l) = (x.to.matrix.as_mut_ptr(), x.to.lists.as_mut_ptr());
    for c in 0..t {
        // SAFETY: what the functions require holds: sizes and lengths that fit, finite numbers, entries in range. The two buffers are apart.
        let told = unsafe {
            match kind {
                1 => bench_factor_column(n, t, m, ml, l, ll, k, c),
                2 => bench_apply_column(n, t, m, ml, l, ll, k, i, c),
                3 => bench_couple_column(n, t, m, ml, l, ll, k, i, c),
                _ => bench_pair_column(n, t, m, ml, l, ll, k, i, i, c),
            }
        };
        let mark = told % 256;
        assert!(mark == 1 || mark == 2);
    }
}

/// The systems whose columns are timed, by their seeds: a small column's time depends on the numbers.
const SYSTEMS: std::ops::Range<u64> = 1..25;

/// A system with lists that ask for exchanges: entry c names a row from c on, and a lower row.
fn with_exchanges(s: &Shape, seed: u64) -> Lent {
    let t = s.side;
    let mut start = fresh(s, seed);
    for c in 0..t {
        start.to.lists[c] = (c + (t - c) / 2).min(t - 1) as u8;
        start.to.lists[2 * t + c] = (c % 3) as u8;
    }
    start
}

/// The mean over the systems, so many rounds with each.
fn kernels(table: &mut Table, t: usize, rounds: usize) {
    let s = black_box(Shape { tiles: 2, side: t });
    let (k, i) = black_box((0, 1));
    let systems = SYSTEMS.count();
    // all t columns of a task, so that each column's share counts
    let each = [1, 2, 3, 4].map(|kind| {
        let times = SYSTEMS.map(|seed| {
            let start = with_exchanges(&s, seed);
            compare(rounds, 20, &start, versions!(plain_columns, |x| kind, &s, k, i, x), |x| rattle_columns(kind, &s, k, i, x))
        });
        times.reduce(|a, b| a.plus(&b)).unwrap().over(t * systems)
    });
    for (x, times) in each.iter().enumerate() {
        table.row(format!("T-{}, a column, t = {t}", x + 1), times.clone());
    }
    table.row(format!("the four together, t = {t}"), each.iter().cloned().reduce(|a, b| a.plus(&b)).unwrap());
}

// ---- whole runs

/// Opens the system and runs it: the count of the calls made.
fn factorize(s: &Shape, workers: usize, budget: u64, x: &mut Lent) -> u64 {
    let sizes = sizes(s, workers);
    x.to.workers.count = workers;
    x.to.open(sizes).unwrap();
    match x.to.run(sizes, budget).unwrap() {
        Run::Finished(calls) | Run::Spent(calls) => calls,
    }
}

fn plain_run<V: Version>(s: &Shape, x: &mut Lent) {
    x.to.workers.number = loops::loops::<V>(s, &mut x.to.matrix, &mut x.to.lists, bytes(&mut x.to.records));
}

fn runs(table: &mut Table, tiles: usize, t: usize, rounds: usize) {
    let s = black_box(Shape { tiles, side: t });
    let mut start = fresh(&s, 11);
    let calls = (loops::task_count(tiles) * (t + 1)) as u64;
    for workers in [1, 8, 32] {
        start.any_order = workers > 1;
        let times = compare(rounds, 1, &start, versions!(plain_run, |x| &s, x), |x| assert_eq!(factorize(&s, workers, u64::MAX, x), calls));
        table.row(format!("opening and whole run, N = {tiles}, t = {t}, W = {workers}"), times);
    }
    start.any_order = false;
    let start = start.with_structs();
    let over_structs = |x: &mut Lent| assert_eq!(structs::factorize(&s, 1, u64::MAX, &mut x.to, &mut x.structs), calls);
    let times = compare(rounds, 1, &start, versions!(plain_run, |x| &s, x), over_structs);
    table.row(format!("opening and whole run over structs, N = {tiles}, t = {t}, W = 1"), times);
}

// ---- a take and a column call

#[inline(never)]
fn plain_take<V: Version>(s: &Shape, workers: usize, p: usize, x: &mut Lent) {
    let mut slots = [IDLE; 32];
    let number = &mut x.to.workers.number;
    assert_eq!(calls::take::<V>(s, &x.to.matrix, &x.to.lists, bytes(&mut x.to.records), &mut slots[..workers], number, 0, p), 0);
}

#[inline(never)]
fn rattle_take(s: &Shape, workers: usize, p: usize, x: &mut Lent) {
    x.to.workers.count = workers;
    assert_eq!(x.to.take(sizes(s, workers), 0, p), Ok(()));
}

#[inline(never)]
fn plain_column<V: Version>(s: &Shape, workers: usize, p: usize, c: usize, x: &mut Lent) {
    let mut slots = [IDLE; 32];
    slots[0] = Worker { busy: true, task: p as u16, column: c as u8 };
    let number = &mut x.to.workers.number;
    assert_eq!(calls::work::<V>(s, &mut x.to.matrix, &mut x.to.lists, bytes(&mut x.to.records), &mut slots[..workers], number, 0), 0);
}

#[inline(never)]
fn rattle_column(s: &Shape, workers: usize, x: &mut Lent) {
    x.to.workers.count = workers;
    assert_eq!(x.to.column(sizes(s, workers), 0), Ok(()));
}

#[inline(never)]
fn struct_take(s: &Shape, workers: usize, p: usize, x: &mut Lent) {
    assert_eq!(structs::take(s, workers, p, &mut x.to, &mut x.structs), 0);
}

#[inline(never)]
fn struct_column(s: &Shape, workers: usize, p: usize, c: usize, x: &mut Lent) {
    assert_eq!(structs::column(s, workers, p, c, &mut x.to, &mut x.structs), 0);
}

fn plain_task<V: Version>(s: &Shape, workers: usize, p: usize, x: &mut Lent) {
    (0..s.side).for_each(|c| plain_column::<V>(s, workers, p, c, x));
}

/// A T-4 in the middle of the tasks is taken, and worked column by column.
fn single_calls(table: &mut Table, tiles: usize, t: usize, rounds: usize) {
    let s = black_box(Shape { tiles, side: t });
    let k = tiles / 3;
    let p = loops::number(tiles, k, k + 2, k + 2);
    let mut start = fresh(&s, 13);
    factorize(&s, 1, (p * (t + 1)) as u64, &mut start);
    let mut taken = start.clone();
    rattle_take(&s, 1, p, &mut taken);
    for workers in [1, 32] {
        let times = compare(rounds, 1, &start, versions!(plain_take, |x| &s, workers, p, x), |x| rattle_take(&s, workers, p, x));
        table.row(format!("a take, N = {tiles}, t = {t}, W = {workers}"), times);
        let all = compare(rounds, 1, &taken, versions!(plain_task, |x| &s, workers, p, x), |x| (0..t).for_each(|_| rattle_column(&s, workers, x)));
        table.row(format!("a column call of T-4, N = {tiles}, t = {t}, W = {workers}"), all.over(t));
    }
    let (start, taken) = (start.with_structs(), taken.with_structs());
    let times = compare(rounds, 1, &start, versions!(plain_take, |x| &s, 1, p, x), |x| struct_take(&s, 1, p, x));
    table.row(format!("a take over structs, N = {tiles}, t = {t}, W = 1"), times);
    let all = compare(rounds, 1, &taken, versions!(plain_task, |x| &s, 1, p, x), |x| (0..t).for_each(|c| struct_column(&s, 1, p, c, x)));
    table.row(format!("a column call of T-4 over structs, N = {tiles}, t = {t}, W = 1"), all.over(t));
}

// ---- a solve

#[inline(never)]
fn plain_solve<V: Version>(s: &Shape, right: &[f64], x: &mut Lent) {
    assert_eq!(solving::solve::<V>(s, &x.to.matrix, &x.to.lists, bytes(&mut x.to.records), &[IDLE], x.to.workers.number, right, &mut x.answers), 0);
}

#[inline(never)]
fn rattle_solve(s: &Shape, right: &[f64], x: &mut Lent) {
    assert_eq!(x.to.solve(sizes(s, 1), right, &mut x.answers), Ok(()));
}

#[inline(never)]
fn struct_solve(s: &Shape, right: &[f64], x: &mut Lent) {
    assert_eq!(structs::solve(s, right, &x.to, &x.structs, &mut x.answers), 0);
}

fn solves(table: &mut Table, tiles: usize, t: usize, rounds: usize) {
    let s = black_box(Shape { tiles, side: t });
    let mut start = fresh(&s, 17);
    factorize(&s, 1, u64::MAX, &mut start);
    start.answers = vec![0.0; tiles * t];
    let right = numbers(19, tiles * t);
    let times = compare(rounds, 1, &start, versions!(plain_solve, |x| &s, &right, x), |x| rattle_solve(&s, &right, x));
    table.row(format!("a solve, N = {tiles}, t = {t}, W = 1"), times);
    let start = start.with_structs();
    let times = compare(rounds, 1, &start, versions!(plain_solve, |x| &s, &right, x), |x| struct_solve(&s, &right, x));
    table.row(format!("a solve over structs, N = {tiles}, t = {t}, W = 1"), times);
}

// ---- a system file

#[inline(never)]
fn plain_read(s: &Shape, x: &mut Lent) {
    assert_eq!(files::read_system(&x.text, &mut x.to.matrix), Ok((s.tiles, s.side)));
}

#[inline(never)]
fn rattle_read(s: &Shape, x: &mut Lent) {
    assert_eq!(solumivaf::read_system(&x.text, &mut x.to.matrix), Ok((s.tiles, s.side)));
}

#[inline(never)]
fn plain_write(s: &Shape, x: &mut Lent) {
    let length = files::write_system(s.tiles, s.side, &x.to.matrix, &mut x.text);
    assert_eq!(length, Ok(x.text.len()));
}

#[inline(never)]
fn rattle_write(s: &Shape, x: &mut Lent) {
    let length = solumivaf::write_system(s.tiles, s.side, &x.to.matrix, &mut x.text);
    assert_eq!(length, Ok(x.text.len()));
}

/// A system is written, and what was written is read.
fn system_files(table: &mut Table, tiles: usize, t: usize, rounds: usize) {
    let s = black_box(Shape { tiles, side: t });
    let mut start = fresh(&s, 23);
    start.text = vec![0; 7 + tiles * tiles * (7 + 16 * t * t)];
    let mut written = start.clone();
    plain_write(&s, &mut written);
    written.to.matrix.fill(0.0);
    let read = compare(rounds, 1, &written, vec![("tables", Box::new(|x: &mut Lent| plain_read(&s, x)))], |x| rattle_read(&s, x));
    table.row(format!("a system file read, N = {tiles}, t = {t}"), read);
    let write = compare(rounds, 1, &start, vec![("tables", Box::new(|x: &mut Lent| plain_write(&s, x)))], |x| rattle_write(&s, x));
    table.row(format!("a system file written, N = {tiles}, t = {t}"), write);
}

fn main() {
    let more: usize = std::env::args().nth(1).map_or(1, |x| x.parse().expect("a number of rounds"));
    let mut table = Table::default();
    for _ in 0..3 {
        for t in [4, 8, 16] {
            kernels(&mut table, t, 100 * more);
        }
        for (tiles, t) in [(1, 16), (2, 2), (4, 4), (8, 8), (16, 1), (16, 4), (16, 16)] {
            runs(&mut table, tiles, t, if tiles * t == 256 { 50 } else { 200 } * more);
        }
        single_calls(&mut table, 16, 16, 200 * more);
        for (tiles, t) in [(4, 4), (8, 8), (16, 16)] {
            solves(&mut table, tiles, t, 200 * more);
        }
        for (tiles, t) in [(4, 8), (16, 16)] {
            system_files(&mut table, tiles, t, 100 * more);
        }
    }
    table.print();
}
