//! The calls over task records as structs: the functions of crates/bench_structs. All workers are idle, but for the one that does a column. The
//! functions do not hand the run's number back, so it is counted here.
use crate::loops::{ended, ties, took, Record};
use crate::plain::Shape;
use solumivaf::Lent;

/// N, t and W, as C has them.
#[repr(C)]
struct Sizes {
    tiles: usize,
    side: usize,
    workers: usize,
}

/// A task's record, as C has it.
#[repr(C)]
#[derive(Clone, Copy, PartialEq)]
pub struct TaskRecord {
    kind: u8,
    k: u8,
    i: u8,
    j: u8,
    mark: u8,
    worker: u8,
    ties: u16,
    took: u32,
    ended: u32,
}

impl TaskRecord {
    pub fn of(r: &Record) -> TaskRecord {
        TaskRecord { kind: r[0], k: r[1], i: r[2], j: r[3], mark: r[4], worker: r[5], ties: ties(r), took: took(r), ended: ended(r) }
    }

    pub fn bytes(&self) -> Record {
        let mut r = [self.kind, self.k, self.i, self.j, self.mark, self.worker, 0, 0, 0, 0, 0, 0, 0, 0, 0, 0];
        r[6..8].copy_from_slice(&self.ties.to_le_bytes());
        r[8..12].copy_from_slice(&self.took.to_le_bytes());
        r[12..].copy_from_slice(&self.ended.to_le_bytes());
        r
    }
}

// A slice is its start and its length. To be safe a call needs starts and lengths that belong together, of buffers that do not overlap and that
// no one else writes: each is that of a Vec or slice of its own, borrowed for the call. The functions require nothing else.
extern "C" {
    fn bench_open(z: Sizes, matrix: *const f64, matrix_length: usize, lists: *mut u8, lists_length: usize, records: *mut TaskRecord, records_length: usize, number: u32) -> u8;
    fn bench_take(z: Sizes, matrix: *const f64, matrix_length: usize, lists: *const u8, lists_length: usize, records: *mut TaskRecord, records_length: usize, number: u32, w: usize, p: usize) -> u8;
    fn bench_column(z: Sizes, matrix: *mut f64, matrix_length: usize, lists: *mut u8, lists_length: usize, records: *mut TaskRecord, records_length: usize, number: u32, w: usize, p: u16, c: u8) -> u8;
    fn bench_run(z: Sizes, matrix: *mut f64, matrix_length: usize, lists: *mut u8, lists_length: usize, records: *mut TaskRecord, records_length: usize, number: u32, budget: u64) -> u64;
    fn bench_solve(z: Sizes, matrix: *const f64, matrix_length: usize, lists: *const u8, lists_length: usize, records: *const TaskRecord, records_length: usize, number: u32, right: *const f64, right_length: usize, answers: *mut f64, answers_length: usize) -> u8;
}

fn sizes(s: &Shape, workers: usize) -> Sizes {
    Sizes { tiles: s.tiles, side: s.side, workers }
}

/// Opens the system and runs it: the count of the calls made.
pub fn factorize(s: &Shape, workers: usize, budget: u64, x: &mut Lent, records: &mut [TaskRecord]) -> u64 {
    let (ml, ll, rl) = (x.matrix.len(), x.lists.len(), records.len());
    let (m, l, r) = (x.matrix.as_mut_ptr(), x.lists.as_mut_ptr(), records.as_mut_ptr());
    // SAFETY: as above the functions' declarations.
    let calls = unsafe {
        assert_eq!(bench_open(sizes(s, workers), m, ml, l, ll, r, rl, x.workers.number), 0);
        bench_run(sizes(s, workers), m, ml, l, ll, r, rl, 0, budget)
    };
    x.workers.number = calls as u32;
    calls
}

pub fn take(s: &Shape, workers: usize, p: usize, x: &mut Lent, records: &mut [TaskRecord]) -> u8 {
    let (ml, ll, rl, number) = (x.matrix.len(), x.lists.len(), records.len(), x.workers.number);
    x.workers.number += 1;
    // SAFETY: as above the functions' declarations.
    unsafe { bench_take(sizes(s, workers), x.matrix.as_ptr(), ml, x.lists.as_ptr(), ll, records.as_mut_ptr(), rl, number, 0, p) }
}

pub fn column(s: &Shape, workers: usize, p: usize, c: usize, x: &mut Lent, records: &mut [TaskRecord]) -> u8 {
    let (ml, ll, rl, number) = (x.matrix.len(), x.lists.len(), records.len(), x.workers.number);
    let (m, l, r) = (x.matrix.as_mut_ptr(), x.lists.as_mut_ptr(), records.as_mut_ptr());
    x.workers.number += 1;
    // SAFETY: as above the functions' declarations.
    unsafe { bench_column(sizes(s, workers), m, ml, l, ll, r, rl, number, 0, p as u16, c as u8) }
}

pub fn solve(s: &Shape, right: &[f64], x: &Lent, records: &[TaskRecord], answers: &mut [f64]) -> u8 {
    let (ml, ll, rl, al) = (x.matrix.len(), x.lists.len(), records.len(), answers.len());
    let (m, l, r) = (x.matrix.as_ptr(), x.lists.as_ptr(), records.as_ptr());
    // SAFETY: as above the functions' declarations.
    unsafe { bench_solve(sizes(s, 1), m, ml, l, ll, r, rl, x.workers.number, right.as_ptr(), right.len(), answers.as_mut_ptr(), al) }
}
