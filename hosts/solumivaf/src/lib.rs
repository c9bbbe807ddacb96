//! The proved library for Rust hosts: what is lent to the calls, and each call as a safe function.
//!
//! A system of n = N t equations is factored by tasks, which W workers take and do column by column, in any order: the bits that are left are
//! always the same. A task's record tells who did it and when ([`Record::took`], [`Record::ended`]), which two runs may tell differently.
//! hosts/solumivaf.h says what each buffer holds and what each refusal means.
//!
//! ```
//! use solumivaf::{Ending, Lent, Outcome, Sizes};
//!
//! // The rows 0.25 -0.125 and -0.5 1, as 2 by 2 tiles of one number each, for one worker.
//! let sizes = Sizes { tiles: 2, side: 1, workers: 1 };
//! let mut lent = Lent::of(sizes, vec![0.25, -0.125, -0.5, 1.0]);
//! lent.open(sizes)?;
//! lent.run(sizes, u64::MAX)?;
//! assert_eq!(lent.outcome(sizes)?, Ending::Ended(Outcome::Good));
//!
//! let mut answers = [0.0; 2];
//! lent.solve(sizes, &[0.25, 4.0], &mut answers)?;
//! assert_eq!(answers, [4.0, 6.0]);
//! # Ok::<(), solumivaf::Error>(())
//! ```
//!
//! # Errors
//!
//! The calls on [`Lent`] answer an [`Error`]: a refusal of the library, or that this thread's floating-point mode or the library linked is not
//! the one that the results need. The functions over texts answer a [`Refusal`], which `?` turns into an [`Error`]. Whatever is answered, nothing
//! that was lent has changed.
//!
//! # Threads
//!
//! Threads that share the work share one [`Lent`] behind one lock, and each makes the calls of its own worker: examples/on_threads.rs.

#![deny(missing_docs)]

mod arithmetic;
mod files;
mod lengths;
mod raw;
mod refusal;

use std::fmt;

pub use arithmetic::arithmetic_is_default;
pub use files::{read_result, read_sizes, read_system, write_result, write_system};
pub use lengths::{lists_length, matrix_length, records_length, result_length, system_length};
pub use refusal::{Error, Refusal};

/// The version of the interface, as hosts/solumivaf.h has it.
pub const VERSION: u32 = 5;

/// The number of worker slots, and the most workers.
pub const SLOTS: usize = 32;

/// N, t and W as told to a call, in range or not.
#[derive(Clone, Copy, Debug, PartialEq, Eq)]
pub struct Sizes {
    /// N, the tiles a side: 1 to 16.
    pub tiles: usize,
    /// t, the numbers a side of a tile: 1 to 16.
    pub side: usize,
    /// W, the workers: 1 to 32.
    pub workers: usize,
}

/// A task: its kind, its k, i and j (0 where the kind has none), its mark, the sum of its [`ties`](Record::ties), the worker that ended it, and the
/// numbers of the calls that [`took`](Record::took) and [`ended`](Record::ended) it. Worker and calls tell the order of work: all else that
/// two runs of a system leave is the same.
#[repr(C)]
#[derive(Clone, Copy, Default, PartialEq, Eq)]
pub struct Record {
    /// 1 to 4 for T-1 to T-4.
    pub kind: u8,
    /// The stage.
    pub k: u8,
    /// The tile row.
    pub i: u8,
    /// The tile column.
    pub j: u8,
    /// 0 while it waits, 1 once taken, 2 when done, 3 when failed, 4 when spoiled.
    pub mark: u8,
    /// The worker that ended the task, 0 before that.
    pub worker: u8,
    /// The sum as it crosses, the low byte first.
    ties: [u8; 2],
    /// The number of the take, in the same order.
    took: [u8; 4],
    /// The number of the last column, in the same order.
    ended: [u8; 4],
}

impl Record {
    /// The sum of its ties: in each column that a T-1 or T-3 has completed, the other candidates of the pivot's magnitude. A pivot of zero has
    /// none. T-2, T-4 and spoiled tasks have 0.
    ///
    /// ```
    /// use solumivaf::{Lent, Sizes};
    ///
    /// // The rows 2 2 and -2 1 as one tile: in column 0 the second row ties with the first.
    /// let sizes = Sizes { tiles: 1, side: 2, workers: 1 };
    /// let mut lent = Lent::of(sizes, vec![2.0, 2.0, -2.0, 1.0]);
    /// lent.open(sizes)?;
    /// lent.run(sizes, u64::MAX)?;
    /// assert_eq!(lent.records[0].ties(), 1);
    /// # Ok::<(), solumivaf::Error>(())
    /// ```
    pub fn ties(&self) -> u16 {
        u16::from_le_bytes(self.ties)
    }

    /// Sets that sum, in a record that a host has stored and brings back.
    pub fn set_ties(&mut self, sum: u16) {
        self.ties = sum.to_le_bytes();
    }

    /// The number of the take that gave it to a worker, 0 while it waits. The takes and columns that are accepted since the opening have the numbers
    /// from 1 on, those inside a run too.
    ///
    /// ```
    /// use solumivaf::{Lent, Sizes};
    ///
    /// // Task 0 is taken by call 1, and ended by worker 1 with call 2.
    /// let sizes = Sizes { tiles: 1, side: 1, workers: 2 };
    /// let mut lent = Lent::of(sizes, vec![2.0]);
    /// lent.open(sizes)?;
    /// lent.take(sizes, 1, 0)?;
    /// lent.column(sizes, 1)?;
    /// let record = lent.records[0];
    /// assert_eq!((record.took(), record.ended(), record.worker), (1, 2, 1));
    /// assert_eq!(lent.workers.number, 2);
    /// # Ok::<(), solumivaf::Error>(())
    /// ```
    pub fn took(&self) -> u32 {
        u32::from_le_bytes(self.took)
    }

    /// Sets that number, in a record that a host has stored and brings back.
    pub fn set_took(&mut self, call: u32) {
        self.took = call.to_le_bytes();
    }

    /// The number of the column that ended it, done, failed or spoiled, 0 before that. A task that had to wait for this one was taken later.
    pub fn ended(&self) -> u32 {
        u32::from_le_bytes(self.ended)
    }

    /// Sets that number, in a record that a host has stored and brings back.
    pub fn set_ended(&mut self, call: u32) {
        self.ended = call.to_le_bytes();
    }
}

/// Tie sum and calls are shown as numbers.
impl fmt::Debug for Record {
    fn fmt(&self, out: &mut fmt::Formatter) -> fmt::Result {
        out.debug_struct("Record")
            .field("kind", &self.kind)
            .field("k", &self.k)
            .field("i", &self.i)
            .field("j", &self.j)
            .field("mark", &self.mark)
            .field("worker", &self.worker)
            .field("ties", &self.ties())
            .field("took", &self.took())
            .field("ended", &self.ended())
            .finish()
    }
}

/// The worker slots: slot v is idle, or holds a task and its next column. The first `count` are the workers that are lent, and a call told another W
/// is refused 2. The other slots are not looked at and stay as they are. With the workers goes the run's number.
#[derive(Clone, Debug, Default, PartialEq, Eq)]
pub struct Workers {
    /// How many workers are lent.
    pub count: usize,
    /// The run's number: how many takes and columns were accepted since the opening, those inside a run among them.
    pub number: u32,
    /// 0 for an idle worker, any other byte for a busy one. A worker that gets busy gets 1; one that stays busy keeps its byte.
    pub busy: [u8; SLOTS],
    /// The task that a busy worker holds.
    pub task: [u16; SLOTS],
    /// The next column of that task.
    pub column: [u8; SLOTS],
}

impl Workers {
    /// Whether a worker is busy. A worker beyond the slots is not.
    pub fn is_busy(&self, worker: usize) -> bool {
        self.busy.get(worker).is_some_and(|&byte| byte != 0)
    }
}

/// Everything lent to a call.
#[derive(Clone, Debug, Default)]
pub struct Lent {
    /// The numbers, tile after tile, each row by row.
    pub matrix: Vec<f64>,
    /// The row lists, one for each tile in the same order.
    pub lists: Vec<u8>,
    /// The tasks in number order.
    pub records: Vec<Record>,
    /// The workers.
    pub workers: Workers,
}

/// How a run ended, with the count of its calls.
#[derive(Clone, Copy, Debug, PartialEq, Eq)]
pub enum Run {
    /// Every task is finished.
    Finished(u64),
    /// The budget is spent.
    Spent(u64),
}

/// How a finished system ended.
#[derive(Clone, Copy, Debug, PartialEq, Eq)]
pub enum Outcome {
    /// It can be solved.
    Good,
    /// A task computed a number that isn't finite: the lowest such task.
    Overflow(u16),
    /// The final diagonal has a zero: the lowest such row.
    Singular(u16),
}

/// What the outcome call tells.
#[derive(Clone, Copy, Debug, PartialEq, Eq)]
pub enum Ending {
    /// Every task is finished.
    Ended(Outcome),
    /// The lowest unfinished task.
    Unfinished(usize),
}

/// What a call tells, as C has it.
#[repr(C)]
struct Told {
    place: usize,
    count: u64,
    number: u8,
    kind: u8,
}

/// What a reading tells, as C has it.
#[repr(C)]
struct Read {
    place: usize,
    tiles: usize,
    side: usize,
    at: u16,
    number: u8,
    kind: u8,
}

/// What a call tells of a refusal: number 0 is none.
fn accepted(number: u8, place: usize) -> Result<(), Refusal> {
    match number {
        0 => Ok(()),
        _ => Err(Refusal { number, place }),
    }
}

fn outcome_of(kind: u8, place: u16) -> Outcome {
    match kind {
        0 => Outcome::Good,
        1 => Outcome::Overflow(place),
        _ => Outcome::Singular(place),
    }
}

// ---- what is tested before a call

/// Refuses to compute in another mode.
fn arithmetic() -> Result<(), Error> {
    if arithmetic_is_default() {
        Ok(())
    } else {
        Err(Error::Arithmetic)
    }
}

/// Refuses a library of another version.
fn version() -> Result<(), Error> {
    // SAFETY: the function takes nothing and reads nothing.
    let linked = unsafe { raw::solumivaf_version() };
    if linked == VERSION as usize {
        Ok(())
    } else {
        Err(Error::Version(linked))
    }
}

// ---- the calls on what is lent

/// The run's number as it crosses: by its address where the records are written, else by value.
macro_rules! number {
    ($lent:expr, as_mut_ptr) => {
        &mut $lent.workers.number
    };
    ($lent:expr, as_ptr) => {
        $lent.workers.number
    };
}

/// A call with the sizes and everything lent. A buffer is lent by `as_ptr` to be read, or by `as_mut_ptr` to be written; the worker slots
/// and the run's number are lent like the records.
macro_rules! call {
    ($function:ident, $sizes:expr, $lent:expr, $matrix:ident, $lists:ident, $records:ident $(, $more:expr)*) => {
        // SAFETY: the header's conditions hold. Each pointer is of a Vec, an array or a slice with the length that goes with it, or of the run's
        // number, which the borrow of `$lent` and of what else is passed keeps alive, and which no one else writes during the call. Buffers do
        // not overlap.
        // `Record` is laid out as in C, any byte may be in `busy`, and wrong sizes and lengths are refused.
        unsafe {
            raw::$function(
                $sizes.tiles,
                $sizes.side,
                $sizes.workers,
                $lent.matrix.$matrix(),
                $lent.matrix.len(),
                $lent.lists.$lists(),
                $lent.lists.len(),
                $lent.records.$records(),
                $lent.records.len(),
                $lent.workers.busy.$records(),
                $lent.workers.task.$records(),
                $lent.workers.column.$records(),
                $lent.workers.count,
                number!($lent, $records),
                $($more),*
            )
        }
    };
}

/// The calls. All but [`take`](Lent::take) depend on the floating-point mode and test it first.
impl Lent {
    /// Buffers of the lengths that a system calls for, around its matrix. For N or t out of range lists and records are empty, and
    /// [`open`](Lent::open) refuses 1.
    pub fn of(sizes: Sizes, matrix: Vec<f64>) -> Lent {
        Lent {
            matrix,
            lists: vec![0; lists_length(sizes.tiles, sizes.side)],
            records: vec![Record::default(); records_length(sizes.tiles)],
            workers: Workers { count: sizes.workers, ..Workers::default() },
        }
    }

    /// Starts the work on the matrix: lists of 0, every task waiting and without ties, worker and calls, every worker idle, the run's number 0. Tests
    /// the version of the library too.
    pub fn open(&mut self, sizes: Sizes) -> Result<(), Error> {
        version()?;
        arithmetic()?;
        let told = call!(solumivaf_open, sizes, self, as_ptr, as_mut_ptr, as_mut_ptr);
        Ok(accepted(told.number, told.place)?)
    }

    /// A worker takes a task that is ready. The run's number grows by 1, and the task's record gets it.
    pub fn take(&mut self, sizes: Sizes, worker: usize, task: usize) -> Result<(), Error> {
        let told = call!(solumivaf_take, sizes, self, as_ptr, as_ptr, as_mut_ptr, worker, task);
        Ok(accepted(told.number, told.place)?)
    }

    /// A busy worker does the next column of its task. The task's mark tells how it goes on; the ties of a completed column join its sum. The run's
    /// number grows by 1, and where the task ends, its record gets it and the worker.
    pub fn column(&mut self, sizes: Sizes, worker: usize) -> Result<(), Error> {
        arithmetic()?;
        let told = call!(solumivaf_column, sizes, self, as_mut_ptr, as_mut_ptr, as_mut_ptr, worker);
        Ok(accepted(told.number, told.place)?)
    }

    /// The workers take turns from 0 until all tasks are finished, or as many calls are made as the budget allows.
    pub fn run(&mut self, sizes: Sizes, budget: u64) -> Result<Run, Error> {
        arithmetic()?;
        let told = call!(solumivaf_run, sizes, self, as_mut_ptr, as_mut_ptr, as_mut_ptr, budget);
        accepted(told.number, told.place)?;
        Ok(if told.kind == 1 { Run::Finished(told.count) } else { Run::Spent(told.count) })
    }

    /// The outcome by the marks and the diagonal, or the lowest unfinished task. Only sizes and lengths are checked.
    pub fn outcome(&self, sizes: Sizes) -> Result<Ending, Error> {
        // A subnormal number on the diagonal is not zero, unless the mode makes it so.
        arithmetic()?;
        let told = call!(solumivaf_outcome, sizes, self, as_ptr, as_ptr, as_ptr);
        accepted(told.number, told.place)?;
        Ok(match told.kind {
            3 => Ending::Unfinished(told.place),
            kind => Ending::Ended(outcome_of(kind, told.place as u16)),
        })
    }

    /// Solves for one right side. Right side and answers have n = N t numbers each. The answers change only where the call is accepted.
    pub fn solve(&self, sizes: Sizes, right: &[f64], answers: &mut [f64]) -> Result<(), Error> {
        arithmetic()?;
        let told = call!(
            solumivaf_solve,
            sizes,
            self,
            as_ptr,
            as_ptr,
            as_ptr,
            right.as_ptr(),
            right.len(),
            answers.as_mut_ptr(),
            answers.len()
        );
        Ok(accepted(told.number, told.place)?)
    }
}
