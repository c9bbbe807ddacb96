//! Factoring a system on threads, one for each worker, and solving it.

use std::io::{self, Write};
use std::sync::{Condvar, Mutex, MutexGuard};
use std::thread;
use std::time::Duration;

use solumivaf::{Ending, Error, Lent, Outcome, Record, Refusal, Sizes};

use crate::failure::Failure;
use crate::files::System;
use crate::words;

/// How many of the lowest waiting tasks a worker tries before it waits: each try looks at all records.
const TRIES: usize = 24;
/// How often the progress line is written.
const PAUSE: Duration = Duration::from_millis(100);

/// A factored system.
pub struct Factored {
    pub matrix: Vec<f64>,
    pub lists: Vec<u8>,
    pub records: Vec<Record>,
    /// The run's number: how many calls it took.
    pub number: u32,
    pub outcome: Outcome,
}

/// What the threads share.
struct Work {
    sizes: Sizes,
    lent: Lent,
    /// No task below it waits.
    lowest: usize,
    finished: usize,
    failure: Option<Failure>,
}

/// What a worker's turn was.
enum Turn {
    /// It took a task, or finished one: there may be more to take.
    More,
    /// It did a column.
    Column,
    /// It found no task to take.
    Nothing,
}

impl Work {
    fn is_over(&self) -> bool {
        self.failure.is_some() || self.finished == self.lent.records.len()
    }

    /// One turn of a worker: a column of its task, or a take.
    fn turn(&mut self, worker: usize) -> Result<Turn, Error> {
        if !self.lent.workers.is_busy(worker) {
            return self.take(worker);
        }
        self.lent.column(self.sizes, worker)?;
        if self.lent.workers.is_busy(worker) {
            return Ok(Turn::Column);
        }
        self.finished += 1;
        Ok(Turn::More)
    }

    /// Tries the lowest waiting tasks, each worker from another one on. While no worker is busy the lowest of them is ready, so that
    /// someone always has work until all is finished.
    fn take(&mut self, worker: usize) -> Result<Turn, Error> {
        let records = &self.lent.records;
        let waits = |&task: &usize| records[task].mark == 0;
        self.lowest = (self.lowest..records.len()).find(waits).unwrap_or(records.len());
        let waiting: Vec<usize> = (self.lowest..records.len()).filter(waits).take(TRIES).collect();
        for at in 0..waiting.len() {
            let task = waiting[(worker + at) % waiting.len()];
            match self.lent.take(self.sizes, worker, task) {
                Ok(()) => return Ok(Turn::More),
                Err(Error::Refused(Refusal { number: 7, .. })) => {}
                Err(error) => return Err(error),
            }
        }
        Ok(Turn::Nothing)
    }
}

/// The work behind its lock. Idle workers wait for `more` to take, and the progress line for the end.
struct Shared {
    work: Mutex<Work>,
    more: Condvar,
    end: Condvar,
}

const HELD: &str = "no thread panics while it has the lock";

impl Shared {
    fn lock(&self) -> MutexGuard<'_, Work> {
        self.work.lock().expect(HELD)
    }

    /// Does one worker's turns until all is over. Between two turns the others get the lock.
    fn share(&self, worker: usize) {
        let mut work = self.lock();
        while !work.is_over() {
            match work.turn(worker) {
                Ok(Turn::Nothing) => {
                    work = self.more.wait(work).expect(HELD);
                    continue;
                }
                // One idle worker looks for more; if it finds some it wakes the next.
                Ok(Turn::More) => self.more.notify_one(),
                Ok(Turn::Column) => {}
                Err(error) => work.failure = Some(Failure::of(error)),
            }
            drop(work);
            thread::yield_now();
            work = self.lock();
        }
        drop(work);
        self.more.notify_all();
        self.end.notify_all();
    }

    /// Rewrites the progress line on standard error until all is over. That it can't be written is no reason to stop.
    fn watch(&self) {
        loop {
            let waited = self.end.wait_timeout_while(self.lock(), PAUSE, |work| !work.is_over());
            let (work, _) = waited.expect(HELD);
            let (finished, all, over) = (work.finished, work.lent.records.len(), work.is_over());
            drop(work);
            let end = if over { "\n" } else { "" };
            let _ = write!(io::stderr(), "\rlab: {finished} of {all} tasks{end}");
            if over {
                return;
            }
        }
    }
}

/// All tasks of a system, done on as many threads as there are workers.
fn done(system: &System, workers: usize) -> Result<(Sizes, Lent), Failure> {
    let sizes = Sizes { tiles: system.tiles, side: system.side, workers };
    let mut lent = Lent::of(sizes, system.matrix.clone());
    lent.open(sizes).map_err(Failure::of)?;
    let work = Work { sizes, lent, lowest: 0, finished: 0, failure: None };
    let shared = Shared { work: Mutex::new(work), more: Condvar::new(), end: Condvar::new() };
    thread::scope(|scope| {
        for worker in 0..workers {
            let begun = thread::Builder::new().spawn_scoped(scope, {
                let shared = &shared;
                move || shared.share(worker)
            });
            if let Err(error) = begun {
                let line = format!("{workers} threads cannot be started: {error}; use fewer workers");
                shared.lock().failure = Some(Failure::unusable(line));
                shared.more.notify_all();
                break;
            }
        }
        shared.watch();
    });
    let work = shared.work.into_inner().expect(HELD);
    match work.failure {
        Some(failure) => Err(failure),
        None => Ok((sizes, work.lent)),
    }
}

/// Factors a system. An outcome other than good is said on standard error.
pub fn factor(system: &System, workers: usize) -> Result<Factored, Failure> {
    let (sizes, lent) = done(system, workers)?;
    match lent.outcome(sizes).map_err(Failure::of)? {
        Ending::Ended(outcome) => {
            if outcome != Outcome::Good {
                let _ =
                    writeln!(io::stderr(), "lab: the outcome is {}", words::outcome(system.tiles, outcome));
            }
            let Lent { matrix, lists, records, workers } = lent;
            Ok(Factored { matrix, lists, records, number: workers.number, outcome })
        }
        Ending::Unfinished(task) => Err(Failure::of(Refusal { number: 8, place: task })),
    }
}

/// The answers of a system to a right side.
pub fn solve(system: &System, workers: usize, right: &[f64]) -> Result<Vec<f64>, Failure> {
    let (sizes, lent) = done(system, workers)?;
    let mut answers = vec![0.0; right.len()];
    lent.solve(sizes, right, &mut answers).map_err(Failure::of)?;
    Ok(answers)
}
