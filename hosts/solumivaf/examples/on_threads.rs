//! Factors and solves a system on three threads, one for each worker, and prints the answers: `cargo run --release --example on_threads`.

use std::sync::Mutex;
use std::thread;

use solumivaf::{Error, Lent, Refusal, Sizes};

/// Does one worker's share: the columns of the task that it holds, or else the lowest task that it can take, until every task is finished.
fn work(sizes: Sizes, shared: &Mutex<Lent>, worker: usize) -> Result<(), Error> {
    loop {
        let mut lent = shared.lock().unwrap();
        if lent.records.iter().all(|record| record.mark >= 2) {
            return Ok(());
        }
        if lent.workers.is_busy(worker) {
            lent.column(sizes, worker)?;
            continue;
        }
        for task in 0..lent.records.len() {
            match lent.take(sizes, worker, task) {
                Ok(()) => break,
                Err(Error::Refused(Refusal { number: 7, .. })) => {}
                Err(error) => return Err(error),
            }
        }
        drop(lent);
        thread::yield_now();
    }
}

/// The answers of a system to a right side.
pub fn answers(sizes: Sizes, matrix: Vec<f64>, right: &[f64]) -> Result<Vec<f64>, Error> {
    let mut lent = Lent::of(sizes, matrix);
    lent.open(sizes)?;
    let shared = &Mutex::new(lent);
    thread::scope(|scope| {
        let begin = |worker| scope.spawn(move || work(sizes, shared, worker));
        let threads: Vec<_> = (0..sizes.workers).map(begin).collect();
        threads.into_iter().try_for_each(|thread| thread.join().unwrap())
    })?;
    let mut answers = vec![0.0; right.len()];
    shared.lock().unwrap().solve(sizes, right, &mut answers)?;
    Ok(answers)
}

#[allow(dead_code)]
fn main() -> Result<(), Error> {
    // The system of examples/small.table: the rows 0.25 -0.125 and -0.5 1.
    let sizes = Sizes { tiles: 2, side: 1, workers: 3 };
    for answer in answers(sizes, vec![0.25, -0.125, -0.5, 1.0], &[0.25, 4.0])? {
        println!("{answer}");
    }
    Ok(())
}
