//! Eight threads, one for each worker, share what is lent behind one lock. In whatever order the system schedules them, what is left
//! is what the old loops of the reference leave, bit by bit. Its own tests show that its published loops leave the same. And the records tell the
//! order in which the threads worked.

#[allow(dead_code)]
mod order;

use std::sync::Mutex;
use std::thread;
use std::time::Duration;

use order::told_in_order;
use reference::families::numbers;
use reference::loops::old_loops;
use reference::numbers::bits;
use reference::rng::Rng;
use reference::tile::Shape;
use solumivaf::{Lent, Record, Sizes};

const THREADS: usize = 8;
const IDLE: Duration = Duration::from_micros(200);

/// Worker `worker` takes what it can get and works it, until no task waits or is taken.
fn work(sizes: Sizes, shared: &Mutex<Lent>, worker: usize) {
    loop {
        let mut lent = shared.lock().unwrap();
        let (number, count) = (lent.workers.number, lent.records.len());
        if lent.workers.is_busy(worker) {
            let task = lent.workers.task[worker] as usize;
            lent.column(sizes, worker).unwrap();
            let (record, call) = (lent.records[task], number + 1);
            let due = if record.mark == 1 { (0, 0, call) } else { (worker as u8, call, call) };
            assert_eq!((record.worker, record.ended(), lent.workers.number), due, "{sizes:?}, task {task}");
        } else {
            let tried = |step| (worker * 7 + step) % count;
            let taken = (0..count).map(tried).find(|&task| lent.take(sizes, worker, task).is_ok());
            if let Some(task) = taken {
                let (record, call) = (lent.records[task], number + 1);
                assert_eq!((record.took(), record.ended(), lent.workers.number), (call, 0, call));
            } else if lent.records.iter().all(|record| record.mark >= 2) {
                return;
            }
        }
        let busy = lent.workers.is_busy(worker);
        drop(lent);
        // A worker with nothing to do leaves the lock to the others: each of its looks costs a take call for every task.
        if busy {
            thread::yield_now();
        } else {
            thread::sleep(IDLE);
        }
    }
}

#[test]
fn any_order_ends_like_the_loops() {
    let mut rng = Rng::new(8);
    for (tiles, side) in [(1, 16), (2, 8), (3, 5), (4, 4), (5, 3), (6, 2), (7, 1), (8, 2)] {
        for family in 0..4 {
            let shape = Shape { tiles, side };
            let sizes = Sizes { tiles, side, workers: THREADS };
            let system = numbers(&mut rng, family, shape.matrix_length());
            let mut lent = Lent::of(sizes, system.clone());
            lent.open(sizes).unwrap();
            let shared = Mutex::new(lent);
            thread::scope(|scope| {
                for worker in 0..THREADS {
                    let shared = &shared;
                    scope.spawn(move || work(sizes, shared, worker));
                }
            });
            let lent = shared.into_inner().unwrap();
            let last = old_loops(shape, &system);
            assert_eq!(bits(&lent.matrix), bits(&last.matrix), "matrix of {shape:?}, family {family}");
            assert_eq!(lent.lists, last.lists, "lists of {shape:?}, family {family}");
            let marks: Vec<u8> = lent.records.iter().map(|record| record.mark).collect();
            assert_eq!(marks, last.marks, "marks of {shape:?}, family {family}");
            let sums: Vec<u16> = lent.records.iter().map(Record::ties).collect();
            assert_eq!(sums, last.tie_sums, "tie sums of {shape:?}, family {family}");
            told_in_order(sizes, &lent);
        }
    }
}
