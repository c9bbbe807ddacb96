//! Workers and call numbers that no run can have: each bound of refusal 4, in the records of finished and unfinished tasks.

#[allow(dead_code)]
mod order;

use order::{everything, failing, finished, history, marks, opened, plain, refused, without_history};
use solumivaf::{Lent, Record, Run, Sizes};

/// Every call that tests the state refuses it and changes nothing; an outcome does not look, and an opening sets all to 0.
fn is_damaged(sizes: Sizes, lent: &Lent) {
    let four = refused(4, 0);
    let mut other = lent.clone();
    let n = sizes.tiles * sizes.side;
    let mut answers = vec![5.0; n];
    for worker in 0..sizes.workers {
        assert_eq!(other.take(sizes, worker, 0), Err(four));
        assert_eq!(other.column(sizes, worker), Err(four));
    }
    assert_eq!(other.run(sizes, u64::MAX), Err(four));
    assert_eq!(other.run(sizes, 0), Err(four));
    assert_eq!(other.solve(sizes, &vec![1.0; n], &mut answers), Err(four));
    assert!(other.outcome(sizes).is_ok());
    assert_eq!(answers, vec![5.0; n]);
    assert_eq!(everything(&other), everything(lent));
    assert_eq!(other.open(sizes), Ok(()));
    assert_eq!((history(&other), other.workers.number), (vec![(0, 0, 0); lent.records.len()], 0));
}

/// A run without budget accepts it, and leaves it as it is.
fn is_accepted(sizes: Sizes, lent: &Lent) {
    let mut other = lent.clone();
    assert!(other.run(sizes, 0).is_ok(), "{:?} {:?}", lent.workers, lent.records);
    assert_eq!(everything(&other), everything(lent));
}

fn with_number(lent: &Lent, number: u32) -> Lent {
    let mut other = lent.clone();
    other.workers.number = number;
    other
}

/// With the history of all records at 0 the run's number is accepted up to `most`, and refused beyond.
fn most_is(sizes: Sizes, lent: &Lent, most: u32) {
    let mut other = lent.clone();
    other.records = without_history(lent);
    for number in [0, most / 2, most] {
        is_accepted(sizes, &with_number(&other, number));
    }
    for number in [most + 1, most + 256, most + 65536, most + (1 << 24), u32::MAX - most, u32::MAX] {
        is_damaged(sizes, &with_number(&other, number));
    }
}

/// t + 1 for each finished task, however it ended; 1 and the next column for each taken one.
#[test]
fn number_above() {
    let sizes = Sizes { tiles: 2, side: 3, workers: 3 };
    let mut lent = opened(sizes, &plain(sizes));
    most_is(sizes, &lent, 0);
    for (at, p) in [0, 2, 1, 3, 4].into_iter().enumerate() {
        lent.take(sizes, 2, p).unwrap();
        for column in 0..3 {
            most_is(sizes, &lent, 4 * at as u32 + 1 + column);
            lent.column(sizes, 2).unwrap();
        }
        most_is(sizes, &lent, 4 * (at as u32 + 1));
    }
    // Two taken tasks at once, at columns 2 and 1.
    let mut lent = opened(sizes, &plain(sizes));
    lent.run(sizes, 4).unwrap();
    lent.take(sizes, 1, 2).unwrap();
    lent.take(sizes, 0, 1).unwrap();
    for worker in [1, 0, 1] {
        lent.column(sizes, worker).unwrap();
    }
    most_is(sizes, &lent, 4 + 3 + 2);
    // A failed and four spoiled tasks made ten calls, and t + 1 for each are allowed.
    let sizes = Sizes { tiles: 2, side: 2, workers: 1 };
    let lent = finished(sizes, &failing());
    assert_eq!((marks(&lent), lent.workers.number), (vec![3, 4, 4, 4, 4], 10));
    most_is(sizes, &lent, 15);
    // The most calls that there can be.
    let sizes = Sizes { tiles: 16, side: 16, workers: 1 };
    let mut lent = opened(sizes, &vec![0.0; 65536]);
    lent.records.iter_mut().for_each(|record| record.mark = 2);
    most_is(sizes, &lent, 1496 * 17);
}

/// What is allowed by an earlier failure is allowed later too: the numbers go on from it.
#[test]
fn number_goes_on() {
    let sizes = Sizes { tiles: 2, side: 2, workers: 2 };
    let mut lent = opened(sizes, &failing());
    lent.run(sizes, 2).unwrap();
    assert_eq!(marks(&lent), [3, 0, 0, 0, 0]);
    lent.workers.number = 3;
    lent.take(sizes, 1, 2).unwrap();
    lent.column(sizes, 1).unwrap();
    assert_eq!((history(&lent)[2], lent.workers.number), ((1, 4, 5), 5));
    assert_eq!(lent.run(sizes, u64::MAX), Ok(Run::Finished(6)));
    assert_eq!(lent.workers.number, 11);
}

/// States with waiting, taken, done, failed and spoiled tasks, each with its sizes.
fn states() -> Vec<(Sizes, Lent)> {
    let sizes = Sizes { tiles: 2, side: 2, workers: 3 };
    let mut states = vec![(sizes, opened(sizes, &plain(sizes)))];
    for calls in [1, 2, 5, 7, 9, u64::MAX] {
        let mut lent = opened(sizes, &plain(sizes));
        lent.run(sizes, calls).unwrap();
        states.push((sizes, lent));
    }
    for calls in [3, 5, u64::MAX] {
        let mut lent = opened(sizes, &failing());
        lent.run(sizes, calls).unwrap();
        states.push((sizes, lent));
    }
    states
}

/// In any record, finished or not, the calls may be as high as the run's number and no higher.
#[test]
fn number_below() {
    for (sizes, lent) in states() {
        let number = lent.workers.number;
        for p in 0..lent.records.len() {
            for set in [Record::set_took, Record::set_ended] {
                for call in [0, number] {
                    let mut other = lent.clone();
                    set(&mut other.records[p], call);
                    is_accepted(sizes, &other);
                }
                for call in [number + 1, number + 256, number + 65536, number + (1 << 24), u32::MAX] {
                    let mut other = lent.clone();
                    set(&mut other.records[p], call);
                    is_damaged(sizes, &other);
                }
            }
        }
        // The run's own number, below the highest call in a record.
        let calls = lent.records.iter().flat_map(|record| [record.took(), record.ended()]);
        let highest = calls.max().unwrap();
        for number in highest..=lent.workers.number {
            is_accepted(sizes, &with_number(&lent, number));
        }
        if highest > 0 {
            is_damaged(sizes, &with_number(&lent, highest - 1));
            is_damaged(sizes, &with_number(&lent, 0));
        }
    }
}

/// Both bounds at once: with u32::MAX in a record and as the run's number, it is the marks that refuse.
#[test]
fn number_and_call() {
    for (sizes, lent) in states() {
        for set in [Record::set_took, Record::set_ended] {
            let mut other = with_number(&lent, u32::MAX);
            set(&mut other.records[4], u32::MAX);
            is_damaged(sizes, &other);
        }
    }
}

/// In any record, finished or not, the worker is below W.
#[test]
fn worker_below() {
    for (sizes, lent) in states() {
        for p in 0..lent.records.len() {
            for worker in [0, 1, 2, 3, 4, 31, 32, 128, 255] {
                let mut other = lent.clone();
                other.records[p].worker = worker;
                if worker < 3 {
                    is_accepted(sizes, &other);
                } else {
                    is_damaged(sizes, &other);
                }
            }
        }
    }
    for workers in [1, 31, 32] {
        let sizes = Sizes { tiles: 3, side: 1, workers };
        for mut lent in [opened(sizes, &plain(sizes)), finished(sizes, &plain(sizes))] {
            lent.records[13].worker = workers as u8 - 1;
            is_accepted(sizes, &lent);
            for worker in [workers as u8, 255] {
                lent.records[13].worker = worker;
                is_damaged(sizes, &lent);
            }
        }
    }
}

/// A finished system is lent to more workers, and to fewer where those above did nothing.
#[test]
fn other_workers() {
    let sizes = Sizes { tiles: 2, side: 2, workers: 3 };
    let mut lent = opened(sizes, &plain(sizes));
    for p in 0..5 {
        lent.take(sizes, p % 2, p).unwrap();
        while lent.workers.is_busy(p % 2) {
            lent.column(sizes, p % 2).unwrap();
        }
    }
    for workers in [1, 2, 3, 4, 32] {
        lent.workers.count = workers;
        let sizes = Sizes { workers, ..sizes };
        if workers == 1 {
            is_damaged(sizes, &lent);
        } else {
            is_accepted(sizes, &lent);
            assert_eq!(lent.solve(sizes, &[1.0; 4], &mut [0.0; 4]), Ok(()));
        }
    }
}
