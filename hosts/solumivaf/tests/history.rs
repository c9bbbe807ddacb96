//! Who did which task, and when: runs by hand, openings, and every order of work.

#[allow(dead_code)]
mod order;

use order::{
    everything, failing, finished, history, marks, opened, plain, refused, told_in_order, without_history,
};
use reference::families::numbers;
use reference::loops::old_loops;
use reference::numbers::bits;
use reference::rng::Rng;
use reference::tile::Shape;
use solumivaf::{Lent, Record, Run, Sizes};

#[test]
fn as_it_crosses() {
    assert_eq!((size_of::<Record>(), align_of::<Record>()), (16, 1));
    let bytes: [u8; 16] = std::array::from_fn(|at| 0xF0 + at as u8);
    // SAFETY: the record has as many bytes, without padding, and any byte may be in each of its fields.
    let record: Record = unsafe { std::mem::transmute(bytes) };
    assert_eq!([record.kind, record.k, record.i, record.j, record.mark, record.worker], bytes[..6]);
    assert_eq!((record.ties(), record.took(), record.ended()), (0xF7F6, 0xFBFA_F9F8, 0xFFFE_FDFC));
    let mut other = Record::default();
    assert_eq!((other.worker, other.took(), other.ended()), (0, 0, 0));
    for call in [1, 255, 256, 65536, 0x1234_5678, u32::MAX] {
        other.set_took(call);
        other.set_ended(!call);
        assert_eq!((other.worker, other.ties(), other.took(), other.ended()), (0, 0, call, !call));
        let shown = format!(
            "Record {{ kind: 0, k: 0, i: 0, j: 0, mark: 0, worker: 0, ties: 0, took: {call}, ended: {} }}",
            !call
        );
        assert_eq!(format!("{other:?}"), shown);
    }
}

// ---- runs by hand

#[test]
fn one_worker() {
    let sizes = Sizes { tiles: 2, side: 1, workers: 1 };
    let lent = finished(sizes, &[0.25, -0.125, -0.5, 1.0]);
    assert_eq!(history(&lent), [(0, 1, 2), (0, 3, 4), (0, 5, 6), (0, 7, 8), (0, 9, 10)]);
    assert_eq!(lent.workers.number, 10);
    // Of the three columns of a task the last one ends it.
    let sizes = Sizes { tiles: 2, side: 3, workers: 1 };
    let lent = finished(sizes, &plain(sizes));
    assert_eq!(history(&lent), [(0, 1, 4), (0, 5, 8), (0, 9, 12), (0, 13, 16), (0, 17, 20)]);
    assert_eq!(lent.workers.number, 20);
}

/// Two workers take turns: while one has the only task that is ready, the other makes no call.
#[test]
fn two_workers() {
    let sizes = Sizes { tiles: 2, side: 1, workers: 2 };
    let lent = finished(sizes, &[0.25, -0.125, -0.5, 1.0]);
    assert_eq!(history(&lent), [(0, 1, 2), (1, 3, 5), (0, 4, 6), (1, 7, 8), (0, 9, 10)]);
    assert_eq!(lent.workers.number, 10);
}

/// Each accepted take and column counts, in a run too; what is refused leaves the number and every record.
#[test]
fn call_by_call() {
    let sizes = Sizes { tiles: 2, side: 2, workers: 3 };
    let mut lent = opened(sizes, &plain(sizes));
    let mut due = vec![(0, 0, 0); 5];
    assert_eq!((history(&lent), lent.workers.number), (due.clone(), 0));
    lent.take(sizes, 2, 0).unwrap();
    due[0] = (0, 1, 0);
    assert_eq!((history(&lent), lent.workers.number), (due.clone(), 1));

    let before = everything(&lent);
    for (worker, task, error) in [(2, 1, refused(5, 2)), (3, 1, refused(5, 3)), (0, 5, refused(6, 0))] {
        assert_eq!(lent.take(sizes, worker, task), Err(error));
    }
    assert_eq!(lent.take(sizes, 0, 1), Err(refused(7, 1)));
    assert_eq!(lent.column(sizes, 0), Err(refused(5, 0)));
    assert_eq!(lent.run(Sizes { workers: 2, ..sizes }, 9), Err(refused(2, 0)));
    assert_eq!(lent.open(Sizes { side: 17, ..sizes }), Err(refused(1, 0)));
    assert_eq!(lent.solve(sizes, &[1.0; 4], &mut [0.0; 4]), Err(refused(8, 0)));
    assert_eq!(lent.run(sizes, 0), Ok(Run::Spent(0)));
    assert_eq!(everything(&lent), before);

    lent.column(sizes, 2).unwrap();
    assert_eq!((history(&lent), lent.workers.number), (due.clone(), 2));
    lent.column(sizes, 2).unwrap();
    due[0] = (2, 1, 3);
    assert_eq!((history(&lent), lent.workers.number), (due.clone(), 3));
    lent.take(sizes, 0, 2).unwrap();
    lent.take(sizes, 1, 1).unwrap();
    for worker in [1, 0, 0, 1] {
        lent.column(sizes, worker).unwrap();
    }
    (due[1], due[2]) = ((1, 5, 9), (0, 4, 8));
    assert_eq!((history(&lent), lent.workers.number), (due.clone(), 9));
    assert_eq!(lent.run(sizes, 3), Ok(Run::Spent(3)));
    due[3] = (0, 10, 12);
    assert_eq!((history(&lent), lent.workers.number), (due.clone(), 12));
    assert_eq!(lent.run(sizes, u64::MAX), Ok(Run::Finished(3)));
    due[4] = (0, 13, 15);
    assert_eq!((history(&lent), lent.workers.number), (due.clone(), 15));
    assert_eq!(lent.run(sizes, u64::MAX), Ok(Run::Finished(0)));
    assert_eq!((history(&lent), lent.workers.number), (due, 15));
    told_in_order(sizes, &lent);
}

/// Failed and spoiled tasks have their worker and both calls: the first fails at once, and a spoiled one has a single column.
#[test]
fn failed_and_spoiled() {
    let sizes = Sizes { tiles: 2, side: 2, workers: 1 };
    let lent = finished(sizes, &failing());
    assert_eq!(marks(&lent), [3, 4, 4, 4, 4]);
    assert_eq!(history(&lent), [(0, 1, 2), (0, 3, 4), (0, 5, 6), (0, 7, 8), (0, 9, 10)]);
    assert_eq!(lent.workers.number, 10);
    let sizes = Sizes { workers: 32, ..sizes };
    let mut lent = opened(sizes, &failing());
    for p in 0..5 {
        lent.take(sizes, 31 - p, p).unwrap();
        lent.column(sizes, 31 - p).unwrap();
    }
    assert_eq!(history(&lent), [(31, 1, 2), (30, 3, 4), (29, 5, 6), (28, 7, 8), (27, 9, 10)]);
}

// ---- openings

/// Whatever records and number held, an accepted opening sets them all, and a refused one leaves them.
#[test]
fn opening() {
    for workers in [1, 32] {
        let sizes = Sizes { tiles: 3, side: 2, workers };
        let new = opened(sizes, &plain(sizes));
        assert!(history(&new).iter().all(|&told| told == (0, 0, 0)));
        assert_eq!(new.workers.number, 0);
        let mut full = new.clone();
        for record in &mut full.records {
            (record.kind, record.k, record.i, record.j) = (255, 255, 255, 255);
            (record.mark, record.worker) = (255, 255);
            record.set_ties(u16::MAX);
            record.set_took(u32::MAX);
            record.set_ended(u32::MAX);
        }
        full.workers.number = u32::MAX;
        let before = everything(&full);
        assert_eq!(full.open(Sizes { tiles: 2, ..sizes }), Err(refused(2, 0)));
        full.matrix[5] = f64::NAN;
        assert_eq!(full.open(sizes), Err(refused(3, 5)));
        full.matrix[5] = new.matrix[5];
        assert_eq!(everything(&full), before);
        full.open(sizes).unwrap();
        assert_eq!(everything(&full), everything(&new));
    }
}

/// A second opening starts the numbers again, in the middle of the work too.
#[test]
fn opened_again() {
    let sizes = Sizes { tiles: 2, side: 2, workers: 2 };
    let first = finished(sizes, &plain(sizes));
    for calls in [1, 4, 7, 15] {
        let mut lent = opened(sizes, &plain(sizes));
        lent.run(sizes, calls).unwrap();
        assert_eq!(lent.workers.number, calls as u32);
        lent.matrix = plain(sizes);
        lent.open(sizes).unwrap();
        lent.run(sizes, u64::MAX).unwrap();
        assert_eq!(everything(&lent), everything(&first));
    }
}

// ---- every order of work

/// Any worker does a column or tries a task, until all are finished. Tells who took and ended each task with which of the accepted calls.
fn in_any_order(rng: &mut Rng, sizes: Sizes, lent: &mut Lent) -> Vec<(u8, u32, u32)> {
    let mut told = vec![(0, 0, 0); lent.records.len()];
    let mut number = 0;
    while lent.records.iter().any(|record| record.mark < 2) {
        let worker = rng.below(sizes.workers);
        if lent.workers.is_busy(worker) {
            let task = lent.workers.task[worker] as usize;
            lent.column(sizes, worker).unwrap();
            number += 1;
            if !lent.workers.is_busy(worker) {
                (told[task].0, told[task].2) = (worker as u8, number);
            }
        } else {
            let task = rng.below(lent.records.len());
            match lent.take(sizes, worker, task) {
                Ok(()) => {
                    number += 1;
                    told[task].1 = number;
                }
                Err(error) => assert_eq!(error, refused(7, task)),
            }
        }
        assert_eq!(lent.workers.number, number);
    }
    told
}

/// Runs, runs in pieces and single calls, with one worker and with many, tell each its order, and leave the same in all else. So does the count of
/// calls at the end.
#[test]
fn every_order() {
    let mut rng = Rng::new(9);
    let (mut failed, mut differ) = (0, 0);
    for (tiles, side) in [(1, 16), (2, 1), (2, 5), (3, 3), (4, 2), (5, 1)].repeat(4) {
        for family in [1, 2, 3, 6, 7] {
            let shape = Shape { tiles, side };
            let system = numbers(&mut rng, family, shape.matrix_length());
            let alone = finished(Sizes { tiles, side, workers: 1 }, &system);
            let due = old_loops(shape, &system);
            assert_eq!((bits(&alone.matrix), marks(&alone)), (bits(&due.matrix), due.marks.clone()));
            for workers in [1, 3, 32] {
                let sizes = Sizes { tiles, side, workers };
                let mut whole = opened(sizes, &system);
                let count = match whole.run(sizes, u64::MAX).unwrap() {
                    Run::Finished(count) | Run::Spent(count) => count,
                };
                assert_eq!(count, whole.workers.number as u64);
                let mut pieces = opened(sizes, &system);
                while let Run::Spent(_) = pieces.run(sizes, rng.between(1, 9) as u64).unwrap() {}
                let mut single = opened(sizes, &system);
                let told = in_any_order(&mut rng, sizes, &mut single);
                assert_eq!(history(&single), told, "{sizes:?}, family {family}");
                for lent in [&whole, &pieces, &single] {
                    told_in_order(sizes, lent);
                    assert_eq!(lent.workers.number, alone.workers.number, "{sizes:?}, family {family}");
                    assert_eq!((bits(&lent.matrix), &lent.lists), (bits(&alone.matrix), &alone.lists));
                    assert_eq!(without_history(lent), without_history(&alone), "{sizes:?}, family {family}");
                }
                differ += (history(&single) != history(&alone)) as usize;
            }
            failed += due.marks.iter().filter(|&&mark| mark > 2).count();
        }
    }
    assert!(failed > 50 && differ > 100, "{failed} tasks failed or spoiled, {differ} orders differ");
}
