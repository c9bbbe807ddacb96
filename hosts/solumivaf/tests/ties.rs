//! The tie sums: small systems by hand, the same sums in every order of work, and sums that no task can have.

use reference::families::numbers;
use reference::loops::old_loops;
use reference::numbers::bits;
use reference::rng::Rng;
use reference::tile::Shape;
use solumivaf::{Error, Lent, Record, Refusal, Run, Sizes};

const DAMAGED: Error = Error::Refused(Refusal { number: 4, place: 0 });

fn opened(sizes: Sizes, matrix: &[f64]) -> Lent {
    let mut lent = Lent::of(sizes, matrix.to_vec());
    lent.records.iter_mut().for_each(|record| record.set_ties(7));
    lent.open(sizes).unwrap();
    lent
}

fn finished(sizes: Sizes, matrix: &[f64]) -> Lent {
    let mut lent = opened(sizes, matrix);
    lent.run(sizes, u64::MAX).unwrap();
    lent
}

fn sums(lent: &Lent) -> Vec<u16> {
    lent.records.iter().map(Record::ties).collect()
}

fn marks(lent: &Lent) -> Vec<u8> {
    lent.records.iter().map(|record| record.mark).collect()
}

#[test]
fn as_it_crosses() {
    let mut record = Record::default();
    assert_eq!(record.ties(), 0);
    (record.kind, record.mark) = (1, 2);
    for sum in [0, 1, 255, 256, 0x1234, u16::MAX] {
        record.set_ties(sum);
        assert_eq!(record.ties(), sum);
        assert_eq!(
            format!("{record:?}"),
            format!(
                "Record {{ kind: 1, k: 0, i: 0, j: 0, mark: 2, worker: 0, ties: {sum}, took: 0, ended: 0 }}"
            )
        );
    }
}

// ---- systems by hand

/// Rows 2 2 and -2 1: in T-1 the second row ties with the first, in T-3 the lower tile with the upper one's diagonal.
#[test]
fn one_tie() {
    let sizes = Sizes { tiles: 1, side: 2, workers: 1 };
    assert_eq!(sums(&finished(sizes, &[2.0, 2.0, -2.0, 1.0])), [1]);
    let sizes = Sizes { tiles: 2, side: 1, workers: 1 };
    assert_eq!(sums(&finished(sizes, &[2.0, 2.0, -2.0, 1.0])), [0, 0, 1, 0, 0]);
}

/// Systems of one tile, with the mark and the sum of its only task.
#[test]
fn one_tile() {
    const LARGEST: f64 = f64::MAX;
    for (side, matrix, mark, sum) in [
        // zeros of both signs do not tie
        (2, &[0.0, -0.0, 0.0, 0.0][..], 2, 0),
        (3, &[0.0, 1.0, 0.0, -0.0, 1.0, 0.0, 0.0, -1.0, 0.0], 2, 1),
        // ties with a row that a larger one overtakes do not count; those with the larger one do
        (4, &[1.0, 0.0, 0.0, 0.0, -1.0, 0.0, 0.0, 0.0, 2.0, 0.0, 0.0, 0.0, -2.0, 0.0, 0.0, 0.0], 2, 1),
        // a tie in each of two columns
        (3, &[1.0, 1.0, 0.0, 1.0, -1.0, 0.0, 1.0, 3.0, 0.0], 2, 3),
        // the failing column has a tie, and so has the one before it
        (2, &[1.0, LARGEST, -1.0, LARGEST], 3, 0),
        (3, &[1.0, 0.0, 0.0, -1.0, 1.0, LARGEST, 0.0, -1.0, LARGEST], 3, 1),
    ] {
        let sizes = Sizes { tiles: 1, side, workers: 1 };
        let lent = finished(sizes, matrix);
        assert_eq!((marks(&lent), sums(&lent)), (vec![mark], vec![sum]), "{matrix:?}");
    }
}

/// The lower tile's ones tie with the upper tile's diagonal in every column: t * t in all, which takes both bytes.
#[test]
fn most() {
    let side = 16;
    let sizes = Sizes { tiles: 2, side, workers: 2 };
    let mut matrix = vec![0.0; 4 * side * side];
    (0..side).for_each(|r| matrix[r * side + r] = 1.0);
    matrix[2 * side * side..3 * side * side].fill(1.0);
    let mut lent = finished(sizes, &matrix);
    assert_eq!(sums(&lent), [0, 0, 256, 0, 0]);
    assert!(lent.run(sizes, 0).is_ok());
}

/// The tasks that a failed one spoils have no ties, whatever they would meet.
#[test]
fn spoiled() {
    let sizes = Sizes { tiles: 2, side: 2, workers: 1 };
    let mut matrix = vec![1.0; 16];
    (matrix[1], matrix[2], matrix[3]) = (f64::MAX, -1.0, f64::MAX);
    let lent = finished(sizes, &matrix);
    assert_eq!((marks(&lent), sums(&lent)), (vec![3, 4, 4, 4, 4], vec![0; 5]));
}

// ---- every order of work

/// Any worker does a column or tries a task, until all are finished.
fn in_any_order(rng: &mut Rng, sizes: Sizes, lent: &mut Lent) {
    while lent.records.iter().any(|record| record.mark < 2) {
        let worker = rng.below(sizes.workers);
        if lent.workers.is_busy(worker) {
            lent.column(sizes, worker).unwrap();
        } else if let Err(error) = lent.take(sizes, worker, rng.below(lent.records.len())) {
            assert!(matches!(error, Error::Refused(Refusal { number: 7, .. })), "{error}");
        }
    }
}

/// Runs, runs in pieces and single calls, with one worker and with many, leave the sums that the old loops of the reference leave.
#[test]
fn every_order() {
    let mut rng = Rng::new(7);
    let (mut tied, mut failed) = (0, 0);
    for (tiles, side) in [(1, 16), (2, 1), (2, 5), (3, 3), (4, 2), (5, 1)].repeat(4) {
        for family in [1, 2, 3, 6, 7] {
            let shape = Shape { tiles, side };
            let system = numbers(&mut rng, family, shape.matrix_length());
            let due = old_loops(shape, &system);
            for workers in [1, 3, 32] {
                let sizes = Sizes { tiles, side, workers };
                assert_eq!(sums(&finished(sizes, &system)), due.tie_sums, "{sizes:?}, family {family}");
                let mut lent = opened(sizes, &system);
                while let Run::Spent(_) = lent.run(sizes, rng.between(1, 9) as u64).unwrap() {}
                assert_eq!(sums(&lent), due.tie_sums, "{sizes:?}, family {family}, in pieces");
                let mut lent = opened(sizes, &system);
                in_any_order(&mut rng, sizes, &mut lent);
                assert_eq!(sums(&lent), due.tie_sums, "{sizes:?}, family {family}, by single calls");
                assert_eq!(marks(&lent), due.marks);
            }
            tied += due.tie_sums.iter().filter(|&&sum| sum > 0).count();
            failed += due.marks.iter().filter(|&&mark| mark > 2).count();
        }
    }
    assert!(tied > 50 && failed > 50, "{tied} sums above 0, {failed} tasks failed or spoiled");
}

/// A task's sum grows by each column that it completes, and by nothing else.
#[test]
fn column_by_column() {
    let sizes = Sizes { tiles: 1, side: 3, workers: 2 };
    let mut lent = opened(sizes, &[1.0, 1.0, 0.0, 1.0, -1.0, 0.0, 1.0, 3.0, 0.0]);
    lent.take(sizes, 1, 0).unwrap();
    let mut told = vec![sums(&lent)[0]];
    while lent.workers.is_busy(1) {
        lent.column(sizes, 1).unwrap();
        told.push(sums(&lent)[0]);
    }
    assert_eq!(told, [0, 2, 3, 3]);
}

// ---- sums that no task can have

/// The state with another sum of task p.
fn with_sum(lent: &Lent, p: usize, sum: u16) -> Lent {
    let mut other = lent.clone();
    other.records[p].set_ties(sum);
    other
}

/// Every call that tests the state refuses it and changes nothing; an outcome does not look, and an opening sets the sums to 0.
fn refused(sizes: Sizes, lent: &Lent) {
    let mut other = lent.clone();
    let n = sizes.tiles * sizes.side;
    let mut answers = vec![5.0; n];
    for worker in 0..sizes.workers {
        assert_eq!(other.take(sizes, worker, 0), Err(DAMAGED));
        assert_eq!(other.column(sizes, worker), Err(DAMAGED));
    }
    assert_eq!(other.run(sizes, u64::MAX), Err(DAMAGED));
    assert_eq!(other.run(sizes, 0), Err(DAMAGED));
    assert_eq!(other.solve(sizes, &vec![1.0; n], &mut answers), Err(DAMAGED));
    assert!(other.outcome(sizes).is_ok());
    assert_eq!(answers, vec![5.0; n]);
    assert_eq!(bits(&other.matrix), bits(&lent.matrix));
    assert_eq!((&other.lists, &other.records), (&lent.lists, &lent.records));
    assert_eq!(other.workers, lent.workers);
    assert_eq!(other.open(sizes), Ok(()));
    assert_eq!(sums(&other), vec![0; lent.records.len()]);
}

/// Of task p the sums up to `most` are accepted, and the others refused.
fn most_is(sizes: Sizes, lent: &Lent, p: usize, most: u16) {
    for sum in [0, most] {
        assert_eq!(with_sum(lent, p, sum).run(sizes, 0).err(), None, "task {p}, sum {sum}");
    }
    for sum in [most + 1, (most + 1) << 8, u16::MAX] {
        refused(sizes, &with_sum(lent, p, sum));
    }
}

#[test]
fn waiting_and_done() {
    let sizes = Sizes { tiles: 2, side: 3, workers: 2 };
    let matrix: Vec<f64> = (0..36).map(|x| (x * x % 11) as f64).collect();
    let (waiting, done) = (opened(sizes, &matrix), finished(sizes, &matrix));
    assert_eq!(marks(&done), [2; 5]);
    for p in 0..5 {
        most_is(sizes, &waiting, p, 0);
        most_is(sizes, &done, p, 9);
    }
}

/// A taken task may have t for each column that is behind it.
#[test]
fn taken() {
    let sizes = Sizes { tiles: 2, side: 3, workers: 3 };
    let matrix: Vec<f64> = (0..36).map(|x| (x * x % 11) as f64).collect();
    let mut lent = opened(sizes, &matrix);
    for p in [0, 2, 1, 3, 4] {
        lent.take(sizes, 2, p).unwrap();
        for column in 0..3 {
            most_is(sizes, &lent, p, 3 * column);
            lent.column(sizes, 2).unwrap();
        }
        most_is(sizes, &lent, p, 9);
    }
}

/// A failed task may have t * t, a spoiled one nothing.
#[test]
fn failed_and_spoiled() {
    let sizes = Sizes { tiles: 2, side: 1, workers: 1 };
    let lent = finished(sizes, &[1.0, f64::MAX, 1.0, -f64::MAX]);
    assert_eq!((marks(&lent), sums(&lent)), (vec![2, 2, 2, 3, 4], vec![0, 0, 1, 0, 0]));
    most_is(sizes, &lent, 3, 1);
    most_is(sizes, &lent, 4, 0);
}
