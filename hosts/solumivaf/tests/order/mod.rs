//! What the tests of the order of work share: systems at their opening and at their end, and what the records of a finished run tell, whatever the
//! order was.

use reference::numbers::bits;
use reference::tasks::table;
use solumivaf::{Error, Lent, Record, Refusal, Sizes, Workers};

pub fn refused(number: u8, place: usize) -> Error {
    Error::Refused(Refusal { number, place })
}

pub fn opened(sizes: Sizes, matrix: &[f64]) -> Lent {
    let mut lent = Lent::of(sizes, matrix.to_vec());
    lent.open(sizes).unwrap();
    lent
}

pub fn finished(sizes: Sizes, matrix: &[f64]) -> Lent {
    let mut lent = opened(sizes, matrix);
    lent.run(sizes, u64::MAX).unwrap();
    lent
}

/// A system that is worked to its end without failures.
pub fn plain(sizes: Sizes) -> Vec<f64> {
    let n = sizes.tiles * sizes.side;
    (0..n * n).map(|x| (x * x % 11) as f64).collect()
}

pub fn marks(lent: &Lent) -> Vec<u8> {
    lent.records.iter().map(|record| record.mark).collect()
}

/// Worker, take and end of each task.
pub fn history(lent: &Lent) -> Vec<(u8, u32, u32)> {
    lent.records.iter().map(|record| (record.worker, record.took(), record.ended())).collect()
}

/// Everything lent, by its bits.
pub fn everything(lent: &Lent) -> (Vec<u64>, Vec<u8>, Vec<Record>, Workers) {
    (bits(&lent.matrix), lent.lists.clone(), lent.records.clone(), lent.workers.clone())
}

/// Two tiles of two rows a side, of which the first overflows in its first column.
pub fn failing() -> Vec<f64> {
    let mut matrix = vec![1.0; 16];
    (matrix[1], matrix[2], matrix[3]) = (f64::MAX, -1.0, f64::MAX);
    matrix
}

/// Worker and calls set to 0: what no order of work changes.
pub fn without_history(lent: &Lent) -> Vec<Record> {
    let mut records = lent.records.clone();
    for record in &mut records {
        record.worker = 0;
        record.set_took(0);
        record.set_ended(0);
    }
    records
}

/// In a run from its opening each take and each end has a number of its own, from the first call to the last; a linked task ends before the later one
/// is taken; a worker does one task at a time; and a done task has a call for each column besides its take.
pub fn told_in_order(sizes: Sizes, lent: &Lent) {
    let records = &lent.records;
    let mut calls: Vec<u32> = records.iter().flat_map(|record| [record.took(), record.ended()]).collect();
    calls.sort();
    calls.dedup();
    assert_eq!(calls.len(), 2 * records.len(), "{sizes:?}: takes and ends share calls");
    assert_eq!((calls.first(), calls.last()), (Some(&1), Some(&lent.workers.number)), "{sizes:?}");
    let (mut least, mut most) = (0, 0);
    for (p, record) in records.iter().enumerate() {
        let columns = sizes.side as u32;
        least += 1 + if record.mark == 2 { columns } else { 1 };
        most += 1 + if record.mark == 4 { 1 } else { columns };
        assert!((record.worker as usize) < sizes.workers, "{sizes:?}: worker of task {p}");
        assert!(record.took() < record.ended(), "{sizes:?}: calls of task {p}");
        for &earlier in &table(sizes.tiles).links[p] {
            assert!(records[earlier].ended() < record.took(), "{sizes:?}: tasks {earlier} and {p}");
        }
    }
    assert!((least..=most).contains(&lent.workers.number), "{sizes:?}: {} calls", lent.workers.number);
    for worker in 0..sizes.workers {
        let mut own: Vec<_> = records.iter().filter(|record| record.worker as usize == worker).collect();
        own.sort_by_key(|record| record.took());
        assert!(own.windows(2).all(|pair| pair[0].ended() < pair[1].took()), "{sizes:?}: worker {worker}");
    }
}
