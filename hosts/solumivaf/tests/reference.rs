//! Library and reference program on random call lists, single columns, texts and writings: at least 20,000 calls, in a few seconds. Then
//! specimens, T-3 before T-2, a NaN written, other counts of workers than W, and the lengths of the buffers that the wrapper makes.

mod compare;

use reference::numbers::bits;
use solumivaf::{Ending, Error, Lent, Outcome, Record, Refusal, Run, Sizes};

fn refused(number: u8, place: usize) -> Error {
    Error::Refused(Refusal { number, place })
}

#[test]
fn same_answers_and_states() {
    let mut calls = 0;
    let mut seed = 1;
    while calls < 20_000 {
        calls += compare::calls_of(seed, 5900);
        seed += 1;
    }
}

#[test]
fn same_columns() {
    let columns: usize = (1..=6).map(compare::columns_of).sum();
    assert!(columns > 1000, "only {columns} columns");
}

#[test]
fn same_texts() {
    let mut texts = 0;
    for seed in 1..=2 {
        texts += compare::texts_of(seed);
    }
    assert!(texts > 1000, "only {texts} texts");
}

#[test]
fn same_writings() {
    let writings: usize = (1..=2).map(compare::writings_of).sum();
    assert!(writings > 4000, "only {writings} writings");
}

#[test]
fn specimens() {
    let sizes = Sizes { tiles: 2, side: 1, workers: 1 };
    let mut lent = Lent::of(sizes, vec![1.0, 2.0, 4.0, 4.0]);
    lent.open(sizes).unwrap();
    assert_eq!(lent.take(sizes, 0, 1), Err(refused(7, 1)));
    assert_eq!(lent.run(sizes, 0), Ok(Run::Spent(0)));
    assert_eq!(lent.run(sizes, u64::MAX), Ok(Run::Finished(10)));
    assert_eq!(lent.workers.number, 10);
    assert_eq!(lent.matrix, [4.0, 4.0, 0.25, 1.0]);
    assert_eq!(lent.lists, [0, 0, 1, 0]);
    assert_eq!(lent.outcome(sizes), Ok(Ending::Ended(Outcome::Good)));
    let mut answers = [0.0; 2];
    assert_eq!(lent.solve(sizes, &[3.0, 8.0], &mut answers), Ok(()));
    assert_eq!(answers, [1.0, 1.0]);
}

/// For N = 2 task 2 is taken right after task 0 and worked while task 1 waits. The end is that of the old loops, where tasks fail too.
#[test]
fn couple_before_apply() {
    for crafted in reference::crafted::all_crafted() {
        if crafted.shape.tiles != 2 {
            continue;
        }
        let sizes = Sizes { tiles: 2, side: crafted.shape.side, workers: 2 };
        let mut lent = Lent::of(sizes, crafted.matrix.clone());
        lent.open(sizes).unwrap();
        assert_eq!(lent.take(sizes, 0, 2), Err(refused(7, 2)));
        for task in [0, 2] {
            lent.take(sizes, 0, task).unwrap();
            while lent.workers.is_busy(0) {
                lent.column(sizes, 0).unwrap();
            }
        }
        assert_eq!(lent.records[1].mark, 0);
        assert_eq!(lent.take(sizes, 0, 3), Err(refused(7, 3)));
        lent.run(sizes, u64::MAX).unwrap();

        let last = reference::loops::old_loops(crafted.shape, &crafted.matrix);
        assert_eq!(bits(&lent.matrix), bits(&last.matrix));
        assert_eq!(lent.lists, last.lists);
        let marks: Vec<u8> = lent.records.iter().map(|record| record.mark).collect();
        assert_eq!(marks, last.marks);
        let sums: Vec<u16> = lent.records.iter().map(Record::ties).collect();
        assert_eq!(sums, last.tie_sums);
        assert!(lent.records[2].ended() < lent.records[1].took());
        assert_eq!(lent.outcome(sizes), Ok(Ending::Ended(compare::outcome_of(last.outcome))));
    }
}

#[test]
fn a_nan_has_one_text() {
    let mut text = [0; 30];
    for bits in [0x7FF8_0000_0000_0000, 0x7FF8_0000_0000_0001, 0xFFF0_0000_0000_0005] {
        assert_eq!(solumivaf::write_system(1, 1, &[f64::from_bits(bits)], &mut text), Ok(30));
        assert_eq!(&text, b"010101\n0200007FF8000000000000\n");
    }
}

/// A call that is told another W than the count of the workers lent is refused 2 and changes nothing, whatever the count.
#[test]
fn another_count() {
    let two = refused(2, 0);
    let sizes = Sizes { tiles: 2, side: 1, workers: 2 };
    let mut lent = Lent::of(sizes, vec![1.0, 2.0, 4.0, 4.0]);
    lent.open(sizes).unwrap();
    for count in [0, 1, 3, 32, 33, 258, (1 << 32) + 2, usize::MAX] {
        lent.workers.count = count;
        let before = (bits(&lent.matrix), lent.lists.clone(), lent.records.clone(), lent.workers.clone());
        let mut answers = [7.0; 2];
        assert_eq!(lent.open(sizes), Err(two));
        assert_eq!(lent.take(sizes, 0, 0), Err(two));
        assert_eq!(lent.column(sizes, 0), Err(two));
        assert_eq!(lent.run(sizes, u64::MAX), Err(two));
        assert_eq!(lent.outcome(sizes), Err(two));
        assert_eq!(lent.solve(sizes, &[3.0, 8.0], &mut answers), Err(two));
        assert_eq!(answers, [7.0; 2]);
        assert_eq!(
            before,
            (bits(&lent.matrix), lent.lists.clone(), lent.records.clone(), lent.workers.clone())
        );
        let beyond = Sizes { workers: 33, ..sizes };
        assert_eq!(lent.run(beyond, 0), Err(refused(1, 0)));
    }
    lent.workers.count = 2;
    assert_eq!(lent.take(Sizes { workers: 1, ..sizes }, 0, 0), Err(two));
    assert_eq!(lent.take(Sizes { workers: 3, ..sizes }, 2, 0), Err(two));
    assert_eq!(lent.run(sizes, u64::MAX), Ok(Run::Finished(10)));
}

/// The buffers that the wrapper makes have the lengths that the calls ask for, for every N and t.
#[test]
fn made_buffers() {
    for tiles in 1..=16 {
        for side in 1..=16 {
            let shape = reference::tile::Shape { tiles, side };
            let sizes = Sizes { tiles, side, workers: 1 };
            let mut lent = Lent::of(sizes, vec![1.0; shape.matrix_length()]);
            assert_eq!(lent.lists, vec![0; shape.lists_length()]);
            assert_eq!(lent.records, vec![Record::default(); reference::tasks::numbering(tiles).len()]);
            assert_eq!(lent.open(sizes), Ok(()), "{shape:?}");
            assert_eq!(lent.outcome(sizes), Ok(Ending::Unfinished(0)), "{shape:?}");
        }
    }
}
