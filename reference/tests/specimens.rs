//! The specimens of document 01, with K2's links, by calls and by the published loops.

use reference::calls::{column, opening, run, take, Run};
use reference::crafted::tile_order;
use reference::lent::{Lent, Record, Refusal, Sizes, IDLE, SLOTS};
use reference::loops::published_loops;
use reference::numbers::{bits, LARGEST as M};
use reference::solve::{solve, Outcome};
use reference::tasks::table;
use reference::tile::Shape;

fn sizes(tiles: u64, side: u64, workers: u64) -> Sizes {
    Sizes { tiles, side, workers }
}

/// What opening is to overwrite.
const RECORD: Record =
    Record { kind: 7, k: 7, i: 7, j: 7, mark: 7, tie_sum: 7, worker: 7, took: 7, ended: 7 };

/// A system opened for one worker.
fn opened(tiles: usize, side: usize, rows: &[f64]) -> (Sizes, Lent) {
    let shape = Shape { tiles, side };
    let told = sizes(tiles as u64, side as u64, 1);
    let mut lent = Lent {
        matrix: tile_order(shape, rows),
        lists: vec![9; shape.lists_length()],
        records: vec![RECORD; table(tiles).tasks.len()],
        count: 1,
        run_number: 7,
        workers: [IDLE; SLOTS],
    };
    opening(told, &mut lent).expect("a good system");
    (told, lent)
}

fn tie_sums(lent: &Lent) -> Vec<u16> {
    lent.records.iter().map(|record| record.tie_sum).collect()
}

/// Runs to the end and compares with the published loops.
fn finished(tiles: usize, side: usize, rows: &[f64]) -> (Sizes, Lent, Outcome) {
    let (told, mut lent) = opened(tiles, side, rows);
    let shape = Shape { tiles, side };
    let last = published_loops(shape, &tile_order(shape, rows));
    match run(told, &mut lent, u64::MAX) {
        Ok(Run::Finished(_)) => {}
        other => panic!("{other:?}"),
    }
    assert_eq!(bits(&lent.matrix), bits(&last.matrix));
    assert_eq!(lent.lists, last.lists);
    assert_eq!(reference::solve::marks(&lent), last.marks);
    assert_eq!(tie_sums(&lent), last.tie_sums);
    (told, lent, last.outcome)
}

#[test]
fn p1_one_tile() {
    let (told, lent, outcome) = finished(1, 2, &[1.0, 2.0, 4.0, 4.0]);
    assert_eq!(lent.matrix, [4.0, 4.0, 0.25, 1.0]);
    assert_eq!(lent.lists, [1, 1]);
    assert_eq!(outcome, Outcome::Good);
    let mut answers = [0.0; 2];
    solve(told, &lent, &[3.0, 8.0], &mut answers).expect("good");
    assert_eq!(answers, [1.0, 1.0]);
}

#[test]
fn p2_four_tiles() {
    let (told, lent, outcome) = finished(2, 1, &[1.0, 2.0, 4.0, 4.0]);
    assert_eq!(lent.matrix, [4.0, 4.0, 0.25, 1.0]);
    assert_eq!(lent.lists, [0, 0, 1, 0]);
    assert_eq!(outcome, Outcome::Good);
    let mut answers = [0.0; 2];
    solve(told, &lent, &[3.0, 8.0], &mut answers).expect("good");
    assert_eq!(answers, [1.0, 1.0]);
}

#[test]
fn p3_zero_pivot_rescued() {
    let (_, lent, outcome) = finished(2, 1, &[0.0, 1.0, 2.0, 3.0]);
    assert_eq!(bits(&lent.matrix), bits(&[2.0, 3.0, 0.0, 1.0]));
    assert_eq!(outcome, Outcome::Good);
}

#[test]
fn p4_zeros() {
    let (_, lent, outcome) = finished(1, 2, &[0.0; 4]);
    assert_eq!(bits(&lent.matrix), bits(&[0.0; 4]));
    assert_eq!(lent.lists, [0, 1]);
    assert_eq!(outcome, Outcome::Singular(0));
    assert_eq!(tie_sums(&lent), [0]);
}

#[test]
fn p5_overflow() {
    let (_, lent, outcome) = finished(2, 1, &[1.0, M, -1.0, M]);
    assert_eq!(lent.records[3].mark, 3);
    assert_eq!(lent.records[4].mark, 4);
    assert_eq!(bits(&lent.matrix), bits(&[1.0, 0.0, -1.0, 0.0]));
    assert_eq!(outcome, Outcome::Overflow(3));
    // T-3 had 1 above −1.
    assert_eq!(tie_sums(&lent), [0, 0, 1, 0, 0]);
}

#[test]
fn p6_count_of_tasks() {
    assert_eq!(table(16).tasks.len(), 1496);
    for tiles in 1..=16 {
        assert_eq!(table(tiles).tasks.len(), tiles * (tiles + 1) * (2 * tiles + 1) / 6);
    }
}

#[test]
fn p7_sizes_out_of_range() {
    for tiles in [0, 17, u64::MAX] {
        let mut lent = Lent::nothing();
        assert_eq!(opening(sizes(tiles, 1, 1), &mut lent), Err(Refusal { number: 1, place: 0 }));
    }
}

#[test]
fn p8_links() {
    let count = |tiles: usize| table(tiles).links.iter().map(Vec::len).sum::<usize>();
    assert_eq!(count(1), 0);
    assert_eq!(count(2), 5);
    assert_eq!(count(3), 21);
}

#[test]
fn task_1_first_is_not_ready() {
    let (told, mut lent) = opened(2, 1, &[1.0, 2.0, 4.0, 4.0]);
    assert_eq!(take(told, &mut lent, 0, 1), Err(Refusal { number: 7, place: 1 }));
}

#[test]
fn budget_0_is_spent() {
    let (told, mut lent) = opened(2, 1, &[1.0, 2.0, 4.0, 4.0]);
    assert_eq!(run(told, &mut lent, 0), Ok(Run::Spent(0)));
}

/// T-3 waits for T-1 alone, T-4 for T-2 and T-3.
#[test]
fn task_2_right_after_task_0() {
    let (told, mut lent) = opened(2, 1, &[1.0, 2.0, 4.0, 4.0]);
    assert_eq!(take(told, &mut lent, 0, 2), Err(Refusal { number: 7, place: 2 }));
    for task in [0, 2] {
        take(told, &mut lent, 0, task).expect("a ready task");
        column(told, &mut lent, 0).expect("a column");
    }
    assert_eq!(reference::solve::marks(&lent), [2, 0, 2, 0, 0]);
    assert_eq!(take(told, &mut lent, 0, 3), Err(Refusal { number: 7, place: 3 }));
    assert_eq!(run(told, &mut lent, u64::MAX), Ok(Run::Finished(6)));
    assert_eq!(lent.matrix, [4.0, 4.0, 0.25, 1.0]);
    assert_eq!(lent.lists, [0, 0, 1, 0]);
}
