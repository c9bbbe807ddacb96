//! Tasks taken and worked by any workers in any order end like the old loops.

use std::collections::HashSet;

use reference::calls::{all_finished, column, is_finished, is_ready, opening, run, take, Run};
use reference::crafted::all_crafted;
use reference::families::{numbers, FAMILIES};
use reference::lent::{Lent, Record, Sizes, DONE, FAILED, SPOILED};
use reference::loops::{old_loops, published_loops, Final};
use reference::numbers::bits;
use reference::oddities::before_opening;
use reference::rng::Rng;
use reference::solve::{marks, outcome};
use reference::tile::Shape;

fn told(shape: Shape, workers: usize) -> Sizes {
    Sizes { tiles: shape.tiles as u64, side: shape.side as u64, workers: workers as u64 }
}

fn opened(rng: &mut Rng, shape: Shape, workers: usize, matrix: &[f64]) -> Lent {
    let mut lent = before_opening(rng, shape, workers, matrix.to_vec());
    opening(told(shape, workers), &mut lent).expect("a good system");
    lent
}

fn ready_tasks(shape: Shape, records: &[Record]) -> Vec<usize> {
    (0..records.len()).filter(|&task| is_ready(shape, records, task)).collect()
}

fn tie_sums(lent: &Lent) -> Vec<u16> {
    lent.records.iter().map(|record| record.tie_sum).collect()
}

fn assert_ended(shape: Shape, lent: &Lent, last: &Final) {
    assert_eq!(bits(&lent.matrix), bits(&last.matrix));
    assert_eq!(lent.lists, last.lists);
    assert_eq!(marks(lent), last.marks);
    assert_eq!(tie_sums(lent), last.tie_sums);
    assert_eq!(outcome(shape, &lent.matrix, &marks(lent)), last.outcome);
}

/// How often a T-2 ended after a T-3 of its stage, which whole tiles would have forbidden, by the marks of
/// the T-3 and of the T-2.
#[derive(Default)]
struct Met([[usize; 5]; 5]);

impl Met {
    /// The column of the worker, and what it showed.
    fn column(&mut self, sizes: Sizes, lent: &mut Lent, worker: usize) {
        let number = lent.workers[worker].task as usize;
        column(sizes, lent, worker as u64).expect("a column");
        let record = lent.records[number];
        if record.kind != 2 || !is_finished(record.mark) {
            return;
        }
        for other in &lent.records {
            if other.kind == 3 && other.k == record.k && is_finished(other.mark) {
                self.0[other.mark as usize][record.mark as usize] += 1;
            }
        }
    }

    fn assert_all(&self) {
        for [couple, apply] in [
            [DONE, DONE],
            [DONE, FAILED],
            [FAILED, DONE],
            [FAILED, FAILED],
            [SPOILED, DONE],
            [SPOILED, SPOILED],
        ] {
            assert!(self.0[couple as usize][apply as usize] > 0, "{:?}", self.0);
        }
    }
}

// ---- drawn orders

/// A ready task; with `couple_first` a T-3 where there is one, and a T-2 only when nothing else can be done.
fn pick_task(rng: &mut Rng, shape: Shape, workers: usize, lent: &Lent, couple_first: bool) -> Option<usize> {
    let ready = ready_tasks(shape, &lent.records);
    let of = |wanted: fn(u8) -> bool| -> Vec<usize> {
        ready.iter().copied().filter(|&task| wanted(lent.records[task].kind)).collect()
    };
    let choices = if !couple_first {
        ready
    } else if !of(|kind| kind == 3).is_empty() {
        of(|kind| kind == 3)
    } else if lent.workers[..workers].iter().any(|worker| worker.busy) {
        of(|kind| kind != 2)
    } else {
        ready
    };
    (!choices.is_empty()).then(|| rng.pick(&choices))
}

/// Plays one order to its end; hands back the count of accepted calls.
fn play_order(
    rng: &mut Rng,
    shape: Shape,
    workers: usize,
    lent: &mut Lent,
    couple_first: bool,
    met: &mut Met,
) -> u64 {
    let sizes = told(shape, workers);
    let mut count = 0;
    while !all_finished(&lent.records) {
        let worker = rng.below(workers);
        if lent.workers[worker].busy {
            met.column(sizes, lent, worker);
            count += 1;
        } else if let Some(task) = pick_task(rng, shape, workers, lent, couple_first) {
            take(sizes, lent, worker as u64, task as u64).expect("a take");
            count += 1;
        }
    }
    count
}

fn check_system(rng: &mut Rng, shape: Shape, matrix: &[f64], couple_first: bool, met: &mut Met) {
    let last = old_loops(shape, matrix);
    let workers = rng.between(1, 32);
    let mut lent = opened(rng, shape, workers, matrix);
    let count = play_order(rng, shape, workers, &mut lent, couple_first, met);
    assert_ended(shape, &lent, &last);

    let workers = rng.between(1, 32);
    let mut other = opened(rng, shape, workers, matrix);
    let half = run(told(shape, workers), &mut other, count / 2).expect("a run");
    assert!(half == Run::Spent(count / 2) || half == Run::Finished(count / 2));
    let rest = run(told(shape, workers), &mut other, u64::MAX).expect("a run");
    assert_eq!(rest, Run::Finished(count - count / 2));
    assert_ended(shape, &other, &last);
    assert_ended(shape, &other, &published_loops(shape, matrix));
}

#[test]
fn random_systems() {
    let mut rng = Rng::new(7);
    let mut met = Met::default();
    for round in 0..240 {
        let shape = Shape { tiles: rng.between(1, 5), side: rng.between(1, 4) };
        let matrix = numbers(&mut rng, round % FAMILIES, shape.matrix_length());
        check_system(&mut rng, shape, &matrix, round % 4 < 2, &mut met);
    }
    met.assert_all();
}

#[test]
fn crafted_systems() {
    let mut rng = Rng::new(8);
    let mut met = Met::default();
    for crafted in all_crafted() {
        for round in 0..4 {
            check_system(&mut rng, crafted.shape, &crafted.matrix, round % 2 == 0, &mut met);
        }
    }
    met.assert_all();
}

// ---- every order

/// All that tells one state from another, whoever holds the tasks.
type State = (Vec<u64>, Vec<u8>, Vec<u8>, Vec<u16>, Vec<(u16, u8)>);

fn state_of(lent: &Lent) -> State {
    let mut held: Vec<(u16, u8)> =
        lent.workers.iter().filter(|worker| worker.busy).map(|worker| (worker.task, worker.column)).collect();
    held.sort();
    (bits(&lent.matrix), lent.lists.clone(), marks(lent), tie_sums(lent), held)
}

/// Goes through every state that takes and columns lead to; each end is that of the old loops.
fn search(shape: Shape, workers: usize, matrix: &[f64], met: &mut Met) {
    let sizes = told(shape, workers);
    let last = old_loops(shape, matrix);
    let mut found = HashSet::new();
    let mut open = vec![opened(&mut Rng::new(1), shape, workers, matrix)];
    while let Some(lent) = open.pop() {
        if !found.insert(state_of(&lent)) {
            continue;
        }
        if all_finished(&lent.records) {
            assert_ended(shape, &lent, &last);
        }
        for worker in 0..workers {
            if lent.workers[worker].busy {
                let mut next = lent.clone();
                met.column(sizes, &mut next, worker);
                open.push(next);
            }
        }
        if let Some(idle) = (0..workers).find(|&worker| !lent.workers[worker].busy) {
            for task in ready_tasks(shape, &lent.records) {
                let mut next = lent.clone();
                take(sizes, &mut next, idle as u64, task as u64).expect("a take");
                open.push(next);
            }
        }
    }
}

#[test]
fn every_order() {
    let mut met = Met::default();
    for crafted in all_crafted() {
        match (crafted.shape.tiles, crafted.shape.side) {
            (2, _) => search(crafted.shape, 2, &crafted.matrix, &mut met),
            (3, 1) => search(crafted.shape, 4, &crafted.matrix, &mut met),
            (3, _) => search(crafted.shape, 2, &crafted.matrix, &mut met),
            _ => {}
        }
    }
    met.assert_all();
}
