//! Makes the cases for single columns: crafted ones first, then random ones of every family. A case is
//! two lines of a script: the state lent, and the column call.

use std::collections::HashSet;

use crate::families::{numbers, FAMILIES};
use crate::lent::{Lent, Record, Worker, DONE, IDLE, SLOTS, TAKEN, WAITING};
use crate::numbers::{LARGEST as M, SMALLEST as S};
use crate::oddities::{record_of, set_numbers};
use crate::rng::Rng;
use crate::script::{call_line, lend_line, COLUMN};
use crate::tasks::table;
use crate::tile::Shape;

/// Two tiles a side; the task is T-1(0), T-2(0,1), T-3(0,1) or T-4(0,1,1), by its kind, and stands at a
/// column, with a tie sum so far. The place among the cases chooses W and the call numbers.
#[derive(Clone)]
pub struct Case {
    pub kind: u8,
    pub side: usize,
    pub column: usize,
    pub tie_sum: usize,
    pub place: usize,
    pub matrix: Vec<f64>,
    pub lists: Vec<u8>,
}

impl Case {
    /// The number of the case's task.
    pub fn task(&self) -> usize {
        self.kind as usize - 1
    }

    /// One worker; two in a third of the cases, so that a record may name one that didn't do the column.
    fn workers(&self) -> usize {
        1 + (self.place % 3) / 2
    }

    /// Worker 0 holds the task and stands at the column; earlier tasks are done and later ones wait, so
    /// that nothing is spoiled.
    fn lent(&self) -> Lent {
        let shape = Shape { tiles: 2, side: self.side };
        let mut workers = [IDLE; SLOTS];
        workers[0] = Worker { busy: true, task: self.task() as u16, column: self.column as u8 };
        let mark = |number| match number {
            number if number < self.task() => DONE,
            number if number == self.task() => TAKEN,
            _ => WAITING,
        };
        let mut records: Vec<Record> =
            (0..table(2).tasks.len()).map(|number| record_of(shape, number, mark(number))).collect();
        records[self.task()].tie_sum = self.tie_sum as u16;
        let (matrix, lists, count) = (self.matrix.clone(), self.lists.clone(), self.workers() as u64);
        let mut lent = Lent { matrix, lists, records, count, run_number: 0, workers };
        match self.place % 3 {
            0 => self.set_counted(&mut lent),
            _ => set_numbers(&mut Rng::new(self.place as u64), shape, self.workers(), &mut lent),
        }
        lent
    }

    /// The call numbers that one worker leaves who does the tasks in number order.
    fn set_counted(&self, lent: &mut Lent) {
        let calls = self.side + 1;
        for number in 0..=self.task() {
            lent.records[number].took = (number * calls + 1) as u32;
        }
        for number in 0..self.task() {
            lent.records[number].ended = ((number + 1) * calls) as u32;
        }
        lent.run_number = (self.task() * calls + 1 + self.column) as u32;
    }

    pub fn script(&self) -> String {
        let call = call_line(COLUMN, &[2, self.side as u64, self.workers() as u64, 0]);
        format!("{}\n{}\n", lend_line(&self.lent()), call)
    }
}

/// Four tiles in tile order with lists of zeros; no ties so far.
fn crafted(kind: u8, side: usize, column: usize, tiles: [&[f64]; 4]) -> Case {
    let mut matrix = Vec::new();
    for tile in tiles {
        assert_eq!(tile.len(), side * side);
        matrix.extend_from_slice(tile);
    }
    Case { kind, side, column, tie_sum: 0, place: 0, matrix, lists: vec![0; 4 * side] }
}

fn crafted_singles() -> Vec<Case> {
    let mut cases = Vec::new();
    for kind in 1..=4 {
        for corner in [0.0, -0.0, S, -S, M, -M, 1.0, -2.0] {
            cases.push(crafted(kind, 1, 0, [&[corner], &[M], &[-1.0], &[M]]));
            cases.push(crafted(kind, 1, 0, [&[corner], &[-0.0], &[0.0], &[-0.0]]));
        }
    }
    // A lower row that wins, a multiplier that underflows, a quotient of −0, a pair of zeros.
    cases.push(crafted(3, 1, 0, [&[1.0], &[5.0], &[4.0], &[7.0]]));
    cases.push(crafted(3, 1, 0, [&[M], &[5.0], &[S], &[7.0]]));
    cases.push(crafted(3, 1, 0, [&[-M], &[5.0], &[S], &[7.0]]));
    cases.push(crafted(3, 1, 0, [&[-0.0], &[5.0], &[0.0], &[7.0]]));
    cases
}

fn crafted_doubles() -> Vec<Case> {
    let one = [1.0, 0.0, -1.0, 1.0];
    let zeros = [0.0, -0.0, -0.0, 0.0];
    let large = [M, M, M, M];
    let mut cases = Vec::new();
    // The difference leaves the finite range in each kind.
    cases.push(crafted(1, 2, 0, [&[1.0, M, -1.0, M], &one, &one, &one]));
    cases.push(crafted(2, 2, 0, [&one, &large, &one, &one]));
    cases.push(crafted(3, 2, 0, [&[1.0, M, 0.5, 1.0], &one, &[-1.0, M, 1.0, 1.0], &one]));
    cases.push(crafted(4, 2, 0, [&one, &large, &[-1.0, 0.0, 1.0, 0.0], &large]));
    cases.push(crafted(4, 2, 1, [&one, &large, &[0.0, 1.0, 0.0, -1.0], &large]));
    // The product alone leaves it.
    cases.push(crafted(4, 1, 0, [&[1.0], &[M], &[2.0], &[M]]));
    cases.push(crafted(2, 2, 0, [&[1.0, 0.0, 3.0, 1.0], &large, &one, &one]));
    // Zero pivots in first and last column, with rows that must stay.
    cases.push(crafted(1, 2, 0, [&[0.0, 3.0, -0.0, 4.0], &one, &one, &one]));
    cases.push(crafted(1, 2, 1, [&[2.0, 3.0, 0.5, -0.0], &one, &one, &one]));
    cases.push(crafted(3, 2, 0, [&[-0.0, 3.0, 9.0, 4.0], &one, &zeros, &one]));
    cases.push(crafted(3, 2, 1, [&[2.0, 3.0, 9.0, 0.0], &one, &[0.5, -0.0, 0.25, 0.0], &one]));
    // Old multipliers stay in place in T-3 and move with their row in T-1.
    cases.push(crafted(3, 2, 1, [&[2.0, 3.0, 9.0, 1.0], &one, &[0.5, 1.0, 0.25, 8.0], &one]));
    let third = [4.0, 1.0, 1.0, 0.5, 2.0, 3.0, 0.25, 8.0, 5.0];
    let other = [1.0; 9];
    cases.push(crafted(1, 3, 1, [&third, &other, &other, &other]));
    // Columns that fail with ties, after columns that had some or none.
    let late = [2.0, 1.0, 1.0, 0.5, 1.0, M, 0.25, -1.0, M];
    for tie_sum in [0, 2, 3] {
        cases.push(Case { tie_sum, ..crafted(1, 3, 1, [&late, &other, &other, &other]) });
        cases.push(Case { tie_sum, ..crafted(3, 3, 1, [&late, &other, &late, &other]) });
    }
    // Multipliers that underflow leave the largest number; quotients of −0.
    cases.push(crafted(1, 2, 0, [&[M, M, S, M], &one, &one, &one]));
    cases.push(crafted(1, 2, 0, [&[-2.0, M, 0.0, -0.0], &one, &one, &one]));
    cases.push(crafted(3, 2, 0, [&[-M, M, 0.5, 1.0], &one, &[S, M, 0.0, -0.0], &one]));
    // Ties of both signs.
    cases.push(crafted(1, 2, 0, [&[-1.0, 2.0, 1.0, 3.0], &one, &one, &one]));
    cases.push(crafted(3, 2, 0, [&[-1.0, 2.0, 7.0, 3.0], &one, &[1.0, 4.0, -1.0, 5.0], &one]));
    cases.push(crafted(3, 2, 0, [&[0.5, 2.0, 7.0, 3.0], &one, &[1.0, 4.0, -1.0, 5.0], &one]));
    // Ties that are overtaken by others.
    let mut fourth = [3.0; 16];
    for (row, number) in [1.0, -1.0, -2.0, 2.0].into_iter().enumerate() {
        fourth[row * 4] = number;
    }
    cases.push(crafted(1, 4, 0, [&fourth, &[1.0; 16], &[1.0; 16], &[1.0; 16]]));
    // A zero row updated by a nonzero multiplier: the sign of the zero is computed.
    cases.push(crafted(2, 2, 0, [&one, &zeros, &one, &one]));
    cases.push(crafted(4, 2, 0, [&one, &zeros, &one, &[-0.0, -0.0, 0.0, 0.0]]));
    cases
}

/// Candidates of a pivot search, so many: each place wins, with either sign; any places tie, with signs in turn; all rise, all fall; the last differs
/// by one bit either way, or from zeros by the smallest number; smallest and largest numbers tie; zeros of both signs.
fn contests(count: usize) -> Vec<Vec<f64>> {
    let ones: Vec<f64> = (0..count).map(|place| if place % 2 == 0 { 1.0 } else { -1.0 }).collect();
    let with = |numbers: &[f64], place: usize, number: f64| {
        let mut numbers = numbers.to_vec();
        numbers[place] = number;
        numbers
    };
    let mut all = Vec::new();
    for place in 0..count {
        all.push(with(&ones, place, 2.0));
    }
    for places in 1..1 << count {
        let mut numbers = ones.clone();
        let mut winner = -2.0;
        for place in (0..count).filter(|place| places >> place & 1 == 1) {
            numbers[place] = winner;
            winner = -winner;
        }
        all.push(numbers);
    }
    all.push((0..count).map(|place| 2.0_f64.powi(place as i32)).collect());
    all.push((0..count).map(|place| -(2.0_f64.powi(-(place as i32)))).collect());
    all.push(with(&ones, count - 1, f64::from_bits(1.0_f64.to_bits() + 1)));
    all.push(with(&ones, count - 1, f64::from_bits(1.0_f64.to_bits() - 1)));
    all.push(with(&vec![-0.0; count], count - 1, -S));
    all.push(with(&vec![S; count], count - 1, -S));
    all.push(with(&vec![M; count], count - 1, -M));
    all.push(with(&vec![-0.0; count], count - 1, 0.0));
    all.push(with(&vec![0.0; count], count - 1, -0.0));
    all
}

/// Each contest in each column of T-1 and of T-3, t = 3, with tie sums of every size.
fn crafted_searches() -> Vec<Case> {
    let mut cases = Vec::new();
    for column in 0..3 {
        let sums = 3 * column + 1;
        for (turn, numbers) in contests(3 - column).into_iter().enumerate() {
            let mut tile: Vec<f64> = (3..12).map(f64::from).collect();
            for (row, number) in (column..).zip(numbers) {
                tile[row * 3 + column] = number;
            }
            let case = crafted(1, 3, column, [&tile, &[1.0; 9], &[1.0; 9], &[1.0; 9]]);
            cases.push(Case { tie_sum: turn % sums, ..case });
        }
        for (turn, numbers) in contests(4).into_iter().enumerate() {
            let mut upper: Vec<f64> = (3..12).map(f64::from).collect();
            let mut lower: Vec<f64> = (13..22).map(f64::from).collect();
            upper[column * 3 + column] = numbers[0];
            for row in 0..3 {
                lower[row * 3 + column] = numbers[row + 1];
            }
            let case = crafted(3, 3, column, [&upper, &[1.0; 9], &lower, &[1.0; 9]]);
            cases.push(Case { tie_sum: turn % sums, ..case });
        }
    }
    cases
}

/// Columns of T-1 and of T-3 in which all candidates tie, after columns that had t ties each.
fn fullest_sums() -> Vec<Case> {
    let mut cases = Vec::new();
    let first = [(1, 2, 0), (1, 2, 1), (1, 3, 1), (1, 4, 0), (1, 5, 3)];
    let third = [(3, 1, 0), (3, 2, 0), (3, 2, 1), (3, 3, 1), (3, 3, 2), (3, 4, 3), (3, 16, 15)];
    for (kind, side, column) in first.into_iter().chain(third) {
        let square = side * side;
        let ones: Vec<f64> = (0..square).map(|place| if place % 3 == 1 { -1.0 } else { 1.0 }).collect();
        let case = crafted(kind, side, column, [&ones, &vec![1.0; square], &ones, &vec![2.0; square]]);
        cases.push(Case { tie_sum: side * column, ..case });
    }
    cases
}

/// Entries valid for their place.
pub fn random_lists(rng: &mut Rng, shape: Shape) -> Vec<u8> {
    let mut lists = Vec::new();
    for i in 0..shape.tiles {
        for j in 0..shape.tiles {
            for _ in 0..shape.side {
                let entry = if i < j { 0 } else { rng.below(shape.largest_entry(i, j) + 1) };
                lists.push(entry as u8);
            }
        }
    }
    lists
}

fn random_case(rng: &mut Rng, kind: u8, side: usize, family: usize) -> Case {
    let column = rng.below(side);
    let mut matrix = numbers(rng, family, 4 * side * side);
    match rng.below(4) {
        0 => set_column(rng, side, column, &mut matrix, &[0.0, -0.0]),
        1 => set_column(rng, side, column, &mut matrix, &[1.0, -1.0]),
        _ => {}
    }
    let lists = random_lists(rng, Shape { tiles: 2, side });
    let tie_sum = rng.below(side * column + 1);
    Case { kind, side, column, tie_sum, place: 0, matrix, lists }
}

/// Random choices through one column of tiles (0,0) and (1,0): zeros stop the pivot search of T-1 and
/// T-3, ones of both signs give ties and multipliers that do not shrink what they meet.
fn set_column(rng: &mut Rng, side: usize, column: usize, matrix: &mut [f64], choices: &[f64]) {
    for row in 0..side {
        matrix[row * side + column] = rng.pick(choices);
        matrix[2 * side * side + row * side + column] = rng.pick(choices);
    }
}

/// Ones in the first column and the largest numbers elsewhere: most of these leave the finite range.
fn overflow_case(rng: &mut Rng, kind: u8) -> Case {
    let side = rng.between(2, 3);
    let mut case = random_case(rng, kind, side, 0);
    for place in 0..case.matrix.len() {
        case.matrix[place] = rng.pick(&[M, -M, M / 2.0]);
    }
    set_column(rng, side, 0, &mut case.matrix, &[1.0, -1.0]);
    case.column = 0;
    case.tie_sum = 0;
    case
}

/// The cases of one seed, and of the seeds after it those with t up to 3, each once.
pub fn cases_script(first: u64, seeds: u64) -> String {
    let mut met = HashSet::new();
    let mut out = String::new();
    for seed in first..first + seeds {
        for case in all_cases(seed) {
            let script = case.script();
            if (seed == first || case.side <= 3) && met.insert(script.clone()) {
                out.push_str(&script);
            }
        }
    }
    out
}

pub fn all_cases(seed: u64) -> Vec<Case> {
    let mut rng = Rng::new(seed);
    let mut cases = crafted_singles();
    cases.extend(crafted_doubles());
    cases.extend(crafted_searches());
    cases.extend(fullest_sums());
    for kind in 1..=4 {
        for family in 0..FAMILIES {
            for side in [2, 3] {
                cases.push(random_case(&mut rng, kind, side, family));
            }
        }
        for _ in 0..3 {
            cases.push(overflow_case(&mut rng, kind));
        }
        cases.push(random_case(&mut rng, kind, 1, 4));
        for family in [0, 1, 3, 8] {
            cases.push(random_case(&mut rng, kind, 4, family));
        }
        for family in [0, 9] {
            let side = rng.between(5, 9);
            cases.push(random_case(&mut rng, kind, side, family));
        }
        for family in [0, 2] {
            cases.push(random_case(&mut rng, kind, 16, family));
        }
    }
    for (place, case) in cases.iter_mut().enumerate() {
        case.place = place;
    }
    cases
}
