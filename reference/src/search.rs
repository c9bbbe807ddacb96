//! The pivot search of T-1 and T-3 (K4, K7): the best row, its magnitude and its ties are carried along from candidate to candidate.

/// The winning row, by the number that the row list records, its magnitude, and how many other candidates have that magnitude; a zero has
/// no tie.
#[derive(Clone, Copy, Debug, PartialEq)]
pub struct Pivot {
    pub row: usize,
    pub magnitude: f64,
    pub ties: u16,
}

impl Pivot {
    /// The pivot once the number in a further row is compared: only a larger magnitude wins, and an equal one ties where it is not zero.
    fn with(self, row: usize, number: f64) -> Pivot {
        let magnitude = number.abs();
        if magnitude > self.magnitude {
            Pivot { row, magnitude, ties: 0 }
        } else if magnitude == self.magnitude && magnitude != 0.0 {
            Pivot { ties: self.ties + 1, ..self }
        } else {
            self
        }
    }
}

/// What is carried after each candidate. Their rows count from `first`, and there is at least one.
pub fn best_so_far(first: usize, candidates: &[f64]) -> Vec<Pivot> {
    let mut best = Pivot { row: first, magnitude: candidates[0].abs(), ties: 0 };
    let mut carried = vec![best];
    for (row, &number) in (first..).zip(candidates).skip(1) {
        best = best.with(row, number);
        carried.push(best);
    }
    carried
}

/// What the search tells.
pub fn search(first: usize, candidates: &[f64]) -> Pivot {
    *best_so_far(first, candidates).last().expect("a candidate")
}
