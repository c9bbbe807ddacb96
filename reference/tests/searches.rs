//! K4 and K7: what the pivot search carries along is the largest magnitude so far, in the first row that has it, and how many others have it.

use reference::numbers::{LARGEST, SMALLEST};
use reference::rng::Rng;
use reference::search::{best_so_far, search, Pivot};

/// By looking at all of the candidates so far.
fn expected(first: usize, candidates: &[f64]) -> Pivot {
    let larger = |x: f64| candidates.iter().any(|y| y.abs() > x.abs());
    let place = candidates.iter().position(|&x| !larger(x)).expect("one that none exceeds");
    let magnitude = candidates[place].abs();
    let others = candidates.iter().filter(|x| x.abs() == magnitude).count() - 1;
    Pivot { row: first + place, magnitude, ties: if magnitude == 0.0 { 0 } else { others as u16 } }
}

fn bits(pivot: Pivot) -> (usize, u64, u16) {
    (pivot.row, pivot.magnitude.to_bits(), pivot.ties)
}

/// Every list of up to five candidates from a few numbers: ties, zeros of both signs, neighbours, extremes.
#[test]
fn the_best_so_far_after_each_candidate() {
    let numbers =
        [0.0, -0.0, SMALLEST, -SMALLEST, 1.0, -1.0, f64::from_bits(1.0_f64.to_bits() + 1), LARGEST, -LARGEST];
    for count in 1..=5_u32 {
        for choice in 0..numbers.len().pow(count) {
            let candidates: Vec<f64> =
                (0..count).map(|place| numbers[choice / numbers.len().pow(place) % numbers.len()]).collect();
            let carried = best_so_far(2, &candidates);
            assert_eq!(carried.len(), candidates.len());
            for (seen, &best) in (1..).zip(&carried) {
                assert_eq!(bits(best), bits(expected(2, &candidates[..seen])));
            }
            assert_eq!(bits(search(2, &candidates)), bits(*carried.last().expect("a candidate")));
        }
    }
}

#[test]
fn random_candidates() {
    let mut rng = Rng::new(4);
    for _ in 0..2000 {
        let candidates: Vec<f64> =
            (0..rng.between(1, 17)).map(|_| rng.pick(&[1.0, -1.0, 0.5]) * rng.between(0, 6) as f64).collect();
        for seen in 1..=candidates.len() {
            assert_eq!(bits(search(0, &candidates[..seen])), bits(expected(0, &candidates[..seen])));
        }
    }
}

/// Zeros: the first row, +0 whatever their signs, and no tie.
#[test]
fn zeros_are_told_by_the_first() {
    for candidates in [[-0.0, 0.0, -0.0], [0.0, -0.0, 0.0]] {
        assert_eq!(bits(search(5, &candidates)), (5, 0, 0));
    }
}

/// Signs are ignored, ties that were overtaken are forgotten, and all candidates may tie.
#[test]
fn ties_are_those_of_the_winner() {
    let ties = |candidates: &[f64]| search(0, candidates).ties;
    assert_eq!(ties(&[3.0]), 0);
    assert_eq!(ties(&[-3.0, 3.0]), 1);
    assert_eq!(ties(&[1.0, -1.0, 1.0, 2.0]), 0);
    assert_eq!(ties(&[1.0, -1.0, -2.0, 1.0, 2.0]), 1);
    assert_eq!(ties(&[0.0, -0.0, SMALLEST, -SMALLEST]), 1);
    assert_eq!(ties(&[-LARGEST; 17]), 16);
}
