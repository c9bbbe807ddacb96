//! Answers of solving put back into the system they solve.

use reference::calls::{opening, run};
use reference::families::numbers;
use reference::lent::Sizes;
use reference::oddities::before_opening;
use reference::rng::Rng;
use reference::solve::solve;
use reference::tile::Shape;

#[test]
fn answers_fit_their_right_side() {
    let mut rng = Rng::new(11);
    for (tiles, side) in [(1, 1), (1, 6), (6, 1), (2, 2), (3, 4), (4, 3), (5, 2), (2, 7)] {
        let shape = Shape { tiles, side };
        let told = Sizes { tiles: tiles as u64, side: side as u64, workers: 3 };
        let n = shape.rows();
        let mut system = numbers(&mut rng, 0, n * n);
        for row in 0..n {
            system[shape.global(row, (row + 1) % n)] += 4.0;
        }
        let right = numbers(&mut rng, 0, n);
        let mut lent = before_opening(&mut rng, shape, 3, system.clone());
        opening(told, &mut lent).expect("a good system");
        run(told, &mut lent, u64::MAX).expect("a run");
        let mut answers = vec![0.0; n];
        solve(told, &lent, &right, &mut answers).expect("a good outcome");
        for row in 0..n {
            let mut sum = 0.0;
            for column in 0..n {
                sum += system[shape.global(row, column)] * answers[column];
            }
            assert!((sum - right[row]).abs() < 1e-10, "N = {tiles}, t = {side}, row {row}");
        }
    }
}
