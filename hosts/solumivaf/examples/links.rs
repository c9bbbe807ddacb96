//! Prints the links of N tiles a side, a line `p q` for each, as the take call answers them: `cargo run --release --example links -- N`.

use solumivaf::{Lent, Sizes};

/// With p and q waiting and every other task done, taking q is refused exactly where p is linked to q.
pub fn links(tiles: usize) -> String {
    let sizes = Sizes { tiles, side: 1, workers: 1 };
    let mut opened = Lent::of(sizes, vec![0.0; tiles * tiles]);
    opened.open(sizes).expect("N from 1 to 16");
    let mut lines = String::new();
    for q in 0..opened.records.len() {
        for p in 0..q {
            let mut lent = opened.clone();
            for (number, record) in lent.records.iter_mut().enumerate() {
                record.mark = if number == p || number == q { 0 } else { 2 };
            }
            if lent.take(sizes, 0, q).is_err() {
                lines.push_str(&format!("{p} {q}\n"));
            }
        }
    }
    lines
}

#[allow(dead_code)]
fn main() {
    let tiles = std::env::args().nth(1).and_then(|word| word.parse().ok()).expect("N");
    print!("{}", links(tiles));
}
