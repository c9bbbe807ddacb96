//! Library and reference program, for as long as one likes: `cargo run --release --example compare -- SEED SECONDS`.
//! A line on standard error tells how far it is; the first difference ends it.

#[path = "../tests/compare/mod.rs"]
mod compare;

use std::time::{Duration, Instant};

fn main() {
    let arguments: Vec<u64> =
        std::env::args().skip(1).map(|word| word.parse().expect("SEED SECONDS")).collect();
    let first = arguments.first().copied().unwrap_or(1);
    let limit = Duration::from_secs(arguments.get(1).copied().unwrap_or(60));
    let began = Instant::now();
    let (mut calls, mut texts, mut seed) = (0, 0, first);
    while began.elapsed() < limit {
        calls += compare::calls_of(seed, 4000) + compare::columns_of(seed);
        texts += compare::texts_of(seed) + compare::writings_of(seed);
        eprint!(
            "\rseeds {first} to {seed}: {calls} calls and {texts} texts and writings alike, {} s",
            began.elapsed().as_secs()
        );
        seed += 1;
    }
    eprintln!();
}
