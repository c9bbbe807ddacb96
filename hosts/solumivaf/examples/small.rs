// The Rust program of hosts/README.md: `cargo run --release --example small`.

use solumivaf::{Lent, Sizes};

fn main() -> Result<(), solumivaf::Error> {
    let sizes = Sizes { tiles: 2, side: 1, workers: 1 };
    let mut lent = Lent::of(sizes, vec![0.25, -0.125, -0.5, 1.0]);
    let mut answers = [0.0; 2];
    lent.open(sizes)?;
    lent.run(sizes, u64::MAX)?;
    lent.solve(sizes, &[0.25, 4.0], &mut answers)?;
    println!("{answers:?}");
    Ok(())
}
