//! Working a system again and comparing every bit with its archived result.

use crate::decimals::short;
use crate::failure::Failure;
use crate::files::{Archived, System};
use crate::words;
use crate::work::{factor, Factored};

/// The first difference in words, in the order of a result file, or none.
pub fn difference(system: &System, archived: &Archived, workers: usize) -> Result<Option<String>, Failure> {
    if (system.tiles, system.side) != (archived.tiles, archived.side) {
        return Ok(Some(format!(
            "different sizes: the system has N = {} and t = {}, the archived result N = {} and t = {}",
            system.tiles, system.side, archived.tiles, archived.side
        )));
    }
    let done = factor(system, workers)?;
    let found = in_tiles(archived, &done)
        .or_else(|| in_lists(archived, &done))
        .or_else(|| in_outcome(archived, &done));
    Ok(found.map(|words| format!("different {words}")))
}

fn in_tiles(archived: &Archived, done: &Factored) -> Option<String> {
    let (n, t) = (archived.tiles, archived.side);
    let mut pairs = archived.matrix.iter().zip(&done.matrix);
    let at = pairs.position(|(old, new)| old.to_bits() != new.to_bits())?;
    let (tile, place) = (at / (t * t), at % (t * t));
    let number = |x: f64| format!("{:016X} ({})", x.to_bits(), short(x));
    Some(format!(
        "number in tile ({},{}), row {}, column {}: archived {}, computed {}",
        tile / n,
        tile % n,
        place / t,
        place % t,
        number(archived.matrix[at]),
        number(done.matrix[at])
    ))
}

/// A result has the lists with I >= J.
fn in_lists(archived: &Archived, done: &Factored) -> Option<String> {
    let (n, t) = (archived.tiles, archived.side);
    let listed = |at: &usize| at / t / n >= at / t % n;
    let at = (0..n * n * t).filter(listed).find(|&at| archived.lists[at] != done.lists[at])?;
    Some(format!(
        "entry {} of row list ({},{}): archived {}, computed {}",
        at % t,
        at / t / n,
        at / t % n,
        archived.lists[at],
        done.lists[at]
    ))
}

fn in_outcome(archived: &Archived, done: &Factored) -> Option<String> {
    let said = |outcome| words::outcome(archived.tiles, outcome);
    (archived.outcome != done.outcome)
        .then(|| format!("outcome: archived {}; computed {}", said(archived.outcome), said(done.outcome)))
}
