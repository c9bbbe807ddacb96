//! A take and a column call in Rust, with the checks of refusals 1, 2, 4, 5, 6 and 7. Each answers the refusal's number, or 0.
use crate::loops::{column, ended, fill, put_column, put_take, spoiled, task_count, ties, took, triple, Record, DONE, FAILED, SPOILED, TAKEN};
use crate::plain::{Shape, Version};

#[derive(Clone, Copy)]
pub struct Worker {
    pub busy: bool,
    pub task: u16,
    pub column: u8,
}

pub const IDLE: Worker = Worker { busy: false, task: 0, column: 0 };

/// A tie sum is too large by its task's mark. A taken task's is tested with its worker.
fn bad_ties(t: usize, r: &Record) -> bool {
    let most = match r[4] {
        DONE | FAILED => (t * t) as u16,
        TAKEN => u16::MAX,
        _ => 0,
    };
    ties(r) > most
}

/// A record tells of a call above the run's number, or of a worker that there is not.
fn bad_calls(workers: usize, number: u32, r: &Record) -> bool {
    (took(r) > number) | (ended(r) > number) | (r[5] as usize >= workers)
}

fn bad_records<V: Version>(s: &Shape, records: &[Record], workers: &[Worker], number: u32) -> bool {
    let n = s.tiles;
    let mut finished = 0;
    let mut rest = records;
    for k in 0..n as u8 {
        for i in k..n as u8 {
            let (row, after) = rest.split_at(n - k as usize);
            rest = after;
            let bad = |(x, r): (usize, &Record)| {
                finished += (r[4] >= DONE) as usize;
                let j = k + x as u8;
                let due = match (i == k, j == k) {
                    (true, true) => [1, k, 0, 0],
                    (true, false) => [2, k, 0, j],
                    (false, true) => [3, k, i, 0],
                    (false, false) => [4, k, i, j],
                };
                let other = (r[0] != due[0]) | (r[1] != due[1]) | (r[2] != due[2]) | (r[3] != due[3]);
                other | (r[4] > 4) | bad_ties(s.side, r) | bad_calls(workers.len(), number, r)
            };
            if V::some(row.iter().enumerate().map(bad)) {
                return true;
            }
        }
    }
    // the most calls that they can have had
    let begun: usize = workers.iter().filter(|h| h.busy).map(|h| 1 + h.column as usize).sum();
    number as usize > finished * (s.side + 1) + begun
}

fn bad_holds(records: &[Record], workers: &[Worker]) -> bool {
    for p in 0..records.len() {
        if records[p][4] == TAKEN && workers.iter().filter(|h| h.busy && h.task as usize == p).count() != 1 {
            return true;
        }
    }
    false
}

fn bad_workers(t: usize, records: &[Record], workers: &[Worker]) -> bool {
    for h in workers {
        let (p, c) = (h.task as usize, h.column as usize);
        if h.busy && (p >= records.len() || records[p][4] != TAKEN || c >= t || ties(&records[p]) as usize > t * c) {
            return true;
        }
    }
    false
}

fn bad_entries<V: Version>(s: &Shape, lists: &[u8]) -> bool {
    for i in 0..s.tiles {
        for j in 0..s.tiles {
            let most = if i == j {
                s.side - 1
            } else if j < i {
                s.side
            } else {
                0
            } as u8;
            if V::some(lists[s.list(i, j)..][..s.side].iter().map(|e| *e > most)) {
                return true;
            }
        }
    }
    false
}

/// Refusals 1 and 2.
pub fn bad_sizes(s: &Shape, matrix: &[f64], lists: &[u8], records: &[Record], workers: &[Worker]) -> u8 {
    let (n, t) = (s.tiles, s.side);
    if !s.in_range() || workers.is_empty() || workers.len() > 32 {
        return 1;
    }
    if matrix.len() != n * t * n * t || lists.len() != n * n * t || records.len() != task_count(n) {
        return 2;
    }
    0
}

/// Refusal 4 but for elements.
pub fn damaged<V: Version>(s: &Shape, lists: &[u8], records: &[Record], workers: &[Worker], number: u32) -> bool {
    bad_records::<V>(s, records, workers, number)
        || bad_holds(records, workers)
        || bad_workers(s.side, records, workers)
        || bad_entries::<V>(s, lists)
}

/// Refusals 1, 2 and 4 but for elements.
fn state<V: Version>(s: &Shape, matrix: &[f64], lists: &[u8], records: &[Record], workers: &[Worker], number: u32) -> u8 {
    let refusal = bad_sizes(s, matrix, lists, records, workers);
    if refusal == 0 && damaged::<V>(s, lists, records, workers, number) {
        return 4;
    }
    refusal
}

/// A neighbour's number follows from the task's own.
fn ready(n: usize, records: &[Record], p: usize) -> bool {
    let finished = |p: usize| records[p][4] >= DONE;
    if records[p][4] != 0 {
        return false;
    }
    let (k, i, j) = triple(records[p]);
    let m = n - k;
    (k == 0 || finished(p + 1 + i - (n + m * m))) && (i == k || finished(p - m)) && (j == k || finished(p - (j - k)))
}

pub fn take<V: Version>(s: &Shape, matrix: &[f64], lists: &[u8], records: &mut [Record], workers: &mut [Worker], number: &mut u32, w: usize, p: usize) -> u8 {
    let refusal = state::<V>(s, matrix, lists, records, workers, *number);
    if refusal != 0 {
        return refusal;
    }
    if w >= workers.len() || workers[w].busy {
        return 5;
    }
    if p >= records.len() {
        return 6;
    }
    if !ready(s.tiles, records, p) {
        return 7;
    }
    *number += 1;
    put_take(&mut records[p], *number);
    workers[w] = Worker { busy: true, task: p as u16, column: 0 };
    0
}

fn finite_tile<V: Version>(s: &Shape, matrix: &[f64], i: usize, j: usize) -> bool {
    let start = s.tile(i, j);
    V::all_finite(&matrix[start..start + s.side * s.side])
}

fn finite_tiles<V: Version>(s: &Shape, matrix: &[f64], r: Record) -> bool {
    let (k, i, j) = (r[1] as usize, r[2] as usize, r[3] as usize);
    match r[0] {
        1 => finite_tile::<V>(s, matrix, k, k),
        2 => finite_tile::<V>(s, matrix, k, k) && finite_tile::<V>(s, matrix, k, j),
        3 => finite_tile::<V>(s, matrix, k, k) && finite_tile::<V>(s, matrix, i, k),
        _ => finite_tile::<V>(s, matrix, i, k) && finite_tile::<V>(s, matrix, k, j) && finite_tile::<V>(s, matrix, i, j),
    }
}

pub fn work<V: Version>(s: &Shape, matrix: &mut [f64], lists: &mut [u8], records: &mut [Record], workers: &mut [Worker], number: &mut u32, w: usize) -> u8 {
    let refusal = state::<V>(s, matrix, lists, records, workers, *number);
    if refusal != 0 {
        return refusal;
    }
    if w >= workers.len() || !workers[w].busy {
        return 5;
    }
    let h = workers[w];
    let p = h.task as usize;
    let r = records[p];
    if !finite_tiles::<V>(s, matrix, r) {
        return 4;
    }
    let c = h.column as usize;
    let (k, i, j) = triple(r);
    let (mark, more) = if c == 0 && spoiled(s.tiles, records, k, i, j) {
        (SPOILED, 0)
    } else {
        match column::<V>(s, matrix, lists, r, c) {
            None => (FAILED, 0),
            Some(more) if c + 1 == s.side => (DONE, more),
            Some(more) => (TAKEN, more),
        }
    };
    if mark > DONE {
        fill(s, matrix, lists, r);
    }
    *number += 1;
    put_column(&mut records[p], mark, more, w, *number);
    workers[w] = if mark == TAKEN { Worker { busy: true, task: h.task, column: h.column + 1 } } else { IDLE };
    0
}
