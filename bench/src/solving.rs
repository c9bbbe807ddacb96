//! A solve in Rust, with the checks of refusals 1, 2, 4, 8, 9, 10 and 3. It answers the refusal's number, or 0.
use crate::calls::{bad_sizes, damaged, Worker};
use crate::loops::{Record, DONE, FAILED};
use crate::plain::{update, Shape, Version};

/// A final diagonal element is zero.
fn singular(s: &Shape, matrix: &[f64]) -> bool {
    for k in 0..s.tiles {
        for r in 0..s.side {
            if matrix[s.tile(k, k) + r * s.side + r] == 0.0 {
                return true;
            }
        }
    }
    false
}

/// The right side through T-2(k) and every T-4(k,i). False where a computed number isn't finite.
fn stage<V: Version>(s: &Shape, matrix: &[f64], lists: &[u8], y: &mut [f64], k: usize) -> bool {
    let t = s.side;
    let (above, below) = y.split_at_mut((k + 1) * t);
    let own = &mut above[k * t..];
    let tile = &matrix[s.tile(k, k)..][..t * t];
    for r in 0..t {
        own.swap(r, lists[s.list(k, k) + r] as usize);
    }
    for c in 0..t {
        let top = own[c];
        if !V::update_column(&tile[(c + 1) * t..], t, c, top, &mut own[c + 1..]) {
            return false;
        }
    }
    for i in k + 1..s.tiles {
        let tile = &matrix[s.tile(i, k)..][..t * t];
        let list = &lists[s.list(i, k)..][..t];
        let lower = &mut below[(i - k - 1) * t..][..t];
        for c in 0..t {
            let entry = list[c] as usize;
            if entry > 0 {
                std::mem::swap(&mut own[c], &mut lower[entry - 1]);
            }
            if !V::update_column(tile, t, c, own[c], lower) {
                return false;
            }
        }
    }
    true
}

/// The rows from last to first. A number that isn't finite stays so to the end of its row, where it is tested.
fn back_rows(s: &Shape, matrix: &[f64], y: &mut [f64]) -> bool {
    let t = s.side;
    for i in (0..s.tiles).rev() {
        for r in (0..t).rev() {
            let x = i * t + r;
            let own = &matrix[s.tile(i, i) + r * t..][..t];
            let mut left = y[x];
            for (u, v) in own[r + 1..].iter().zip(&y[x + 1..]) {
                left = update(left, *u, *v);
            }
            for j in i + 1..s.tiles {
                let row = &matrix[s.tile(i, j) + r * t..][..t];
                for (u, v) in row.iter().zip(&y[j * t..]) {
                    left = update(left, *u, *v);
                }
            }
            y[x] = left / own[r];
            if !y[x].is_finite() {
                return false;
            }
        }
    }
    true
}

pub fn solve<V: Version>(s: &Shape, matrix: &[f64], lists: &[u8], records: &[Record], workers: &[Worker], number: u32, right: &[f64], answers: &mut [f64]) -> u8 {
    let n = s.tiles * s.side;
    let refusal = bad_sizes(s, matrix, lists, records, workers);
    if refusal != 0 {
        return refusal;
    }
    if right.len() != n || answers.len() != n {
        return 2;
    }
    if damaged::<V>(s, lists, records, workers, number) || !V::all_finite(matrix) {
        return 4;
    }
    if V::some(records.iter().map(|r| r[4] < DONE)) {
        return 8;
    }
    if V::some(records.iter().map(|r| r[4] == FAILED)) {
        return 9;
    }
    if singular(s, matrix) {
        return 10;
    }
    if !V::all_finite(right) {
        return 3;
    }
    let mut work = [0.0; 256];
    let y = &mut work[..n];
    y.copy_from_slice(right);
    for k in 0..s.tiles {
        if !stage::<V>(s, matrix, lists, y, k) {
            return 11;
        }
    }
    if !back_rows(s, matrix, y) {
        return 11;
    }
    answers.copy_from_slice(y);
    0
}
