//! The columns of T-1 to T-4 on the lent matrix and row lists, and the fill of a failed or spoiled task.

use std::cmp::Ordering;

use crate::numbers::{divide, update};
use crate::search::{search, Pivot};
use crate::tasks::Task;

/// N and t, both known to be in range.
#[derive(Clone, Copy, Debug, PartialEq, Eq)]
pub struct Shape {
    pub tiles: usize,
    pub side: usize,
}

impl Shape {
    /// n = N·t.
    pub fn rows(self) -> usize {
        self.tiles * self.side
    }

    pub fn matrix_length(self) -> usize {
        self.rows() * self.rows()
    }

    pub fn lists_length(self) -> usize {
        self.tiles * self.tiles * self.side
    }

    /// The offset of row r, column c of tile (i, j).
    pub fn element(self, i: usize, j: usize, r: usize, c: usize) -> usize {
        (i * self.tiles + j) * self.side * self.side + r * self.side + c
    }

    /// The offset of entry c of row list (i, j).
    pub fn entry(self, i: usize, j: usize, c: usize) -> usize {
        (i * self.tiles + j) * self.side + c
    }

    /// The largest entry that row list (i, j) may hold: a row of its own tile on the diagonal, none or a lower row below it, 0 above it.
    pub fn largest_entry(self, i: usize, j: usize) -> usize {
        match i.cmp(&j) {
            Ordering::Equal => self.side - 1,
            Ordering::Greater => self.side,
            Ordering::Less => 0,
        }
    }

    /// The offset of row and column counted over the whole matrix.
    pub fn global(self, row: usize, column: usize) -> usize {
        let t = self.side;
        self.element(row / t, column / t, row % t, column % t)
    }
}

/// Works one column of a task: the ties of its pivot, 0 in T-2 and T-4. Nothing where a computed number is not finite; what was written by
/// then is left.
pub fn work_column(shape: Shape, matrix: &mut [f64], lists: &mut [u8], task: Task, c: usize) -> Option<u16> {
    match task.kind {
        1 => factor_column(shape, matrix, lists, task.k, c),
        2 => apply_column(shape, matrix, lists, task.k, task.j, c).map(|()| 0),
        3 => couple_column(shape, matrix, lists, task.k, task.i, c),
        _ => pair_column(shape, matrix, lists, task, c).map(|()| 0),
    }
}

/// T-1: pivot among rows c and below, whole rows exchanged, multipliers, update to the right.
fn factor_column(shape: Shape, matrix: &mut [f64], lists: &mut [u8], k: usize, c: usize) -> Option<u16> {
    let t = shape.side;
    let candidates: Vec<f64> = (c..t).map(|r| matrix[shape.element(k, k, r, c)]).collect();
    let Pivot { row, magnitude, ties } = search(c, &candidates);
    if magnitude == 0.0 {
        lists[shape.entry(k, k, c)] = c as u8;
        return Some(ties);
    }
    lists[shape.entry(k, k, c)] = row as u8;
    for s in 0..t {
        matrix.swap(shape.element(k, k, c, s), shape.element(k, k, row, s));
    }
    let pivot = matrix[shape.element(k, k, c, c)];
    for r in c + 1..t {
        let place = shape.element(k, k, r, c);
        matrix[place] = divide(matrix[place], pivot)?;
    }
    for r in c + 1..t {
        for s in c + 1..t {
            let place = shape.element(k, k, r, s);
            let m = matrix[shape.element(k, k, r, c)];
            let y = matrix[shape.element(k, k, c, s)];
            matrix[place] = update(matrix[place], m, y)?;
        }
    }
    Some(ties)
}

/// T-2: all exchanges of list (k, k) before column 0, then the rows below c updated by row c.
fn apply_column(shape: Shape, matrix: &mut [f64], lists: &[u8], k: usize, j: usize, c: usize) -> Option<()> {
    let t = shape.side;
    if c == 0 {
        for e in 0..t {
            let row = lists[shape.entry(k, k, e)] as usize;
            for s in 0..t {
                matrix.swap(shape.element(k, j, e, s), shape.element(k, j, row, s));
            }
        }
    }
    for r in c + 1..t {
        for s in 0..t {
            let place = shape.element(k, j, r, s);
            let m = matrix[shape.element(k, k, r, c)];
            let y = matrix[shape.element(k, j, c, s)];
            matrix[place] = update(matrix[place], m, y)?;
        }
    }
    Some(())
}

/// T-3: pivot among the upper diagonal element and the lower column, columns c and right of it exchanged.
fn couple_column(
    shape: Shape,
    matrix: &mut [f64],
    lists: &mut [u8],
    k: usize,
    i: usize,
    c: usize,
) -> Option<u16> {
    let t = shape.side;
    let mut candidates = vec![matrix[shape.element(k, k, c, c)]];
    candidates.extend((0..t).map(|r| matrix[shape.element(i, k, r, c)]));
    let Pivot { row: entry, magnitude, ties } = search(0, &candidates);
    if magnitude == 0.0 {
        lists[shape.entry(i, k, c)] = 0;
        return Some(ties);
    }
    lists[shape.entry(i, k, c)] = entry as u8;
    if entry > 0 {
        for s in c..t {
            matrix.swap(shape.element(k, k, c, s), shape.element(i, k, entry - 1, s));
        }
    }
    let pivot = matrix[shape.element(k, k, c, c)];
    for r in 0..t {
        let place = shape.element(i, k, r, c);
        matrix[place] = divide(matrix[place], pivot)?;
    }
    for r in 0..t {
        for s in c + 1..t {
            let place = shape.element(i, k, r, s);
            let m = matrix[shape.element(i, k, r, c)];
            let y = matrix[shape.element(k, k, c, s)];
            matrix[place] = update(matrix[place], m, y)?;
        }
    }
    Some(ties)
}

/// T-4: entry c says which row of A(i,j), if any, changes places with row c of A(k,j); then every row of A(i,j) is updated.
fn pair_column(shape: Shape, matrix: &mut [f64], lists: &[u8], task: Task, c: usize) -> Option<()> {
    let t = shape.side;
    let (k, i, j) = (task.k, task.i, task.j);
    let entry = lists[shape.entry(i, k, c)] as usize;
    if entry > 0 {
        for s in 0..t {
            matrix.swap(shape.element(k, j, c, s), shape.element(i, j, entry - 1, s));
        }
    }
    for r in 0..t {
        for s in 0..t {
            let place = shape.element(i, j, r, s);
            let m = matrix[shape.element(i, k, r, c)];
            let y = matrix[shape.element(k, j, c, s)];
            matrix[place] = update(matrix[place], m, y)?;
        }
    }
    Some(())
}

/// Fills what a task writes: numbers with +0, entries with 0; of T-3's upper tile the diagonal and above.
pub fn fill(shape: Shape, matrix: &mut [f64], lists: &mut [u8], task: Task) {
    let (k, i, j) = (task.k, task.i, task.j);
    match task.kind {
        1 => {
            fill_tile(shape, matrix, k, k);
            fill_list(shape, lists, k, k);
        }
        2 => fill_tile(shape, matrix, k, j),
        3 => {
            fill_upper(shape, matrix, k, k);
            fill_tile(shape, matrix, i, k);
            fill_list(shape, lists, i, k);
        }
        _ => {
            fill_tile(shape, matrix, k, j);
            fill_tile(shape, matrix, i, j);
        }
    }
}

fn fill_tile(shape: Shape, matrix: &mut [f64], i: usize, j: usize) {
    for r in 0..shape.side {
        for s in 0..shape.side {
            matrix[shape.element(i, j, r, s)] = 0.0;
        }
    }
}

fn fill_upper(shape: Shape, matrix: &mut [f64], i: usize, j: usize) {
    for r in 0..shape.side {
        for s in r..shape.side {
            matrix[shape.element(i, j, r, s)] = 0.0;
        }
    }
}

fn fill_list(shape: Shape, lists: &mut [u8], i: usize, j: usize) {
    for c in 0..shape.side {
        lists[shape.entry(i, j, c)] = 0;
    }
}
