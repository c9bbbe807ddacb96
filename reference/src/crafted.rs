//! Systems made for one purpose each, given by rows, with right sides to solve for.

use crate::numbers::{LARGEST as M, SMALLEST as S};
use crate::tile::Shape;

pub struct Crafted {
    pub shape: Shape,
    pub matrix: Vec<f64>,
    pub rights: Vec<Vec<f64>>,
}

/// Numbers given row by row over the whole matrix, in tile order.
pub fn tile_order(shape: Shape, rows: &[f64]) -> Vec<f64> {
    let n = shape.rows();
    assert_eq!(rows.len(), n * n);
    let mut matrix = vec![0.0; n * n];
    for row in 0..n {
        for column in 0..n {
            matrix[shape.global(row, column)] = rows[row * n + column];
        }
    }
    matrix
}

fn made(tiles: usize, side: usize, rows: &[f64], rights: &[&[f64]]) -> Crafted {
    let shape = Shape { tiles, side };
    let mut owned = Vec::new();
    for right in rights {
        owned.push(right.to_vec());
    }
    Crafted { shape, matrix: tile_order(shape, rows), rights: owned }
}

/// The document's specimens and their neighbours.
fn specimens() -> Vec<Crafted> {
    vec![
        made(1, 2, &[1.0, 2.0, 4.0, 4.0], &[&[3.0, 8.0]]),
        made(2, 1, &[1.0, 2.0, 4.0, 4.0], &[&[3.0, 8.0], &[-0.0, 0.0]]),
        made(2, 1, &[0.0, 1.0, 2.0, 3.0], &[&[1.0, 5.0]]),
        made(1, 2, &[0.0, 0.0, 0.0, 0.0], &[&[1.0, 1.0]]),
        made(2, 1, &[1.0, M, -1.0, M], &[&[1.0, 1.0]]),
        made(1, 1, &[-0.0], &[&[1.0]]),
        made(1, 1, &[S], &[&[S], &[1.0], &[-0.0]]),
        made(1, 1, &[-M], &[&[M], &[0.0], &[S]]),
    ]
}

/// A number that leaves the finite range in each kind of task, at k = 0 and later.
pub fn overflows() -> Vec<Crafted> {
    let third = [1.0, 1.0, 1.0];
    vec![
        made(1, 2, &[1.0, M, -1.0, M], &[&[1.0, 1.0]]),
        made(2, 2, &[1.0, M, 1.0, 0.0, -1.0, M, 0.0, 1.0, 0.5, 0.0, 1.0, 0.0, 0.0, 0.5, 0.0, 1.0], &[]),
        made(2, 2, &[1.0, 0.0, M, M, -1.0, 1.0, M, M, 0.5, 0.0, 1.0, 0.0, 0.0, 0.5, 0.0, 1.0], &[]),
        made(2, 2, &[1.0, M, 1.0, 0.0, 0.0, 1.0, 0.0, 1.0, -1.0, M, 1.0, 0.0, 0.0, 0.5, 0.0, 1.0], &[]),
        made(2, 2, &[1.0, 0.0, M, 0.0, 0.0, 1.0, 0.0, 1.0, -1.0, 0.0, M, 0.0, 0.0, 0.5, 0.0, 1.0], &[]),
        made(3, 1, &[1.0, M, 1.0, -1.0, M, 1.0, 0.5, 1.0, 1.0], &[&third]),
        made(3, 1, &[1.0, 1.0, M, 0.5, 2.0, 1.0, -1.0, 1.0, M], &[&third]),
        made(3, 1, &[1.0, 0.0, 0.0, 0.0, 1.0, M, 0.0, -1.0, M], &[&third]),
        made(3, 1, &[4.0, M, 1.0, -4.0, M, 1.0, -4.0, 1.0, M], &[&third]),
        made(2, 1, &[1.0, M, 2.0, -M], &[&[1.0, 1.0]]),
    ]
}

/// T-3 fails or is spoiled beside a T-2 that is done or fails by itself; no multiplier that T-2 reads is zero.
pub fn couple_overflows() -> Vec<Crafted> {
    vec![
        made(2, 2, &[4.0, M, 2.0, 4.0, 2.0, M, 3.0, 5.0, -4.0, M, 1.0, 0.0, 0.0, 1.0, 0.0, 1.0], &[]),
        made(2, 2, &[4.0, M, -M, 4.0, 2.0, M, M, 5.0, -4.0, M, 1.0, 0.0, 0.0, 1.0, 0.0, 1.0], &[]),
        made(
            2,
            3,
            &[
                4.0, 0.0, 0.0, 1.0, 2.0, 3.0, //
                2.0, 4.0, M, 4.0, 5.0, 6.0, //
                1.0, 2.0, M, 7.0, 8.0, 10.0, //
                0.0, 0.0, 0.0, 1.0, 0.0, 0.0, //
                2.0, -4.0, M, 0.0, 1.0, 0.0, //
                0.0, 0.0, 1.0, 0.0, 0.0, 1.0,
            ],
            &[],
        ),
        made(3, 1, &[1.0, M, 1.0, 0.5, 1.0, 1.0, -1.0, M, 1.0], &[]),
        made(
            3,
            2,
            &[
                4.0, M, 2.0, 4.0, 1.0, 0.0, //
                2.0, M, 3.0, 5.0, 2.0, 1.0, //
                -4.0, M, 1.0, 0.0, 0.0, 0.0, //
                0.0, 1.0, 0.0, 1.0, 0.0, 0.0, //
                1.0, 0.0, 0.0, 0.0, 1.0, 0.0, //
                0.0, 1.0, 0.0, 0.0, 0.0, 1.0,
            ],
            &[],
        ),
    ]
}

/// Tied pivots: in every column of T-1, beside a zero pivot, in each stage, and in T-1 and T-3 before and in the column that fails, in T-3
/// after it too.
pub fn ties() -> Vec<Crafted> {
    vec![
        made(2, 1, &[1.0, 2.0, -1.0, 4.0], &[&[1.0, 2.0]]),
        made(1, 3, &[1.0, 1.0, 1.0, -1.0, 0.0, 2.0, 1.0, 0.0, 5.0], &[&[1.0, 2.0, 3.0]]),
        made(1, 3, &[0.0, 1.0, 1.0, -0.0, 1.0, 1.0, 0.0, -1.0, 2.0], &[&[1.0, 2.0, 3.0]]),
        made(
            2,
            3,
            &[
                1.0, 1.0, 1.0, 1.0, 2.0, 3.0, //
                -1.0, 0.0, M, 4.0, 5.0, 6.0, //
                1.0, 0.0, M, 7.0, 8.0, 10.0, //
                1.0, 0.0, 0.0, 1.0, 0.0, 0.0, //
                -1.0, 1.0, 0.0, 0.0, 1.0, 0.0, //
                1.0, 0.0, 1.0, 0.0, 0.0, 1.0,
            ],
            &[],
        ),
        made(
            2,
            3,
            &[
                1.0, 0.0, 0.0, 1.0, 2.0, 3.0, //
                0.0, 1.0, M, 4.0, 5.0, 6.0, //
                0.0, 0.0, 1.0, 7.0, 8.0, 10.0, //
                1.0, 0.0, 0.0, 1.0, 0.0, 0.0, //
                -1.0, -1.0, M, 0.0, 1.0, 0.0, //
                0.0, 1.0, M, 0.0, 0.0, 1.0,
            ],
            &[],
        ),
        made(3, 1, &[1.0, 2.0, 3.0, -1.0, 1.0, 1.0, 1.0, 5.0, 2.0], &[&[1.0, 2.0, 3.0]]),
        all_tied(2),
        all_tied(3),
    ]
}

/// Two tiles a side: T-3(0,1) finds t ties in each of its columns, T-1 none, and every solve is good.
pub fn all_tied(side: usize) -> Crafted {
    let n = 2 * side;
    let mut rows = vec![0.0; n * n];
    for row in 0..n {
        rows[row * n + row] = 1.0;
    }
    for row in side..n {
        for column in 0..side {
            rows[row * n + column] = if (row + column) % 3 == 0 { -1.0 } else { 1.0 };
        }
    }
    made(2, side, &rows, &[])
}

/// A zero final diagonal in each place, zero pivots with and without rescue.
fn singulars() -> Vec<Crafted> {
    let two = [1.0, 1.0];
    let four = [1.0, 2.0, 3.0, 4.0];
    vec![
        made(1, 2, &[1.0, 2.0, 2.0, 4.0], &[&two]),
        made(2, 1, &[1.0, 2.0, 2.0, 4.0], &[&two]),
        made(2, 1, &[0.0, 1.0, -0.0, 3.0], &[&two]),
        made(
            2,
            2,
            &[0.0, 1.0, 2.0, 3.0, 0.0, 2.0, 1.0, 5.0, 3.0, 1.0, 1.0, 1.0, 1.0, 1.0, 4.0, 2.0],
            &[&four],
        ),
        made(
            2,
            2,
            &[0.0, 0.0, 2.0, 3.0, -0.0, 0.0, 1.0, 5.0, 3.0, 1.0, 1.0, 1.0, 1.0, 1.0, 4.0, 2.0],
            &[&four],
        ),
        made(
            2,
            2,
            &[1.0, 0.0, 2.0, 3.0, 1.0, 0.0, 1.0, 5.0, 3.0, 0.0, 1.0, 1.0, 1.0, 0.0, 4.0, 2.0],
            &[&four],
        ),
        made(
            2,
            2,
            &[1.0, 0.0, 0.0, 0.0, 0.0, 1.0, 0.0, 0.0, 0.0, 0.0, 1.0, 1.0, 0.0, 0.0, 1.0, 1.0],
            &[&four],
        ),
        made(3, 1, &[0.0, 1.0, 0.0, 0.0, 0.0, 1.0, 1.0, 0.0, 0.0], &[&[1.0, 2.0, 3.0]]),
    ]
}

/// Multipliers that underflow, quotients of −0, subnormals, ties, and right sides that leave the range.
fn numerics() -> Vec<Crafted> {
    vec![
        made(1, 2, &[1.0, 0.0, -1.0, 1.0], &[&[M, M], &[M, -M], &[1.0, S]]),
        made(2, 1, &[1.0, 0.0, -1.0, 1.0], &[&[M, M], &[1.0, 1.0]]),
        made(
            2,
            2,
            &[1.0, 0.0, 0.0, 0.0, 0.0, 1.0, 0.0, 0.0, 0.0, 0.0, 1.0, 0.0, 0.0, 0.0, -1.0, 1.0],
            &[&[1.0, 1.0, M, M], &[M, M, 1.0, 1.0]],
        ),
        made(3, 1, &[1.0, 0.0, 0.0, 0.0, 1.0, 0.0, 0.0, -1.0, 1.0], &[&[1.0, M, M]]),
        made(1, 2, &[1.0, -1.0, 0.0, 1.0], &[&[M, M], &[-M, M]]),
        made(2, 1, &[0.5, 1.0, 0.25, 0.25], &[&[M, 0.0], &[0.0, M]]),
        made(1, 2, &[2.0, M, 0.0, 0.5], &[&[1.0, 1.0], &[M, 1.0]]),
        made(2, 1, &[M, M, S, M], &[&[M, M], &[1.0, -0.0]]),
        made(1, 2, &[M, M, S, 1.0], &[&[M, 1.0]]),
        made(1, 2, &[-2.0, 1.0, 0.0, -0.0], &[&[1.0, 1.0]]),
        made(2, 1, &[-2.0, 1.0, 0.0, 3.0], &[&[-0.0, -0.0], &[1.0, 1.0]]),
        made(2, 1, &[S, -S, -S, S * 3.0], &[&[S, S], &[0.0, S]]),
        made(1, 3, &[1.0, 2.0, 3.0, -1.0, 5.0, 1.0, 1.0, 1.0, 9.0], &[&[1.0, 2.0, 3.0]]),
        made(3, 1, &[1.0, 2.0, 3.0, -1.0, 5.0, 1.0, 1.0, 1.0, 9.0], &[&[1.0, 2.0, 3.0]]),
    ]
}

pub fn all_crafted() -> Vec<Crafted> {
    let mut all = specimens();
    all.extend(overflows());
    all.extend(couple_overflows());
    all.extend(ties());
    all.extend(singulars());
    all.extend(numerics());
    all
}
