//! The lengths of what is lent, as the sizes call for them. Each is 0 where N or t is not 1 to 16, so that none is ever large.

/// What a length is for sizes in range, else 0.
fn in_range(tiles: usize, side: usize, length: impl Fn(usize, usize) -> usize) -> usize {
    let range = 1..=16;
    if range.contains(&tiles) && range.contains(&side) {
        length(tiles, side)
    } else {
        0
    }
}

/// The numbers of a matrix: (N t)². 0 for sizes out of range.
pub fn matrix_length(tiles: usize, side: usize) -> usize {
    in_range(tiles, side, |n, t| n * t * n * t)
}

/// The entries of all row lists: N² t. 0 for sizes out of range.
pub fn lists_length(tiles: usize, side: usize) -> usize {
    in_range(tiles, side, |n, t| n * n * t)
}

/// The records, one for each task: N (N + 1) (2 N + 1) / 6. 0 for N out of range.
pub fn records_length(tiles: usize) -> usize {
    in_range(tiles, 1, |n, _| n * (n + 1) * (2 * n + 1) / 6)
}

/// The bytes of a system's text. 0 for sizes out of range.
pub fn system_length(tiles: usize, side: usize) -> usize {
    in_range(tiles, side, |n, t| 7 + n * n * (7 + 16 * t * t))
}

/// The bytes of a result's text. 0 for sizes out of range.
pub fn result_length(tiles: usize, side: usize) -> usize {
    in_range(tiles, side, |n, t| system_length(n, t) + n * (n + 1) / 2 * (7 + 2 * t) + 9)
}
