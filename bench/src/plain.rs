//! The four columns as plain Rust loops over one flat matrix, with the zero-multiplier rule and the test of each computed number.

#[derive(Clone, Copy)]
pub struct Shape {
    pub tiles: usize,
    pub side: usize,
}

impl Shape {
    /// Refusal 1, but for the workers.
    pub fn in_range(&self) -> bool {
        (1..=16).contains(&self.tiles) && (1..=16).contains(&self.side)
    }

    pub fn tile(&self, i: usize, j: usize) -> usize {
        (i * self.tiles + j) * self.side * self.side
    }

    pub fn list(&self, i: usize, j: usize) -> usize {
        (i * self.tiles + j) * self.side
    }
}

pub fn update(x: f64, m: f64, y: f64) -> f64 {
    if m == 0.0 {
        x
    } else {
        x - m * y
    }
}

/// A way to write the loops in which numbers are computed or tested. Rattle is compared with the one that is fastest.
pub trait Version {
    /// Whether a loop of tests ends at the first that decides.
    const LEAVES: bool;

    /// Updates columns from..t of the rows at start by the row at top, with a multiplier a row. False where a number isn't finite.
    fn update_rows(m: &mut [f64], t: usize, top: usize, start: usize, rows: usize, from: usize, multiplier: impl Fn(&[f64], usize) -> f64) -> bool;

    /// Divides column c of the rows at start by the row at top's, and updates what is right of it. False where a number isn't finite.
    #[inline(always)]
    fn eliminate(m: &mut [f64], t: usize, top: usize, start: usize, rows: usize, c: usize) -> bool {
        let pivot = m[top + c];
        for r in 0..rows {
            m[start + r * t + c] /= pivot;
        }
        Self::update_rows(m, t, top, start, rows, c + 1, |m, r| m[start + r * t + c])
    }

    /// Updates the numbers of y by the number top, with a multiplier each: column c of the rows. False where one isn't finite.
    fn update_column(rows: &[f64], t: usize, c: usize, top: f64, y: &mut [f64]) -> bool;

    /// Whether a test holds for some.
    #[inline(always)]
    fn some(mut tests: impl Iterator<Item = bool>) -> bool {
        if Self::LEAVES {
            tests.any(|x| x)
        } else {
            tests.fold(false, |some, x| some | x)
        }
    }

    fn all_finite(numbers: &[f64]) -> bool {
        !Self::some(numbers.iter().map(|x| !x.is_finite()))
    }
}

/// The loops end at the first number that isn't finite.
pub struct Leaving;
/// The test of all numbers is collected, so that they can be computed several at a time.
pub struct Collected;
/// Collected, and whole rows of 4, 8 and 16 numbers have loops of their own; a row is divided and updated in one go.
pub struct Widths;
/// Four numbers are computed, stored and tested together, and a row is divided and updated in one go, as in Rattle.
pub struct Fours;

/// The row at `at` and the one at `top`, from a column on. They are slices, so that no index is tested in a loop over them.
#[inline(always)]
fn two_rows(m: &mut [f64], t: usize, top: usize, at: usize, from: usize) -> (&mut [f64], &[f64]) {
    if top < at {
        let (a, b) = m.split_at_mut(at);
        (&mut b[from..t], &a[top + from..top + t])
    } else {
        let (a, b) = m.split_at_mut(top);
        (&mut a[at + from..at + t], &b[from..t])
    }
}

impl Version for Leaving {
    const LEAVES: bool = true;

    #[inline(always)]
    fn update_rows(m: &mut [f64], t: usize, top: usize, start: usize, rows: usize, from: usize, multiplier: impl Fn(&[f64], usize) -> f64) -> bool {
        for r in 0..rows {
            let by = multiplier(m, r);
            let (row, upper) = two_rows(m, t, top, start + r * t, from);
            for (x, y) in row.iter_mut().zip(upper) {
                let v = update(*x, by, *y);
                if !v.is_finite() {
                    return false;
                }
                *x = v;
            }
        }
        true
    }

    #[inline(always)]
    fn update_column(rows: &[f64], t: usize, c: usize, top: f64, y: &mut [f64]) -> bool {
        for (row, x) in rows.chunks_exact(t).zip(y) {
            let v = update(*x, row[c], top);
            if !v.is_finite() {
                return false;
            }
            *x = v;
        }
        true
    }
}

/// Updates a row by another and a multiplier that isn't zero. False where a number isn't finite.
#[inline(always)]
fn update_row(row: &mut [f64], by: f64, upper: &[f64]) -> bool {
    let mut good = true;
    for (x, y) in row.iter_mut().zip(upper) {
        let v = *x - by * *y;
        good &= v.is_finite();
        *x = v;
    }
    good
}

impl Version for Collected {
    const LEAVES: bool = false;

    #[inline(always)]
    fn update_rows(m: &mut [f64], t: usize, top: usize, start: usize, rows: usize, from: usize, multiplier: impl Fn(&[f64], usize) -> f64) -> bool {
        let mut good = true;
        for r in 0..rows {
            let by = multiplier(m, r);
            let (row, upper) = two_rows(m, t, top, start + r * t, from);
            if by != 0.0 {
                good &= update_row(row, by, upper);
            }
        }
        good
    }

    #[inline(always)]
    fn update_column(rows: &[f64], t: usize, c: usize, top: f64, y: &mut [f64]) -> bool {
        let mut good = true;
        for (row, x) in rows.chunks_exact(t).zip(y) {
            *x = update(*x, row[c], top);
            good &= x.is_finite();
        }
        good
    }
}

/// The multiplier of the row at `at`, divided and stored, and what is right of it in that row and in the one at top.
#[inline(always)]
fn divide(m: &mut [f64], t: usize, top: usize, at: usize, c: usize, pivot: f64) -> (f64, &mut [f64], &[f64]) {
    let (row, upper) = two_rows(m, t, top, at, c);
    let (first, right) = row.split_first_mut().unwrap();
    *first /= pivot;
    (*first, right, &upper[1..])
}

/// Updates whole rows of T numbers.
#[inline(always)]
fn update_wide<const T: usize>(m: &mut [f64], top: usize, start: usize, rows: usize, multiplier: impl Fn(&[f64], usize) -> f64) -> bool {
    let upper: [f64; T] = m[top..top + T].try_into().unwrap();
    let mut good = true;
    for r in 0..rows {
        let by = multiplier(m, r);
        if by != 0.0 {
            let row: &mut [f64; T] = (&mut m[start + r * T..][..T]).try_into().unwrap();
            good &= update_row(row, by, &upper);
        }
    }
    good
}

impl Version for Widths {
    const LEAVES: bool = false;

    #[inline(always)]
    fn update_rows(m: &mut [f64], t: usize, top: usize, start: usize, rows: usize, from: usize, multiplier: impl Fn(&[f64], usize) -> f64) -> bool {
        match (from, t) {
            (0, 16) => update_wide::<16>(m, top, start, rows, multiplier),
            (0, 8) => update_wide::<8>(m, top, start, rows, multiplier),
            (0, 4) => update_wide::<4>(m, top, start, rows, multiplier),
            _ => Collected::update_rows(m, t, top, start, rows, from, multiplier),
        }
    }

    #[inline(always)]
    fn eliminate(m: &mut [f64], t: usize, top: usize, start: usize, rows: usize, c: usize) -> bool {
        let pivot = m[top + c];
        let mut good = true;
        for r in 0..rows {
            let (by, row, upper) = divide(m, t, top, start + r * t, c, pivot);
            if by != 0.0 {
                good &= update_row(row, by, upper);
            }
        }
        good
    }

    #[inline(always)]
    fn update_column(rows: &[f64], t: usize, c: usize, top: f64, y: &mut [f64]) -> bool {
        match t {
            16 => Collected::update_column(rows, 16, c, top, y),
            8 => Collected::update_column(rows, 8, c, top, y),
            4 => Collected::update_column(rows, 4, c, top, y),
            _ => Collected::update_column(rows, t, c, top, y),
        }
    }
}

/// Updates a row in groups of four, and the rest of it.
#[inline(always)]
fn update_by_fours(row: &mut [f64], by: f64, upper: &[f64]) -> bool {
    let (mut groups, mut uppers) = (row.chunks_exact_mut(4), upper.chunks_exact(4));
    for (group, upper) in groups.by_ref().zip(uppers.by_ref()) {
        if !update_row(group, by, upper) {
            return false;
        }
    }
    update_row(groups.into_remainder(), by, uppers.remainder())
}

impl Version for Fours {
    const LEAVES: bool = false;

    #[inline(always)]
    fn update_rows(m: &mut [f64], t: usize, top: usize, start: usize, rows: usize, from: usize, multiplier: impl Fn(&[f64], usize) -> f64) -> bool {
        for r in 0..rows {
            let by = multiplier(m, r);
            let (row, upper) = two_rows(m, t, top, start + r * t, from);
            if by != 0.0 && !update_by_fours(row, by, upper) {
                return false;
            }
        }
        true
    }

    #[inline(always)]
    fn eliminate(m: &mut [f64], t: usize, top: usize, start: usize, rows: usize, c: usize) -> bool {
        let pivot = m[top + c];
        for r in 0..rows {
            let (by, row, upper) = divide(m, t, top, start + r * t, c, pivot);
            if by != 0.0 && !update_by_fours(row, by, upper) {
                return false;
            }
        }
        true
    }

    #[inline(always)]
    fn update_column(rows: &[f64], t: usize, c: usize, top: f64, y: &mut [f64]) -> bool {
        Collected::update_column(rows, t, c, top, y)
    }
}

/// Exchanges the n numbers from a on with the n from b on.
fn exchange(m: &mut [f64], a: usize, b: usize, n: usize) {
    if a != b {
        let (x, y) = m.split_at_mut(a.max(b));
        x[a.min(b)..a.min(b) + n].swap_with_slice(&mut y[..n]);
    }
}

/// Column c of T-1(k): its pivot's ties. None where a computed number isn't finite.
pub fn factor<V: Version>(s: &Shape, m: &mut [f64], l: &mut [u8], k: usize, c: usize) -> Option<u16> {
    let t = s.side;
    let a = s.tile(k, k);
    let (mut row, mut best, mut ties) = (c, m[a + c * t + c].abs(), 0);
    for r in c + 1..t {
        let x = m[a + r * t + c].abs();
        if best < x {
            row = r;
            best = x;
            ties = 0;
        } else if best == x {
            ties += 1;
        }
    }
    l[s.list(k, k) + c] = if best == 0.0 { c as u8 } else { row as u8 };
    if best == 0.0 {
        return Some(0);
    }
    exchange(m, a + c * t, a + row * t, t);
    V::eliminate(m, t, a + c * t, a + (c + 1) * t, t - c - 1, c).then_some(ties)
}

/// Column c of T-2(k,j). False where a computed number isn't finite.
pub fn apply<V: Version>(s: &Shape, m: &mut [f64], l: &[u8], k: usize, j: usize, c: usize) -> bool {
    let t = s.side;
    let (f, b) = (s.tile(k, k), s.tile(k, j));
    if c == 0 {
        for r in 0..t {
            exchange(m, b + r * t, b + l[s.list(k, k) + r] as usize * t, t);
        }
    }
    V::update_rows(m, t, b + c * t, b + (c + 1) * t, t - c - 1, 0, |m, r| m[f + (c + 1 + r) * t + c])
}

/// Column c of T-3(k,i), told like that of T-1.
pub fn couple<V: Version>(s: &Shape, m: &mut [f64], l: &mut [u8], k: usize, i: usize, c: usize) -> Option<u16> {
    let t = s.side;
    let (u, d) = (s.tile(k, k), s.tile(i, k));
    let (mut entry, mut best, mut ties) = (0, m[u + c * t + c].abs(), 0);
    for r in 0..t {
        let x = m[d + r * t + c].abs();
        if best < x {
            entry = r + 1;
            best = x;
            ties = 0;
        } else if best == x {
            ties += 1;
        }
    }
    l[s.list(i, k) + c] = if best == 0.0 { 0 } else { entry as u8 };
    if best == 0.0 {
        return Some(0);
    }
    if entry > 0 {
        exchange(m, u + c * t + c, d + (entry - 1) * t + c, t - c);
    }
    V::eliminate(m, t, u + c * t, d, t, c).then_some(ties)
}

/// Column c of T-4(k,i,j), told like that of T-2.
pub fn pair<V: Version>(s: &Shape, m: &mut [f64], l: &[u8], k: usize, i: usize, j: usize, c: usize) -> bool {
    let t = s.side;
    let (f, u, d) = (s.tile(i, k), s.tile(k, j), s.tile(i, j));
    let entry = l[s.list(i, k) + c] as usize;
    if entry > 0 {
        exchange(m, u + c * t, d + (entry - 1) * t, t);
    }
    V::update_rows(m, t, u + c * t, d, t, 0, |m, r| m[f + r * t + c])
}
