//! Tasks as bytes, what a failed or spoiled one leaves, and the published loops.
use crate::plain::{self, Shape, Version};

/// Kind, k, i, j, mark, the worker that ended the task, the tie sum in two bytes, the low one first, and the numbers of the calls that took and that
/// ended it, in four each.
pub type Record = [u8; 16];

pub const TAKEN: u8 = 1;
pub const DONE: u8 = 2;
pub const FAILED: u8 = 3;
pub const SPOILED: u8 = 4;

pub fn task_count(n: usize) -> usize {
    n * (n + 1) * (2 * n + 1) / 6
}

/// The sum of a task's ties.
pub fn ties(r: &Record) -> u16 {
    u16::from_le_bytes([r[6], r[7]])
}

/// The number of the call that took a task.
pub fn took(r: &Record) -> u32 {
    u32::from_le_bytes([r[8], r[9], r[10], r[11]])
}

/// The number of the call that ended it.
pub fn ended(r: &Record) -> u32 {
    u32::from_le_bytes([r[12], r[13], r[14], r[15]])
}

/// What the take by call `number` leaves in a task's record.
pub fn put_take(r: &mut Record, number: u32) {
    r[4] = TAKEN;
    r[8..12].copy_from_slice(&number.to_le_bytes());
}

/// What a task's column leaves in its record: its ties added to the sum, and where the task ends, its mark, worker w and call `number`.
pub fn put_column(r: &mut Record, mark: u8, more: u16, w: usize, number: u32) {
    let sum = ties(r) + more;
    r[6..8].copy_from_slice(&sum.to_le_bytes());
    if mark != TAKEN {
        (r[4], r[5]) = (mark, w as u8);
        r[12..].copy_from_slice(&number.to_le_bytes());
    }
}

/// The number of T-1(k) as (k,k,k), T-2(k,j) as (k,k,j), T-3(k,i) as (k,i,k), T-4(k,i,j) as itself.
pub fn number(n: usize, k: usize, i: usize, j: usize) -> usize {
    task_count(n) - task_count(n - k) + (i - k) * (n - k) + (j - k)
}

/// The waiting record of a task.
fn waiting(kind: u8, k: usize, i: usize, j: usize) -> Record {
    [kind, k as u8, i as u8, j as u8, 0, 0, 0, 0, 0, 0, 0, 0, 0, 0, 0, 0]
}

/// The waiting records in number order.
pub fn numbering(n: usize) -> Vec<Record> {
    let mut out = Vec::new();
    for k in 0..n {
        out.push(waiting(1, k, 0, 0));
        for j in k + 1..n {
            out.push(waiting(2, k, 0, j));
        }
        for i in k + 1..n {
            out.push(waiting(3, k, i, 0));
            for j in k + 1..n {
                out.push(waiting(4, k, i, j));
            }
        }
    }
    out
}

/// The triple of a record: k stands for an unused i or j.
pub fn triple(r: Record) -> (usize, usize, usize) {
    (r[1] as usize, r[1].max(r[2]) as usize, r[1].max(r[3]) as usize)
}

/// Whether a latest writer of what the task touches is failed or spoiled.
pub fn spoiled(n: usize, records: &[Record], k: usize, i: usize, j: usize) -> bool {
    let broken = |p: usize| records[p][4] >= FAILED;
    (k > 0 && broken(number(n, k - 1, i, j))) || (i > k && broken(number(n, k, i - 1, j))) || (j > k && broken(number(n, k, i, k)))
}

/// Column c of the task: its ties. None where a computed number isn't finite.
pub fn column<V: Version>(s: &Shape, m: &mut [f64], l: &mut [u8], r: Record, c: usize) -> Option<u16> {
    let (k, i, j) = (r[1] as usize, r[2] as usize, r[3] as usize);
    match r[0] {
        1 => plain::factor::<V>(s, m, l, k, c),
        2 => plain::apply::<V>(s, m, l, k, j, c).then_some(0),
        3 => plain::couple::<V>(s, m, l, k, i, c),
        _ => plain::pair::<V>(s, m, l, k, i, j, c).then_some(0),
    }
}

/// Fills what the task writes with +0, and its list with 0.
pub fn fill(s: &Shape, m: &mut [f64], l: &mut [u8], r: Record) {
    let (k, i, j) = (r[1] as usize, r[2] as usize, r[3] as usize);
    let t = s.side;
    let mut tile = |a: usize, upper: bool| {
        for x in 0..t {
            for y in if upper { x } else { 0 }..t {
                m[a + x * t + y] = 0.0;
            }
        }
    };
    match r[0] {
        1 => tile(s.tile(k, k), false),
        2 => tile(s.tile(k, j), false),
        3 => {
            tile(s.tile(k, k), true);
            tile(s.tile(i, k), false);
        }
        _ => {
            tile(s.tile(k, j), false);
            tile(s.tile(i, j), false);
        }
    }
    if r[0] == 1 || r[0] == 3 {
        let row = if r[0] == 1 { k } else { i };
        l[s.list(row, k)..s.list(row, k) + t].fill(0);
    }
}

/// The published loops: the tasks in number order, each spoiled, failed or done. Takes and columns are counted as those of a run with one worker: the
/// run's number.
pub fn loops<V: Version>(s: &Shape, m: &mut [f64], l: &mut [u8], records: &mut [Record]) -> u32 {
    let n = s.tiles;
    let mut number = 0;
    l.fill(0);
    for p in 0..records.len() {
        let r = records[p];
        let (k, i, j) = triple(r);
        let (mut mark, mut sum) = (DONE, 0);
        number += 1;
        put_take(&mut records[p], number);
        if spoiled(n, records, k, i, j) {
            mark = SPOILED;
            number += 1;
        } else {
            for c in 0..s.side {
                number += 1;
                let Some(more) = column::<V>(s, m, l, r, c) else {
                    mark = FAILED;
                    break;
                };
                sum += more;
            }
        }
        if mark != DONE {
            fill(s, m, l, r);
        }
        put_column(&mut records[p], mark, sum, 0, number);
    }
    number
}
