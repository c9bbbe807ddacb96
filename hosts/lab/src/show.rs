//! Files as tables, line by line as tools/table shows them.

use std::fmt::Write;
use std::path::Path;

use solumivaf::{lists_length, read_sizes, system_length, Refusal};

use crate::failure::Failure;
use crate::files::{contents, name, result_of, system_of, Archived};
use crate::words;

/// How a number is shown.
type Form = fn(f64) -> String;

/// A system, a result or a refusal's line as a table, all lines of it but the numbers being comment.
pub fn shown(path: &Path, form: Form) -> Result<String, Failure> {
    let (text, name) = (contents(path)?, name(path));
    if let Some(refusal) = refusal_in(&text) {
        return Ok(words::refusal_line(refusal));
    }
    let (tiles, side) = read_sizes(&text).map_err(|refusal| Failure::of_file(&name, refusal))?;
    // What follows the tiles decides whether it is a system or a result.
    if text.len() <= system_length(tiles, side) {
        let system = system_of(&text, &name)?;
        return Ok(header("system", tiles, side) + &table(tiles, side, &system.matrix, form));
    }
    let result = result_of(&text, &name)?;
    Ok(header("result", tiles, side) + &table(tiles, side, &result.matrix, form) + &ending(&result))
}

/// The refusal of a text that is one line 05.
fn refusal_in(text: &[u8]) -> Option<Refusal> {
    let digits = std::str::from_utf8(text).ok()?.strip_suffix('\n')?.strip_prefix("05")?;
    let is_digit = |byte: u8| matches!(byte, b'0'..=b'9' | b'A'..=b'F');
    if digits.len() != 6 || !digits.bytes().all(is_digit) {
        return None;
    }
    let field = |digits| usize::from_str_radix(digits, 16).ok();
    Some(Refusal { number: field(&digits[..2])? as u8, place: field(&digits[2..])? })
}

fn header(kind: &str, tiles: usize, side: usize) -> String {
    format!("# {kind}: N = {tiles}, t = {side}, n = {}\n", tiles * side)
}

/// The matrix by rows: two blanks between numbers, four between tiles, an empty line below a row of tiles.
fn table(tiles: usize, side: usize, matrix: &[f64], form: Form) -> String {
    let n = tiles * side;
    let offset = |row: usize, column: usize| {
        (row / side * tiles + column / side) * side * side + row % side * side + column % side
    };
    let cell = |row, column| form(matrix[offset(row, column)]);
    let cells: Vec<Vec<String>> =
        (0..n).map(|row| (0..n).map(|column| cell(row, column)).collect()).collect();
    let width = |column: usize| cells.iter().map(|row| row[column].len()).max().unwrap_or(0);
    let widths: Vec<usize> = (0..n).map(width).collect();
    let mut text = String::new();
    for (at, row) in cells.iter().enumerate() {
        for (column, cell) in row.iter().enumerate() {
            let gap = match column {
                0 => "",
                _ if column % side == 0 => "    ",
                _ => "  ",
            };
            let _ = write!(text, "{gap}{cell:>width$}", width = widths[column]);
        }
        text.push_str(if at % side == side - 1 && at < n - 1 { "\n\n" } else { "\n" });
    }
    text
}

/// What a result has after its tiles.
fn ending(result: &Archived) -> String {
    let (n, t) = (result.tiles, result.side);
    let mut text = String::from(words::LISTS);
    for at in (0..lists_length(n, t)).step_by(t) {
        let (i, j) = (at / t / n, at / t % n);
        if i >= j {
            let entries: Vec<String> = result.lists[at..at + t].iter().map(u8::to_string).collect();
            let _ = writeln!(text, "# ({i},{j}): {}", entries.join(" "));
        }
    }
    let _ = writeln!(text, "# outcome: {}", words::outcome(n, result.outcome));
    text
}
