//! Reading systems and results.

use std::fs::File;
use std::io::{self, Read};
use std::path::Path;

use solumivaf::{lists_length, matrix_length, read_result, read_sizes, read_system, Outcome};

use crate::closed;
use crate::failure::Failure;

/// More than any file here has: a result of the largest sizes has about a million bytes.
const MOST: u64 = 1 << 24;

/// A system's sizes and numbers.
pub struct System {
    pub tiles: usize,
    pub side: usize,
    pub matrix: Vec<f64>,
}

/// What a result file has.
pub struct Archived {
    pub tiles: usize,
    pub side: usize,
    pub matrix: Vec<f64>,
    pub lists: Vec<u8>,
    pub outcome: Outcome,
}

/// Whether a file is standard input or output.
pub fn is_standard(path: &Path) -> bool {
    path.as_os_str() == "-"
}

/// A file's name in what is said about it.
pub fn name(path: &Path) -> String {
    if is_standard(path) {
        "standard input".to_string()
    } else {
        path.display().to_string()
    }
}

/// A file's bytes.
pub fn contents(path: &Path) -> Result<Vec<u8>, Failure> {
    let mut text = Vec::new();
    let mut all = |from: &mut dyn Read| from.take(MOST + 1).read_to_end(&mut text);
    let read = if is_standard(path) {
        closed::open_input().and_then(|()| all(&mut io::stdin().lock()))
    } else {
        File::open(path).and_then(|mut file| all(&mut file))
    };
    match read {
        Ok(length) if length as u64 > MOST => {
            Err(Failure::unusable(format!("{} is longer than any file that can be used here", name(path))))
        }
        Ok(_) => Ok(text),
        Err(error) => Err(Failure::unusable(format!("{} cannot be read: {error}", name(path)))),
    }
}

/// A system file.
pub fn system(path: &Path) -> Result<System, Failure> {
    system_of(&contents(path)?, &name(path))
}

/// A result file.
pub fn result(path: &Path) -> Result<Archived, Failure> {
    result_of(&contents(path)?, &name(path))
}

/// The system that a text has, in a file of that name.
pub fn system_of(text: &[u8], name: &str) -> Result<System, Failure> {
    let refused = |refusal| Failure::of_file(name, refusal);
    let (tiles, side) = read_sizes(text).map_err(refused)?;
    let mut matrix = vec![0.0; matrix_length(tiles, side)];
    read_system(text, &mut matrix).map_err(refused)?;
    Ok(System { tiles, side, matrix })
}

/// The result that a text has, in a file of that name.
pub fn result_of(text: &[u8], name: &str) -> Result<Archived, Failure> {
    let refused = |refusal| Failure::of_file(name, refusal);
    let (tiles, side) = read_sizes(text).map_err(refused)?;
    let (mut matrix, mut lists) = (vec![0.0; matrix_length(tiles, side)], vec![0; lists_length(tiles, side)]);
    let (_, _, outcome) = read_result(text, &mut matrix, &mut lists).map_err(refused)?;
    Ok(Archived { tiles, side, matrix, lists, outcome })
}
