//! Runs the command, and makes files for it.
#![allow(dead_code)]

use std::fs;
use std::io::Write;
use std::path::PathBuf;
use std::process::{Command, Output, Stdio};
use std::sync::atomic::{AtomicUsize, Ordering};

use reference::families::numbers;
use reference::loops::old_loops;
use reference::rng::Rng;
use reference::tile::Shape;
use reference::write::{result_text, system_text};

pub const EXAMPLES: [&str; 3] = ["small", "meter", "reel"];

/// What a run of the command ended with.
#[derive(Debug, PartialEq, Eq)]
pub struct Ended {
    pub status: i32,
    pub out: String,
    pub err: String,
}

pub fn ended(output: Output) -> Ended {
    Ended {
        status: output.status.code().expect("an exit"),
        out: String::from_utf8(output.stdout).unwrap(),
        err: String::from_utf8(output.stderr).unwrap(),
    }
}

pub fn command(words: &[&str]) -> Command {
    let mut command = Command::new(env!("CARGO_BIN_EXE_lab"));
    command.args(words).stdin(Stdio::null());
    command
}

pub fn lab(words: &[&str]) -> Ended {
    ended(command(words).output().unwrap())
}

/// With a text on standard input.
pub fn lab_with(words: &[&str], text: &[u8]) -> Ended {
    let mut running =
        command(words).stdin(Stdio::piped()).stdout(Stdio::piped()).stderr(Stdio::piped()).spawn().unwrap();
    let _ = running.stdin.take().unwrap().write_all(text);
    ended(running.wait_with_output().unwrap())
}

/// A run that fails with one line on standard error, below the progress line if there is one, and prints nothing.
pub fn fails(words: &[&str], status: i32) -> String {
    one_line(lab(words), status)
}

pub fn one_line(ended: Ended, status: i32) -> String {
    assert_eq!((ended.status, ended.out.as_str()), (status, ""), "{}", ended.err);
    let lines: Vec<&str> = ended.err.lines().filter(|line| !line.starts_with('\r')).collect();
    assert_eq!(lines.len(), 1, "{}", ended.err);
    lines[0].strip_prefix("lab: ").unwrap().to_string()
}

/// A file of examples/.
pub fn example(name: &str) -> String {
    format!("{}/../../examples/{name}", env!("CARGO_MANIFEST_DIR"))
}

pub fn example_text(name: &str) -> String {
    fs::read_to_string(example(name)).unwrap()
}

/// A folder of its own for a test, which goes with it.
pub struct Folder(PathBuf);

impl Folder {
    pub fn new() -> Folder {
        static COUNT: AtomicUsize = AtomicUsize::new(0);
        let name = format!("lab-{}-{}", std::process::id(), COUNT.fetch_add(1, Ordering::Relaxed));
        let path = std::env::temp_dir().join(name);
        fs::create_dir(&path).unwrap();
        Folder(path)
    }

    pub fn path(&self, name: &str) -> String {
        self.0.join(name).to_str().unwrap().to_string()
    }

    /// Writes a file, and tells its path.
    pub fn file(&self, name: &str, text: impl AsRef<[u8]>) -> String {
        fs::write(self.0.join(name), text).unwrap();
        self.path(name)
    }

    /// The names of all files in it.
    pub fn names(&self) -> Vec<String> {
        let mut names: Vec<String> = fs::read_dir(&self.0)
            .unwrap()
            .map(|entry| entry.unwrap().file_name().into_string().unwrap())
            .collect();
        names.sort();
        names
    }
}

impl Drop for Folder {
    fn drop(&mut self) {
        let _ = fs::remove_dir_all(&self.0);
    }
}

/// A random system of a family, and the result that the old loops of the reference program leave.
pub fn random(seed: u64, family: usize, tiles: usize, side: usize) -> (String, String) {
    let shape = Shape { tiles, side };
    let matrix = numbers(&mut Rng::new(seed), family, shape.matrix_length());
    let last = old_loops(shape, &matrix);
    (system_text(shape, &matrix), result_text(shape, &last.matrix, &last.lists, last.outcome))
}

/// A system of one number a tile.
pub fn system_of(tiles: usize, matrix: &[f64]) -> String {
    system_text(Shape { tiles, side: 1 }, matrix)
}
