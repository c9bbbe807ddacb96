//! What the command is told: its words, read into one of the commands.

use std::ffi::OsString;
use std::path::{Path, PathBuf};

use crate::failure::Failure;
use crate::files::is_standard;

/// A command and what it is about. A file `-` is standard input, or standard output where it is written.
pub enum Command {
    Help,
    Factor { system: PathBuf, workers: usize, output: Option<PathBuf> },
    Solve { system: PathBuf, right: PathBuf, bits: bool, workers: usize, output: Option<PathBuf> },
    Verify { system: PathBuf, result: PathBuf, workers: usize },
    Tasks { system: PathBuf, workers: usize, output: Option<PathBuf> },
    History { system: PathBuf, workers: usize, output: Option<PathBuf> },
    Show { file: PathBuf, exact: bool },
}

fn usage<T>(line: String) -> Result<T, Failure> {
    Err(Failure::unusable(format!("{line}; 'lab --help' tells more")))
}

/// The words after the command's name.
#[derive(Default)]
struct Told {
    files: Vec<PathBuf>,
    workers: Option<usize>,
    output: Option<PathBuf>,
    bits: bool,
    exact: bool,
}

/// Reads all words, the command's name first.
pub fn command(words: &[OsString]) -> Result<Command, Failure> {
    let Some(first) = words.first() else {
        return usage("a command is missing: factor, solve, verify, tasks, history or show".to_string());
    };
    let name = first.to_string_lossy();
    let asks = |word: &OsString| word == "--help" || word == "-h";
    if asks(first) || name == "help" || words.iter().any(asks) {
        return Ok(Command::Help);
    }
    let rest = &words[1..];
    match name.as_ref() {
        "factor" => {
            let told = told(rest, "factor", &["SYSTEM"], &["--workers", "--output"])?;
            let (workers, system) = (needed(told.workers, "factor")?, told.files[0].clone());
            Ok(Command::Factor { system, workers, output: told.output })
        }
        "solve" => {
            let options = ["--bits", "--workers", "--output"];
            let Told { files, workers, output, bits, .. } =
                told(rest, "solve", &["SYSTEM", "RIGHT-SIDE"], &options)?;
            let [system, right] = pair(files);
            Ok(Command::Solve { system, right, bits, workers: workers.unwrap_or(1), output })
        }
        "verify" => {
            let told = told(rest, "verify", &["SYSTEM", "RESULT"], &["--workers"])?;
            let (workers, [system, result]) = (needed(told.workers, "verify")?, pair(told.files));
            Ok(Command::Verify { system, result, workers })
        }
        "tasks" => {
            let told = told(rest, "tasks", &["SYSTEM"], &["--workers", "--output"])?;
            let (workers, system) = (told.workers.unwrap_or(1), told.files[0].clone());
            Ok(Command::Tasks { system, workers, output: told.output })
        }
        "history" => {
            let told = told(rest, "history", &["SYSTEM"], &["--workers", "--output"])?;
            let (workers, system) = (told.workers.unwrap_or(1), told.files[0].clone());
            Ok(Command::History { system, workers, output: told.output })
        }
        "show" => {
            let told = told(rest, "show", &["FILE"], &["--exact"])?;
            Ok(Command::Show { file: told.files[0].clone(), exact: told.exact })
        }
        _ => usage(format!(
            "there is no command '{name}': factor, solve, verify, tasks, history and show are the ones"
        )),
    }
}

fn pair(files: Vec<PathBuf>) -> [PathBuf; 2] {
    [files[0].clone(), files[1].clone()]
}

fn needed(workers: Option<usize>, name: &str) -> Result<usize, Failure> {
    workers.map_or_else(|| usage(format!("{name} needs --workers W, with W from 1 to 32")), Ok)
}

/// The words of a command that takes these files and options.
fn told(words: &[OsString], name: &str, files: &[&str], options: &[&str]) -> Result<Told, Failure> {
    let mut told = Told::default();
    let mut seen = Vec::new();
    let mut rest = words.iter();
    while let Some(word) = rest.next() {
        let shown = word.to_string_lossy();
        if !shown.starts_with('-') || shown == "-" {
            told.files.push(PathBuf::from(word));
            continue;
        }
        if !options.contains(&shown.as_ref()) {
            return usage(format!("{name} has no option '{shown}'"));
        }
        if seen.contains(&shown) {
            return usage(format!("{shown} is told twice"));
        }
        match shown.as_ref() {
            "--bits" => told.bits = true,
            "--exact" => told.exact = true,
            "--workers" => told.workers = Some(workers(rest.next())?),
            _ => {
                told.output = Some(
                    rest.next().map_or_else(|| usage("--output needs a FILE".into()), |x| Ok(x.into()))?,
                )
            }
        }
        seen.push(shown);
    }
    if told.files.len() != files.len() {
        return usage(format!("{name} takes {}; files told: {}", files.join(" and "), told.files.len()));
    }
    apart(&told)?;
    Ok(told)
}

/// W, 1 to 32.
fn workers(word: Option<&OsString>) -> Result<usize, Failure> {
    let shown = word.map(|word| word.to_string_lossy()).unwrap_or_default();
    match shown.parse() {
        Ok(workers) if (1..=solumivaf::SLOTS).contains(&workers) => Ok(workers),
        _ => usage(format!("--workers is 1 to {}, not '{shown}'", solumivaf::SLOTS)),
    }
}

/// Standard input is read once, and no file is written that is read.
fn apart(told: &Told) -> Result<(), Failure> {
    if told.files.iter().filter(|file| is_standard(file)).count() > 1 {
        return usage("only one file can be standard input".to_string());
    }
    let place = |file: &Path| if is_standard(file) { None } else { file.canonicalize().ok() };
    let written = told.output.as_deref().and_then(place);
    if written.is_some() && told.files.iter().any(|file| place(file) == written) {
        return usage("--output names a file that is read; give another name".to_string());
    }
    Ok(())
}
