//! The laboratory's command: factors systems on threads, solves them, checks archived results, lists tasks and the history of
//! a run, and shows files. `lab --help` tells how.

mod arguments;
mod closed;
mod decimals;
mod failure;
mod files;
mod output;
mod right;
mod show;
mod verify;
mod words;
mod work;

use std::io::{self, Write};
use std::process::ExitCode;

use arguments::Command;
use failure::Failure;
use solumivaf::{result_length, write_result, Error};

fn main() -> ExitCode {
    let words: Vec<_> = std::env::args_os().skip(1).collect();
    match arguments::command(&words).and_then(run) {
        Ok(status) => ExitCode::from(status),
        Err(Failure { status, line }) => {
            // Where standard error is closed too, the status alone tells.
            let _ = writeln!(io::stderr(), "lab: {line}");
            ExitCode::from(status)
        }
    }
}

/// Does a command, and tells the status to end with.
fn run(command: Command) -> Result<u8, Failure> {
    if !matches!(command, Command::Help) && !solumivaf::arithmetic_is_default() {
        return Err(Failure::of(Error::Arithmetic));
    }
    match command {
        Command::Help => output::write(None, words::HELP.as_bytes())?,
        Command::Factor { system, workers, output } => {
            let system = files::system(&system)?;
            let done = work::factor(&system, workers)?;
            let mut text = vec![0; result_length(system.tiles, system.side)];
            write_result(system.tiles, system.side, &done.matrix, &done.lists, done.outcome, &mut text)
                .map_err(Failure::of)?;
            output::write(output.as_deref(), &text)?;
        }
        Command::Solve { system, right, bits, workers, output } => {
            let system = files::system(&system)?;
            let right = right::numbers(&right, bits, system.tiles * system.side)?;
            let answers = work::solve(&system, workers, &right)?;
            output::write(output.as_deref(), words::answer_lines(&answers).as_bytes())?;
        }
        Command::Verify { system, result, workers } => {
            let difference = verify::difference(&files::system(&system)?, &files::result(&result)?, workers)?;
            let line = difference.as_deref().unwrap_or("equal");
            output::write(None, format!("{line}\n").as_bytes())?;
            return Ok(difference.is_some() as u8);
        }
        Command::Tasks { system, workers, output } => {
            let system = files::system(&system)?;
            let done = work::factor(&system, workers)?;
            output::write(output.as_deref(), words::task_lines(system.tiles, &done.records).as_bytes())?;
        }
        Command::History { system, workers, output } => {
            let system = files::system(&system)?;
            let done = work::factor(&system, workers)?;
            let lines = words::history_lines(system.tiles, workers, done.number, &done.records);
            output::write(output.as_deref(), lines.as_bytes())?;
        }
        Command::Show { file, exact } => {
            let form = if exact { decimals::exact } else { decimals::short };
            output::write(None, show::shown(&file, form)?.as_bytes())?;
        }
    }
    Ok(0)
}
