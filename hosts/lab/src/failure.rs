//! Why a command ends without its answer.

use solumivaf::{Error, Refusal};

/// A line for standard error, and the status to end with.
#[derive(Debug)]
pub struct Failure {
    pub status: u8,
    pub line: String,
}

impl Failure {
    /// A wrong use, or a file that cannot be read or written.
    pub fn unusable(line: String) -> Failure {
        Failure { status: 2, line }
    }

    /// A call that fails, with what to do about it.
    pub fn of(error: impl Into<Error>) -> Failure {
        let error = error.into();
        let status = if let Error::Refused(_) = error { 1 } else { 2 };
        Failure { status, line: format!("{error}. {}", error.advice()) }
    }

    /// A file that is refused, with its line.
    pub fn of_file(name: &str, refusal: Refusal) -> Failure {
        Failure { status: 1, line: format!("{name}: {}. {}", refusal.in_file(), refusal.advice()) }
    }
}
