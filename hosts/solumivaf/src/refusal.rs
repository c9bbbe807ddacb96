//! Refusals in words, and the other errors of a call.

use std::fmt;

/// A refusal's number, 1 to 15, and its place. What a refused call was lent stays as it was.
///
/// ```
/// let refusal = solumivaf::Refusal { number: 7, place: 3 };
/// assert_eq!(refusal.to_string(), "refusal 7, task 3: the task isn't ready");
/// ```
#[derive(Clone, Copy, Debug, PartialEq, Eq)]
pub struct Refusal {
    /// The number, as hosts/solumivaf.h lists them.
    pub number: u8,
    /// The place: a line, a worker, a task, a row or an offset. 0 where the number has none.
    pub place: usize,
}

/// For each number from 1 on: what it means, and what to do.
const WORDS: [(&str, &str); 15] = [
    ("N or t is outside 1 to 16, or W outside 1 to 32", "Give N and t from 1 to 16, and W from 1 to 32."),
    (
        "something lent has another length than N, t and W call for",
        "Lend buffers of the lengths that the sizes call for, and as many workers as W.",
    ),
    (
        "a number isn't finite",
        "Replace it: a matrix, a right side and a file have neither infinities nor what is no number.",
    ),
    (
        "the state handed over is damaged: a record, mark, worker, row list or element is not as it can be",
        "Open the system again, and find out what wrote into the lent buffers between the calls.",
    ),
    (
        "no such worker, or a busy worker takes, or an idle one works",
        "Name a worker below W: an idle one to take a task, a busy one to do a column.",
    ),
    ("no such task", "Name a task below the number of records."),
    ("the task isn't ready", "Take another task, or wait until the tasks before it are finished."),
    ("a task is unfinished", "Go on with takes and columns, or with a run, until every task is finished."),
    (
        "the outcome is overflow",
        "Look for very large or very small numbers in the system, scale its rows, and factor it again.",
    ),
    (
        "the outcome is singular",
        "Look for a row that follows from the others, such as that of a state which is never left.",
    ),
    (
        "a number computed in solving isn't finite",
        "Look for very large numbers on the right side or very small ones in the system, and scale them.",
    ),
    (
        "the line is malformed: other than digits 0-9 and A-F ended by byte 0A, or of a wrong length, an unknown kind or a value that its \
         kind does not have",
        "Get an undamaged copy of the file.",
    ),
    (
        "the line has another kind, I or J than the one due there",
        "See that a system stands where a system is due and a result where a result is due, or get an undamaged copy of the file.",
    ),
    (
        "a line is missing there, or text follows the last line",
        "See that a system stands where a system is due and a result where a result is due, or get a whole copy of the file.",
    ),
    ("the lent text is too short", "Lend a text of the length that the sizes call for."),
];

impl Refusal {
    fn words(&self) -> (&'static str, &'static str) {
        let unknown = ("no refusal has this number", "Link the library that belongs to this wrapper.");
        let place = (self.number as usize).wrapping_sub(1);
        WORDS.get(place).copied().unwrap_or(unknown)
    }

    /// What the number means, in a few words.
    pub fn meaning(&self) -> &'static str {
        self.words().0
    }

    /// What to do about it, as a sentence.
    pub fn advice(&self) -> &'static str {
        self.words().1
    }

    /// The refusal of a reader, to be shown. Its place is a line, where a number that a call refuses too has another one.
    ///
    /// ```
    /// let refusal = solumivaf::read_sizes(b"011101\n").unwrap_err();
    /// assert!(refusal.in_file().to_string().starts_with("refusal 1, line 1: "));
    /// ```
    pub fn in_file(&self) -> impl fmt::Display {
        let thing = if let 1 | 3 = self.number { Some("line") } else { self.thing() };
        Shown { refusal: *self, thing }
    }

    /// What the place is, as far as the number tells.
    fn thing(&self) -> Option<&'static str> {
        match self.number {
            1 if self.place > 0 => Some("line"),
            3 => Some("place"),
            5 => Some("worker"),
            7..=9 => Some("task"),
            10 => Some("row"),
            11 => Some("tile row or backward row"),
            12..=14 => Some("line"),
            _ => None,
        }
    }
}

/// A refusal, and what its place is.
struct Shown {
    refusal: Refusal,
    thing: Option<&'static str>,
}

impl fmt::Display for Shown {
    fn fmt(&self, out: &mut fmt::Formatter) -> fmt::Result {
        let Refusal { number, place } = self.refusal;
        match self.thing {
            Some(thing) => write!(out, "refusal {number}, {thing} {place}: {}", self.refusal.meaning()),
            None => write!(out, "refusal {number}: {}", self.refusal.meaning()),
        }
    }
}

/// Number, place and meaning. Of refusal 3 it says `place`: an offset for a call, a line for a reader ([`Refusal::in_file`]).
impl fmt::Display for Refusal {
    fn fmt(&self, out: &mut fmt::Formatter) -> fmt::Result {
        Shown { refusal: *self, thing: self.thing() }.fmt(out)
    }
}

impl std::error::Error for Refusal {}

/// Why a call on [`Lent`](crate::Lent) was not made or was refused. What it was lent stays as it was.
#[derive(Clone, Copy, Debug, PartialEq, Eq)]
pub enum Error {
    /// The library refuses the call.
    Refused(Refusal),
    /// This thread's floating-point mode is not the default, and results would differ. See
    /// [`arithmetic_is_default`](crate::arithmetic_is_default).
    Arithmetic,
    /// The library that is linked has this version, and not [`VERSION`](crate::VERSION).
    Version(usize),
}

impl Error {
    /// What to do about it, as a sentence.
    pub fn advice(&self) -> &'static str {
        match self {
            Error::Refused(refusal) => refusal.advice(),
            Error::Arithmetic => {
                "Call from a thread that has the mode it started with, in a program that is linked without options such as -ffast-math."
            }
            Error::Version(_) => "Run hosts/build, and build the program again.",
        }
    }
}

impl fmt::Display for Error {
    fn fmt(&self, out: &mut fmt::Formatter) -> fmt::Result {
        match self {
            Error::Refused(refusal) => refusal.fmt(out),
            Error::Arithmetic => out.write_str(
                "the floating-point mode of this thread is not IEEE 754's default (round to nearest, ties to even, subnormals kept)",
            ),
            Error::Version(linked) => {
                write!(out, "the library linked has version {linked} of the interface, not {}", crate::VERSION)
            }
        }
    }
}

impl std::error::Error for Error {}

impl From<Refusal> for Error {
    fn from(refusal: Refusal) -> Error {
        Error::Refused(refusal)
    }
}
