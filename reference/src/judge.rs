//! The readers judged on texts: read and written again, or a line of digits for each text.

use crate::hex::{put, put_bytes, Fields};
use crate::lent::{Digest, Refusal};
use crate::read::{read_header, read_result, read_system, NO_LIMIT};
use crate::solve::Outcome;
use crate::tile::Shape;
use crate::write::{program_text, refusal_text, result_text, system_text};

pub const SYSTEM: u64 = 0;
pub const RESULT: u64 = 1;
pub const PROGRAM: u64 = 2;

/// Buffers of zeros with the lengths that line 1 calls for, and empty ones where it is refused.
fn buffers(text: &[u8]) -> (Vec<f64>, Vec<u8>) {
    match read_header(text, NO_LIMIT) {
        Ok(shape) => (vec![0.0; shape.matrix_length()], vec![0; shape.lists_length()]),
        Err(_) => (Vec::new(), Vec::new()),
    }
}

/// A system read into buffers of the right lengths.
fn system_of(text: &[u8]) -> Result<(Shape, Vec<f64>), Refusal> {
    let (mut matrix, _) = buffers(text);
    let shape = read_system(text, &mut matrix)?;
    Ok((shape, matrix))
}

/// A result read into buffers of the right lengths.
fn result_of(text: &[u8]) -> Result<(Shape, Vec<f64>, Vec<u8>, Outcome), Refusal> {
    let (mut matrix, mut lists) = buffers(text);
    let (shape, outcome) = read_result(text, &mut matrix, &mut lists)?;
    Ok((shape, matrix, lists, outcome))
}

/// The system written again, or its refusal line.
pub fn system_again(text: &[u8]) -> String {
    match system_of(text) {
        Ok((shape, matrix)) => system_text(shape, &matrix),
        Err(refusal) => refusal_text(refusal),
    }
}

/// The result written again, or its refusal line.
pub fn result_again(text: &[u8]) -> String {
    match result_of(text) {
        Ok((shape, matrix, lists, outcome)) => result_text(shape, &matrix, &lists, outcome),
        Err(refusal) => refusal_text(refusal),
    }
}

/// A line for the judge: what the text is read as, its count of bytes, its bytes.
pub fn text_line(what: u64, text: &[u8]) -> String {
    let mut line = String::new();
    put(&mut line, what, 2);
    put(&mut line, text.len() as u64, 8);
    put_bytes(&mut line, text);
    line
}

/// What the text of such a line is read as, and the text.
pub fn text_in(line: &str) -> (u64, Vec<u8>) {
    let mut fields = Fields::new(line);
    let what = fields.take(2);
    let count = fields.take(8) as usize;
    let text = fields.bytes(count);
    fields.end();
    (what, text)
}

/// The verdict on one such line.
pub fn judge_line(line: &str) -> String {
    let (what, text) = text_in(line);
    let mut out = String::new();
    match what {
        SYSTEM => judge_system(&mut out, &text),
        RESULT => judge_result(&mut out, &text),
        PROGRAM => put_bytes(&mut out, program_text(&text).as_bytes()),
        _ => panic!("a text is a system, a result or the program's input"),
    }
    out
}

/// A refusal's number and place, or the outcome read; then the digest of what the buffers hold.
fn put_verdict(out: &mut String, answer: Result<Outcome, Refusal>, digest: Digest) {
    let refusal = answer.err().unwrap_or(Refusal { number: 0, place: 0 });
    let outcome = answer.unwrap_or(Outcome::Good);
    put(out, refusal.number as u64, 2);
    put(out, refusal.place, 16);
    put(out, outcome.kind() as u64, 2);
    put(out, outcome.place() as u64, 4);
    put(out, digest.value, 16);
}

fn judge_system(out: &mut String, text: &[u8]) {
    let (mut matrix, _) = buffers(text);
    let answer = read_system(text, &mut matrix);
    let mut digest = Digest::new();
    digest.matrix(&matrix);
    put_verdict(out, answer.map(|_| Outcome::Good), digest);
}

fn judge_result(out: &mut String, text: &[u8]) {
    let (mut matrix, mut lists) = buffers(text);
    let answer = read_result(text, &mut matrix, &mut lists);
    let mut digest = Digest::new();
    digest.matrix(&matrix);
    digest.lists(&lists);
    put_verdict(out, answer.map(|(_, outcome)| outcome), digest);
}
