//! The library beside the reference program: the same calls and the same texts for both, and every bit compared.

use reference::cases::cases_script;
use reference::hex::Fields;
use reference::judge::{text_in, PROGRAM, RESULT, SYSTEM};
use reference::numbers::bits;
use reference::read::{read_header, NO_LIMIT};
use reference::script::{Player, COLUMN, LEND, OPENING, OUTCOME, RUN, SOLVE, TAKE};
use reference::texts::all_texts;
use reference::vectors::script;
use reference::writer::Options;
use reference::writings::{all_writings, Writing};
use solumivaf::{Ending, Error, Lent, Outcome, Record, Refusal, Run, Sizes, SLOTS};

fn record_of(theirs: &reference::lent::Record) -> Record {
    let mut ours = Record::default();
    (ours.kind, ours.k, ours.i, ours.j) = (theirs.kind, theirs.k, theirs.i, theirs.j);
    ours.mark = theirs.mark;
    ours.worker = theirs.worker;
    ours.set_ties(theirs.tie_sum);
    ours.set_took(theirs.took);
    ours.set_ended(theirs.ended);
    ours
}

/// What the reference has lent, in the library's buffers.
pub fn lent_of(theirs: &reference::lent::Lent) -> Lent {
    let mut ours = Lent { matrix: theirs.matrix.clone(), lists: theirs.lists.clone(), ..Lent::default() };
    ours.records = theirs.records.iter().map(record_of).collect();
    ours.workers.count = theirs.count as usize;
    ours.workers.number = theirs.run_number;
    for slot in 0..SLOTS {
        ours.workers.busy[slot] = theirs.workers[slot].busy as u8;
        ours.workers.task[slot] = theirs.workers[slot].task;
        ours.workers.column[slot] = theirs.workers[slot].column;
    }
    ours
}

fn same_state(ours: &Lent, theirs: &reference::lent::Lent) -> bool {
    let other = lent_of(theirs);
    bits(&ours.matrix) == bits(&other.matrix)
        && ours.lists == other.lists
        && ours.records == other.records
        && ours.workers == other.workers
}

fn refusal_of(refusal: reference::lent::Refusal) -> Refusal {
    Refusal { number: refusal.number, place: refusal.place as usize }
}

fn error_of(refusal: reference::lent::Refusal) -> Error {
    Error::Refused(refusal_of(refusal))
}

pub fn outcome_of(outcome: reference::solve::Outcome) -> Outcome {
    match outcome {
        reference::solve::Outcome::Good => Outcome::Good,
        reference::solve::Outcome::Overflow(task) => Outcome::Overflow(task),
        reference::solve::Outcome::Singular(row) => Outcome::Singular(row),
    }
}

fn their_outcome(outcome: Outcome) -> reference::solve::Outcome {
    match outcome {
        Outcome::Good => reference::solve::Outcome::Good,
        Outcome::Overflow(task) => reference::solve::Outcome::Overflow(task),
        Outcome::Singular(row) => reference::solve::Outcome::Singular(row),
    }
}

// ---- calls

/// Both players, and the calls that both have made.
pub struct Players {
    pub ours: Lent,
    pub theirs: Player,
    pub calls: usize,
}

impl Players {
    pub fn new() -> Players {
        Players { ours: Lent::default(), theirs: Player::new(), calls: 0 }
    }

    fn sizes(fields: &mut Fields) -> (Sizes, reference::lent::Sizes) {
        let theirs = reference::lent::Sizes {
            tiles: fields.take(16),
            side: fields.take(16),
            workers: fields.take(16),
        };
        (
            Sizes {
                tiles: theirs.tiles as usize,
                side: theirs.side as usize,
                workers: theirs.workers as usize,
            },
            theirs,
        )
    }

    /// Makes the call of one line on both sides.
    pub fn play(&mut self, line: &str) {
        let mut fields = Fields::new(line);
        let command = fields.take(2);
        match command {
            LEND => {
                self.theirs.play(line);
                self.ours = lent_of(&self.theirs.lent);
                return;
            }
            OPENING => {
                let (ours, theirs) = Players::sizes(&mut fields);
                let expected = reference::calls::opening(theirs, &mut self.theirs.lent).map_err(error_of);
                assert_eq!(self.ours.open(ours), expected, "opening {ours:?}");
            }
            TAKE => {
                let (ours, theirs) = Players::sizes(&mut fields);
                let (worker, task) = (fields.take(16), fields.take(16));
                let expected =
                    reference::calls::take(theirs, &mut self.theirs.lent, worker, task).map_err(error_of);
                assert_eq!(
                    self.ours.take(ours, worker as usize, task as usize),
                    expected,
                    "take {ours:?} {worker} {task}"
                );
            }
            COLUMN => {
                let (ours, theirs) = Players::sizes(&mut fields);
                let worker = fields.take(16);
                let expected =
                    reference::calls::column(theirs, &mut self.theirs.lent, worker).map_err(error_of);
                assert_eq!(self.ours.column(ours, worker as usize), expected, "column {ours:?} {worker}");
            }
            RUN => {
                let (ours, theirs) = Players::sizes(&mut fields);
                let budget = fields.take(16);
                let expected = match reference::calls::run(theirs, &mut self.theirs.lent, budget) {
                    Ok(reference::calls::Run::Finished(count)) => Ok(Run::Finished(count)),
                    Ok(reference::calls::Run::Spent(count)) => Ok(Run::Spent(count)),
                    Err(refusal) => Err(error_of(refusal)),
                };
                assert_eq!(self.ours.run(ours, budget), expected, "run {ours:?} {budget}");
            }
            SOLVE => {
                let (ours, theirs) = Players::sizes(&mut fields);
                let right = fields.counted_numbers();
                let mut answers = fields.counted_numbers();
                let mut their_answers = answers.clone();
                let expected = reference::solve::solve(theirs, &self.theirs.lent, &right, &mut their_answers)
                    .map_err(error_of);
                assert_eq!(self.ours.solve(ours, &right, &mut answers), expected, "solve {ours:?}");
                let same = answers.iter().zip(&their_answers).all(|(a, b)| a.to_bits() == b.to_bits());
                assert!(same, "answers differ after {line:.100}");
            }
            OUTCOME => {
                let (ours, theirs) = Players::sizes(&mut fields);
                let expected = match reference::solve::ending(theirs, &self.theirs.lent) {
                    Ok(reference::solve::Ending::Unfinished(task)) => Ok(Ending::Unfinished(task)),
                    Ok(reference::solve::Ending::Ended(outcome)) => Ok(Ending::Ended(outcome_of(outcome))),
                    Err(refusal) => Err(error_of(refusal)),
                };
                assert_eq!(self.ours.outcome(ours), expected, "outcome {ours:?}");
            }
            _ => panic!("a line of the script has no known command"),
        }
        self.calls += 1;
        assert!(same_state(&self.ours, &self.theirs.lent), "what is lent differs after {line:.100}");
    }
}

/// Plays a script, and tells how many calls were compared.
fn calls_in(script: &str) -> usize {
    let mut players = Players::new();
    for line in script.lines() {
        players.play(line);
    }
    players.calls
}

/// Plays the script of a seed.
pub fn calls_of(seed: u64, calls: usize) -> usize {
    calls_in(&script(Options { seed, calls, max_bytes: 3_300_000 }))
}

/// Plays the single columns of a seed.
pub fn columns_of(seed: u64) -> usize {
    calls_in(&cases_script(seed, 1))
}

// ---- texts

/// Reads every text of a seed, damaged ones too, and its sizes, and writes again what was read; tells how many texts there were.
pub fn texts_of(seed: u64) -> usize {
    let mut count = 0;
    for line in all_texts(seed) {
        let (what, text) = text_in(&line);
        sizes_text(&text);
        match what {
            SYSTEM | PROGRAM => system_text(&text),
            RESULT => result_text(&text),
            _ => panic!("a text is a system, a result or the program's input"),
        }
        count += 1;
    }
    count
}

/// Line 1 alone decides what is told of the sizes.
fn sizes_text(text: &[u8]) {
    let expected = read_header(text, NO_LIMIT).map(|shape| (shape.tiles, shape.side)).map_err(refusal_of);
    assert_eq!(solumivaf::read_sizes(text), expected, "sizes of {}", shown(text));
    if text.len() >= 7 {
        assert_eq!(solumivaf::read_sizes(&text[..7]), expected, "sizes by line 1 of {}", shown(text));
    }
}

/// The lengths that line 1 calls for, or those of the smallest system.
fn lengths(text: &[u8]) -> (usize, usize) {
    match read_header(text, NO_LIMIT) {
        Ok(shape) => (shape.matrix_length(), shape.lists_length()),
        Err(_) => (1, 1),
    }
}

fn system_text(text: &[u8]) {
    let (length, _) = lengths(text);
    for length in [length, length + 1, length - 1, 0] {
        let (mut ours, mut theirs) = (vec![7.0; length], vec![7.0; length]);
        let answer = solumivaf::read_system(text, &mut ours);
        let expected = reference::read::read_system(text, &mut theirs);
        assert_eq!(
            answer,
            expected.map(|shape| (shape.tiles, shape.side)).map_err(refusal_of),
            "system {}",
            shown(text)
        );
        assert_eq!(bits(&ours), bits(&theirs), "matrix of {}", shown(text));
        if let Ok((tiles, side)) = answer {
            for room in [text.len() + 3, text.len(), text.len() - 1] {
                same_writing(&Writing {
                    tiles: tiles as u64,
                    side: side as u64,
                    matrix: ours.clone(),
                    lists: Vec::new(),
                    outcome: reference::solve::Outcome::Good,
                    room,
                    is_result: false,
                });
            }
        }
    }
}

fn result_text(text: &[u8]) {
    let (length, entries) = lengths(text);
    for (length, entries) in
        [(length, entries), (length + 1, entries), (length, entries + 1), (length - 1, entries), (length, 0)]
    {
        let (mut ours, mut theirs) = (vec![7.0; length], vec![7.0; length]);
        let (mut lists, mut their_lists) = (vec![9; entries], vec![9; entries]);
        let answer = solumivaf::read_result(text, &mut ours, &mut lists);
        let expected = reference::read::read_result(text, &mut theirs, &mut their_lists);
        let expected = expected
            .map(|(shape, outcome)| (shape.tiles, shape.side, outcome_of(outcome)))
            .map_err(refusal_of);
        assert_eq!(answer, expected, "result {}", shown(text));
        assert_eq!((bits(&ours), &lists), (bits(&theirs), &their_lists), "buffers of {}", shown(text));
        if let Ok((tiles, side, outcome)) = answer {
            for room in [text.len() + 3, text.len(), text.len() - 1] {
                same_writing(&Writing {
                    tiles: tiles as u64,
                    side: side as u64,
                    matrix: ours.clone(),
                    lists: lists.clone(),
                    outcome: their_outcome(outcome),
                    room,
                    is_result: true,
                });
            }
        }
    }
}

/// Makes every writing of a seed, refused ones too; tells how many there were.
pub fn writings_of(seed: u64) -> usize {
    let writings = all_writings(seed);
    writings.iter().for_each(same_writing);
    writings.len()
}

/// Both writers tell the same and leave the same in the lent text.
fn same_writing(writing: &Writing) {
    let Writing { matrix, lists, outcome, .. } = writing;
    let (tiles, side) = (writing.tiles as usize, writing.side as usize);
    let (mut ours, mut theirs) = (vec![b'x'; writing.room], vec![b'x'; writing.room]);
    let (answer, expected) = if writing.is_result {
        (
            solumivaf::write_result(tiles, side, matrix, lists, outcome_of(*outcome), &mut ours),
            reference::write::write_result(writing.tiles, writing.side, matrix, lists, *outcome, &mut theirs),
        )
    } else {
        (
            solumivaf::write_system(tiles, side, matrix, &mut ours),
            reference::write::write_system(writing.tiles, writing.side, matrix, &mut theirs),
        )
    };
    let lengths = (matrix.len(), lists.len(), writing.room);
    assert_eq!(answer, expected.map_err(refusal_of), "writing {tiles} {side} {lengths:?}");
    assert!(ours == theirs, "text of {tiles} {side} {lengths:?}: {}", shown(&ours));
}

fn shown(text: &[u8]) -> String {
    String::from_utf8_lossy(&text[..text.len().min(200)]).into_owned()
}
