//! K7: the tie sums by definition in every call of the made scripts, what refusal 4 lets pass of them, and that the scripts meet both.

use std::collections::BTreeSet;

use reference::calls::{column, is_finished, opening, run, take};
use reference::cases::cases_script;
use reference::checks::accept_state;
use reference::hex::{value, Fields};
use reference::lent::{Lent, Refusal, Sizes, DONE, FAILED, SPOILED, TAKEN, WAITING};
use reference::oddities::before_opening;
use reference::rng::Rng;
use reference::script::{Player, COLUMN, LEND, OPENING, OUTCOME, RUN, SOLVE, TAKE};
use reference::solve::{ending, solve};
use reference::tasks::table;
use reference::tile::Shape;
use reference::vectors::script;
use reference::writer::{Options, Writer};

fn options(seed: u64) -> Options {
    Options { seed, calls: 5650, max_bytes: 1_600_000 }
}

fn sums(lent: &Lent) -> Vec<u16> {
    lent.records.iter().map(|record| record.tie_sum).collect()
}

/// The candidates of a column's pivot search, which T-2 and T-4 don't have.
fn candidates(shape: Shape, lent: &Lent, number: usize, c: usize) -> Vec<f64> {
    let task = table(shape.tiles).tasks[number];
    let tile_column = |i: usize| (0..shape.side).map(move |r| lent.matrix[shape.element(i, task.k, r, c)]);
    match task.kind {
        1 => tile_column(task.k).skip(c).collect(),
        3 => tile_column(task.k).skip(c).take(1).chain(tile_column(task.i)).collect(),
        _ => Vec::new(),
    }
}

/// By counting all that have the largest magnitude.
fn ties(candidates: &[f64]) -> u16 {
    let largest = candidates.iter().fold(0.0, |largest: f64, number| largest.max(number.abs()));
    let with_it = candidates.iter().filter(|number| number.abs() == largest).count();
    if largest == 0.0 {
        0
    } else {
        with_it as u16 - 1
    }
}

// ---- the made scripts

/// The line of a call: what was lent before and after it, and the refusal's number.
struct Line {
    command: u64,
    shape: Shape,
    workers: usize,
    worker: usize,
    before: Lent,
    after: Lent,
    refusal: u64,
}

/// Plays a script and looks at each call that is told sizes in range and lengths that fit.
fn each_line(script: &str, mut look: impl FnMut(&str, Line)) {
    let mut player = Player::new();
    for line in script.lines() {
        let before = player.lent.clone();
        let refusal = value(player.play(line)[..2].as_bytes());
        let mut fields = Fields::new(line);
        let command = fields.take(2);
        if command == LEND || refusal == 1 || refusal == 2 {
            continue;
        }
        let shape = Shape { tiles: fields.take(16) as usize, side: fields.take(16) as usize };
        let workers = fields.take(16) as usize;
        let worker = if command == COLUMN { fields.take(16) as usize } else { 0 };
        let after = player.lent.clone();
        look(line, Line { command, shape, workers, worker, before, after, refusal });
    }
}

/// The tie sums due after a call other than a run.
fn due(line: &Line) -> Vec<u16> {
    let mut due = sums(&line.before);
    if line.refusal != 0 {
        return due;
    }
    if line.command == OPENING {
        due.fill(0);
    }
    if line.command == COLUMN {
        let held = line.before.workers[line.worker];
        let task = held.task as usize;
        let found = ties(&candidates(line.shape, &line.before, task, held.column as usize));
        match line.after.records[task].mark {
            SPOILED => due[task] = 0,
            FAILED => {}
            _ => due[task] += found,
        }
    }
    due
}

#[test]
fn every_call_of_a_script_keeps_its_sums() {
    for seed in 1..=3 {
        for script in [script(options(seed)), cases_script(seed, 2)] {
            each_line(&script, |text, line| {
                if line.command != RUN || line.refusal != 0 {
                    assert_eq!(sums(&line.after), due(&line), "{text}");
                }
                if line.refusal == 0 && line.command != OUTCOME {
                    assert_eq!(accept_state(line.shape, line.workers, &line.after), Ok(()), "{text}");
                }
            });
        }
    }
}

// ---- refusal 4

/// A task with that mark and column, all others done; the sum is its own.
fn marked(writer: &mut Writer, task: usize, mark: u8, column: usize, tie_sum: usize) -> Lent {
    let mut lent = writer.marked(|other| if other == task { mark } else { DONE });
    lent.workers[0].column = column as u8;
    lent.records[task].tie_sum = tie_sum as u16;
    lent
}

/// What take, column, run and solve answer, each on a copy.
fn answers(told: Sizes, lent: &Lent) -> [Option<u8>; 4] {
    let n = (told.tiles * told.side) as usize;
    let number = |refusal: Refusal| refusal.number;
    [
        take(told, &mut lent.clone(), 1, 0).err().map(number),
        column(told, &mut lent.clone(), 0).err().map(number),
        run(told, &mut lent.clone(), 1).err().map(number),
        solve(told, lent, &vec![1.0; n], &mut vec![7.0; n]).err().map(number),
    ]
}

#[test]
fn limits_of_every_mark_and_column() {
    let mut writer = Writer::new(options(1));
    for (tiles, tasks) in [(1, 1), (2, 5)] {
        for t in 1..=16 {
            writer.start(Shape { tiles, side: t }, 2);
            for task in 0..tasks {
                let mut stands = vec![(WAITING, 0, 0), (DONE, 0, t * t), (FAILED, 0, t * t), (SPOILED, 0, 0)];
                stands.extend((0..t).map(|column| (TAKEN, column, t * column)));
                for (mark, column, most) in stands {
                    let told = writer.told();
                    let lent = marked(&mut writer, task, mark, column, most);
                    assert!(!answers(told, &lent).contains(&Some(4)), "t = {t}, {task}, {mark}, {column}");
                    for above in [most + 1, most + 256, 65535] {
                        let lent = marked(&mut writer, task, mark, column, above);
                        assert_eq!(answers(told, &lent), [Some(4); 4], "t = {t}, {task}, {mark}, {above}");
                        assert!(ending(told, &lent).is_ok());
                    }
                }
            }
        }
    }
}

#[test]
fn an_opening_looks_at_no_sum() {
    let told = Sizes { tiles: 2, side: 1, workers: 1 };
    let shape = Shape { tiles: 2, side: 1 };
    let mut lent = before_opening(&mut Rng::new(1), shape, 1, vec![1.0, 2.0, -1.0, 4.0]);
    for record in &mut lent.records {
        record.tie_sum = 65535;
    }
    opening(told, &mut lent).expect("a good system");
    assert_eq!(sums(&lent), [0; 5]);
    run(told, &mut lent, u64::MAX).expect("a run");
    assert_eq!(sums(&lent), [0, 0, 1, 0, 0]);
}

// ---- what the scripts meet

/// What a script meets, in words.
fn facts(script: &str) -> BTreeSet<String> {
    let mut met = BTreeSet::new();
    each_line(script, |text, line| {
        if line.refusal == 4 {
            refused(&mut met, text, &line);
        }
        if line.refusal == 0 && line.command == COLUMN {
            worked(&mut met, &line);
        }
        if line.refusal == 0 && line.command == OPENING && sums(&line.before).iter().any(|&sum| sum > 0) {
            met.insert("an opening over sums".to_string());
        }
        if line.refusal == 0 && line.command == OUTCOME && above(&line).is_some() {
            met.insert("an outcome beside a sum above its most".to_string());
        }
        if ![1, 2, 4].contains(&line.refusal) && [TAKE, COLUMN, RUN, SOLVE].contains(&line.command) {
            passed(&mut met, &line);
        }
    });
    met
}

const STANDS: [&str; 5] = ["waiting", "taken", "done", "failed", "spoiled"];

/// The task whose tie sum is all that refusal 4 finds, but for elements.
fn above(line: &Line) -> Option<usize> {
    let fits = |lent: &Lent| accept_state(line.shape, line.workers, lent).is_ok();
    let mut other = line.before.clone();
    (0..other.records.len()).find(|&task| {
        other.records[task].tie_sum = 0;
        let found = !fits(&line.before) && fits(&other);
        other.records[task] = line.before.records[task];
        found
    })
}

/// A call that is refused 4 for a sum alone, also where its low byte alone would pass.
fn refused(met: &mut BTreeSet<String>, text: &str, line: &Line) {
    let Some(task) = above(line) else { return };
    let mut player = Player::new();
    player.lent = line.before.clone();
    player.lent.records[task].tie_sum = 0;
    if player.play(text).starts_with("04") {
        return;
    }
    let record = line.before.records[task];
    let stand = STANDS[record.mark as usize];
    met.insert(format!("{:X} refused for the sum of a {stand} T-{}", line.command, record.kind));
    let other = |worker: usize| line.before.workers[worker].task as usize != task;
    if line.command == COLUMN && other(line.worker) {
        met.insert("13 refused for the sum of another task".to_string());
    }
    if record.mark == TAKEN && line.before.workers[0].column > 0 && other(0) {
        met.insert("refused though worker 0 stands at a later column".to_string());
    }
    let mut low = line.before.clone();
    low.records[task].tie_sum &= 255;
    if accept_state(line.shape, line.workers, &low).is_ok() {
        met.insert(format!("{:X} refused for the high byte, {stand}", line.command));
    }
}

/// A call that meets a sum at its most, other than 0.
fn passed(met: &mut BTreeSet<String>, line: &Line) {
    for task in 0..line.before.records.len() {
        let record = line.before.records[task];
        let mut other = line.before.clone();
        other.records[task].tie_sum += 1;
        if record.tie_sum > 0 && accept_state(line.shape, line.workers, &other).is_err() {
            let stand = STANDS[record.mark as usize];
            met.insert(format!("{:X} meets the most of a {stand} T-{}", line.command, record.kind));
            if record.tie_sum > 255 {
                met.insert(format!("{:X} meets {} of a {stand} task", line.command, record.tie_sum));
            }
        }
    }
}

fn worked(met: &mut BTreeSet<String>, line: &Line) {
    let held = line.before.workers[line.worker];
    let (task, t) = (held.task as usize, line.shape.side);
    let (before, after) = (line.before.records[task], line.after.records[task]);
    let candidates = candidates(line.shape, &line.before, task, held.column as usize);
    let found = ties(&candidates);
    let stand = STANDS[after.mark as usize];
    let kind = after.kind;
    if before.tie_sum > 0 {
        met.insert(format!("T-{kind} {stand} from a sum"));
    }
    if found > 0 && after.mark == FAILED {
        let earlier = if before.tie_sum > 0 { "some" } else { "none" };
        met.insert(format!("T-{kind} failed with ties, after {earlier}"));
    }
    if after.mark == SPOILED {
        met.insert(format!("T-{kind} spoiled"));
    }
    if is_finished(after.mark) && after.tie_sum as usize == t * t {
        met.insert(format!("T-{kind} of t = {t} ends with all ties"));
    }
    if candidates.is_empty() || after.mark == FAILED || after.mark == SPOILED {
        return;
    }
    met.insert(format!("T-{kind} of t = {t} has {found} ties"));
    let largest = candidates.iter().fold(0.0, |largest: f64, number| largest.max(number.abs()));
    if largest == 0.0 && candidates.contains(&0.0) && candidates.iter().any(|zero| zero.is_sign_negative()) {
        met.insert(format!("T-{kind} has zeros of both signs"));
    }
    if found > 0 && candidates.contains(&largest) && candidates.contains(&-largest) {
        met.insert(format!("T-{kind} has a tie of opposite signs"));
    }
    if found > 0 && candidates[0].abs() == largest {
        met.insert(format!("T-{kind} has a tie with the first"));
    }
    let winner = candidates.iter().position(|number| number.abs() == largest).expect("one");
    if ties(&candidates[..winner]) > 0 {
        let others = if found > 0 { "others" } else { "no other" };
        met.insert(format!("T-{kind} has overtaken ties and {others}"));
    }
}

const FACTS: &str = "\
an opening over sums
an outcome beside a sum above its most
13 refused for the sum of another task
refused though worker 0 stands at a later column
T-1 failed with ties, after some
T-1 failed with ties, after none
T-3 failed with ties, after some
T-3 failed with ties, after none
T-1 has zeros of both signs
T-3 has zeros of both signs
T-1 has a tie of opposite signs
T-3 has a tie of opposite signs
T-1 has a tie with the first
T-3 has a tie with the first
T-1 has overtaken ties and others
T-1 has overtaken ties and no other
T-3 has overtaken ties and others
T-3 has overtaken ties and no other
T-3 of t = 1 ends with all ties
T-3 of t = 2 ends with all ties
T-3 of t = 3 ends with all ties
T-3 of t = 16 ends with all ties";

fn assert_all(met: &BTreeSet<String>) {
    let mut due: Vec<String> = FACTS.lines().map(str::to_string).collect();
    for kind in 1..=4 {
        due.push(format!("T-{kind} spoiled"));
        for stand in ["taken", "done", "failed"] {
            due.push(format!("T-{kind} {stand} from a sum"));
        }
    }
    for t in 1..=3 {
        due.extend((0..t).map(|ties| format!("T-1 of t = {t} has {ties} ties")));
        due.extend((0..t + 1).map(|ties| format!("T-3 of t = {t} has {ties} ties")));
    }
    for command in [TAKE, COLUMN, RUN, SOLVE] {
        for kind in 1..=4 {
            due.extend(STANDS.map(|stand| format!("{command:X} refused for the sum of a {stand} T-{kind}")));
            for stand in ["taken", "done", "failed"] {
                due.push(format!("{command:X} meets the most of a {stand} T-{kind}"));
            }
        }
        due.extend(STANDS.map(|stand| format!("{command:X} refused for the high byte, {stand}")));
        due.extend(["done", "failed"].map(|stand| format!("{command:X} meets 256 of a {stand} task")));
    }
    for fact in due {
        assert!(met.contains(&fact), "{fact} is not among {met:#?}");
    }
}

#[test]
fn the_part_of_a_script_and_single_columns_meet_them() {
    for seed in 1..=3 {
        let mut writer = Writer::new(options(seed));
        writer.tied_pivots();
        assert_all(&facts(&(writer.script + &cases_script(seed, 6))));
    }
}

#[test]
fn scripts_have_that_part() {
    assert_all(&facts(&(script(options(1)) + &cases_script(1, 6))));
}
