//! K9: who ended a task and by which calls, in any order of work and in every call of the made scripts, what refusal 4 lets pass of it, and
//! that the scripts meet it.

use std::collections::BTreeSet;

use reference::calls::{all_finished, column, is_finished, lowest_ready, opening, run, take, Run};
use reference::cases::cases_script;
use reference::checks::{accept_lengths, accept_shape, accept_state};
use reference::crafted::all_crafted;
use reference::families::{numbers, FAMILIES};
use reference::hex::{value, Fields};
use reference::lent::{Lent, Record, Refusal, Sizes, DONE, FAILED, SPOILED, TAKEN, WAITING};
use reference::numbers::bits;
use reference::oddities::before_opening;
use reference::rng::Rng;
use reference::script::{Player, COLUMN, LEND, OPENING, OUTCOME, RUN, SOLVE, TAKE};
use reference::solve::{ending, solve};
use reference::tasks::table;
use reference::tile::Shape;
use reference::vectors::script;
use reference::writer::{Options, Writer};

fn options(seed: u64) -> Options {
    Options { seed, calls: 5650, max_bytes: 1_600_000 }
}

fn told(shape: Shape, workers: usize) -> Sizes {
    Sizes { tiles: shape.tiles as u64, side: shape.side as u64, workers: workers as u64 }
}

fn opened(rng: &mut Rng, shape: Shape, workers: usize, matrix: &[f64]) -> Lent {
    let mut lent = before_opening(rng, shape, workers, matrix.to_vec());
    opening(told(shape, workers), &mut lent).expect("a good system");
    lent
}

/// The fields of K9: the worker, the call that took the task, the call that ended it.
fn story(lent: &Lent) -> Vec<(u8, u32, u32)> {
    lent.records.iter().map(|record| (record.worker, record.took, record.ended)).collect()
}

/// Everything but those fields and the run's number.
fn rest(lent: &Lent) -> (Vec<u64>, Vec<u8>, Vec<Record>) {
    let bare = |&record: &Record| Record { worker: 0, took: 0, ended: 0, ..record };
    (bits(&lent.matrix), lent.lists.clone(), lent.records.iter().map(bare).collect())
}

/// A run by single calls: the calls made.
fn turns(sizes: Sizes, lent: &mut Lent, budget: u64) -> u64 {
    let shape = Shape { tiles: sizes.tiles as usize, side: sizes.side as usize };
    let mut count = 0;
    for worker in (0..sizes.workers).cycle() {
        if all_finished(&lent.records) || count == budget {
            break;
        }
        if lent.workers[worker as usize].busy {
            column(sizes, lent, worker).expect("a column");
            count += 1;
        } else if let Some(task) = lowest_ready(shape, &lent.records) {
            take(sizes, lent, worker, task as u64).expect("a take");
            count += 1;
        }
    }
    count
}

// ---- by hand

#[test]
fn two_workers_by_hand() {
    let shape = Shape { tiles: 2, side: 2 };
    let matrix = numbers(&mut Rng::new(1), 0, 16);
    let mut lent = opened(&mut Rng::new(1), shape, 2, &matrix);
    assert_eq!(run(told(shape, 2), &mut lent, u64::MAX), Ok(Run::Finished(15)));
    assert_eq!(story(&lent), [(0, 1, 3), (1, 4, 8), (0, 5, 9), (1, 10, 12), (0, 13, 15)]);
    assert_eq!(lent.run_number, 15);
}

/// P5: task 3 fails and task 4 is spoiled; both have a worker and two calls like the others.
#[test]
fn failed_and_spoiled_by_hand() {
    let shape = Shape { tiles: 2, side: 1 };
    let mut lent = opened(&mut Rng::new(1), shape, 3, &[1.0, f64::MAX, -1.0, f64::MAX]);
    let sizes = told(shape, 3);
    for (task, worker) in [2, 1, 0, 2, 1].into_iter().enumerate() {
        take(sizes, &mut lent, worker, task as u64).expect("a take");
        assert_eq!(story(&lent)[task], (0, 2 * task as u32 + 1, 0));
        assert!(take(sizes, &mut lent, worker, task as u64).is_err());
        column(sizes, &mut lent, worker).expect("a column");
    }
    assert_eq!(lent.records.iter().map(|record| record.mark).collect::<Vec<u8>>(), [2, 2, 2, 3, 4]);
    assert_eq!(story(&lent), [(2, 1, 2), (1, 3, 4), (0, 5, 6), (2, 7, 8), (1, 9, 10)]);
    assert_eq!(lent.run_number, 10);
}

// ---- drawn orders

/// What an order should leave: for each task who took it last and at which call, and who ended it at which one.
struct Told {
    calls: u32,
    story: Vec<(u8, u32, u32)>,
}

impl Told {
    /// An accepted call between two states: a take, or a column that may have ended the task.
    fn follow(&mut self, before: &Lent, after: &Lent) {
        self.calls += 1;
        for task in 0..self.story.len() {
            let (mark, now) = (before.records[task].mark, after.records[task].mark);
            let holder = |lent: &Lent| {
                lent.workers.iter().position(|worker| worker.busy && worker.task as usize == task)
            };
            if mark == WAITING && now == TAKEN {
                self.story[task].1 = self.calls;
            }
            if mark == TAKEN && is_finished(now) {
                self.story[task].0 = holder(before).expect("a worker") as u8;
                self.story[task].2 = self.calls;
            }
        }
    }
}

/// One call of a worker, refused or not, or a run of a few.
fn any_call(rng: &mut Rng, shape: Shape, workers: usize, lent: &mut Lent, due: &mut Told) {
    let sizes = told(shape, workers);
    let before = lent.clone();
    let worker = rng.below(workers + 1) as u64;
    if rng.percent(10) {
        let budget = rng.below(3) as u64;
        let Ok(Run::Finished(count) | Run::Spent(count)) = run(sizes, lent, budget) else { panic!("a run") };
        let mut earlier = before.clone();
        for calls in 1..=count {
            let mut later = before.clone();
            turns(sizes, &mut later, calls);
            due.follow(&earlier, &later);
            earlier = later;
        }
        return;
    }
    let answer = if rng.percent(50) {
        column(sizes, lent, worker)
    } else {
        let task = rng.below(lent.records.len());
        take(sizes, lent, worker, task as u64)
    };
    if answer.is_ok() {
        due.follow(&before, lent);
    }
}

/// Plays one order to its end with refused calls in between, and looks at the numbers after every call.
fn play_order(rng: &mut Rng, shape: Shape, workers: usize, matrix: &[f64]) -> Lent {
    let mut lent = opened(rng, shape, workers, matrix);
    let mut due = Told { calls: 0, story: vec![(0, 0, 0); lent.records.len()] };
    while !all_finished(&lent.records) {
        any_call(rng, shape, workers, &mut lent, &mut due);
        assert_eq!(lent.run_number, due.calls);
        assert_eq!(story(&lent), due.story);
        assert_eq!(accept_state(shape, workers, &lent), Ok(()));
    }
    lent
}

/// No two takes or finishes have one number, and a linked task ends before the later one is taken.
fn assert_ordered(shape: Shape, lent: &Lent) {
    let mut met = BTreeSet::new();
    for (task, record) in lent.records.iter().enumerate() {
        assert!(0 < record.took && record.took < record.ended && record.ended <= lent.run_number);
        assert!(met.insert(record.took) && met.insert(record.ended), "{met:?}");
        for &link in &table(shape.tiles).links[task] {
            assert!(lent.records[link].ended < record.took);
        }
    }
}

#[test]
fn orders_differ_in_nothing_else() {
    let mut rng = Rng::new(9);
    let mut systems: Vec<(Shape, Vec<f64>)> =
        all_crafted().into_iter().map(|crafted| (crafted.shape, crafted.matrix)).collect();
    for round in 0..60 {
        let shape = Shape { tiles: rng.between(1, 4), side: rng.between(1, 3) };
        systems.push((shape, numbers(&mut rng, round % FAMILIES, shape.matrix_length())));
    }
    let mut others = 0;
    for (shape, matrix) in systems {
        let ends: Vec<Lent> = (0..3)
            .map(|_| {
                let workers = rng.pick(&[1, 2, 3, 8, 32]);
                play_order(&mut rng, shape, workers, &matrix)
            })
            .collect();
        for lent in &ends {
            assert_ordered(shape, lent);
            assert!(rest(lent) == rest(&ends[0]));
            others += usize::from(story(lent) != story(&ends[0]));
        }
    }
    assert!(others > 60, "{others}");
}

// ---- the made scripts

/// The line of a call: what was lent before and after it, and what it answers.
struct Line {
    command: u64,
    sizes: Sizes,
    more: [u64; 2],
    before: Lent,
    after: Lent,
    refusal: u64,
    count: u64,
}

impl Line {
    fn shape(&self) -> Shape {
        Shape { tiles: self.sizes.tiles as usize, side: self.sizes.side as usize }
    }

    fn fits(&self, lent: &Lent) -> bool {
        accept_state(self.shape(), self.sizes.workers as usize, lent).is_ok()
    }
}

fn each_line(script: &str, mut look: impl FnMut(&str, Line)) {
    let mut player = Player::new();
    for text in script.lines() {
        let before = player.lent.clone();
        let answer = player.play(text);
        let mut fields = Fields::new(text);
        let command = fields.take(2);
        if command == LEND {
            continue;
        }
        let sizes = Sizes { tiles: fields.take(16), side: fields.take(16), workers: fields.take(16) };
        let more = match command {
            TAKE => [fields.take(16), fields.take(16)],
            COLUMN | RUN => [fields.take(16), 0],
            _ => [0, 0],
        };
        let (refusal, count) = (value(&answer.as_bytes()[..2]), value(&answer.as_bytes()[20..36]));
        look(text, Line { command, sizes, more, before, after: player.lent.clone(), refusal, count });
    }
}

/// The fields due after a call other than a run, and the run's number.
fn due(line: &Line) -> (Vec<(u8, u32, u32)>, u32) {
    let (mut due, mut number) = (story(&line.before), line.before.run_number);
    if line.refusal != 0 {
        return (due, number);
    }
    match line.command {
        OPENING => {
            due.fill((0, 0, 0));
            number = 0;
        }
        TAKE => {
            number += 1;
            due[line.more[1] as usize].1 = number;
        }
        COLUMN => {
            number += 1;
            let task = line.before.workers[line.more[0] as usize].task as usize;
            if line.after.records[task].mark != TAKEN {
                due[task].0 = line.more[0] as u8;
                due[task].2 = number;
            }
        }
        _ => {}
    }
    (due, number)
}

#[test]
fn every_call_of_a_script_keeps_its_numbers() {
    for seed in 1..=3 {
        for script in [script(options(seed)), cases_script(seed, 2)] {
            each_line(&script, |text, line| {
                if line.command == RUN && line.refusal == 0 {
                    let mut slow = line.before.clone();
                    assert_eq!(turns(line.sizes, &mut slow, line.more[0]), line.count, "{text}");
                    assert_eq!(story(&line.after), story(&slow), "{text}");
                    assert_eq!(line.after.run_number, line.before.run_number + line.count as u32, "{text}");
                } else {
                    assert_eq!((story(&line.after), line.after.run_number), due(&line), "{text}");
                }
                if line.refusal == 0 && line.command != OUTCOME {
                    assert!(line.fits(&line.after), "{text}");
                }
            });
        }
    }
}

// ---- refusal 4

/// What take, column, run and solve answer, each on a copy.
fn answers(told: Sizes, lent: &Lent) -> [Option<u8>; 4] {
    let n = (told.tiles * told.side) as usize;
    let number = |refusal: Refusal| refusal.number;
    [
        take(told, &mut lent.clone(), 1, 0).err().map(number),
        column(told, &mut lent.clone(), 0).err().map(number),
        run(told, &mut lent.clone(), 1).err().map(number),
        solve(told, lent, &vec![1.0; n], &mut vec![7.0; n]).err().map(number),
    ]
}

/// Each call is refused 4, and the outcome is told all the same.
fn assert_refused(told: Sizes, lent: &Lent) {
    assert_eq!(answers(told, lent), [Some(4); 4]);
    assert!(ending(told, lent).is_ok());
}

fn assert_passed(told: Sizes, lent: &Lent) {
    assert!(!answers(told, lent).contains(&Some(4)));
}

/// Each mark and column of a task, with what it adds to the most that the run's number may be.
fn stands(t: u32) -> Vec<(u8, u8, u32)> {
    let mut stands = vec![(WAITING, 0, 0), (DONE, 0, t + 1), (FAILED, 0, t + 1), (SPOILED, 0, t + 1)];
    stands.extend((0..t).map(|column| (TAKEN, column as u8, 1 + column)));
    stands
}

#[test]
fn limits_of_the_number() {
    let mut writer = Writer::new(options(1));
    for (tiles, tasks) in [(1, 1), (2, 5)] {
        for t in 1..=16 {
            writer.start(Shape { tiles, side: t as usize }, 2);
            let told = writer.told();
            for (turn, (mark, column, most)) in stands(t).into_iter().enumerate() {
                let task = turn % tasks;
                for (others, each) in [(WAITING, 0), (DONE, t + 1), (FAILED, t + 1), (SPOILED, t + 1)] {
                    let mut lent = writer.marked(|other| if other == task { mark } else { others });
                    lent.workers[0].column = column;
                    let most = most + (tasks as u32 - 1) * each;
                    for run_number in [0, most / 2, most] {
                        lent.run_number = run_number;
                        assert_passed(told, &lent);
                    }
                    for run_number in [most + 1, most + 256, most + 65536, u32::MAX] {
                        lent.run_number = run_number;
                        assert_refused(told, &lent);
                    }
                }
            }
        }
    }
}

#[test]
fn limits_of_call_numbers_and_workers() {
    let mut writer = Writer::new(options(1));
    for workers in [2, 3, 31, 32] {
        writer.start(Shape { tiles: 2, side: 3 }, workers);
        let told = writer.told();
        for task in 0..5 {
            for (mark, column, most) in stands(3) {
                let mut lent = writer.marked(|other| if other == task { mark } else { DONE });
                lent.workers[0].column = column;
                for run_number in [0, 1, 16 + most] {
                    lent.run_number = run_number;
                    let mut with = |worker: usize, took: u32, ended: u32| {
                        let record = lent.records[task];
                        lent.records[task] = Record { worker: worker as u8, took, ended, ..record };
                        lent.clone()
                    };
                    // A finish may come before its take, and a task that waits may have both.
                    for (took, ended) in [(run_number, 0), (0, run_number), (run_number, run_number)] {
                        assert_passed(told, &with(workers - 1, took, ended));
                    }
                    for above in [run_number + 1, run_number + 256, u32::MAX] {
                        assert_refused(told, &with(0, above, 0));
                        assert_refused(told, &with(0, 0, above));
                    }
                    for worker in [workers, workers + 1, 128, 255] {
                        assert_refused(told, &with(worker, 0, 0));
                    }
                }
            }
        }
    }
}

#[test]
fn an_opening_looks_at_no_number() {
    let shape = Shape { tiles: 2, side: 1 };
    let mut lent = before_opening(&mut Rng::new(1), shape, 1, vec![1.0, 2.0, 4.0, 4.0]);
    lent.run_number = u32::MAX;
    for record in &mut lent.records {
        *record = Record { worker: 255, took: u32::MAX, ended: u32::MAX, ..*record };
    }
    opening(told(shape, 1), &mut lent).expect("a good system");
    assert_eq!((story(&lent), lent.run_number), (vec![(0, 0, 0); 5], 0));
}

// ---- what the scripts meet

const STANDS: [&str; 5] = ["waiting", "taken", "done", "failed", "spoiled"];

/// What a script meets, in words.
fn facts(script: &str) -> BTreeSet<String> {
    let mut met = BTreeSet::new();
    each_line(script, |text, line| match (line.refusal, line.command) {
        (1 | 2, command) if wrong(&line.before) => {
            met.insert(format!("{command:X} refused {} beside a wrong number", line.refusal));
        }
        (1 | 2, _) => {}
        (3, OPENING) if line.before.run_number == u32::MAX => {
            met.insert("a refused opening over the largest number".to_string());
        }
        (0, OUTCOME) if !line.fits(&line.before) && line.fits(&mended(&line.before)) => {
            met.insert("an outcome beside wrong numbers".to_string());
        }
        (0, OPENING) => opened_over(&mut met, &line),
        (4, _) => refused(&mut met, text, &line),
        (_, TAKE | COLUMN | RUN | SOLVE) => {
            passed(&mut met, &line);
            if line.refusal == 0 {
                made(&mut met, &line);
            }
        }
        _ => {}
    });
    met
}

/// The state without what K9 adds.
fn mended(lent: &Lent) -> Lent {
    let mut lent = lent.clone();
    lent.run_number = 0;
    for record in &mut lent.records {
        *record = Record { worker: 0, took: 0, ended: 0, ..*record };
    }
    lent
}

/// The numbers are all that refusal 4 finds, whatever sizes were told; where the lengths fit none, a call number above the run's.
fn wrong(lent: &Lent) -> bool {
    let fits = |lent: &Lent| {
        let tiles = (1..=16).find(|&tiles| table(tiles).tasks.len() == lent.records.len())?;
        let side = (lent.matrix.len() as f64).sqrt() as usize / tiles;
        let shape = accept_shape(tiles as u64, side as u64).ok()?;
        accept_lengths(shape, lent.count as usize, lent).ok()?;
        Some(lent.count <= 32 && accept_state(shape, lent.count as usize, lent).is_ok())
    };
    match fits(lent) {
        Some(passes) => !passes && fits(&mended(lent)) == Some(true),
        None => lent.records.iter().any(|record| record.took.max(record.ended) > lent.run_number),
    }
}

fn opened_over(met: &mut BTreeSet<String>, line: &Line) {
    let largest =
        |record: &Record| record.worker == 255 && record.took == u32::MAX && record.ended == u32::MAX;
    if line.before.run_number == u32::MAX && line.before.records.iter().all(largest) {
        met.insert("an opening over the largest numbers".to_string());
    }
    if line.before.run_number > 0 && line.fits(&line.before) {
        met.insert("an opening amid a run".to_string());
    }
}

/// What a line answers to another state.
fn answer_to(text: &str, lent: &Lent) -> u64 {
    let mut player = Player::new();
    player.lent = lent.clone();
    value(&player.play(text).as_bytes()[..2])
}

/// A call that is refused 4 for one of the numbers alone: which it is, how far it is off, and what the call would answer without it.
fn refused(met: &mut BTreeSet<String>, text: &str, line: &Line) {
    refused_for_the_run(met, text, line);
    for task in 0..line.before.records.len() {
        refused_for_a_record(met, text, line, task);
    }
}

fn refused_for_the_run(met: &mut BTreeSet<String>, text: &str, line: &Line) {
    let (command, number) = (line.command, line.before.run_number);
    let mut other = line.before.clone();
    other.run_number = other.records.iter().map(|record| record.took.max(record.ended)).max().unwrap_or(0);
    let answer = answer_to(text, &other);
    if answer == 4 || number == 0 {
        return;
    }
    other.run_number = number - 1;
    let off = match (answer_to(text, &other), number) {
        (4, u32::MAX) => "by far",
        (4, _) => "by more than one",
        _ => "by one",
    };
    met.insert(format!("{command:X} refused for the run's number, {off}"));
    met.insert(format!("{command:X} refused for a number and not {answer}"));
    if number > 255 && number & 255 <= other.records.len() as u32 {
        met.insert(format!("{command:X} refused for the high bytes of the run's number"));
    }
}

fn refused_for_a_record(met: &mut BTreeSet<String>, text: &str, line: &Line, task: usize) {
    let (command, record) = (line.command, line.before.records[task]);
    let stand = STANDS.get(record.mark as usize).unwrap_or(&"no");
    for (field, bare, number, most) in [
        ("took", Record { took: 0, ..record }, record.took, line.before.run_number),
        ("ended", Record { ended: 0, ..record }, record.ended, line.before.run_number),
        ("worker", Record { worker: 0, ..record }, record.worker as u32, line.sizes.workers as u32 - 1),
    ] {
        let mut other = line.before.clone();
        other.records[task] = bare;
        let answer = answer_to(text, &other);
        if answer == 4 {
            continue;
        }
        let off = if number == most + 1 { "by one" } else { "by more than one" };
        met.insert(format!("{command:X} refused for {field} of a {stand} task, {off}"));
        met.insert(format!("{command:X} refused for a number and not {answer}"));
        if [255, u32::MAX].contains(&number) {
            met.insert(format!("refused for {field} {number}"));
        }
    }
}

/// A call that meets numbers at their limits.
fn passed(met: &mut BTreeSet<String>, line: &Line) {
    let (command, lent) = (line.command, &line.before);
    let mut other = lent.clone();
    other.run_number += 1;
    if !line.fits(&other) {
        let size = if lent.run_number > 255 { "above 255" } else { "below 256" };
        met.insert(format!("{command:X} meets the most of the run's number, {size}"));
        let marks: BTreeSet<u8> = lent.records.iter().map(|record| record.mark).collect();
        for &mark in &marks {
            let columns: BTreeSet<u8> =
                lent.workers[..lent.count as usize].iter().filter(|w| w.busy).map(|w| w.column).collect();
            if marks.len() == 1 || (marks.len() == 2 && marks.contains(&WAITING)) {
                let stand = STANDS[mark as usize];
                met.insert(format!(
                    "the most with none but {stand} tasks, at {columns:?}, t = {}",
                    line.sizes.side
                ));
            }
        }
    }
    if lent.run_number == 0 {
        met.insert(format!("{command:X} meets the run's number 0"));
    }
    for record in &lent.records {
        let stand = STANDS[record.mark as usize];
        for (field, number, most) in [
            ("took", record.took, lent.run_number),
            ("ended", record.ended, lent.run_number),
            ("worker", record.worker as u32, line.sizes.workers as u32 - 1),
        ] {
            if number == most && most > 0 {
                met.insert(format!("{command:X} meets the most of {field} of a {stand} task"));
            }
        }
    }
}

/// An accepted take, column or run.
fn made(met: &mut BTreeSet<String>, line: &Line) {
    let (before, after) = (&line.before, &line.after);
    if line.command == RUN {
        let started = if before.run_number > 0 { "later" } else { "first" };
        met.insert(format!("a run of {} counts {}, {started}", line.more[0], line.count));
        let ended =
            |task: usize| !is_finished(before.records[task].mark) && is_finished(after.records[task].mark);
        for task in (0..before.records.len()).filter(|&task| ended(task)) {
            let record = after.records[task];
            let worker = if record.worker > 0 { "another worker" } else { "worker 0" };
            met.insert(format!("a run ends a {} task by {worker}", STANDS[record.mark as usize]));
        }
        return;
    }
    if after.run_number == 256 || after.run_number == 257 {
        met.insert(format!("{:X} is call {}", line.command, after.run_number));
    }
    let task = match line.command {
        TAKE => line.more[1] as usize,
        COLUMN => before.workers[line.more[0] as usize].task as usize,
        _ => return,
    };
    let (was, is) = (before.records[task], after.records[task]);
    let stand = STANDS[is.mark as usize];
    if was.took > 0 && was.ended > 0 && was.worker > 0 {
        met.insert(format!("T-{} {stand} over numbers and a worker", is.kind));
    }
    if line.more[0] > 0 {
        met.insert(format!("T-{} {stand} by worker {}", is.kind, line.more[0].min(31)));
    }
    let of_others = |lent: &Lent| {
        let mut story = story(lent);
        story.remove(task);
        story
    };
    assert_eq!(of_others(before), of_others(after));
    for other in
        before.records.iter().filter(|other| other.mark == WAITING && other.worker > 0 && other.took > 0)
    {
        if *other != was {
            met.insert(format!("{:X} beside a waiting task with numbers", line.command));
        }
    }
}

const FACTS: &str = "\
an opening over the largest numbers
a refused opening over the largest number
an opening amid a run
an outcome beside wrong numbers
12 beside a waiting task with numbers
13 beside a waiting task with numbers
a run of 0 counts 0, first
a run of 0 counts 0, later
a run of 1 counts 1, first
a run of 1 counts 1, later
a run of 2 counts 2, later
a run of 1 counts 0, later
a run of 2 counts 1, later
12 is call 256
13 is call 256
12 is call 257
13 is call 257
refused for took 4294967295
refused for ended 4294967295
refused for worker 255
12 refused for a number and not 0
12 refused for a number and not 5
12 refused for a number and not 6
12 refused for a number and not 7
13 refused for a number and not 0
13 refused for a number and not 5
14 refused for a number and not 0
15 refused for a number and not 0
15 refused for a number and not 3
15 refused for a number and not 8
15 refused for a number and not 9
15 refused for a number and not 10
15 refused for a number and not 11
the most with none but waiting tasks, at {}, t = 3
the most with none but taken tasks, at {0}, t = 1
the most with none but taken tasks, at {1}, t = 3
the most with none but taken tasks, at {2}, t = 3
the most with none but done tasks, at {}, t = 3
the most with none but failed tasks, at {}, t = 1
the most with none but spoiled tasks, at {}, t = 3";

fn assert_all(met: &BTreeSet<String>) {
    let mut due: Vec<String> = FACTS.lines().map(str::to_string).collect();
    for command in [TAKE, COLUMN, RUN, SOLVE] {
        for off in ["by one", "by more than one", "by far"] {
            due.push(format!("{command:X} refused for the run's number, {off}"));
        }
        due.push(format!("{command:X} refused for the high bytes of the run's number"));
        for field in ["took", "ended", "worker"] {
            for stand in STANDS {
                for off in ["by one", "by more than one"] {
                    due.push(format!("{command:X} refused for {field} of a {stand} task, {off}"));
                }
                due.push(format!("{command:X} meets the most of {field} of a {stand} task"));
            }
        }
        for size in ["above 255", "below 256"] {
            due.push(format!("{command:X} meets the most of the run's number, {size}"));
        }
        due.push(format!("{command:X} meets the run's number 0"));
        for refusal in [1, 2] {
            due.push(format!("{command:X} refused {refusal} beside a wrong number"));
        }
    }
    for kind in 1..=4 {
        for stand in &STANDS[1..] {
            due.push(format!("T-{kind} {stand} over numbers and a worker"));
            due.push(format!("T-{kind} {stand} by worker 1"));
        }
    }
    for stand in &STANDS[2..] {
        for worker in ["another worker", "worker 0"] {
            due.push(format!("a run ends a {stand} task by {worker}"));
        }
    }
    let missed: Vec<String> = due.into_iter().filter(|fact| !met.contains(fact)).collect();
    assert!(missed.is_empty(), "{missed:#?} are not among {met:#?}");
}

#[test]
fn the_parts_of_a_script_meet_them() {
    for seed in 1..=3 {
        let mut writer = Writer::new(options(seed));
        writer.edges();
        writer.call_numbers();
        assert_all(&facts(&writer.script));
    }
}

#[test]
fn scripts_have_those_parts() {
    assert_all(&facts(&script(options(1))));
}
