//! The made scripts meet what the two parts of the diagonal tile are about.

use std::collections::BTreeSet;

use reference::calls::is_finished;
use reference::hex::Fields;
use reference::lent::{Lent, DONE, FAILED, SPOILED, TAKEN, WAITING};
use reference::script::{Player, COLUMN, LEND, OPENING, TAKE};
use reference::tasks::{table, Task};
use reference::tile::Shape;
use reference::vectors::script;
use reference::writer::{Options, Writer};

fn options(seed: u64) -> Options {
    Options { seed, calls: 5650, max_bytes: 1_600_000 }
}

/// How a task stands.
fn stand(lent: &Lent, task: usize) -> &'static str {
    let begun = |task| lent.workers.iter().any(|w| w.busy && w.task as usize == task && w.column > 0);
    match lent.records[task].mark {
        WAITING => "waits",
        TAKEN if begun(task) => "in part",
        TAKEN => "taken",
        DONE => "done",
        FAILED => "failed",
        SPOILED => "spoiled",
        _ => "damaged",
    }
}

/// What a script meets, in words.
struct Facts {
    met: BTreeSet<String>,
    opened: bool,
}

impl Facts {
    fn of(script: &str) -> Facts {
        let mut facts = Facts { met: BTreeSet::new(), opened: false };
        let mut player = Player::new();
        for line in script.lines() {
            let before = player.lent.clone();
            let answer = player.play(line);
            facts.line(line, &before, &player.lent, &answer[..2]);
        }
        facts
    }

    fn line(&mut self, line: &str, before: &Lent, after: &Lent, refusal: &str) {
        let mut fields = Fields::new(line);
        let command = fields.take(2);
        if command == LEND || (command == OPENING && refusal == "00") {
            self.opened = command == OPENING;
        }
        if command != TAKE && command != COLUMN || !["00", "04", "07"].contains(&refusal) {
            return;
        }
        let shape = Shape { tiles: fields.take(16) as usize, side: fields.take(16) as usize };
        let _workers = fields.take(16);
        let worker = fields.take(16) as usize;
        let held = before.workers.get(worker).map_or(0, |worker| worker.task as usize);
        match (command, refusal) {
            (TAKE, "00") => self.taken(shape, before, after, fields.take(16) as usize),
            (TAKE, "07") => self.unready(shape, before, fields.take(16) as usize),
            (COLUMN, "00") => self.worked(shape, before, after, held),
            (COLUMN, "04") => self.not_finite(shape, before, held),
            _ => {}
        }
    }

    /// Of a T-2 or T-3: how it and each task of the other kind in its stage stand now.
    fn stage(&mut self, shape: Shape, after: &Lent, task: usize) {
        let record = after.records[task];
        for other in 0..after.records.len() {
            let beside = after.records[other];
            if record.k == beside.k && [(2, 3), (3, 2)].contains(&(record.kind, beside.kind)) {
                let ours = format!("T-{} {}", record.kind, stand(after, task));
                let theirs = format!("T-{} {}", beside.kind, stand(after, other));
                self.met.insert(format!("N = {}: {ours}, {theirs}", shape.tiles));
            }
        }
    }

    fn taken(&mut self, shape: Shape, before: &Lent, after: &Lent, task: usize) {
        let links = &table(shape.tiles).links[task];
        let waits = |other| links.contains(&other) || before.records[other].mark == WAITING;
        if shape.tiles == 3 && (0..before.records.len()).all(waits) {
            self.met.insert(format!("T-{} taken, all not linked wait", before.records[task].kind));
        }
        self.stage(shape, after, task);
    }

    /// A task that waits for one task alone.
    fn unready(&mut self, shape: Shape, before: &Lent, task: usize) {
        let links = &table(shape.tiles).links[task];
        let open: Vec<usize> =
            links.iter().copied().filter(|&l| !is_finished(before.records[l].mark)).collect();
        if before.records[task].mark == WAITING && open.len() == 1 {
            let from = if self.opened { "opened" } else { "odd" };
            let kinds = (before.records[task].kind, before.records[open[0]].kind);
            self.met.insert(format!("{from}: T-{} waits for T-{} alone", kinds.0, kinds.1));
        }
    }

    fn worked(&mut self, shape: Shape, before: &Lent, after: &Lent, task: usize) {
        let links = &table(shape.tiles).links[task];
        let bad = |other: &usize| before.records[*other].mark >= FAILED;
        let kind = before.records[task].kind;
        let mark = after.records[task].mark;
        if mark == SPOILED && links.iter().filter(|link| bad(link)).count() == 1 {
            self.met.insert(format!("T-{kind} spoiled by one"));
        }
        let mut others = (0..before.records.len()).filter(|other| *other != task && !links.contains(other));
        if mark == DONE && shape.tiles == 3 && others.all(|other| bad(&other)) {
            self.met.insert(format!("T-{kind} done, all not linked failed or spoiled"));
        }
        self.stage(shape, after, task);
    }

    /// The one element that is not finite stands in the diagonal tile of the stage.
    fn not_finite(&mut self, shape: Shape, before: &Lent, task: usize) {
        let Some(&Task { kind, k, .. }) = table(shape.tiles).tasks.get(task) else {
            return;
        };
        if before.matrix.iter().filter(|number| !number.is_finite()).count() != 1 {
            return;
        }
        for row in 0..shape.side {
            for column in 0..shape.side {
                if !before.matrix[shape.element(k, k, row, column)].is_finite() {
                    let part = if column < row { "lower part" } else { "rest" };
                    self.met.insert(format!("T-{kind} refused for the {part}"));
                }
            }
        }
    }

    fn assert_met(&self, fact: &str) {
        assert!(self.met.contains(fact), "{fact} is not among {:#?}", self.met);
    }

    fn assert_all(&self) {
        for stands in STANDS.lines() {
            self.assert_met(&format!("N = 2: {stands}"));
            self.assert_met(&format!("N = 3: {stands}"));
        }
        for fact in OTHERS.lines() {
            self.assert_met(fact);
        }
        for kind in 1..=4 {
            self.assert_met(&format!("T-{kind} taken, all not linked wait"));
            self.assert_met(&format!("T-{kind} spoiled by one"));
            self.assert_met(&format!("T-{kind} done, all not linked failed or spoiled"));
        }
    }
}

/// How a task stands after a call for it, and how one beside it does.
const STANDS: &str = "\
T-3 taken, T-2 waits
T-3 taken, T-2 in part
T-3 in part, T-2 waits
T-3 in part, T-2 taken
T-3 in part, T-2 in part
T-3 done, T-2 waits
T-3 done, T-2 in part
T-3 failed, T-2 waits
T-3 failed, T-2 in part
T-3 spoiled, T-2 waits
T-2 taken, T-3 in part
T-2 taken, T-3 done
T-2 taken, T-3 failed
T-2 taken, T-3 spoiled
T-2 in part, T-3 in part
T-2 in part, T-3 failed
T-2 done, T-3 in part
T-2 done, T-3 done
T-2 done, T-3 failed";

const OTHERS: &str = "\
N = 2: T-2 spoiled, T-3 spoiled
N = 2: T-2 failed, T-3 failed
N = 3: T-2 done, T-3 spoiled
N = 3: T-2 spoiled, T-3 done
opened: T-2 waits for T-1 alone
opened: T-3 waits for T-1 alone
opened: T-3 waits for T-3 alone
opened: T-4 waits for T-2 alone
opened: T-1 waits for T-4 alone
odd: T-1 waits for T-4 alone
odd: T-2 waits for T-1 alone
odd: T-2 waits for T-4 alone
odd: T-3 waits for T-1 alone
odd: T-3 waits for T-3 alone
odd: T-3 waits for T-4 alone
odd: T-4 waits for T-2 alone
odd: T-4 waits for T-3 alone
odd: T-4 waits for T-4 alone
T-2 refused for the lower part
T-2 refused for the rest
T-3 refused for the lower part
T-3 refused for the rest";

#[test]
fn the_part_of_a_script_meets_them() {
    for seed in 1..=3 {
        let mut writer = Writer::new(options(seed));
        writer.diagonal_parts();
        Facts::of(&writer.script).assert_all();
    }
}

#[test]
fn scripts_have_that_part() {
    Facts::of(&script(options(1))).assert_all();
}
