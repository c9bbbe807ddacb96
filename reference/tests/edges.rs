//! The made scripts meet the edges of what calls are told and answer.

use std::collections::BTreeSet;

use reference::hex::{value, Fields};
use reference::lent::Lent;
use reference::script::{Player, LEND, OPENING, RUN, SOLVE, TAKE};
use reference::vectors::script;
use reference::writer::{Options, Writer};

fn options(seed: u64) -> Options {
    Options { seed, calls: 5650, max_bytes: 1_600_000 }
}

/// What a script meets, in words.
fn facts(script: &str) -> BTreeSet<String> {
    let mut met = BTreeSet::new();
    let mut player = Player::new();
    for line in script.lines() {
        let before = player.lent.clone();
        let answer = player.play(line);
        let mut fields = Fields::new(line);
        let command = fields.take(2);
        if command != LEND {
            call(&mut met, command, &mut fields, &before, &answer);
        }
    }
    met
}

fn call(met: &mut BTreeSet<String>, command: u64, fields: &mut Fields, before: &Lent, answer: &str) {
    let (number, place) = (value(answer[..2].as_bytes()), value(answer[2..18].as_bytes()));
    let (kind, count) = (value(answer[18..20].as_bytes()), value(answer[20..36].as_bytes()));
    let sizes = [fields.take(16), fields.take(16), fields.take(16)];
    if place > 255 && place < 65536 {
        met.insert(format!("{command:X} answered {number}, {kind}, place above 255"));
    }
    for bits in [8, 32] {
        for (at, size) in sizes.into_iter().enumerate().filter(|(_, size)| *size > 255) {
            let low = size & ((1 << bits) - 1);
            if number == 1 && low > 0 && low <= 3 && low != size && fits(sizes, at, low, before) {
                met.insert(format!("{command:X} refused 1, size {at} fits by {bits} bits"));
            }
        }
    }
    let broken = before.matrix.iter().filter(|number| !number.is_finite()).count();
    if broken > 0 && number == 2 {
        met.insert(format!("{command:X} refused 2, not finite"));
    }
    if broken > 1 && number == 3 {
        met.insert(format!("{command:X} refused 3, two not finite"));
    }
    match command {
        RUN => {
            let budget = fields.take(16);
            if budget > u32::MAX as u64 && budget < u64::MAX && number == 0 {
                met.insert(format!("a run of {budget}: {}", ["", "finished", "spent"][kind as usize]));
            }
            if budget <= 3 && number == 4 {
                met.insert(format!("a run of {budget}: refused 4"));
            }
            if kind == 1 && count == budget {
                met.insert(format!("finished with its budget, {}", if budget == 0 { "0" } else { "all" }));
            }
        }
        SOLVE => {
            let right = fields.counted_numbers();
            if right.iter().filter(|number| !number.is_finite()).count() > 1 {
                met.insert(format!("15 refused {number}, two not finite"));
            }
            let minus_zero = |at: usize| answer[36 + 16 * at..].starts_with("8000000000000000");
            if number == 0 && (0..right.len()).any(minus_zero) && right.iter().any(|number| *number == -3.0) {
                met.insert(format!("a row of -0, n = {}", right.len()));
            }
        }
        _ => {}
    }
}

/// The sizes with one of them as told fit what is lent.
fn fits(sizes: [u64; 3], at: usize, low: u64, lent: &Lent) -> bool {
    let mut told = sizes;
    told[at] = low;
    lent.matrix.len() as u64 == (told[0] * told[1]).pow(2)
}

const FACTS: &str = "\
11 answered 3, 0, place above 255
12 answered 7, 0, place above 255
15 answered 8, 0, place above 255
15 answered 9, 0, place above 255
16 answered 0, 3, place above 255
16 answered 0, 1, place above 255
11 refused 2, not finite
11 refused 3, two not finite
13 refused 2, not finite
14 refused 2, not finite
15 refused 2, not finite
15 refused 3, two not finite
a run of 4294967296: finished
a run of 4294967299: finished
a run of 9223372036854775808: finished
a run of 18446744073709551614: finished
a run of 0: refused 4
a run of 3: refused 4
finished with its budget, 0
finished with its budget, all
a row of -0, n = 2
a row of -0, n = 3
a row of -0, n = 4";

fn assert_all(met: &BTreeSet<String>) {
    for fact in FACTS.lines() {
        assert!(met.contains(fact), "{fact} is not among {met:#?}");
    }
    for command in OPENING..=OPENING + 5 {
        for size in 0..3 {
            for bits in [8, 32] {
                let fact = format!("{command:X} refused 1, size {size} fits by {bits} bits");
                assert!(met.contains(&fact), "{fact} is not among {met:#?}");
            }
        }
    }
}

#[test]
fn the_edges_of_a_script_meet_them() {
    for seed in 1..=3 {
        let mut writer = Writer::new(options(seed));
        writer.edges();
        assert_all(&facts(&writer.script));
    }
}

#[test]
fn scripts_have_the_edges() {
    assert_all(&facts(&script(options(1))));
}

/// Of two faults the one that is looked for first answers, whichever they are.
#[test]
fn two_faults_have_one_answer() {
    let mut writer = Writer::new(options(1));
    writer.edges();
    let mut player = Player::new();
    let mut met = BTreeSet::new();
    for line in writer.script.lines() {
        let answer = player.play(line);
        met.insert((value(line[..2].as_bytes()), value(answer[..2].as_bytes())));
    }
    for number in [1, 2, 4, 5, 6, 7] {
        assert!(met.contains(&(TAKE, number)), "{met:?}");
    }
    for number in [1, 2, 3, 4, 8, 9, 10, 11] {
        assert!(met.contains(&(SOLVE, number)), "{met:?}");
    }
}
