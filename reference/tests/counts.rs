//! The count of the workers lent is a length like the others: a call told another W is refused 2, after 1 and before all else.

use std::collections::BTreeSet;

use reference::calls::{column, opening, run, take};
use reference::hex::{value, Fields};
use reference::lent::{Lent, Refusal, Sizes, Worker, IDLE, SLOTS};
use reference::oddities::before_opening;
use reference::rng::Rng;
use reference::script::{Player, LEND, OPENING};
use reference::solve::{ending, solve};
use reference::tile::Shape;
use reference::vectors::script;
use reference::writer::Options;

const TOLD: Sizes = Sizes { tiles: 2, side: 1, workers: 2 };

fn opened() -> Lent {
    let shape = Shape { tiles: 2, side: 1 };
    let mut lent = before_opening(&mut Rng::new(1), shape, 2, vec![1.0, 2.0, 4.0, 4.0]);
    opening(TOLD, &mut lent).expect("a good system");
    lent
}

/// What every call answers, each on a copy.
fn answers(told: Sizes, lent: &Lent) -> [Option<Refusal>; 6] {
    let mut right = [7.0; 2];
    [
        opening(told, &mut lent.clone()).err(),
        take(told, &mut lent.clone(), 0, 0).err(),
        column(told, &mut lent.clone(), 0).err(),
        run(told, &mut lent.clone(), 0).err(),
        ending(told, lent).err(),
        solve(told, lent, &[3.0, 8.0], &mut right).err(),
    ]
}

#[test]
fn another_count_is_refused() {
    let two = [Some(Refusal { number: 2, place: 0 }); 6];
    for count in [0, 1, 3, 32, 33, 258, u32::MAX as u64] {
        let mut lent = opened();
        lent.count = count;
        assert_eq!(answers(TOLD, &lent), two);
        assert_eq!(answers(Sizes { workers: 33, ..TOLD }, &lent), [Some(Refusal { number: 1, place: 0 }); 6]);
        // Before an element that is not finite, damaged records and a worker that does not exist.
        lent.matrix[0] = f64::NAN;
        lent.records[0].mark = 9;
        assert_eq!(answers(TOLD, &lent), two);
        assert_eq!(take(TOLD, &mut lent, 5, 0), Err(Refusal { number: 2, place: 0 }));
    }
    for workers in [1, 3, 32] {
        assert_eq!(answers(Sizes { workers, ..TOLD }, &opened()), two);
    }
}

/// Opening sets the workers that are lent to idle, and no other slot.
#[test]
fn slots_beyond_the_count_stay() {
    let held = Worker { busy: true, task: 9, column: 9 };
    let mut lent = opened();
    lent.workers = [held; SLOTS];
    opening(TOLD, &mut lent).expect("a good system");
    assert_eq!(lent.workers[..2], [IDLE; 2]);
    assert_eq!(lent.workers[2..], [held; SLOTS - 2]);
}

/// Each call of the made scripts is refused 2 for counts below and above W, of none, and beyond the slots.
#[test]
fn scripts_have_other_counts() {
    let mut met = BTreeSet::new();
    let mut player = Player::new();
    for line in script(Options { seed: 1, calls: 5650, max_bytes: 1_600_000 }).lines() {
        let answer = player.play(line);
        let mut fields = Fields::new(line);
        let command = fields.take(2);
        if command != LEND {
            let workers = [fields.take(16), fields.take(16), fields.take(16)][2];
            met.insert((command, player.lent.count, workers, value(answer[..2].as_bytes())));
        }
    }
    for command in OPENING..=OPENING + 5 {
        for (count, workers) in [(3, 2), (3, 4), (0, 1), (33, 32), (u32::MAX as u64, 32), (1, 2), (2, 1)] {
            assert!(met.contains(&(command, count, workers, 2)), "{command:X} {count} {workers}");
        }
        assert!(met.contains(&(command, 33, 33, 1)), "{command:X}");
    }
}
