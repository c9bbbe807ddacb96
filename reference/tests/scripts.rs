//! The made scripts and cases meet what they are made for, and repeat with their seed.

use reference::cases::all_cases;
use reference::script::Player;
use reference::vectors::script;
use reference::writer::{Options, Writer};

fn short_script(seed: u64) -> String {
    script(Options { seed, calls: 5650, max_bytes: 1_600_000 })
}

fn refusal_number(answer: &str) -> usize {
    usize::from_str_radix(&answer[..2], 16).expect("digits")
}

#[test]
fn scripts_meet_every_refusal() {
    let mut player = Player::new();
    let mut met = [0; 12];
    let mut ended = [[0; 5]; 5];
    for line in short_script(1).lines() {
        let before = player.lent.records.clone();
        let answer = player.play(line);
        met[refusal_number(&answer)] += 1;
        if line.starts_with("13") {
            for number in 0..before.len() {
                let record = player.lent.records[number];
                if record.mark != before[number].mark {
                    ended[record.kind as usize][record.mark as usize] += 1;
                }
            }
        }
    }
    for number in 1..12 {
        assert!(met[number] >= 5, "{met:?}");
    }
    assert!(met[0] > 2 * met[1..].iter().sum::<usize>(), "{met:?}");
    for kind in 1..5 {
        for mark in 2..5 {
            assert!(ended[kind][mark] >= 1, "{ended:?}");
        }
    }
}

/// A refused call leaves everything lent, and the answers, as they were.
#[test]
fn refusals_change_nothing() {
    let mut player = Player::new();
    for line in short_script(2).lines() {
        let before = player.state_line();
        let answer = player.play(line);
        if refusal_number(&answer) != 0 {
            assert_eq!(player.state_line(), before);
            if line.starts_with("15") {
                let middle = &answer[36..answer.len() - 16];
                assert!(line.ends_with(middle));
            }
        }
    }
}

/// A state printed and lent again is the same state.
#[test]
fn states_come_back() {
    let mut player = Player::new();
    for line in short_script(3).lines().take(300) {
        player.play(line);
        let state = player.state_line();
        let mut other = Player::new();
        other.play(&state);
        assert_eq!(other.state_line(), state);
        assert_eq!(other.lent.digest(), player.lent.digest());
    }
}

#[test]
fn seeds_repeat() {
    assert_eq!(short_script(4), short_script(4));
    assert!(short_script(4) != short_script(5));
}

#[test]
fn a_script_stays_within_its_bytes() {
    for max_bytes in [20_000, 100_000, 2_900_000] {
        let made = script(Options { seed: 6, calls: 5650, max_bytes });
        assert!(made.len() <= max_bytes);
        if max_bytes == 2_900_000 {
            assert!(made.lines().count() >= 4000);
            assert!(made.lines().any(|line| line.starts_with("1000010000")));
        }
    }
}

#[test]
fn cases_end_in_every_way() {
    let mut met = [[0; 5]; 5];
    for case in all_cases(1) {
        assert!(case.matrix.iter().all(|number| number.is_finite()));
        let mut player = Player::new();
        for line in case.script().lines() {
            assert_eq!(refusal_number(&player.play(line)), 0);
        }
        met[case.kind as usize][player.lent.records[case.task()].mark as usize] += 1;
    }
    for kind in 1..5 {
        for mark in 1..4 {
            assert!(met[kind][mark] >= 2, "{met:?}");
        }
    }
}

#[test]
fn a_line_left_out_is_no_call() {
    let mut writer = Writer::new(Options { seed: 1, calls: 5, max_bytes: 10 });
    let lent = writer.player.lent.clone();
    writer.lend(&lent);
    assert!(!writer.open());
    assert_eq!((writer.calls, writer.script.as_str()), (0, ""));
}
