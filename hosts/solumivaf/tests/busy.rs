//! Any byte but 0 is busy. Each call is made on what a script lends, with other bytes in the busy slots, and on a twin whose busy slots hold 1:
//! both answer the same and leave the same, but that a worker which stays busy keeps its byte. Slots from W on come back as they were.

#[allow(dead_code)]
mod compare;

use reference::numbers::bits;
use reference::script::LEND;
use reference::vectors::script;
use reference::writer::Options;
use solumivaf::{Error, Lent, Refusal, Sizes, SLOTS};

/// A copy with another byte in every busy slot below W, and any bytes in all slots from W on.
fn with_bytes(lent: &Lent, byte: u8) -> Lent {
    let mut other = lent.clone();
    for slot in 0..SLOTS {
        let own = byte.wrapping_add(slot as u8).max(1);
        if slot >= lent.workers.count {
            other.workers.busy[slot] = byte.wrapping_mul(slot as u8);
            other.workers.task[slot] = 0xFF00 | byte as u16;
            other.workers.column[slot] = !byte;
        } else if lent.workers.is_busy(slot) {
            other.workers.busy[slot] = own;
        }
    }
    other
}

/// What a call leaves in the slots: those of the twin, a kept byte where a worker stays busy, and all from W on as before.
fn same_left(before: &Lent, after: &Lent, twin: &Lent) {
    assert_eq!(bits(&after.matrix), bits(&twin.matrix));
    assert_eq!((&after.lists, &after.records), (&twin.lists, &twin.records));
    assert_eq!((after.workers.count, after.workers.number), (twin.workers.count, twin.workers.number));
    for slot in 0..SLOTS {
        let (old, new) = (before.workers.busy[slot], after.workers.busy[slot]);
        let held = (after.workers.task[slot], after.workers.column[slot]);
        if slot >= before.workers.count {
            assert_eq!((new, held), (old, (before.workers.task[slot], before.workers.column[slot])));
            continue;
        }
        let due = match (twin.workers.is_busy(slot), old) {
            (false, _) => 0,
            (true, 0) => 1,
            (true, byte) => byte,
        };
        assert_eq!((new, held), (due, (twin.workers.task[slot], twin.workers.column[slot])), "slot {slot}");
    }
}

/// Makes a call on both, and tells whether it was accepted. A refused call leaves every byte.
fn same<T: PartialEq + std::fmt::Debug>(
    lent: &Lent,
    byte: u8,
    call: impl Fn(&mut Lent) -> Result<T, Error>,
) -> bool {
    let before = with_bytes(lent, byte);
    let (mut after, mut twin) = (before.clone(), lent.clone());
    let answer = call(&mut after);
    assert_eq!(answer, call(&mut twin));
    same_left(&before, &after, &twin);
    if answer.is_err() {
        assert_eq!(after.workers, before.workers);
    }
    answer.is_ok()
}

/// A system of 2 by 2 tiles of two rows with W workers, of which worker 0 holds task 0 at column 1.
fn begun(workers: usize) -> (Sizes, Lent) {
    let sizes = Sizes { tiles: 2, side: 2, workers };
    let numbers = [4.0, 1.0, 2.0, 3.0, 1.0, 0.5, -1.0, 2.0, 8.0, 1.0, 1.0, 0.25, 3.0, 1.0, 1.0, 7.0];
    let mut lent = Lent::of(sizes, numbers.to_vec());
    lent.open(sizes).unwrap();
    lent.take(sizes, 0, 0).unwrap();
    lent.column(sizes, 0).unwrap();
    (sizes, lent)
}

#[test]
fn every_byte() {
    for workers in [1, 2, 31, 32] {
        let (sizes, lent) = begun(workers);
        let mut answers = [5.0; 4];
        for byte in 1..=255 {
            assert!(same(&lent, byte, |lent| lent.open(sizes)));
            assert!(same(&lent, byte, |lent| lent.column(sizes, 0)));
            assert!(!same(&lent, byte, |lent| lent.column(sizes, workers)));
            assert!(!same(&lent, byte, |lent| lent.take(sizes, 0, 0)));
            assert!(!same(&lent, byte, |lent| lent.take(sizes, workers - 1, 1)));
            assert!(same(&lent, byte, |lent| lent.outcome(sizes)));
            for budget in [0, 1, 2, 5, 9, u64::MAX] {
                assert!(same(&lent, byte, |lent| lent.run(sizes, budget)));
            }
            assert_eq!(
                lent.solve(sizes, &[1.0; 4], &mut answers),
                with_bytes(&lent, byte).solve(sizes, &[1.0; 4], &mut answers)
            );
        }
        assert_eq!(answers, [5.0; 4]);
    }
}

/// A worker takes and does a column while another one is busy, with every byte.
#[test]
fn beside_a_busy_worker() {
    let (sizes, mut lent) = begun(3);
    lent.column(sizes, 0).unwrap();
    lent.take(sizes, 2, 2).unwrap();
    for byte in 1..=255 {
        assert!(same(&lent, byte, |lent| lent.take(sizes, 1, 1)));
        assert!(same(&lent, byte, |lent| lent.column(sizes, 2)));
        assert!(!same(&lent, byte, |lent| lent.take(sizes, 1, 2)));
        let other = Sizes { workers: 2, ..sizes };
        assert!(!same(&lent, byte, |lent| lent.run(other, 3)));
    }
}

/// A finished system is solved alike, whatever the slots from W on hold.
#[test]
fn solved_alike() {
    let (sizes, mut lent) = begun(2);
    lent.run(sizes, u64::MAX).unwrap();
    let mut answers = [0.0; 4];
    lent.solve(sizes, &[1.0, 2.0, 3.0, 4.0], &mut answers).unwrap();
    for byte in 0..=255 {
        let other = with_bytes(&lent, byte);
        let mut same = [0.0; 4];
        other.solve(sizes, &[1.0, 2.0, 3.0, 4.0], &mut same).unwrap();
        assert_eq!(bits(&answers), bits(&same));
        let mut busy = other.clone();
        busy.workers.busy[1] = byte;
        let damaged = Error::Refused(Refusal { number: 4, place: 0 });
        assert_eq!(busy.solve(sizes, &[0.0; 4], &mut same), if byte == 0 { Ok(()) } else { Err(damaged) });
    }
}

/// All that a script of the reference program has lent, damaged or not, on a run, a take and a column of every worker.
#[test]
fn scripts() {
    let (mut accepted, mut refused) = (0, 0);
    for seed in 1..=2 {
        let mut player = reference::script::Player::new();
        for (at, line) in script(Options { seed, calls: 600, max_bytes: 400_000 }).lines().enumerate() {
            player.play(line);
            if line.starts_with(&format!("{LEND:X}")) {
                continue;
            }
            let lent = compare::lent_of(&player.lent);
            let sizes = sizes_of(&lent);
            let (byte, worker) = ((at * 37 % 255 + 1) as u8, at % lent.workers.count.clamp(1, SLOTS));
            let tasks = lent.records.len().max(1);
            for ok in [
                same(&lent, byte, |lent| lent.run(sizes, at as u64 % 7)),
                same(&lent, byte, |lent| lent.take(sizes, worker, at % tasks)),
                same(&lent, byte, |lent| lent.column(sizes, worker)),
                same(&lent, byte, |lent| lent.open(sizes)),
                same(&lent, byte, |lent| lent.outcome(sizes)),
            ] {
                *(if ok { &mut accepted } else { &mut refused }) += 1;
            }
        }
    }
    assert!(accepted > 500 && refused > 500, "{accepted} accepted and {refused} refused");
}

/// The sizes that the lent buffers fit, where there are any.
fn sizes_of(lent: &Lent) -> Sizes {
    let workers = lent.workers.count;
    for tiles in 1..=16 {
        for side in 1..=16 {
            let fits = solumivaf::matrix_length(tiles, side) == lent.matrix.len()
                && solumivaf::lists_length(tiles, side) == lent.lists.len()
                && solumivaf::records_length(tiles) == lent.records.len();
            if fits {
                return Sizes { tiles, side, workers };
            }
        }
    }
    Sizes { tiles: 1, side: 1, workers }
}
