//! In every mode of MXCSR but the default the calls that compute answer so, and change nothing.

use std::arch::asm;

use reference::numbers::bits;
use solumivaf::{arithmetic_is_default, Ending, Error, Lent, Outcome, Run, Sizes};

/// Bits of MXCSR: rounding down, up and toward zero; flush to zero; denormals are zero.
const MODES: [u32; 5] = [0x2000, 0x4000, 0x6000, 0x8000, 0x0040];

/// What is done in a mode, which then ends: the thread's own mode is set again.
fn in_mode<T>(mode: u32, action: impl FnOnce() -> T) -> T {
    let mut own = 0u32;
    // SAFETY: only the mode bits change, with all exceptions masked, and they are set back below.
    unsafe { asm!("stmxcsr [{}]", in(reg) &mut own) };
    let set = own | mode;
    unsafe { asm!("ldmxcsr [{}]", in(reg) &set) };
    let answer = action();
    unsafe { asm!("ldmxcsr [{}]", in(reg) &own) };
    answer
}

/// Rows 2 1 and x 1 with a subnormal x, whose multiplier is subnormal too.
fn specimen() -> (Sizes, Lent) {
    let sizes = Sizes { tiles: 1, side: 2, workers: 1 };
    (sizes, Lent::of(sizes, vec![2.0, 1.0, f64::from_bits(0x0000_1234_5678_9ABC), 1.0]))
}

#[test]
fn default_mode() {
    assert!(arithmetic_is_default());
    let (sizes, mut lent) = specimen();
    lent.open(sizes).unwrap();
    assert_eq!(lent.run(sizes, u64::MAX), Ok(Run::Finished(3)));
    assert_eq!(lent.matrix[2].to_bits(), 0x0000_091A_2B3C_4D5E);
    assert_eq!(lent.outcome(sizes), Ok(Ending::Ended(Outcome::Good)));
    assert_eq!(lent.solve(sizes, &[3.0, 1.0], &mut [0.0; 2]), Ok(()));
}

#[test]
fn every_other_mode() {
    for first in MODES {
        for second in MODES {
            let mode = first | second;
            assert!(!in_mode(mode, arithmetic_is_default), "mode {mode:X}");
            assert!(arithmetic_is_default());
        }
    }
}

/// Everything lent, by its bits.
fn everything(lent: &Lent) -> impl PartialEq + std::fmt::Debug {
    (bits(&lent.matrix), lent.lists.clone(), lent.records.clone(), lent.workers.clone())
}

#[test]
fn calls_change_nothing() {
    let (sizes, unopened) = specimen();
    let mut taken = unopened.clone();
    taken.open(sizes).unwrap();
    taken.take(sizes, 0, 0).unwrap();
    let mut finished = taken.clone();
    finished.run(sizes, u64::MAX).unwrap();
    for mode in MODES {
        for lent in [&unopened, &taken, &finished] {
            let mut other = lent.clone();
            other.lists[0] = 9;
            let before = everything(&other);
            let mut answers = [7.0; 2];
            let told = in_mode(mode, || {
                (
                    other.open(sizes),
                    other.column(sizes, 0),
                    other.run(sizes, u64::MAX),
                    other.outcome(sizes),
                    other.solve(sizes, &[3.0, 1.0], &mut answers),
                )
            });
            let error = Error::Arithmetic;
            assert_eq!(told, (Err(error), Err(error), Err(error), Err(error), Err(error)), "mode {mode:X}");
            assert!(everything(&other) == before && answers == [7.0; 2], "mode {mode:X}");
        }
    }
}

/// A thread starts with the mode of the one that started it, and then has its own.
#[test]
fn on_another_thread() {
    for mode in MODES {
        let told = in_mode(mode, || std::thread::spawn(arithmetic_is_default)).join().unwrap();
        assert!(!told, "mode {mode:X}");
        assert!(arithmetic_is_default());
    }
}
