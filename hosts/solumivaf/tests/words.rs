//! Refusals and errors in words, the version, and lengths of sizes in and out of range.

use std::collections::BTreeSet;

use solumivaf::{Error, Lent, Refusal, Sizes};

/// What stands between a refusal's number and its meaning.
fn place_words(refusal: Refusal) -> String {
    let shown = refusal.to_string();
    let (before, meaning) = shown.split_once(": ").unwrap();
    assert_eq!(meaning, refusal.meaning());
    before.strip_prefix(&format!("refusal {}", refusal.number)).unwrap().to_string()
}

#[test]
fn each_refusal() {
    let places = [
        (1, ", line 5"),
        (2, ""),
        (3, ", place 5"),
        (4, ""),
        (5, ", worker 5"),
        (6, ""),
        (7, ", task 5"),
        (8, ", task 5"),
        (9, ", task 5"),
        (10, ", row 5"),
        (11, ", tile row or backward row 5"),
        (12, ", line 5"),
        (13, ", line 5"),
        (14, ", line 5"),
        (15, ""),
    ];
    for (number, words) in places {
        assert_eq!(place_words(Refusal { number, place: 5 }), words);
    }
    assert_eq!(place_words(Refusal { number: 1, place: 0 }), "");
    assert_eq!(place_words(Refusal { number: 5, place: 0 }), ", worker 0");
}

#[test]
fn words_differ() {
    let mut words = BTreeSet::new();
    for number in 1..=15 {
        let refusal = Refusal { number, place: 0 };
        assert!(refusal.advice().ends_with('.') && !refusal.meaning().ends_with('.'), "{number}");
        assert!(words.insert(refusal.meaning()) && words.insert(refusal.advice()), "{number}");
        assert_eq!(Error::from(refusal).to_string(), refusal.to_string());
        assert_eq!(Error::from(refusal).advice(), refusal.advice());
    }
    for number in [0, 16, 255] {
        assert_eq!(Refusal { number, place: 0 }.meaning(), "no refusal has this number");
    }
}

#[test]
fn lines_of_files() {
    for number in [1, 3, 12, 13, 14] {
        let shown = Refusal { number, place: 4 }.in_file().to_string();
        assert!(shown.starts_with(&format!("refusal {number}, line 4: ")), "{shown}");
    }
    assert!(Refusal { number: 2, place: 0 }.in_file().to_string().starts_with("refusal 2: "));
}

#[test]
fn other_errors() {
    let errors: [Box<dyn std::error::Error>; 3] =
        [Box::new(Error::Arithmetic), Box::new(Error::Version(2)), Box::new(Refusal { number: 6, place: 0 })];
    assert!(errors[0].to_string().starts_with("the floating-point mode of this thread is not"));
    assert_eq!(errors[1].to_string(), "the library linked has version 2 of the interface, not 5");
    assert_eq!(errors[2].to_string(), "refusal 6: no such task");
}

/// The opening tests the version of the library that is linked, so an accepted one shows that it is the header's.
#[test]
fn version() {
    let header = include_str!("../../solumivaf.h");
    assert!(header.contains(&format!("#define SOLUMIVAF_VERSION {}\n", solumivaf::VERSION)));
    let sizes = Sizes { tiles: 1, side: 1, workers: 1 };
    assert_eq!(Lent::of(sizes, vec![1.0]).open(sizes), Ok(()));
}

#[test]
fn lengths() {
    use solumivaf::{lists_length, matrix_length, records_length, result_length, system_length};
    for tiles in 1..=16 {
        for side in 1..=16 {
            let shape = reference::tile::Shape { tiles, side };
            let (matrix, lists) = (vec![1.0; shape.matrix_length()], vec![0; shape.lists_length()]);
            let good = reference::solve::Outcome::Good;
            assert_eq!(matrix_length(tiles, side), matrix.len());
            assert_eq!(lists_length(tiles, side), lists.len());
            assert_eq!(system_length(tiles, side), reference::write::system_text(shape, &matrix).len());
            let result = reference::write::result_text(shape, &matrix, &lists, good);
            assert_eq!(result_length(tiles, side), result.len());
        }
        assert_eq!(records_length(tiles), reference::tasks::numbering(tiles).len());
    }
    assert_eq!((matrix_length(16, 16), records_length(16), system_length(16, 16)), (65536, 1496, 1_050_375));
}

/// Sizes out of range have no lengths, and an opening with them is refused 1.
#[test]
fn out_of_range() {
    use solumivaf::{lists_length, matrix_length, records_length, result_length, system_length};
    let one = Err(Error::Refused(Refusal { number: 1, place: 0 }));
    for wrong in [0, 17, 1 << 32, usize::MAX] {
        for (tiles, side) in [(wrong, 1), (1, wrong), (wrong, wrong)] {
            assert_eq!((matrix_length(tiles, side), lists_length(tiles, side)), (0, 0));
            assert_eq!((system_length(tiles, side), result_length(tiles, side)), (0, 0));
            let sizes = Sizes { tiles, side, workers: 1 };
            assert_eq!(Lent::of(sizes, Vec::new()).open(sizes), one, "{sizes:?}");
        }
        assert_eq!(records_length(wrong), 0);
    }
    for workers in [0, 33, usize::MAX] {
        let sizes = Sizes { tiles: 1, side: 1, workers };
        assert_eq!(Lent::of(sizes, vec![1.0]).open(sizes), one, "{sizes:?}");
    }
}

#[test]
fn busy_workers() {
    let mut workers = solumivaf::Workers::default();
    for byte in 0..=255 {
        workers.busy[31] = byte;
        assert_eq!(workers.is_busy(31), byte != 0);
    }
    assert!(!workers.is_busy(0) && !workers.is_busy(32) && !workers.is_busy(usize::MAX));
}
