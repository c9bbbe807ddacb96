//! The example that works on threads gets the answers of the example systems, and the program of hosts/README.md is the one in examples/.

#[path = "../examples/on_threads.rs"]
mod on_threads;

mod readme {
    include!("../examples/small.rs");

    pub fn run() -> Result<(), solumivaf::Error> {
        main()
    }
}

use on_threads::answers;
use solumivaf::Sizes;

#[test]
fn small() {
    for workers in [1, 3, 8] {
        let sizes = Sizes { tiles: 2, side: 1, workers };
        assert_eq!(answers(sizes, vec![0.25, -0.125, -0.5, 1.0], &[0.25, 4.0]), Ok(vec![4.0, 6.0]));
    }
}

#[test]
fn meter() {
    let text = include_bytes!("../../../examples/meter.system");
    let (tiles, side) = solumivaf::read_sizes(text).unwrap();
    let mut matrix = vec![0.0; solumivaf::matrix_length(tiles, side)];
    solumivaf::read_system(text, &mut matrix).unwrap();
    let mut right = vec![0.0; tiles * side];
    (right[10], right[11]) = (5.0, 23.0);
    let answers = answers(Sizes { tiles, side, workers: 4 }, matrix, &right).unwrap();
    assert!((answers[0] - 7.4871).abs() < 5e-5 && (answers[11] - 47.9444).abs() < 5e-5, "{answers:?}");
}

/// The program stands below the example's first line, which says what it is.
#[test]
fn readme_program() {
    let (_, program) = include_str!("../examples/small.rs").split_once("\n\n").unwrap();
    assert!(include_str!("../../README.md").contains(&format!("```rust\n{program}```\n")));
    assert_eq!(readme::run(), Ok(()));
}
