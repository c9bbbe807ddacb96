//! `lab factor`: the examples, random systems on 1 to 32 threads, damaged files, and where the result goes.

mod common;

use std::fs;

use common::{example, example_text, fails, lab, lab_with, one_line, random, system_of, Folder, EXAMPLES};

#[test]
fn examples() {
    for name in EXAMPLES {
        for workers in ["1", "2", "8", "32"] {
            let ended = lab(&["factor", &example(&format!("{name}.system")), "--workers", workers]);
            assert_eq!((ended.status, ended.out), (0, example_text(&format!("{name}.result"))));
        }
    }
}

/// The progress line is rewritten in place, and ends with all tasks and a line end.
#[test]
fn progress() {
    let ended = lab(&["factor", &example("meter.system"), "--workers", "3"]);
    assert!(ended.err.starts_with('\r') && ended.err.ends_with("\rlab: 14 of 14 tasks\n"), "{:?}", ended.err);
    assert_eq!(ended.err.matches('\n').count(), 1);
}

#[test]
fn largest() {
    let folder = Folder::new();
    for family in [0, 3] {
        let (system, result) = random(16, family, 16, 16);
        let file = folder.file("system", system);
        for workers in ["1", "8", "32"] {
            let ended = lab(&["factor", &file, "--workers", workers]);
            assert!(
                ended.status == 0 && ended.out == result,
                "family {family}, {workers} workers: {}",
                ended.err
            );
        }
    }
}

/// Few tasks and many threads, and the other way round.
#[test]
fn many_sizes() {
    let folder = Folder::new();
    for (seed, (tiles, side)) in
        [(1, 1), (1, 16), (2, 3), (3, 1), (4, 4), (5, 2), (7, 1), (8, 3), (12, 1), (16, 1)]
            .into_iter()
            .enumerate()
    {
        for family in [0, 1, 3, 9] {
            let (system, result) = random(seed as u64, family, tiles, side);
            let file = folder.file("system", system);
            for workers in ["1", "5", "32"] {
                let ended = lab(&["factor", &file, "--workers", workers]);
                assert_eq!(
                    (ended.status, &ended.out),
                    (0, &result),
                    "{tiles} {side} {family}: {}",
                    ended.err
                );
            }
        }
    }
}

/// An outcome other than good is a result too, and is said.
#[test]
fn outcomes() {
    let folder = Folder::new();
    for (matrix, line, words) in [
        ([1.0, 1.0, 1.0, 1.0], "04020001", "singular at row 1: "),
        ([1.0, f64::MAX, 1.0, -f64::MAX], "04010003", "overflow at task 3, T-4(0,1,1): "),
    ] {
        let ended = lab(&["factor", &folder.file("system", system_of(2, &matrix)), "--workers", "2"]);
        assert!(ended.status == 0 && ended.out.ends_with(&format!("{line}\n")), "{}", ended.out);
        assert!(ended.err.contains(&format!("\nlab: the outcome is {words}")), "{}", ended.err);
    }
}

/// Every refusal of a file, with its line and what to do.
#[test]
fn damaged() {
    let whole = example_text("small.system");
    let lines: Vec<&str> = whole.lines().collect();
    let with = |at: usize, line: &str| {
        let mut changed = lines.clone();
        changed[at - 1] = line;
        changed.join("\n") + "\n"
    };
    let folder = Folder::new();
    for (text, number, line) in [
        (with(1, "011101"), 1, 1),
        (with(1, "010200"), 1, 1),
        (with(3, "0200017FF0000000000000"), 3, 3),
        (with(5, "020101FFF8000000000001"), 3, 5),
        (with(1, "0102 1"), 12, 1),
        (with(4, "020100bfe0000000000000"), 12, 4),
        (with(4, "020100BFE000000000000"), 12, 4),
        (whole[..whole.len() - 1].to_string(), 12, 5),
        (with(1, "020201"), 13, 1),
        (with(2, "020001BFC0000000000000"), 13, 2),
        (with(3, "030001BFC0000000000000"), 13, 3),
        (String::new(), 14, 1),
        (lines[..4].join("\n") + "\n", 14, 5),
        (whole.clone() + "04000000\n", 14, 6),
        (example_text("small.result"), 14, 6),
    ] {
        let file = folder.file("damaged", &text);
        let said = fails(&["factor", &file, "--workers", "2"], 1);
        assert!(said.starts_with(&format!("{file}: refusal {number}, line {line}: ")), "{said}");
        assert!(said.ends_with('.') && said.matches(". ").count() == 1, "{said}");
        let said = one_line(lab_with(&["factor", "-", "--workers", "2"], text.as_bytes()), 1);
        assert!(said.starts_with(&format!("standard input: refusal {number}, line {line}: ")), "{said}");
    }
}

#[test]
fn standard_input() {
    let ended = lab_with(&["factor", "--workers", "4", "-"], example_text("reel.system").as_bytes());
    assert_eq!((ended.status, ended.out), (0, example_text("reel.result")));
}

/// The file has its name only when it is whole, replaces an older one, and nothing else is left.
#[test]
fn output() {
    let folder = Folder::new();
    let (system, file) = (example("small.system"), folder.file("result", "older"));
    for _ in 0..2 {
        let ended = lab(&["factor", &system, "--output", &file, "--workers", "1"]);
        assert_eq!((ended.status, ended.out.as_str()), (0, ""));
        assert_eq!(fs::read_to_string(&file).unwrap(), example_text("small.result"));
        assert_eq!(folder.names(), ["result"]);
    }
    std::os::unix::fs::symlink(&file, folder.path("link")).unwrap();
    fs::write(&file, "older").unwrap();
    assert_eq!(lab(&["factor", &system, "--output", &folder.path("link"), "--workers", "1"]).status, 0);
    assert_eq!(fs::read_to_string(&file).unwrap(), example_text("small.result"));
    assert!(fs::symlink_metadata(folder.path("link")).unwrap().is_symlink());
    let ended = lab(&["factor", &system, "--output", "-", "--workers", "1"]);
    assert_eq!(ended.out, example_text("small.result"));
}

#[test]
fn output_that_fails() {
    let folder = Folder::new();
    let system = example("small.system");
    for path in [folder.path("missing/result"), folder.path("")] {
        let said = fails(&["factor", &system, "--workers", "1", "--output", &path], 2);
        assert!(said.starts_with(&format!("{path} cannot be written: ")), "{said}");
    }
    let own = folder.file("system", example_text("small.system"));
    let said = fails(&["factor", &own, "--workers", "1", "--output", &own], 2);
    assert!(said.starts_with("--output names a file that is read"), "{said}");
    assert_eq!(folder.names(), ["system"]);
}
