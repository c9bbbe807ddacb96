//! `lab solve`: the examples by decimals and by bits, right sides that cannot be used, and systems that cannot be solved.

mod common;

use common::{example, fails, lab, lab_with, one_line, system_of, Folder, EXAMPLES};

/// The answers printed, by their decimals, which read back as their bits.
fn answers(printed: &str) -> Vec<f64> {
    let mut answers = Vec::new();
    for (row, line) in printed.lines().enumerate() {
        let words: Vec<&str> = line.split(' ').collect();
        assert_eq!((words.len(), words[0]), (3, row.to_string().as_str()));
        let answer: f64 = words[2].parse().unwrap();
        assert_eq!(words[1], format!("{:016X}", answer.to_bits()));
        answers.push(answer);
    }
    answers
}

fn solved(name: &str, workers: &str) -> String {
    let ended = lab(&[
        "solve",
        &example(&format!("{name}.system")),
        &example(&format!("{name}.right")),
        "--workers",
        workers,
    ]);
    assert_eq!(ended.status, 0, "{}", ended.err);
    ended.out
}

#[test]
fn examples() {
    for workers in ["1", "8", "32"] {
        assert_eq!(solved("small", workers), "0 4010000000000000 4.0\n1 4018000000000000 6.0\n");
        let meter = answers(&solved("meter", workers));
        assert!(meter.len() == 12 && (meter[0] - 7.4871).abs() < 5e-5 && (meter[11] - 47.9444).abs() < 5e-5);
        let reel = answers(&solved("reel", workers));
        assert!(reel.len() == 15 && (reel[5] - 38.7075).abs() < 5e-5);
    }
    let ended = lab(&["solve", &example("small.system"), &example("small.right")]);
    assert_eq!(ended.out, solved("small", "1"));
}

/// The numbers of a right side's table as bits give the same answers.
#[test]
fn bits() {
    let folder = Folder::new();
    for name in EXAMPLES {
        let mut table = String::new();
        for line in common::example_text(&format!("{name}.right")).lines() {
            for word in line.split('#').next().unwrap().split_whitespace() {
                table += &format!("{:016X},", word.parse::<f64>().unwrap().to_bits());
            }
            table = table.trim_end_matches(',').to_string() + "\n";
        }
        let file = folder.file("right", &table);
        let ended = lab(&["solve", "--bits", &example(&format!("{name}.system")), &file]);
        assert_eq!((ended.status, ended.out), (0, solved(name, "1")), "{}", ended.err);
        let said = fails(&["solve", &example(&format!("{name}.system")), &file], 2);
        assert!(said.contains("add --bits"), "{said}");
    }
}

#[test]
fn standard_input_and_output() {
    let folder = Folder::new();
    let (system, file) = (example("small.system"), folder.path("answers"));
    let ended = lab_with(&["solve", &system, "-", "--output", &file], b"0.25,4");
    assert_eq!((ended.status, ended.out.as_str()), (0, ""));
    assert_eq!(std::fs::read_to_string(&file).unwrap(), solved("small", "1"));
    let said = one_line(lab_with(&["solve", "-", "-"], b""), 2);
    assert!(said.starts_with("only one file can be standard input"), "{said}");
}

/// What is wrong with a table is said with its line.
#[test]
fn wrong_right_sides() {
    let folder = Folder::new();
    let system = example("small.system");
    for (table, words) in [
        ("0.25\n", ": the right side has n = 2 numbers, this table has 1"),
        ("1 2 3", ": the right side has n = 2 numbers, this table has 3"),
        ("# empty\n", ": the right side has n = 2 numbers, this table has 0"),
        ("1\n\nx", ": line 3: 'x' is not a decimal"),
        ("1\ninf", ": line 2: 'inf' is not a decimal"),
        ("NaN 1", ": line 1: 'NaN' is not a decimal"),
        ("1 # a\n1e309", ": line 2: '1e309' is beyond the largest binary64 number"),
        ("1,,2", ": line 1: a number is missing beside a comma"),
        (
            "3FD0000000000000 4010000000000000",
            ": line 1: '3FD0000000000000' looks like the bits of a number: add --bits",
        ),
    ] {
        let file = folder.file("right", table);
        let said = fails(&["solve", &system, &file], 2);
        assert!(said.starts_with(&format!("{file}{words}")), "{said}");
    }
    for (table, words) in [
        ("3FD0000000000000\n7FF0000000000000", ": line 2: '7FF0000000000000' is an infinity"),
        ("FFF8000000000000 0", ": line 1: 'FFF8000000000000' is no number"),
        ("0.25 4", ": line 1: '0.25' is not 16 hexadecimal digits"),
    ] {
        let file = folder.file("right", table);
        let said = fails(&["solve", "--bits", &system, &file], 2);
        assert!(said.starts_with(&format!("{file}{words}")), "{said}");
    }
    let file = folder.file("right", b"\xFF 1");
    assert!(fails(&["solve", &system, &file], 2).contains("a table is a text in UTF-8"));
}

#[test]
fn no_answers() {
    let folder = Folder::new();
    for (matrix, right, words) in [
        ([1.0, 1.0, 1.0, 1.0], "1 2", "refusal 10, row 1: the outcome is singular. "),
        ([0.0; 4], "1 2", "refusal 10, row 0: the outcome is singular. "),
        ([1.0, f64::MAX, 1.0, -f64::MAX], "1 2", "refusal 9, task 3: the outcome is overflow. "),
        (
            [1e-300, 0.0, 0.0, 1.0],
            "1e300 1",
            "refusal 11, tile row or backward row 0: a number computed in solving isn't finite. ",
        ),
    ] {
        let (system, right) = (folder.file("system", system_of(2, &matrix)), folder.file("right", right));
        let said = fails(&["solve", &system, &right, "--workers", "3"], 1);
        assert!(said.starts_with(words) && said.ends_with('.'), "{said}");
    }
    let system = folder.file("system", "010201\n");
    let said = fails(&["solve", &system, &example("small.right")], 1);
    assert!(said.starts_with(&format!("{system}: refusal 14, line 2: ")), "{said}");
}
