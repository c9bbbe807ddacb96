//! `lab verify`: the examples are equal, and each changed digit of a result is found.

mod common;

use common::{example, example_text, fails, lab, random, Ended, Folder, EXAMPLES};

fn verified(folder: &Folder, name: &str, result: &str, workers: &str) -> Ended {
    let result = folder.file("result", result);
    lab(&["verify", &example(&format!("{name}.system")), &result, "--workers", workers])
}

#[test]
fn equal() {
    let folder = Folder::new();
    for name in EXAMPLES {
        for workers in ["1", "8", "32"] {
            let ended = verified(&folder, name, &example_text(&format!("{name}.result")), workers);
            assert_eq!((ended.status, ended.out.as_str()), (0, "equal\n"));
        }
    }
    let (system, result) = random(3, 0, 16, 16);
    let (system, result) = (folder.file("system", system), folder.file("result", result));
    assert_eq!(lab(&["verify", &system, &result, "--workers", "8"]).out, "equal\n");
}

/// What is said of a result with one digit changed on a line: the place in the tile or the list, or the line that is refused.
fn found(ended: &Ended, line: usize, frame: &str, at: usize, side: usize) {
    let field = |at: usize| usize::from_str_radix(&frame[at..at + 2], 16).unwrap();
    assert_eq!(ended.status, 1, "{frame}: {}", ended.out);
    if ended.out.is_empty() {
        let place = format!(", line {line}: ");
        assert!(line == 1 || ended.err.contains(&place), "{frame}: {}", ended.err);
        return;
    }
    let due = match &frame[..2] {
        "02" => {
            let place = (at - 6) / 16;
            let bits = &frame[6 + 16 * place..][..16];
            let (i, j, row, column) = (field(2), field(4), place / side, place % side);
            format!("different number in tile ({i},{j}), row {row}, column {column}: archived {bits} (")
        }
        "03" => {
            let entry = (at - 6) / 2;
            let archived = field(6 + 2 * entry);
            format!("different entry {entry} of row list ({},{}): archived {archived}, ", field(2), field(4))
        }
        "04" => "different outcome: archived ".to_string(),
        _ => "different sizes: ".to_string(),
    };
    assert!(ended.out.starts_with(&due) && ended.out.matches('\n').count() == 1, "{due}: {}", ended.out);
}

/// Changes every so-manieth digit of an example's result; tells how many were found by comparing.
fn change_digits(name: &str, side: usize, step: usize) -> usize {
    let folder = Folder::new();
    let text = example_text(&format!("{name}.result"));
    let mut compared = 0;
    for at in (0..text.len()).step_by(step).filter(|&at| text.as_bytes()[at] != b'\n') {
        for digit in ["0", "1", "F"] {
            if &text[at..at + 1] == digit {
                continue;
            }
            let changed = format!("{}{digit}{}", &text[..at], &text[at + 1..]);
            let ended = verified(&folder, name, &changed, "2");
            let begin = text[..at].rfind('\n').map_or(0, |end| end + 1);
            let line = text[..at].matches('\n').count() + 1;
            found(&ended, line, changed[begin..].lines().next().unwrap(), at - begin, side);
            compared += !ended.out.is_empty() as usize;
        }
    }
    compared
}

#[test]
fn each_digit_of_small() {
    assert!(change_digits("small", 1, 1) > 100);
}

#[test]
fn digits_of_meter() {
    assert!(change_digits("meter", 4, 37) > 50);
}

#[test]
fn both_numbers_are_shown() {
    let folder = Folder::new();
    let result = example_text("small.result").replace("0201013FD8000000000000", "0201013FD8000000000001");
    let ended = verified(&folder, "small", &result, "1");
    let words = "archived 3FD8000000000001 (0.37500000000000006), computed 3FD8000000000000 (0.375)\n";
    assert_eq!(ended.out, format!("different number in tile (1,1), row 0, column 0: {words}"));
    let result = example_text("small.result").replace("04000000", "0402000A");
    let ended = verified(&folder, "small", &result, "1");
    let words = "archived singular at row 10: its number on the final diagonal is zero; computed good\n";
    assert_eq!(ended.out, format!("different outcome: {words}"));
}

#[test]
fn another_system() {
    let ended = lab(&["verify", &example("small.system"), &example("reel.result"), "--workers", "2"]);
    let words = "different sizes: the system has N = 2 and t = 1, the archived result N = 5 and t = 3\n";
    assert_eq!((ended.status, ended.out.as_str()), (1, words));
}

#[test]
fn damaged() {
    let said = fails(&["verify", &example("small.result"), &example("small.result"), "--workers", "1"], 1);
    assert!(said.contains("small.result: refusal 14, line 6: "), "{said}");
    let said = fails(&["verify", &example("small.system"), &example("small.system"), "--workers", "1"], 1);
    assert!(said.contains("small.system: refusal 14, line 6: "), "{said}");
}
