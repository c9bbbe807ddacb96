//! The document's example byte for byte, the ranks of the file refusals, lent lengths, short texts.

use reference::calls::{opening, run};
use reference::hex::{put, put_bytes};
use reference::judge::{judge_line, result_again, system_again, text_line, PROGRAM};
use reference::lent::{Refusal, Sizes};
use reference::oddities::before_opening;
use reference::read::{read_result, read_system};
use reference::rng::Rng;
use reference::solve::Outcome;
use reference::texts::all_texts;
use reference::tile::Shape;
use reference::write::{loops_text, program_text, result_text, write_result, write_system};

const SYSTEM: &str = "010201
0200003FF0000000000000
0200014000000000000000
0201004010000000000000
0201014010000000000000
";

const RESULT: &str = "010201
0200004010000000000000
0200014010000000000000
0201003FD0000000000000
0201013FF0000000000000
03000000
03010001
03010100
04000000
";

#[test]
fn the_example() {
    assert_eq!(program_text(SYSTEM.as_bytes()), RESULT);
    assert_eq!(system_again(SYSTEM.as_bytes()), SYSTEM);
    assert_eq!(result_again(RESULT.as_bytes()), RESULT);
}

/// The program's input as a line for the judge: the bytes that it prints.
#[test]
fn the_example_judged() {
    let mut printed = String::new();
    put_bytes(&mut printed, RESULT.as_bytes());
    assert_eq!(judge_line(&text_line(PROGRAM, SYSTEM.as_bytes())), printed);
}

/// The same by calls with one worker.
#[test]
fn the_example_by_calls() {
    let shape = Shape { tiles: 2, side: 1 };
    let told = Sizes { tiles: 2, side: 1, workers: 1 };
    let mut matrix = vec![0.0; 4];
    read_system(SYSTEM.as_bytes(), &mut matrix).expect("a system");
    let mut lent = before_opening(&mut Rng::new(1), shape, 1, matrix);
    opening(told, &mut lent).expect("a good system");
    run(told, &mut lent, u64::MAX).expect("a run");
    assert_eq!(result_text(shape, &lent.matrix, &lent.lists, Outcome::Good), RESULT);
}

fn refused_system(text: &str, line: &str) {
    assert_eq!(system_again(text.as_bytes()), format!("{line}\n"), "{text:?}");
}

fn refused_result(text: &str, line: &str) {
    assert_eq!(result_again(text.as_bytes()), format!("{line}\n"), "{text:?}");
}

#[test]
fn system_refusals() {
    refused_system("", "050E0001");
    refused_system("\n", "050C0001");
    refused_system("010201", "050C0001");
    refused_system("010201\n", "050E0002");
    refused_system("010201\r\n", "050C0001");
    refused_system("020000\n", "050D0001");
    refused_system("050000\n", "050D0001");
    refused_system("060000\n", "050C0001");
    refused_system("011101\n", "05010001");
    refused_system("010100", "050C0001");
    refused_system(&SYSTEM.replace("3FF", "3ff"), "050C0002");
    refused_system(&SYSTEM.replace("3FF", "7FF"), "05030002");
    refused_system(&SYSTEM.replace("0200003FF", "0200017FF"), "050D0002");
    refused_system(&SYSTEM.replace("0200003FF", "0600007FF"), "050C0002");
    refused_system(&SYSTEM.replace("020001", "021101"), "050D0003");
    refused_system(&format!("{SYSTEM}x"), "050E0006");
    refused_system(&SYSTEM[..SYSTEM.len() - 1], "050C0005");
    refused_system(&SYSTEM[..SYSTEM.len() - 23], "050E0005");
}

#[test]
fn result_refusals() {
    let with_outcome = |line: &str| RESULT.replace("04000000", line);
    refused_result(&with_outcome("03000005"), "050C0009");
    refused_result(&with_outcome("03000001"), "050D0009");
    refused_result(&with_outcome("04000001"), "050C0009");
    refused_result(&with_outcome("04030000"), "050C0009");
    refused_result(&with_outcome("05010001"), "050D0009");
    refused_result(&RESULT.replace("03000000", "03000002"), "050C0006");
    refused_result(&RESULT.replace("03000000", "03010002"), "050C0006");
    refused_result(&RESULT.replace("03000000", "04000000"), "050D0006");
    refused_result(&RESULT.replace("03000000", "04030000"), "050C0006");
    refused_result(&RESULT.replace("0200004010", "030000"), "050C0002");
    refused_result(SYSTEM, "050E0006");
    let accepted = with_outcome("0402FFFF").replace("03000000", "03000001");
    assert_eq!(result_again(accepted.as_bytes()), accepted);
}

#[test]
fn places_are_hexadecimal() {
    let shape = Shape { tiles: 16, side: 1 };
    let text = result_text(shape, &[1.0; 256], &[0; 256], Outcome::Good);
    let mut lines: Vec<&str> = text.lines().collect();
    lines[299] = "03000";
    refused_result(&(lines.join("\n") + "\n"), "050C012C");
}

#[test]
fn the_limit_of_the_program() {
    assert_eq!(program_text(b"010410\n"), "05010001\n");
    assert_eq!(program_text(b"010707\n"), "05010001\n");
    assert_eq!(program_text(b"010310\n"), "050E0002\n");
    assert_eq!(program_text(b"010410"), "050C0001\n");
    assert_eq!(system_again(b"010410\n"), "050E0002\n");
    assert_eq!(loops_text(b"010410\n"), "050E0002\n");
}

#[test]
fn lent_lengths() {
    let two = Err(Refusal { number: 2, place: 0 });
    let mut matrix = [7.0; 5];
    assert_eq!(read_system(SYSTEM.as_bytes(), &mut matrix), two);
    assert_eq!(read_system(b"010201\nrubbish", &mut matrix), two);
    let first = Err(Refusal { number: 1, place: 1 });
    assert_eq!(read_system(b"010200\nrubbish", &mut matrix), first);
    let result = read_result(RESULT.as_bytes(), &mut matrix[..4], &mut [7; 3]);
    assert_eq!(result, Err(Refusal { number: 2, place: 0 }));
    let late = read_result(&RESULT.as_bytes()[..RESULT.len() - 1], &mut matrix[..4], &mut [7; 4]);
    assert_eq!(late, Err(Refusal { number: 12, place: 9 }));
    assert_eq!(matrix, [7.0; 5]);
}

#[test]
fn short_texts() {
    let matrix = [4.0, 4.0, 0.25, 1.0];
    let lists = [0, 0, 1, 0];
    let mut text = vec![b'x'; RESULT.len() + 3];
    let written = write_result(2, 1, &matrix, &lists, Outcome::Good, &mut text);
    assert_eq!(written, Ok(RESULT.len()));
    assert_eq!(text, format!("{RESULT}xxx").into_bytes());
    let mut text = vec![b'x'; RESULT.len() - 1];
    let written = write_result(2, 1, &matrix, &lists, Outcome::Good, &mut text);
    assert_eq!(written, Err(Refusal { number: 15, place: 0 }));
    assert!(text.iter().all(|&byte| byte == b'x'));
    assert_eq!(write_system(2, 2, &matrix, &mut []), Err(Refusal { number: 2, place: 0 }));
    assert_eq!(write_system(0, 2, &matrix, &mut []), Err(Refusal { number: 1, place: 0 }));
    assert_eq!(write_system(2, 1, &matrix, &mut []), Err(Refusal { number: 15, place: 0 }));
}

/// Sizes before lengths, lengths before room.
#[test]
fn writings_in_order() {
    let refused = |number| Err(Refusal { number, place: 0 });
    let (matrix, lists) = ([4.0, 4.0, 0.25, 1.0], [0, 0, 1, 0]);
    for (tiles, side, numbers, entries, room, number) in [
        (17, 1, 4, 4, 200, 1),
        (2, 0, 4, 4, 200, 1),
        (258, 1, 4, 4, 200, 1),
        (2, (1 << 32) + 1, 4, 4, 200, 1),
        (0, 1, 3, 4, 0, 1),
        (2, 1, 3, 4, 200, 2),
        (2, 1, 4, 3, 200, 2),
        (2, 1, 3, 3, 0, 2),
        (2, 1, 4, 3, 0, 2),
        (2, 1, 4, 4, 0, 15),
    ] {
        let (matrix, lists) = (&matrix[..numbers], &lists[..entries]);
        let mut text = vec![b'x'; room];
        let written = write_result(tiles, side, matrix, lists, Outcome::Good, &mut text);
        assert_eq!(written, refused(number));
        if entries == 4 {
            assert_eq!(write_system(tiles, side, matrix, &mut text), refused(number));
        }
        assert!(text.iter().all(|&byte| byte == b'x'));
    }
}

/// A writer looks neither at entries nor at places.
#[test]
fn any_entry_is_written() {
    let mut text = [0; 68];
    let written = write_result(1, 1, &[1.0], &[0xFA], Outcome::Overflow(0xA00B), &mut text);
    assert_eq!(written, Ok(48));
    assert_eq!(&text[..48], b"010101\n0200003FF0000000000000\n030000FA\n0401A00B\n");
}

/// Every refusal number of the readers is met many times, and every accepted text comes back.
#[test]
fn made_texts_meet_every_refusal() {
    let lines = all_texts(1);
    assert!(lines.len() >= 400);
    for what in ["00", "01"] {
        let mut met = [0; 16];
        for line in lines.iter().filter(|line| line.starts_with(what)) {
            let verdict = judge_line(line);
            met[u8::from_str_radix(&verdict[..2], 16).expect("digits") as usize] += 1;
        }
        for number in [0, 1, 3, 12, 13, 14] {
            assert!(met[number] >= 3, "{what}: {met:?}");
        }
    }
}

/// A text accepted by the judge is the text its content writes.
#[test]
fn accepted_texts_come_back() {
    for line in all_texts(2) {
        let text: Vec<u8> = (10..line.len())
            .step_by(2)
            .map(|at| u8::from_str_radix(&line[at..at + 2], 16).expect("digits"))
            .collect();
        let mut zeros = String::new();
        put(&mut zeros, 0, 18);
        if line.starts_with("02") || !judge_line(&line).starts_with(&zeros) {
            continue;
        }
        let again = if line.starts_with("00") { system_again(&text) } else { result_again(&text) };
        assert_eq!(again.into_bytes(), text);
    }
}
