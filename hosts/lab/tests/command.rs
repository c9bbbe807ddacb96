//! The command line itself: help, wrong uses, files that cannot be read, output that cannot be written, and the floating-point mode.

mod common;

use std::fs::OpenOptions;
use std::process::{Command, Stdio};

use common::{command, ended, example, fails, lab, one_line, random, Folder};

#[test]
fn help() {
    let help = lab(&["--help"]);
    assert_eq!((help.status, help.err.as_str()), (0, ""));
    for word in [
        "factor", "solve", "verify", "tasks", "history", "show", "--workers", "--output", "--bits",
        "--exact", "Status: 0", "RIGHT-SIDE", "ties",
    ] {
        assert!(help.out.contains(word), "{word}");
    }
    assert!(help.out.lines().all(|line| line.len() <= 150));
    for words in [&["help"][..], &["-h"], &["factor", "--help"], &["show", "x", "-h"], &["help", "solve"]] {
        assert_eq!(lab(words), help, "{words:?}");
    }
}

#[test]
fn wrong_uses() {
    let (system, result) = (example("small.system"), example("small.result"));
    for (words, said) in [
        (&[][..], "a command is missing"),
        (&["divide"], "there is no command 'divide'"),
        (&["factor"], "factor takes SYSTEM; files told: 0"),
        (&["factor", &system], "factor needs --workers W"),
        (&["factor", &system, "--workers"], "--workers is 1 to 32, not ''"),
        (&["factor", &system, "--workers", "0"], "--workers is 1 to 32, not '0'"),
        (&["factor", &system, "--workers", "33"], "--workers is 1 to 32, not '33'"),
        (&["factor", &system, "--workers", "-1"], "--workers is 1 to 32, not '-1'"),
        (&["factor", &system, "--workers", "1", "--workers", "2"], "--workers is told twice"),
        (&["factor", &system, &system, "--workers", "1"], "factor takes SYSTEM; files told: 2"),
        (&["factor", &system, "--workers", "1", "--output"], "--output needs a FILE"),
        (&["factor", &system, "--workers", "1", "--bits"], "factor has no option '--bits'"),
        (&["solve", &system], "solve takes SYSTEM and RIGHT-SIDE; files told: 1"),
        (&["verify", &system, &result], "verify needs --workers W"),
        (&["verify", &system, "--workers", "1"], "verify takes SYSTEM and RESULT; files told: 1"),
        (&["tasks"], "tasks takes SYSTEM; files told: 0"),
        (&["tasks", &system, "--workers", "0"], "--workers is 1 to 32, not '0'"),
        (&["tasks", &system, "--exact"], "tasks has no option '--exact'"),
        (&["history"], "history takes SYSTEM; files told: 0"),
        (&["history", &system, &result], "history takes SYSTEM; files told: 2"),
        (&["history", &system, "--workers", "33"], "--workers is 1 to 32, not '33'"),
        (&["history", &system, "--bits"], "history has no option '--bits'"),
        (&["show"], "show takes FILE; files told: 0"),
        (&["show", &system, "--hex"], "show has no option '--hex'"),
        (&["--show", &system], "there is no command '--show'"),
    ] {
        let line = fails(words, 2);
        assert!(line.starts_with(said) && line.ends_with("; 'lab --help' tells more"), "{line}");
    }
}

#[test]
fn unreadable_files() {
    let folder = Folder::new();
    for path in [folder.path("missing"), folder.path("")] {
        for words in [
            &["show", &path][..],
            &["factor", &path, "--workers", "1"],
            &["solve", &example("small.system"), &path],
        ] {
            let said = fails(words, 2);
            assert!(said.starts_with(&format!("{path} cannot be read: ")), "{said}");
        }
    }
    let said = fails(&["show", "/dev/zero"], 2);
    assert!(said.starts_with("/dev/zero is longer than any file"), "{said}");
}

/// Each command, with words to which it has an answer.
fn answering() -> [Vec<String>; 7] {
    let (system, right, result) = ("small.system", "small.right", "small.result");
    [
        vec!["factor".into(), example("reel.system"), "--workers".into(), "2".into()],
        vec!["solve".into(), example(system), example(right)],
        vec!["verify".into(), example(system), example(result), "--workers".into(), "1".into()],
        vec!["tasks".into(), example(system)],
        vec!["history".into(), example(system), "--workers".into(), "2".into()],
        vec!["show".into(), example(system)],
        vec!["--help".into()],
    ]
}

/// No command ends well when its answer cannot be written.
#[test]
fn full_device() {
    for words in answering() {
        let words: Vec<&str> = words.iter().map(String::as_str).collect();
        let full = OpenOptions::new().write(true).open("/dev/full").unwrap();
        let said = one_line(ended(command(&words).stdout(full).stderr(Stdio::piped()).output().unwrap()), 2);
        assert!(said.starts_with("standard output cannot be written: "), "{said}");
    }
}

#[test]
fn closed_pipes() {
    let folder = Folder::new();
    let file = folder.file("system", random(1, 0, 16, 8).0);
    let mut running = command(&["factor", &file, "--workers", "2"])
        .stdout(Stdio::piped())
        .stderr(Stdio::piped())
        .spawn()
        .unwrap();
    drop(running.stdout.take());
    let said = one_line(ended(running.wait_with_output().unwrap()), 2);
    assert!(said.starts_with("standard output cannot be written: "), "{said}");

    let mut running = command(&["show", &file, "--no-such"]).stderr(Stdio::piped()).spawn().unwrap();
    drop(running.stderr.take());
    assert_eq!(running.wait().unwrap().code(), Some(2));
}

/// The command begun by a shell that closes a descriptor first.
fn begun_closed(closing: &str, words: &[&str]) -> common::Ended {
    let line = format!("exec \"$0\" \"$@\" {closing}");
    let mut shell = Command::new("sh");
    shell.args(["-c", &line, env!("CARGO_BIN_EXE_lab")]).args(words).stdin(Stdio::null());
    ended(shell.output().unwrap())
}

#[test]
fn closed_descriptors() {
    for words in answering() {
        let words: Vec<&str> = words.iter().map(String::as_str).collect();
        let said = one_line(begun_closed(">&-", &words), 2);
        assert_eq!(said, "standard output cannot be written: it is closed");
    }
    let said = one_line(begun_closed("<&-", &["show", "-"]), 2);
    assert_eq!(said, "standard input cannot be read: it is closed");
    let folder = Folder::new();
    let words = ["factor", &example("small.system"), "--workers", "1", "--output", &folder.path("result")];
    assert_eq!(begun_closed("<&- >&-", &words).status, 0);
    assert_eq!(folder.names(), ["result"]);
}

/// A library loaded before the command sets its mode: rounding down, up, toward zero, flush to zero, denormals are zero.
#[test]
fn floating_point_mode() {
    let folder = Folder::new();
    let source = folder.file(
        "mode.c",
        "__attribute__((constructor)) static void set(void) { __builtin_ia32_ldmxcsr(0x1F80 | MODE); }\n",
    );
    for mode in ["0", "0x2000", "0x4000", "0x6000", "0x8000", "0x0040"] {
        let library = folder.path(&format!("mode{mode}.so"));
        let define = format!("-DMODE={mode}");
        let built = Command::new("gcc")
            .args(["-shared", "-fPIC", &define, "-o", &library, &source])
            .status()
            .unwrap();
        assert!(built.success());
        for words in [
            &["factor", &example("small.system"), "--workers", "2"][..],
            &["solve", &example("small.system"), &example("small.right")],
            &["verify", &example("small.system"), &example("small.result"), "--workers", "1"],
            &["tasks", &example("small.system")],
            &["history", &example("small.system")],
            &["show", &example("small.system")],
        ] {
            let ended = ended(command(words).env("LD_PRELOAD", &library).output().unwrap());
            if mode == "0" {
                assert_eq!(ended.status, 0, "{}", ended.err);
                continue;
            }
            let said = one_line(ended, 2);
            assert!(
                said.starts_with("the floating-point mode of this thread is not IEEE 754's default"),
                "{said}"
            );
        }
    }
}
