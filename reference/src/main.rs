//! The command line: one subcommand, standard input to standard output.

use std::io::{Read, Write};

use reference::cases::cases_script;
use reference::judge::{judge_line, result_again, system_again};
use reference::script::Player;
use reference::texts::all_texts;
use reference::vectors::script;
use reference::write::{loops_text, program_text};
use reference::writer::Options;

fn main() {
    let arguments: Vec<String> = std::env::args().skip(1).collect();
    let out = match arguments.first().map(String::as_str) {
        Some("result") => loops_text(&input()),
        Some("program") => program_text(&input()),
        Some("read-system") => system_again(&input()),
        Some("read-result") => result_again(&input()),
        Some("judge") => each_line(judge_line),
        Some("play") => play(arguments.contains(&"--state".to_string())),
        Some("cases") => cases_script(seed(&arguments), option(&arguments, "--seeds", 1) as u64),
        Some("files") => lines(all_texts(seed(&arguments)).into_iter()),
        Some("vectors") => script(Options {
            seed: seed(&arguments),
            calls: option(&arguments, "--calls", 5650),
            max_bytes: option(&arguments, "--max-bytes", 2_900_000),
        }),
        _ => {
            eprintln!("reference: see README.md for the subcommands");
            std::process::exit(2);
        }
    };
    std::io::stdout().write_all(out.as_bytes()).expect("standard output");
}

fn input() -> Vec<u8> {
    let mut bytes = Vec::new();
    std::io::stdin().read_to_end(&mut bytes).expect("standard input");
    bytes
}

fn each_line(answer: fn(&str) -> String) -> String {
    let text = String::from_utf8(input()).expect("digits");
    lines(text.lines().map(answer))
}

fn lines(all: impl Iterator<Item = String>) -> String {
    let mut out = String::new();
    for line in all {
        out.push_str(&line);
        out.push('\n');
    }
    out
}

fn play(with_state: bool) -> String {
    let text = String::from_utf8(input()).expect("digits");
    let mut player = Player::new();
    let mut out = String::new();
    for line in text.lines() {
        out.push_str(&player.play(line));
        out.push('\n');
        if with_state {
            out.push_str(&player.state_line());
            out.push('\n');
        }
    }
    out
}

fn seed(arguments: &[String]) -> u64 {
    match arguments.get(1).map(|text| text.parse()) {
        Some(Ok(seed)) => seed,
        _ => {
            eprintln!("reference: a seed in base ten is due");
            std::process::exit(2);
        }
    }
}

fn option(arguments: &[String], name: &str, default: usize) -> usize {
    for place in 0..arguments.len() {
        if arguments[place] == name && place + 1 < arguments.len() {
            return arguments[place + 1].parse().expect("a count in base ten");
        }
    }
    default
}
