//! The program beside the reference program: the same texts on standard input, damaged ones too, and what both print. Then the examples.

use std::io::Write;
use std::process::{Command, Stdio};

use reference::judge::{text_in, PROGRAM};
use reference::texts::all_texts;
use reference::write::program_text;

/// What the program prints. It reads no further than it must, so not all of the text may find a reader.
fn printed(text: &[u8]) -> String {
    let program = concat!(env!("CARGO_MANIFEST_DIR"), "/../../target/bin/solumivaf");
    let mut running = Command::new(program)
        .stdin(Stdio::piped())
        .stdout(Stdio::piped())
        .spawn()
        .expect("target/bin/solumivaf, which hosts/build makes");
    let _ = running.stdin.take().unwrap().write_all(text);
    let ended = running.wait_with_output().unwrap();
    assert!(ended.status.success());
    String::from_utf8(ended.stdout).unwrap()
}

#[test]
fn same_prints() {
    let mut count = 0;
    for line in all_texts(1) {
        let (what, text) = text_in(&line);
        if what == PROGRAM {
            assert_eq!(printed(&text), program_text(&text), "{}", String::from_utf8_lossy(&text));
            count += 1;
        }
    }
    assert!(count > 200, "only {count} texts");
}

#[test]
fn examples() {
    for (system, result) in [
        (include_str!("../../../examples/small.system"), include_str!("../../../examples/small.result")),
        (include_str!("../../../examples/meter.system"), include_str!("../../../examples/meter.result")),
        (include_str!("../../../examples/reel.system"), include_str!("../../../examples/reel.result")),
    ] {
        assert_eq!(printed(system.as_bytes()), result);
    }
}
