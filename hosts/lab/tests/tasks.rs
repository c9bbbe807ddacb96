//! `lab tasks`: systems by hand, random ones beside the reference program's loops on 1 to 32 threads, and where the lines go.

mod common;

use std::fs;

use common::{example, example_text, fails, lab, lab_with, system_of, Folder, EXAMPLES};
use reference::families::numbers;
use reference::loops::old_loops;
use reference::read::{read_header, read_system, NO_LIMIT};
use reference::rng::Rng;
use reference::tasks::numbering;
use reference::tile::Shape;
use reference::write::system_text;

#[test]
fn by_hand() {
    let ended = lab(&["tasks", &example("small.system")]);
    let lines =
        "0 T-1(0) done 0\n1 T-2(0,1) done 0\n2 T-3(0,1) done 0\n3 T-4(0,1,1) done 0\n4 T-1(1) done 0\n";
    assert_eq!((ended.status, ended.out.as_str()), (0, lines));
    // The rows 2 2 and -2 1: the lower row ties with the upper one, as two tiles a side and as one.
    let ended = lab_with(&["tasks", "-"], system_of(2, &[2.0, 2.0, -2.0, 1.0]).as_bytes());
    assert_eq!((ended.status, ended.out), (0, lines.replace("T-3(0,1) done 0", "T-3(0,1) done 1")));
    let tile = system_text(Shape { tiles: 1, side: 2 }, &[2.0, 2.0, -2.0, 1.0]);
    let ended = lab_with(&["tasks", "-"], tile.as_bytes());
    assert_eq!((ended.status, ended.out.as_str()), (0, "0 T-1(0) done 1\n"));
}

/// Failed and spoiled tasks are listed too, and the outcome is said.
#[test]
fn failed_and_spoiled() {
    let text = system_of(2, &[1.0, f64::MAX, 1.0, -f64::MAX]);
    let ended = lab_with(&["tasks", "-", "--workers", "2"], text.as_bytes());
    let lines =
        "0 T-1(0) done 0\n1 T-2(0,1) done 0\n2 T-3(0,1) done 1\n3 T-4(0,1,1) failed 0\n4 T-1(1) spoiled 0\n";
    assert_eq!((ended.status, ended.out.as_str()), (0, lines));
    assert!(ended.err.contains("\nlab: the outcome is overflow at task 3, T-4(0,1,1): "), "{}", ended.err);
}

/// The lines of what the old loops of the reference leave.
fn due(shape: Shape, matrix: &[f64]) -> String {
    let last = old_loops(shape, matrix);
    let mut text = String::new();
    for (number, task) in numbering(shape.tiles).iter().enumerate() {
        let name = match task.kind {
            1 => format!("T-1({})", task.k),
            2 => format!("T-2({},{})", task.k, task.j),
            3 => format!("T-3({},{})", task.k, task.i),
            _ => format!("T-4({},{},{})", task.k, task.i, task.j),
        };
        let ended = ["waiting", "taken", "done", "failed", "spoiled"][last.marks[number] as usize];
        text += &format!("{number} {name} {ended} {}\n", last.tie_sums[number]);
    }
    text
}

#[test]
fn any_workers() {
    let folder = Folder::new();
    let mut rng = Rng::new(7);
    for (tiles, side) in [(1, 16), (2, 3), (4, 4), (7, 1), (16, 1)] {
        for family in [1, 2, 3, 7] {
            let shape = Shape { tiles, side };
            let matrix = numbers(&mut rng, family, shape.matrix_length());
            let (file, due) = (folder.file("system", system_text(shape, &matrix)), due(shape, &matrix));
            for workers in ["1", "5", "32"] {
                let ended = lab(&["tasks", &file, "--workers", workers]);
                assert_eq!((ended.status, &ended.out), (0, &due), "{shape:?} {family}: {}", ended.err);
            }
        }
    }
}

#[test]
fn examples() {
    for name in EXAMPLES {
        let text = example_text(&format!("{name}.system"));
        let shape = read_header(text.as_bytes(), NO_LIMIT).unwrap();
        let mut matrix = vec![0.0; shape.matrix_length()];
        read_system(text.as_bytes(), &mut matrix).unwrap();
        let ended = lab(&["tasks", &example(&format!("{name}.system")), "--workers", "8"]);
        assert_eq!((ended.status, ended.out), (0, due(shape, &matrix)));
    }
}

#[test]
fn output_and_damage() {
    let folder = Folder::new();
    let path = folder.path("lines");
    let ended = lab(&["tasks", &example("meter.system"), "--output", &path]);
    assert_eq!((ended.status, ended.out.as_str()), (0, ""));
    assert_eq!(fs::read_to_string(&path).unwrap(), lab(&["tasks", &example("meter.system")]).out);
    assert_eq!(folder.names(), ["lines"]);
    let damaged = folder.file("damaged", example_text("small.result"));
    let said = fails(&["tasks", &damaged], 1);
    assert!(said.starts_with(&format!("{damaged}: refusal 14, line 6: ")), "{said}");
}
