//! `lab history`: systems by hand, one worker beside the reference program's calls, the order that every number of threads has to tell, and where the
//! lines go.

mod common;

use std::fs;

use common::{example, example_text, fails, lab, lab_with, system_of, Folder, EXAMPLES};
use reference::calls::{opening, run, Run};
use reference::families::numbers;
use reference::lent::Sizes;
use reference::loops::old_loops;
use reference::oddities::before_opening;
use reference::read::{read_header, read_system, NO_LIMIT};
use reference::rng::Rng;
use reference::tasks::{numbering, table, Task};
use reference::tile::Shape;
use reference::write::system_text;

#[test]
fn by_hand() {
    let lines = "1 worker 0 takes 0 T-1(0)\n2 worker 0 ends 0 T-1(0): done\n\
                 3 worker 0 takes 1 T-2(0,1)\n4 worker 0 ends 1 T-2(0,1): done\n\
                 5 worker 0 takes 2 T-3(0,1)\n6 worker 0 ends 2 T-3(0,1): done\n\
                 7 worker 0 takes 3 T-4(0,1,1)\n8 worker 0 ends 3 T-4(0,1,1): done\n\
                 9 worker 0 takes 4 T-1(1)\n10 worker 0 ends 4 T-1(1): done\n\
                 10 calls by 1 worker\n";
    for words in
        [&["history", &example("small.system")][..], &["history", &example("small.system"), "--workers", "1"]]
    {
        let ended = lab(words);
        assert_eq!((ended.status, ended.out.as_str()), (0, lines));
    }
    // One tile of three rows: the calls of its first two columns have no line.
    let tile = system_text(Shape { tiles: 1, side: 3 }, &[1.0, 2.0, 3.0, 4.0, 5.0, 6.0, 7.0, 8.0, 10.0]);
    let ended = lab_with(&["history", "-"], tile.as_bytes());
    let lines = "1 worker 0 takes 0 T-1(0)\n4 worker 0 ends 0 T-1(0): done\n4 calls by 1 worker\n";
    assert_eq!((ended.status, ended.out.as_str()), (0, lines));
}

/// Failed and spoiled tasks are told so, and the outcome is said.
#[test]
fn failed_and_spoiled() {
    let text = system_of(2, &[1.0, f64::MAX, 1.0, -f64::MAX]);
    let ended = lab_with(&["history", "-"], text.as_bytes());
    let last = "7 worker 0 takes 3 T-4(0,1,1)\n8 worker 0 ends 3 T-4(0,1,1): failed\n\
                9 worker 0 takes 4 T-1(1)\n10 worker 0 ends 4 T-1(1): spoiled\n10 calls by 1 worker\n";
    assert_eq!(ended.status, 0);
    assert!(ended.out.ends_with(last), "{}", ended.out);
    assert!(ended.err.contains("\nlab: the outcome is overflow at task 3, T-4(0,1,1): "), "{}", ended.err);
}

fn name_of(task: Task) -> String {
    match task.kind {
        1 => format!("T-1({})", task.k),
        2 => format!("T-2({},{})", task.k, task.j),
        3 => format!("T-3({},{})", task.k, task.i),
        _ => format!("T-4({},{},{})", task.k, task.i, task.j),
    }
}

fn mark_word(mark: u8) -> &'static str {
    ["waiting", "taken", "done", "failed", "spoiled"][mark as usize]
}

/// The lines for one worker, by a run of the reference program.
fn due_alone(shape: Shape, matrix: &[f64]) -> String {
    let sizes = Sizes { tiles: shape.tiles as u64, side: shape.side as u64, workers: 1 };
    let mut lent = before_opening(&mut Rng::new(1), shape, 1, matrix.to_vec());
    opening(sizes, &mut lent).unwrap();
    let Ok(Run::Finished(count)) = run(sizes, &mut lent, u64::MAX) else { panic!("an unfinished run") };
    let mut lines = vec![String::new(); count as usize + 1];
    for (p, (task, record)) in numbering(shape.tiles).into_iter().zip(&lent.records).enumerate() {
        let (name, mark) = (name_of(task), mark_word(record.mark));
        lines[record.took as usize] = format!("{} worker 0 takes {p} {name}\n", record.took);
        lines[record.ended as usize] = format!("{} worker 0 ends {p} {name}: {mark}\n", record.ended);
    }
    lines.concat() + &format!("{count} calls by 1 worker\n")
}

/// A line's call, worker, and whether it takes; its task, and what follows the task.
fn parts(line: &str) -> (u32, usize, bool, usize, &str) {
    let words: Vec<&str> = line.splitn(6, ' ').collect();
    assert_eq!(words[1], "worker", "{line}");
    assert!(["takes", "ends"].contains(&words[3]), "{line}");
    (
        words[0].parse().unwrap(),
        words[2].parse().unwrap(),
        words[3] == "takes",
        words[4].parse().unwrap(),
        words[5],
    )
}

/// The calls have growing numbers; a worker takes a task while it has none, and ends that one; linked tasks have ended by then; each task is taken and
/// ended once; and the last line has the count of the calls and W.
fn in_order(text: &str, shape: Shape, marks: &[u8], calls: u32, workers: usize) {
    let (tasks, links) = (numbering(shape.tiles), &table(shape.tiles).links);
    let (mut last, mut held, mut ended) = (0, vec![None; workers], vec![false; tasks.len()]);
    let (lines, end) = text.trim_end().rsplit_once('\n').unwrap();
    for line in lines.lines() {
        let (call, worker, takes, task, rest) = parts(line);
        assert!(call > last && call <= calls, "{line}");
        last = call;
        if takes {
            assert!(held[worker].is_none() && !held.contains(&Some(task)) && !ended[task], "{line}");
            assert!(links[task].iter().all(|&earlier| ended[earlier]), "{line}");
            assert_eq!(rest, name_of(tasks[task]));
            held[worker] = Some(task);
        } else {
            assert_eq!(held[worker].take(), Some(task), "{line}");
            assert_eq!(rest, format!("{}: {}", name_of(tasks[task]), mark_word(marks[task])));
            ended[task] = true;
        }
    }
    assert!(ended.iter().all(|&ended| ended) && last == calls, "{end}");
    let plural = if workers == 1 { "" } else { "s" };
    assert_eq!(end, format!("{calls} calls by {workers} worker{plural}"));
}

/// One worker has the lines of the reference program's run, each time; more have as many calls, in an order that can be.
fn every_order(file: &str, shape: Shape, matrix: &[f64]) {
    let due = due_alone(shape, matrix);
    let calls = due.lines().last().unwrap().split(' ').next().unwrap().parse().unwrap();
    let marks = old_loops(shape, matrix).marks;
    for workers in [1, 2, 5, 32] {
        let ended = lab(&["history", file, "--workers", &workers.to_string()]);
        assert_eq!(ended.status, 0, "{shape:?}: {}", ended.err);
        in_order(&ended.out, shape, &marks, calls, workers);
        if workers == 1 {
            assert_eq!(ended.out, due, "{shape:?}");
        }
    }
}

#[test]
fn any_workers() {
    let folder = Folder::new();
    let mut rng = Rng::new(9);
    for (tiles, side) in [(1, 16), (2, 3), (4, 4), (7, 1), (16, 1)] {
        for family in [1, 2, 3, 7] {
            let shape = Shape { tiles, side };
            let matrix = numbers(&mut rng, family, shape.matrix_length());
            every_order(&folder.file("system", system_text(shape, &matrix)), shape, &matrix);
        }
    }
}

#[test]
fn examples() {
    for name in EXAMPLES {
        let text = example_text(&format!("{name}.system"));
        let shape = read_header(text.as_bytes(), NO_LIMIT).unwrap();
        let mut matrix = vec![0.0; shape.matrix_length()];
        read_system(text.as_bytes(), &mut matrix).unwrap();
        every_order(&example(&format!("{name}.system")), shape, &matrix);
    }
}

#[test]
fn output_and_damage() {
    let folder = Folder::new();
    let path = folder.path("lines");
    let ended = lab(&["history", &example("meter.system"), "--output", &path]);
    assert_eq!((ended.status, ended.out.as_str()), (0, ""));
    assert_eq!(fs::read_to_string(&path).unwrap(), lab(&["history", &example("meter.system")]).out);
    assert_eq!(folder.names(), ["lines"]);
    let damaged = folder.file("damaged", example_text("small.result"));
    let said = fails(&["history", &damaged], 1);
    assert!(said.starts_with(&format!("{damaged}: refusal 14, line 6: ")), "{said}");
}
