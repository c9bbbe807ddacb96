//! `lab show` prints what tools/table prints: examples, random numbers, and the line of every refusal.

mod common;

use std::process::Command;

use common::{example, example_text, fails, lab, lab_with, random, Folder, EXAMPLES};
use reference::tile::Shape;
use reference::write::system_text;

/// What tools/table shows for each file, or says of it, by its own function: one process for all.
fn tables(form: &str, files: &[String]) -> Vec<String> {
    const EACH: &str = "
import runpy, sys
tool = runpy.run_path(sys.argv[1])
for name in sys.argv[3:]:
    with open(name, encoding='latin-1', newline='') as file:
        try:
            lines = tool['show'](file.read(), tool['FORMS'][sys.argv[2]])
        except tool['Bad'] as why:
            lines = ['table: %s' % why]
    sys.stdout.write(''.join(line + '\\n' for line in lines) + '\\0')
";
    let tool = concat!(env!("CARGO_MANIFEST_DIR"), "/../../tools/table");
    let run = Command::new("python3").args(["-B", "-c", EACH, tool, form]).args(files).output().unwrap();
    let ended = common::ended(run);
    assert_eq!(ended.status, 0, "{}", ended.err);
    ended.out.split_terminator('\0').map(str::to_string).collect()
}

/// Both print the same for all these files, in both forms.
fn same(files: &[String]) {
    for (form, more) in [("--short", &[][..]), ("--exact", &["--exact"])] {
        let theirs = tables(form, files);
        assert_eq!(theirs.len(), files.len());
        for (file, due) in files.iter().zip(theirs) {
            let ended = lab(&[&["show", file.as_str()], more].concat());
            assert!(ended.status == 0 && ended.out == due, "{file} {form}: {}", ended.err);
        }
    }
}

#[test]
fn examples() {
    same(&EXAMPLES.map(|name| example(&format!("{name}.system"))));
    same(&EXAMPLES.map(|name| example(&format!("{name}.result"))));
    let ended = lab_with(&["show", "-"], example_text("small.system").as_bytes());
    assert_eq!(ended.out, "# system: N = 2, t = 1, n = 2\n0.25    -0.125\n\n-0.5       1.0\n");
}

#[test]
fn random_numbers() {
    let folder = Folder::new();
    let mut files = Vec::new();
    for family in [0, 3, 4, 5, 8] {
        let (system, result) = random(family as u64, family, 5, 4);
        files.push(folder.file(&format!("{family}.system"), system));
        files.push(folder.file(&format!("{family}.result"), result));
    }
    same(&files);
}

#[test]
fn largest() {
    let folder = Folder::new();
    let (system, result) = random(2, 0, 16, 16);
    let files = [folder.file("system", system), folder.file("result", result)];
    for (file, due) in files.iter().zip(tables("--short", &files)) {
        assert!(lab(&["show", file]).out == due);
    }
}

/// Powers of two, their neighbours, and numbers about 10^k, where the shortest digits are hardest to find.
#[test]
fn hard_numbers() {
    let folder = Folder::new();
    let mut numbers = Vec::new();
    for at in 0..256u64 {
        let power = f64::from_bits((at * 8) << 52 | if at == 0 { 1 } else { 0 });
        let ten: f64 = format!("1e{}", at as i64 * 2 - 250).parse().unwrap();
        for x in [power, ten] {
            let near = [x.to_bits(), x.to_bits() + 1, x.to_bits().saturating_sub(1)];
            numbers.extend(near.map(f64::from_bits).iter().filter(|x| x.is_finite()));
        }
    }
    let mut files = Vec::new();
    for part in numbers.chunks_exact(256) {
        let matrix: Vec<f64> =
            part.iter().enumerate().map(|(k, x)| if k % 3 == 0 { -x } else { *x }).collect();
        let text = system_text(Shape { tiles: 16, side: 1 }, &matrix);
        files.push(folder.file(&format!("{}.system", files.len()), text));
    }
    same(&files);
}

#[test]
fn outcomes() {
    let folder = Folder::new();
    let result = example_text("small.result");
    let outcomes =
        ["04010000", "04010001", "04010002", "04010003", "04010004", "04010005", "0401FFFF", "0402000A"];
    same(&outcomes.map(|outcome| folder.file(outcome, result.replace("04000000", outcome))));
    let reel = example_text("reel.result");
    for task in 0..56 {
        let text = reel.replace("\n04000000\n", &format!("\n0401{task:04X}\n"));
        let printed = lab(&["show", &folder.file("result", text)]).out;
        let name = printed.lines().last().unwrap().split(": ").nth(1).unwrap().to_string();
        assert!(name.starts_with(&format!("overflow at task {task}, ")), "{name}");
        assert_eq!(name.ends_with("which does not exist"), task == 55);
    }
}

#[test]
fn refusals() {
    let folder = Folder::new();
    let numbers: Vec<usize> = (0..=17).chain([255]).collect();
    let file = |number: &usize| folder.file(&number.to_string(), format!("05{number:02X}012C\n"));
    let files: Vec<String> = numbers.iter().map(file).collect();
    same(&files);
    for (number, file) in numbers.iter().zip(&files) {
        let printed = lab(&["show", file]).out;
        assert!(
            printed.starts_with(&format!("# refusal {number}, ")) && printed.contains(" 300: "),
            "{printed}"
        );
    }
}

/// A file that cannot be shown is refused with its line, the one that tools/table names too.
#[test]
fn damaged() {
    let folder = Folder::new();
    let (system, result) = (example_text("small.system"), example_text("small.result"));
    for (text, number, line) in [
        (String::new(), 14, 1),
        ("05010001".to_string(), 12, 1),
        ("0501000g\n".to_string(), 12, 1),
        ("05010001\n\n".to_string(), 12, 1),
        ("020000\n".to_string(), 13, 1),
        ("010011\n".to_string(), 1, 1),
        (system[..system.len() - 23].to_string(), 14, 5),
        (system.replace("3FF", "7FF"), 3, 5),
        (system.clone() + "\n", 12, 6),
        (result.clone() + "0", 14, 10),
        (result[..result.len() - 9].to_string(), 14, 9),
        (result.replace("03010001", "03010002"), 12, 7),
        (result.replace("03010001", "04010001"), 13, 7),
    ] {
        let file = folder.file("damaged", &text);
        let said = fails(&["show", &file], 1);
        assert!(said.starts_with(&format!("{file}: refusal {number}, line {line}: ")), "{said}");
        let theirs = &tables("--short", &[file])[0];
        assert!(theirs.starts_with(&format!("table: line {line}: ")), "{theirs}");
        assert!(theirs.ends_with(&format!("(refusal {number})\n")), "{theirs}");
    }
}
