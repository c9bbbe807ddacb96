//! The links by definition against their closed form, and against the latest writers.

use reference::tasks::Thing::{Lower, Rest, Tile};
use reference::tasks::{clash, old_table, table, Table, Task, Thing};

fn t1(k: usize) -> Task {
    Task { kind: 1, k, i: 0, j: 0 }
}

fn t2(k: usize, j: usize) -> Task {
    Task { kind: 2, k, i: 0, j }
}

fn t3(k: usize, i: usize) -> Task {
    Task { kind: 3, k, i, j: 0 }
}

fn t4(k: usize, i: usize, j: usize) -> Task {
    Task { kind: 4, k, i, j }
}

/// The linked earlier tasks in closed form.
fn closed_form(task: Task) -> Vec<Task> {
    let (k, i, j) = (task.k, task.i, task.j);
    let first = i == k + 1;
    let (mut links, stage_back) = match task.kind {
        1 => (vec![], (k, k)),
        2 => (vec![t1(k)], (k, j)),
        3 => (vec![if first { t1(k) } else { t3(k, i - 1) }], (i, k)),
        _ => (vec![t3(k, i), if first { t2(k, j) } else { t4(k, i - 1, j) }], (i, j)),
    };
    if k > 0 {
        links.push(t4(k - 1, stage_back.0, stage_back.1));
    }
    links
}

fn number_of(table: &Table, task: Task) -> usize {
    table.tasks.iter().position(|&other| other == task).expect("a task")
}

/// The numbers in rising order, each once.
fn sorted(mut numbers: Vec<usize>) -> Vec<usize> {
    numbers.sort();
    numbers.dedup();
    numbers
}

fn count(table: &Table) -> usize {
    table.links.iter().map(Vec::len).sum()
}

#[test]
fn closed_form_equals_definition() {
    for tiles in 1..=16 {
        let table = table(tiles);
        for number in 0..table.tasks.len() {
            let links = closed_form(table.tasks[number]);
            let expected = sorted(links.iter().map(|&link| number_of(table, link)).collect());
            assert_eq!(table.links[number], expected, "N = {tiles}, task {number}");
        }
    }
}

#[test]
fn counts_of_links() {
    for tiles in 1..=16 {
        assert_eq!(count(table(tiles)), tiles * (tiles - 1) * (2 * tiles + 1) / 2, "N = {tiles}");
    }
    assert_eq!([1, 2, 3, 16].map(|tiles| count(table(tiles))), [0, 5, 21, 3960]);
    assert_eq!([1, 2, 3].map(|tiles| count(old_table(tiles))), [0, 4, 19]);
}

#[test]
fn linked_are_the_latest_writers() {
    for tiles in 1..=16 {
        let table = table(tiles);
        for number in 0..table.tasks.len() {
            assert_eq!(
                sorted(table.writers[number].clone()),
                table.links[number],
                "N = {tiles}, task {number}"
            );
            assert!(table.links[number].len() <= 3);
        }
    }
}

/// So the old loops leave what the published ones leave.
#[test]
fn parts_have_the_latest_writers_of_their_tile() {
    for tiles in 1..=16 {
        let (new, old) = (table(tiles), old_table(tiles));
        for number in 0..new.tasks.len() {
            assert_eq!(sorted(new.writers[number].clone()), sorted(old.writers[number].clone()));
        }
    }
}

/// With the diagonal tile as one thing T-3 waits for T-2, and a latest writer need not be linked.
#[test]
fn whole_tiles_have_other_links() {
    let (new, old) = (table(2), old_table(2));
    let [factor, apply, couple, pair] =
        [t1(0), t2(0, 1), t3(0, 1), t4(0, 1, 1)].map(|task| number_of(new, task));
    assert_eq!((&new.links[couple], &old.links[couple]), (&vec![factor], &vec![apply]));
    assert_eq!((&new.links[pair], &old.links[pair]), (&vec![apply, couple], &vec![couple]));
}

#[test]
fn clashes() {
    let clash = |a: Task, b: Task| (clash(&a.uses(), &b.uses()), clash(&a.whole_uses(), &b.whole_uses()));
    // Reading the same thing is no clash.
    assert_eq!(clash(t2(0, 1), t2(0, 2)), (false, false));
    // T-3 leaves alone what T-2 reads.
    assert_eq!(clash(t2(0, 1), t3(0, 1)), (false, true));
    assert_eq!(clash(t2(0, 2), t3(0, 1)), (false, true));
    // T-4 on the diagonal writes both parts.
    for later in [t1(1), t2(1, 2), t3(1, 2)] {
        assert_eq!(clash(t4(0, 1, 1), later), (true, true));
    }
}

#[test]
fn parts_by_kind() {
    let of = |things: Vec<Thing>| -> Vec<Thing> {
        things.into_iter().filter(|&thing| [Lower(1), Rest(1), Tile(1, 1)].contains(&thing)).collect()
    };
    let parts = |task: Task| (of(task.uses().reads), of(task.uses().writes));
    let both = || vec![Lower(1), Rest(1)];
    assert_eq!(parts(t1(1)), (both(), both()));
    assert_eq!(parts(t2(1, 2)), (vec![Lower(1)], vec![]));
    assert_eq!(parts(t3(1, 2)), (vec![Rest(1)], vec![Rest(1)]));
    assert_eq!(parts(t4(0, 1, 1)), (both(), both()));
    assert_eq!(parts(t4(0, 1, 2)), (vec![], vec![]));
}
