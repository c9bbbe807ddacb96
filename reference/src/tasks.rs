//! The tasks in number order, what they read and write, and from that clash, link and latest writer,
//! each by its definition. The tables of one N are made once.

use std::sync::OnceLock;

#[derive(Clone, Copy, Debug, PartialEq, Eq)]
pub struct Task {
    pub kind: u8,
    pub k: usize,
    pub i: usize,
    pub j: usize,
}

#[derive(Clone, Copy, Debug, PartialEq, Eq)]
pub enum Thing {
    Tile(usize, usize),
    List(usize, usize),
    /// What stands below the diagonal of diagonal tile k.
    Lower(usize),
    /// The diagonal of diagonal tile k and what stands above it.
    Rest(usize),
}

/// What a task reads, and what it writes.
pub struct Uses {
    pub reads: Vec<Thing>,
    pub writes: Vec<Thing>,
}

impl Uses {
    /// Everything read or written, each thing once.
    pub fn touched(&self) -> Vec<Thing> {
        let mut things = self.reads.clone();
        for &thing in &self.writes {
            if !things.contains(&thing) {
                things.push(thing);
            }
        }
        things
    }
}

/// The tasks as the loops of Figure 8 meet them; unused indices are 0.
pub fn numbering(tiles: usize) -> Vec<Task> {
    let mut tasks = Vec::new();
    for k in 0..tiles {
        tasks.push(Task { kind: 1, k, i: 0, j: 0 });
        for j in k + 1..tiles {
            tasks.push(Task { kind: 2, k, i: 0, j });
        }
        for i in k + 1..tiles {
            tasks.push(Task { kind: 3, k, i, j: 0 });
            for j in k + 1..tiles {
                tasks.push(Task { kind: 4, k, i, j });
            }
        }
    }
    tasks
}

impl Task {
    /// Every tile whole, the diagonal one too: as document 01 has it.
    pub fn whole_uses(self) -> Uses {
        let (k, i, j) = (self.k, self.i, self.j);
        let (tile, list) = (Thing::Tile, Thing::List);
        match self.kind {
            1 => Uses { reads: vec![tile(k, k), list(k, k)], writes: vec![tile(k, k), list(k, k)] },
            2 => Uses { reads: vec![tile(k, k), list(k, k), tile(k, j)], writes: vec![tile(k, j)] },
            3 => Uses {
                reads: vec![tile(k, k), tile(i, k), list(i, k)],
                writes: vec![tile(k, k), tile(i, k), list(i, k)],
            },
            _ => Uses {
                reads: vec![tile(i, k), list(i, k), tile(k, j), tile(i, j)],
                writes: vec![tile(k, j), tile(i, j)],
            },
        }
    }

    /// The diagonal tile as two things: as K2 has it.
    pub fn uses(self) -> Uses {
        let whole = self.whole_uses();
        Uses { reads: self.split(&whole.reads), writes: self.split(&whole.writes) }
    }

    /// T-2 has the lower part of the diagonal tile, T-3 the rest, T-1 and T-4 both.
    fn split(self, things: &[Thing]) -> Vec<Thing> {
        let mut parts = Vec::new();
        for &thing in things {
            match thing {
                Thing::Tile(i, j) if i == j => match self.kind {
                    2 => parts.push(Thing::Lower(i)),
                    3 => parts.push(Thing::Rest(i)),
                    _ => parts.extend([Thing::Lower(i), Thing::Rest(i)]),
                },
                _ => parts.push(thing),
            }
        }
        parts
    }
}

/// One of the two writes something that the other reads or writes.
pub fn clash(a: &Uses, b: &Uses) -> bool {
    writes_into(a, b) || writes_into(b, a)
}

fn writes_into(a: &Uses, b: &Uses) -> bool {
    a.writes.iter().any(|thing| b.reads.contains(thing) || b.writes.contains(thing))
}

/// What is fixed for one N: the tasks, the earlier tasks linked to each, and the latest lower-numbered
/// writers of what each touches.
pub struct Table {
    pub tasks: Vec<Task>,
    pub links: Vec<Vec<usize>>,
    pub writers: Vec<Vec<usize>>,
}

fn make_table(tiles: usize, uses_of: fn(Task) -> Uses) -> Table {
    let tasks = numbering(tiles);
    let uses: Vec<Uses> = tasks.iter().map(|&task| uses_of(task)).collect();
    let links = make_links(&uses);
    let writers = (0..tasks.len()).map(|number| latest_writers(&uses, number)).collect();
    Table { tasks, links, writers }
}

fn make_links(uses: &[Uses]) -> Vec<Vec<usize>> {
    let count = uses.len();
    let mut clashes = vec![vec![false; count]; count];
    for a in 0..count {
        for b in a + 1..count {
            clashes[a][b] = clash(&uses[a], &uses[b]);
        }
    }
    let mut links = vec![Vec::new(); count];
    for b in 0..count {
        for a in 0..b {
            if !clashes[a][b] {
                continue;
            }
            let mut linked = true;
            for between in a + 1..b {
                if clashes[a][between] && clashes[between][b] {
                    linked = false;
                    break;
                }
            }
            if linked {
                links[b].push(a);
            }
        }
    }
    links
}

/// For each thing the task touches, the highest-numbered earlier task that writes it, where there is one.
fn latest_writers(uses: &[Uses], number: usize) -> Vec<usize> {
    let mut writers = Vec::new();
    for thing in uses[number].touched() {
        for earlier in (0..number).rev() {
            if uses[earlier].writes.contains(&thing) {
                writers.push(earlier);
                break;
            }
        }
    }
    writers
}

type Tables = [OnceLock<Table>; 17];
static TABLES: Tables = [const { OnceLock::new() }; 17];
static OLD_TABLES: Tables = [const { OnceLock::new() }; 17];

/// The table of N tiles a side, N from 1 to 16.
pub fn table(tiles: usize) -> &'static Table {
    TABLES[tiles].get_or_init(|| make_table(tiles, Task::uses))
}

/// The same with the diagonal tile as one thing.
pub fn old_table(tiles: usize) -> &'static Table {
    OLD_TABLES[tiles].get_or_init(|| make_table(tiles, Task::whole_uses))
}
