//! The published loops: all tasks in number order, without calls, workers or readiness. The old loops are
//! those in which the diagonal tile is one thing.

use crate::lent::{DONE, FAILED, SPOILED, WAITING};
use crate::solve::{outcome, Outcome};
use crate::tasks::{old_table, table, Table};
use crate::tile::{fill, work_column, Shape};

/// What the loops leave behind.
pub struct Final {
    pub matrix: Vec<f64>,
    pub lists: Vec<u8>,
    pub marks: Vec<u8>,
    pub tie_sums: Vec<u16>,
    pub outcome: Outcome,
}

pub fn published_loops(shape: Shape, system: &[f64]) -> Final {
    loops(table(shape.tiles), shape, system)
}

pub fn old_loops(shape: Shape, system: &[f64]) -> Final {
    loops(old_table(shape.tiles), shape, system)
}

/// The table says which marks make a task spoiled.
fn loops(table: &Table, shape: Shape, system: &[f64]) -> Final {
    let mut matrix = system.to_vec();
    let mut lists = vec![0; shape.lists_length()];
    let mut marks = vec![WAITING; table.tasks.len()];
    let mut tie_sums = vec![0; table.tasks.len()];
    for number in 0..table.tasks.len() {
        let task = table.tasks[number];
        let mut mark = DONE;
        for &writer in &table.writers[number] {
            if marks[writer] == FAILED || marks[writer] == SPOILED {
                mark = SPOILED;
            }
        }
        if mark != SPOILED {
            for c in 0..shape.side {
                let Some(ties) = work_column(shape, &mut matrix, &mut lists, task, c) else {
                    mark = FAILED;
                    break;
                };
                tie_sums[number] += ties;
            }
        }
        if mark != DONE {
            fill(shape, &mut matrix, &mut lists, task);
        }
        marks[number] = mark;
    }
    let outcome = outcome(shape, &matrix, &marks);
    Final { matrix, lists, marks, tie_sums, outcome }
}
