//! The graph that a model stands for, of which the definitions speak: the edges of the file and the implied steps, with
//! the marks of the table that is named.

use crate::fahkelo::TABLE_0;
use crate::model::Model;

/// The initial state, the successors of each state, the marks.
pub struct Graph {
    pub start: u16,
    pub succs: Vec<Vec<u16>>,
    pub marks: Vec<bool>,
}

impl Graph {
    /// The graph of a model with the marks of a table, 0 or 1. Where bytes 6–7 are 1, a state without edges has a step to
    /// itself; table 1 of a file with one mark table holds no marks.
    pub fn of(model: Model, mark_table: u16) -> Graph {
        let states = model.states();
        let marks = match mark_table {
            TABLE_0 => model.marks,
            _ => model.second.unwrap_or_else(|| vec![false; states]),
        };
        let mut succs = model.succs;
        if model.stays {
            for (s, row) in succs.iter_mut().enumerate() {
                if row.is_empty() {
                    row.push(s as u16);
                }
            }
        }
        Graph {
            start: model.start,
            succs,
            marks,
        }
    }

    pub fn states(&self) -> usize {
        self.succs.len()
    }

    /// There is a step from s to t.
    pub fn has_step(&self, s: u16, t: u16) -> bool {
        self.succs[s as usize].binary_search(&t).is_ok()
    }
}
