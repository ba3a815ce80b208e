//! What a grade must answer, straight from the contract's words, by nested loops over the list and the successors; only
//! the least length comes from the facts of the file.

use crate::fahkelo::{GradeAnswer, Verdict};
use crate::graph::Graph;
use crate::oracle::{self, admitted};

/// There is an edge or an implied step from s to t; s need not be a state.
fn steps(graph: &Graph, s: u16, t: u16) -> bool {
    let row = graph.succs.get(s as usize);
    row.is_some_and(|row| row.contains(&t))
}

/// The first place, counted from 0, whose entry is no state or, past place 0, is not reached by a step from the entry
/// before it.
pub fn first_place(graph: &Graph, list: &[u16]) -> Option<usize> {
    for (j, &t) in list.iter().enumerate() {
        if t as usize >= graph.states() {
            return Some(j);
        }
        if j > 0 && !steps(graph, list[j - 1], t) {
            return Some(j);
        }
    }
    None
}

/// The list s0, .., sL with k is an accepting path: L ≥ 1, k < L, s0 is the initial state, there is a step from each
/// entry to the next, sL = sk, s0 to s(L−1) are all different, one of sk to s(L−1) is marked.
pub fn is_accepting(graph: &Graph, list: &[u16], k: usize) -> bool {
    if list.len() < 2 {
        return false;
    }
    let last = list.len() - 1;
    if k >= last || list[0] != graph.start {
        return false;
    }
    for j in 0..last {
        if !steps(graph, list[j], list[j + 1]) {
            return false;
        }
    }
    if list[last] != list[k] {
        return false;
    }
    for j in 0..last {
        for i in 0..j {
            if list[i] == list[j] {
                return false;
            }
        }
    }
    list[k..last].iter().any(|&s| graph.marks[s as usize])
}

/// The answer for a file's verdict, the mark table named, a list with a claimed k, and a working table of a length.
pub fn grade(
    file: &oracle::Verdict,
    mark_table: u16,
    list: &[u16],
    k: u16,
    work_len: usize,
) -> GradeAnswer {
    let (graph, facts) = match admitted(file, mark_table, work_len) {
        Err(number) => return GradeAnswer::Refused(number),
        Ok(admitted) => admitted,
    };
    let verdict = if !is_accepting(graph, list, k as usize) {
        Verdict::False
    } else if facts.length() == Some(list.len() - 1) {
        Verdict::Shortest
    } else {
        Verdict::Accepting
    };
    GradeAnswer::Graded(verdict, first_place(graph, list))
}
