//! The reference, straight from the definitions: the rules of the model file in order, and all accepting paths of a
//! small model by trying every path.

use crate::graph::Graph;
use crate::model::Model;

/// Models of up to this many states are tried exhaustively.
pub const SMALL: usize = 7;

fn word(file: &[u8], at: usize) -> u16 {
    u16::from_le_bytes([file[at], file[at + 1]])
}

fn long(file: &[u8], at: usize) -> u64 {
    u64::from(word(file, at)) + (u64::from(word(file, at + 2)) << 16)
}

/// The kinds of file: a model has one mark table or two, a property one, and after it two bytes for each edge.
#[derive(Clone, Copy, PartialEq, Eq)]
enum Kind {
    Model,
    Property,
}

/// The model that a file holds, or the number of the first rule from 1 to 11 that it breaks.
pub fn read(file: &[u8]) -> Result<Model, u16> {
    read_kind(file, Kind::Model)
}

/// The model and the masks that a property file holds, the masks in the order of the edges, or the number of the first
/// rule from 1 to 11 that it breaks.
pub fn read_property(file: &[u8]) -> Result<(Model, Vec<u16>), u16> {
    let model = read_kind(file, Kind::Property)?;
    let masks = file[file.len() - 2 * model.edges()..].chunks_exact(2);
    Ok((model, masks.map(|two| word(two, 0)).collect()))
}

/// The states below n that are marked in a table of bytes, and whether a bit after them is set.
fn read_marks(table: &[u8], n: usize) -> (Vec<bool>, bool) {
    let bits = table
        .iter()
        .flat_map(|&byte| (0..8).map(move |bit| byte & (1 << bit) != 0));
    let mut marks: Vec<bool> = bits.collect();
    let spare = marks.split_off(n);
    (marks, spare.contains(&true))
}

/// The model of a file of a kind.
fn read_kind(file: &[u8], kind: Kind) -> Result<Model, u16> {
    if file.len() < 24 {
        return Err(1);
    }
    let (n, m, start) = (
        word(file, 0) as usize,
        word(file, 2) as usize,
        word(file, 4),
    );
    if !(1..=4096).contains(&n) {
        return Err(2);
    }
    if m > 8192 {
        return Err(3);
    }
    if start as usize >= n {
        return Err(4);
    }
    if word(file, 6) > 1 {
        return Err(5);
    }
    let rows_at = 24;
    let edges_at = rows_at + 2 * (n + 1);
    let marks_at = edges_at + 2 * m;
    let mark_bytes = n / 8 + usize::from(n % 8 != 0);
    let totals = match kind {
        Kind::Model => vec![marks_at + mark_bytes, marks_at + 2 * mark_bytes],
        Kind::Property => vec![marks_at + mark_bytes + 2 * m],
    };
    let given = [8, 12, 16].map(|at| long(file, at));
    let total = long(file, 20);
    if given != [rows_at, edges_at, marks_at].map(|number| number as u64)
        || !totals.iter().any(|&allowed| allowed as u64 == total)
    {
        return Err(6);
    }
    if file.len() as u64 != total {
        return Err(7);
    }
    let table = |from: usize, to: usize| -> Vec<u16> {
        (from..to).step_by(2).map(|at| word(file, at)).collect()
    };
    let rows = table(rows_at, edges_at);
    let targets = table(edges_at, marks_at);
    if rows[0] != 0 || rows.windows(2).any(|two| two[1] < two[0]) || rows[n] as usize != m {
        return Err(8);
    }
    if targets.iter().any(|&t| t as usize >= n) {
        return Err(9);
    }
    let succs: Vec<Vec<u16>> = rows
        .windows(2)
        .map(|ends| targets[ends[0] as usize..ends[1] as usize].to_vec())
        .collect();
    if succs
        .iter()
        .any(|row| row.windows(2).any(|two| two[0] >= two[1]))
    {
        return Err(10);
    }
    let (first, rest) = file[marks_at..].split_at(mark_bytes);
    let (marks, mut spare) = read_marks(first, n);
    let mut second = None;
    if kind == Kind::Model && !rest.is_empty() {
        let (marks, spare_of_second) = read_marks(rest, n);
        spare |= spare_of_second;
        second = Some(marks);
    }
    if spare {
        return Err(11);
    }
    Ok(Model {
        start,
        stays: word(file, 6) == 1,
        succs,
        marks,
        second,
    })
}

/// The place where the loop of a list starts, if the list is an accepting path.
pub fn accepting(graph: &Graph, list: &[u16]) -> Option<usize> {
    let (&last, states) = list.split_last()?;
    if states.first() != Some(&graph.start) {
        return None;
    }
    if !list
        .windows(2)
        .all(|two| (two[0] as usize) < graph.states() && graph.has_step(two[0], two[1]))
    {
        return None;
    }
    if (1..states.len()).any(|j| states[..j].contains(&states[j])) {
        return None;
    }
    let k = states.iter().position(|&s| s == last)?;
    let marked = states[k..].iter().any(|&s| graph.marks[s as usize]);
    marked.then_some(k)
}

/// All accepting paths of a graph that begin with a path and have no more steps than the ceiling, by trying every path
/// whose states are all different.
fn all_accepting(graph: &Graph, ceiling: u16, path: &mut Vec<u16>, found: &mut Vec<Vec<u16>>) {
    let last = *path.last().expect("a path has a state");
    if path.len() > ceiling as usize {
        return;
    }
    for t in 0..graph.states() as u16 {
        if !graph.has_step(last, t) {
            continue;
        }
        path.push(t);
        if path[..path.len() - 1].contains(&t) {
            if accepting(graph, path).is_some() {
                found.push(path.clone());
            }
        } else {
            all_accepting(graph, ceiling, path, found);
        }
        path.pop();
    }
}

/// What the definitions say of a graph: its candidates, the length of each one's round, the roll, and the distance of
/// each state from the start. Of a large graph the roll may be cut off after some lists.
pub struct Facts {
    pub candidates: Vec<u16>,
    pub round_lengths: Vec<Option<u16>>,
    pub roll: Vec<Vec<u16>>,
    pub cut_off: bool,
    pub distances: Vec<Option<u16>>,
}

impl Facts {
    /// The facts of a small graph, by trying everything, where an accepting path is one not longer than the ceiling; the
    /// candidates and the distances are those of the whole graph.
    pub fn by_exhaustion(graph: &Graph, ceiling: u16) -> Facts {
        let mut lists = Vec::new();
        all_accepting(graph, ceiling, &mut vec![graph.start], &mut lists);
        let candidates = reached_marks(graph);
        let round_lengths = candidates.iter().map(|&r| {
            let holding = lists.iter().filter(|list| {
                let k = accepting(graph, list).expect("the lists are accepting");
                list[k..].contains(&r)
            });
            holding.map(|list| (list.len() - 1) as u16).min()
        });
        let round_lengths: Vec<Option<u16>> = round_lengths.collect();
        let least = lists.iter().map(Vec::len).min();
        lists.retain(|list| Some(list.len()) == least);
        lists.sort();
        Facts {
            candidates,
            round_lengths,
            roll: lists,
            cut_off: false,
            distances: distances_by_sweeps(graph),
        }
    }

    /// The length of the shortest accepting paths.
    pub fn length(&self) -> Option<usize> {
        self.roll.first().map(|list| list.len() - 1)
    }
}

/// The marked states that can be reached from the start.
fn reached_marks(graph: &Graph) -> Vec<u16> {
    let n = graph.states();
    let mut reached = vec![false; n];
    reached[graph.start as usize] = true;
    for _ in 0..n {
        for s in 0..n {
            if reached[s] {
                for &t in &graph.succs[s] {
                    reached[t as usize] = true;
                }
            }
        }
    }
    let states = (0..n).filter(|&s| reached[s] && graph.marks[s]);
    states.map(|s| s as u16).collect()
}

/// The distance of each state from the start, by sweeps over all edges and implied steps: in a sweep each step gives
/// the state that it leads to one more than the distance of the state that it leaves, if that is less than before. The
/// last sweep changes nothing.
pub fn distances_by_sweeps(graph: &Graph) -> Vec<Option<u16>> {
    let mut distances = vec![None; graph.states()];
    distances[graph.start as usize] = Some(0);
    loop {
        let before = distances.clone();
        for (s, row) in graph.succs.iter().enumerate() {
            for &t in row {
                let known = distances[t as usize];
                let brought = distances[s].map(|distance: u16| distance + 1);
                distances[t as usize] = known.into_iter().chain(brought).min();
            }
        }
        if distances == before {
            return distances;
        }
    }
}

/// The round of each candidate by its formula: the minimum, over states s, of d(i, s) + d(r, s) plus the least length of
/// a path with at least one step from s to r.
pub fn rounds_by_formula(graph: &Graph, candidates: &[u16]) -> Vec<Option<u16>> {
    const FAR: u32 = 1 << 20;
    let n = graph.states();
    let mut plus = vec![vec![FAR; n]; n];
    for (row, targets) in plus.iter_mut().zip(&graph.succs) {
        for &t in targets {
            row[t as usize] = 1;
        }
    }
    for via in 0..n {
        let onward = plus[via].clone();
        for row in &mut plus {
            let there = row[via];
            for (length, on) in row.iter_mut().zip(&onward) {
                *length = (there + on).min(*length);
            }
        }
    }
    let d = |r: usize, s: usize| if r == s { 0 } else { plus[r][s] };
    let start = graph.start as usize;
    let lengths = candidates.iter().map(|&r| {
        let r = r as usize;
        let sums = (0..n).map(|s| d(start, s) + d(r, s) + plus[s][r]);
        sums.min().filter(|&sum| sum < FAR).map(|sum| sum as u16)
    });
    lengths.collect()
}
