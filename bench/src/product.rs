//! What a combination must answer and write, straight from the paper's words: the reasons to refuse in order, and the
//! combined model as a set of edges between pairs.

use std::collections::BTreeSet;

use crate::fahkelo::TABLE_0;
use crate::graph::Graph;
use crate::model::Model;
use crate::reference::{read, read_property};

const MOST_STATES: usize = 4096;
const MOST_EDGES: usize = 8192;

/// A state of the combination: one of the rule, one of the property.
type Pair = (u16, u16);

/// The combined model, or the number of the first reason of 1 to 11 and 16 to 18 that holds.
pub fn product(rule: &[u8], letters: &[u8], property: &[u8]) -> Result<Model, u16> {
    let rule = Graph::of(read(rule)?, TABLE_0);
    if letters.len() != rule.states() || letters.iter().any(|&letter| letter > 15) {
        return Err(16);
    }
    let (property, masks) = read_property(property).map_err(|_| 17u16)?;
    if masks.contains(&0) {
        return Err(17);
    }
    if rule.states() * property.states() > MOST_STATES {
        return Err(18);
    }
    let edges = pair_edges(&rule, letters, &property, &masks);
    if edges.len() > MOST_EDGES {
        return Err(18);
    }
    Ok(numbered(&rule, &property, &edges))
}

/// The pairs of a state and one of its successors, in order.
fn pairs_of(succs: &[Vec<u16>]) -> impl Iterator<Item = Pair> + '_ {
    let rows = (0u16..).zip(succs);
    rows.flat_map(|(s, row)| row.iter().map(move |&t| (s, t)))
}

/// There is an edge from (s, q) to (t, u) exactly if s has an edge or an implied step to t, and q an edge to u whose mask
/// holds the letter of s. A set that is too large already grows no further.
fn pair_edges(
    rule: &Graph,
    letters: &[u8],
    property: &Model,
    masks: &[u16],
) -> BTreeSet<(Pair, Pair)> {
    let mut edges = BTreeSet::new();
    for (s, t) in pairs_of(&rule.succs) {
        let letter = 1 << letters[s as usize];
        for ((q, u), mask) in pairs_of(&property.succs).zip(masks) {
            if mask & letter != 0 {
                edges.insert(((s, q), (t, u)));
            }
        }
        if edges.len() > MOST_EDGES {
            break;
        }
    }
    edges
}

/// The model whose state s × Q + q is the pair (s, q).
fn numbered(rule: &Graph, property: &Model, edges: &BTreeSet<(Pair, Pair)>) -> Model {
    let size = property.states();
    let number = |(s, q): Pair| s as usize * size + q as usize;
    let mut model = Model::new(rule.states() * size);
    model.start = number((rule.start, property.start)) as u16;
    for &(from, to) in edges {
        model.edge(number(from), number(to));
    }
    for s in 0..rule.states() as u16 {
        for q in 0..size as u16 {
            model.marks[number((s, q))] = property.marks[q as usize];
        }
    }
    model
}

/// A list of combined states is a path of the rule beside a path of the property that agrees with its letters.
pub fn is_pair_of_paths(rule: &[u8], letters: &[u8], property: &[u8], list: &[u16]) -> bool {
    let (Ok(rule), Ok((property, masks))) = (read(rule), read_property(property)) else {
        return false;
    };
    let rule = Graph::of(rule, TABLE_0);
    let size = property.states() as u16;
    let steps: BTreeSet<(Pair, u16)> = pairs_of(&property.succs).zip(masks).collect();
    list.windows(2).all(|two| {
        let (s, q) = (two[0] / size, two[0] % size);
        let (t, u) = (two[1] / size, two[1] % size);
        let agrees = |&(_, mask): &(Pair, u16)| mask >> letters[s as usize] & 1 == 1;
        let step = ((q, u), 0)..=((q, u), u16::MAX);
        rule.has_step(s, t) && steps.range(step).any(agrees)
    })
}
