//! What a differential run of grades draws by lot: lists of several kinds, and claims of k.

use crate::graph::Graph;
use crate::random::Random;
use crate::reference::{accepting, Facts};
use crate::samples::{walk, walk_from};

/// The kinds of lists.
#[derive(Clone, Copy, Debug, PartialEq, Eq, PartialOrd, Ord)]
pub enum Kind {
    /// A list that a search or next brought.
    Received,
    /// One of the roll.
    Shortest,
    /// A path from the start up to the first state that stands in it already: often accepting.
    Closed,
    /// The same, and an accepting path that is none of the shortest, if some draws bring one.
    Longer,
    /// One of these three, its loop gone around more than once.
    Wound,
    /// One of the three with a change.
    Changed,
    /// A short path, from the start or from any state.
    Walk,
    /// A path of thousands of entries, sometimes of more than 65,536.
    Long,
    /// The same with another entry somewhere, often at the last place.
    LongBroken,
    /// Any numbers, states or not.
    Any,
    /// No entry or one.
    Tiny,
}

/// The kinds that are drawn.
pub const KINDS: [Kind; 10] = [
    Kind::Shortest,
    Kind::Closed,
    Kind::Longer,
    Kind::Wound,
    Kind::Changed,
    Kind::Walk,
    Kind::Long,
    Kind::LongBroken,
    Kind::Any,
    Kind::Tiny,
];

/// A list of a kind.
pub fn draw(lot: &mut Random, kind: Kind, graph: &Graph, facts: &Facts) -> Vec<u16> {
    let states = graph.states();
    match kind {
        Kind::Received | Kind::Shortest => match facts.roll.len() {
            0 => closed(lot, graph),
            lists => facts.roll[lot.below(lists)].clone(),
        },
        Kind::Closed => closed(lot, graph),
        Kind::Longer => longer(lot, graph, facts),
        Kind::Wound => wound(lot, graph, facts),
        Kind::Changed => changed(lot, graph, facts),
        Kind::Walk => {
            let (first, entries) = (first_entry(lot, graph), lot.between(1, states + 3));
            walk_from(lot, graph, first, entries)
        }
        Kind::Long => long(lot, graph),
        Kind::LongBroken => {
            let mut list = long(lot, graph);
            let last = list.len() - 1;
            let at = if lot.once_in(3) {
                last
            } else {
                lot.below(list.len())
            };
            list[at] = any_entry(lot, states);
            list
        }
        Kind::Any => any_list(lot, states),
        Kind::Tiny => (0..lot.below(2)).map(|_| any_entry(lot, states)).collect(),
    }
}

/// A state, a number just above the states, or any number.
fn any_entry(lot: &mut Random, states: usize) -> u16 {
    match lot.below(8) {
        0 => (states + lot.below(2)) as u16,
        1 => lot.word(),
        _ => lot.below(states) as u16,
    }
}

/// The start, or any state.
fn first_entry(lot: &mut Random, graph: &Graph) -> u16 {
    match lot.below(3) {
        0 => lot.below(graph.states()) as u16,
        _ => graph.start,
    }
}

/// A few entries of any contents.
pub fn any_list(lot: &mut Random, states: usize) -> Vec<u16> {
    let len = lot.between(0, states + 3);
    (0..len).map(|_| any_entry(lot, states)).collect()
}

/// A path from the start up to the first state that stands in it already, as far as there is one.
fn closed(lot: &mut Random, graph: &Graph) -> Vec<u16> {
    let mut path = walk(lot, graph, graph.states() + 1);
    if let Some(again) = (1..path.len()).find(|&j| path[..j].contains(&path[j])) {
        path.truncate(again + 1);
    }
    path
}

/// One of up to 16 paths that are closed: the first that is accepting and none of the shortest, or the last.
fn longer(lot: &mut Random, graph: &Graph, facts: &Facts) -> Vec<u16> {
    let mut list = closed(lot, graph);
    for _ in 1..16 {
        if accepting(graph, &list).is_some() && facts.length() != Some(list.len() - 1) {
            break;
        }
        list = closed(lot, graph);
    }
    list
}

/// One of the roll or a path that is closed.
fn lasso(lot: &mut Random, graph: &Graph, facts: &Facts) -> Vec<u16> {
    let kind = [Kind::Shortest, Kind::Closed, Kind::Longer][lot.below(3)];
    draw(lot, kind, graph, facts)
}

/// The first place where the last entry of a list stands.
fn home(list: &[u16]) -> usize {
    let last = list.last();
    last.map_or(0, |last| list.iter().take_while(|&s| s != last).count())
}

fn wound(lot: &mut Random, graph: &Graph, facts: &Facts) -> Vec<u16> {
    let mut list = lasso(lot, graph, facts);
    let around = list[home(&list) + 1..].to_vec();
    let least = match lot.below(40) {
        0 => 65536 + list.len(),
        _ => list.len() * lot.between(1, 3) + 1,
    };
    while !around.is_empty() && list.len() < least {
        list.extend(&around);
    }
    list
}

fn changed(lot: &mut Random, graph: &Graph, facts: &Facts) -> Vec<u16> {
    let states = graph.states();
    let mut list = lasso(lot, graph, facts);
    let at = lot.below(list.len());
    match lot.below(7) {
        0 => list[at] = lot.below(states) as u16,
        1 => list[at] = any_entry(lot, states),
        2 => list.truncate(at),
        3 => list.push(any_entry(lot, states)),
        4 => list.insert(at, lot.below(states) as u16),
        5 => drop(list.remove(at)),
        _ => {
            let other = lot.below(list.len());
            list.swap(at, other);
        }
    }
    list
}

fn long(lot: &mut Random, graph: &Graph) -> Vec<u16> {
    let entries = match lot.below(40) {
        0 => lot.between(65530, 140_000),
        _ => lot.between(1000, 5000),
    };
    let first = first_entry(lot, graph);
    walk_from(lot, graph, first, entries)
}

/// A claim of k for a list: mostly the first place of its last entry, else one beside it, one about the list's end, or
/// any.
pub fn claim(lot: &mut Random, list: &[u16]) -> u16 {
    let edges = list.len().saturating_sub(1);
    let right = home(list);
    let k = match lot.below(16) {
        0 => 0,
        1 => right + 1,
        2 => right.saturating_sub(1),
        3 => edges.saturating_sub(1),
        4 => edges,
        5 => edges + 1,
        6 => 65535,
        7 => lot.below(65536),
        8 => lot.below(edges + 2),
        _ => right,
    };
    k.min(65535) as u16
}
