//! What a differential run of combinations draws by lot: properties, letters, damage to them, outputs; and the
//! combinations at the limits.

use crate::combinations::Input;
use crate::model::Model;
use crate::property::Property;
use crate::random::Random;
use crate::samples::{add_table, damage, marks_of, random_model};

/// Bytes of any contents.
pub fn dirty_bytes(lot: &mut Random, len: usize) -> Vec<u8> {
    (0..len).map(|_| lot.byte()).collect()
}

/// A mask that holds at least one letter below a bound.
fn random_mask(lot: &mut Random, letters: usize, kind: usize) -> u16 {
    let one = 1 << lot.below(letters);
    match kind {
        0 => one,
        1 => u16::MAX,
        2 => one | 1 << lot.below(16),
        _ => one | lot.word(),
    }
}

fn with_masks(lot: &mut Random, model: Model, letters: usize) -> Property {
    let mut property = Property::new(model, 0);
    let kind = lot.below(4);
    for mask in property.masks.iter_mut().flatten() {
        *mask = random_mask(lot, letters, kind);
    }
    property
}

/// The files of a rule, its letters drawn, and of a property. Once in two times the rule has a second mark table, and once
/// in sixteen the property, which then is refused.
fn files_of(lot: &mut Random, mut rule: Model, mut model: Model) -> Input {
    let count = lot.between(1, 16);
    let letters = (0..rule.states()).map(|_| lot.below(count) as u8).collect();
    if lot.once_in(2) {
        add_table(lot, &mut rule);
    }
    if lot.once_in(16) {
        add_table(lot, &mut model);
    }
    Input {
        rule: rule.to_bytes(),
        letters,
        property: with_masks(lot, model, count).to_bytes(),
    }
}

/// The property file has two mark tables, and the masks after them.
pub fn has_two_tables(property: &[u8]) -> bool {
    if property.len() < 24 {
        return false;
    }
    let (marks, size) = marks_of(property);
    let edges = u16::from_le_bytes([property[2], property[3]]) as usize;
    let total = marks + 2 * size + 2 * edges;
    property.len() == total && property[20..24] == (total as u32).to_le_bytes()
}

/// The files of a rule and a property of at most so many states each.
fn of_sizes(lot: &mut Random, rule_states: [usize; 2], property_states: [usize; 2]) -> Input {
    let rule = random_model(lot, rule_states[0], rule_states[1]);
    let model = random_model(lot, property_states[0], property_states[1]);
    files_of(lot, rule, model)
}

/// A combination whose result is small: it is tried exhaustively if it has at most 7 states.
pub fn small(lot: &mut Random) -> Input {
    of_sizes(lot, [1, 7], [1, 4])
}

/// One whose result has up to 1,600 states.
pub fn middle(lot: &mut Random) -> Input {
    of_sizes(lot, [1, 40], [1, 40])
}

/// A model of n states with up to so many edges, drawn by lot.
fn dense(lot: &mut Random, n: usize, edges: usize) -> Model {
    let mut model = random_model(lot, n, n);
    let least = model.edges().min(edges);
    for _ in least..edges {
        let (from, to) = (lot.below(n), lot.below(n));
        model.edge(from, to);
    }
    model
}

/// One whose result is about as large as it may be, or larger: refused for its states or its edges, or not.
pub fn large(lot: &mut Random) -> Input {
    let n = lot.between(1, 120);
    let most = 4096 / n + lot.below(3);
    let q = if lot.once_in(3) {
        most
    } else {
        lot.between(1, most)
    };
    let edges = |lot: &mut Random, n: usize| lot.between(0, (n * n).min(2000));
    let (rule_edges, property_edges) = (edges(lot, n), edges(lot, q));
    let rule = dense(lot, n, rule_edges);
    let model = dense(lot, q, property_edges);
    files_of(lot, rule, model)
}

/// Damages one, two or all of the rule, the letters and the property.
pub fn damage_input(lot: &mut Random, input: &mut Input) {
    let which = lot.between(1, 7);
    if which & 1 != 0 {
        damage(lot, &mut input.rule);
    }
    if which & 2 != 0 {
        damage_letters(lot, &mut input.letters);
    }
    if which & 4 != 0 {
        damage_property(lot, &mut input.property);
    }
}

fn damage_letters(lot: &mut Random, letters: &mut Vec<u8>) {
    match lot.below(5) {
        0 => letters.push(lot.below(16) as u8),
        1 => {
            letters.pop();
        }
        2 => letters.truncate(lot.below(letters.len() + 1)),
        _ if letters.is_empty() => {}
        3 => {
            let at = lot.below(letters.len());
            letters[at] = [15, 16, 17, 255, lot.byte()][lot.below(5)];
        }
        _ => *letters.last_mut().expect("it is not empty") = 16,
    }
}

/// As other files; or one mask is zero, often the last.
fn damage_property(lot: &mut Random, property: &mut Vec<u8>) {
    let edges = match property.get(2..4) {
        Some(two) => u16::from_le_bytes([two[0], two[1]]) as usize,
        None => 0,
    };
    if edges == 0 || lot.once_in(2) {
        return damage(lot, property);
    }
    let from_end = if lot.once_in(3) { 0 } else { lot.below(edges) };
    let at = property.len() - 2 * (from_end + 1);
    property[at..at + 2].fill(0);
}

/// A length of an output: exact, one too short, none, any, or longer.
pub fn output_len(lot: &mut Random, needed: usize) -> usize {
    match lot.below(8) {
        0 | 1 => needed.saturating_sub(1),
        2 => lot.below(needed + 1),
        3 => 0,
        4 | 5 => needed + lot.between(1, 40),
        _ => needed,
    }
}

/// A rule of two states that each lead to themselves, by edges.
fn two_loops() -> Model {
    let mut rule = Model::new(2);
    rule.edge(0, 0);
    rule.edge(1, 1);
    rule
}

/// A rule of two states, with letters 0 and 1, and a property of 2,048 states whose 8,192 edges hold letter 0, so many of
/// them letter 1 too. If each state of the rule leads to itself, the result has 8,192 edges and so many more.
fn edges_above(rule: Model, more: usize) -> Input {
    let mut model = Model::new(2048);
    for q in 0..2048 {
        for step in 0..4 {
            model.edge(q, (q + step) % 2048);
        }
    }
    let mut property = Property::new(model, 1);
    for mask in property.masks.iter_mut().flatten().take(more) {
        *mask = 3;
    }
    Input {
        rule: rule.to_bytes(),
        letters: vec![0, 1],
        property: property.to_bytes(),
    }
}

/// A combination of N by Q states without edges.
fn states(n: usize, q: usize) -> Input {
    Input {
        rule: Model::new(n).to_bytes(),
        letters: vec![15; n],
        property: Property::new(Model::new(q), 0).to_bytes(),
    }
}

/// The longest rule, with 8,192 edges and two mark tables, by a property of one state that holds each of its letters.
fn longest_rule() -> Input {
    let mut rule = Model::new(4096);
    for s in 0..4096 {
        rule.edge(s, (s + 1) % 4096);
        rule.edge(s, (s + 2) % 4096);
    }
    rule.second = Some(vec![true; 4096]);
    let mut model = Model::new(1);
    model.edge(0, 0);
    Input {
        rule: rule.to_bytes(),
        letters: vec![15; 4096],
        property: Property::new(model, 1 << 15).to_bytes(),
    }
}

/// Combinations at the limits and just above them, with the reason to refuse them.
pub fn at_limits() -> Vec<(Input, Option<u16>)> {
    vec![
        (edges_above(two_loops(), 0), None),
        (edges_above(two_loops(), 1), Some(18)),
        (edges_above(two_loops(), 8192), Some(18)),
        (edges_above(Model::new(2).staying(true), 0), None),
        (edges_above(Model::new(2).staying(true), 1), Some(18)),
        (edges_above(Model::new(2), 1), None),
        (longest_rule(), None),
        (states(64, 64), None),
        (states(17, 241), Some(18)),
        (states(4096, 1), None),
        (states(1, 4096), None),
        (states(4096, 2), Some(18)),
        (states(4096, 4096), Some(18)),
        (states(64, 64).staying(true, true), None),
        (states(17, 241).staying(true, true), Some(18)),
    ]
}
