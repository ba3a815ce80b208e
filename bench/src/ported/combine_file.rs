//! The model file of a combination: how many edges it has, and writing it from the two files, one combined state after
//! the other. c is the number of a combined state (s, q): s is c / size and q is c % size, where the property has `size`
//! states.

use super::access::Access;
use super::combine_row::{write_row, RuleState};
use super::model::{degree, edges_at, mark_bytes, row_part, Header};
use super::property::{count_holding, property_marked, mask_part, target_part};
use super::writer::{write_byte, write_header, write_word};

/// What is combined: both files with their headers, and the letters of the rule's states.
#[derive(Clone, Copy)]
pub struct Pair<'a> {
    pub rule: &'a [u8],
    pub h: Header,
    pub letters: &'a [u8],
    pub property: &'a [u8],
    pub p: Header,
}

impl Pair<'_> {
    /// The number of combined states.
    pub fn states(&self) -> usize {
        self.h.states * self.p.states
    }
}

#[inline]
fn pair_degree<A: Access>(pair: Pair, c: usize) -> usize {
    let size = pair.p.states;
    let s = c / size;
    let letter = A::get(pair.letters, s) as usize;
    let steps = degree(row_part::<A>(pair.rule, pair.h, s), pair.h);
    steps * count_holding::<A>(mask_part::<A>(pair.property, pair.p, c % size), letter)
}

/// The number of edges of the combination.
pub fn count_edges<A: Access>(pair: Pair) -> usize {
    let mut edges = 0;
    for c in 0..pair.states() {
        edges += pair_degree::<A>(pair, c);
    }
    edges
}

#[inline]
fn write_edges<A: Access>(out: &mut [u8], at: usize, pair: Pair, c: usize) -> usize {
    let size = pair.p.states;
    let s = c / size;
    let q = c % size;
    let state = RuleState {
        s,
        letter: A::get(pair.letters, s) as usize,
        part: row_part::<A>(pair.rule, pair.h, s),
        h: pair.h,
    };
    let targets = target_part::<A>(pair.property, pair.p, q);
    let masks = mask_part::<A>(pair.property, pair.p, q);
    write_row::<A>(out, at, state, targets, masks, size)
}

fn write_tables<A: Access>(out: &mut [u8], pair: Pair) -> usize {
    let states = pair.states();
    let base = edges_at(states);
    let mut at = base;
    for c in 0..states {
        write_word::<A>(out, 24 + 2 * c, (at - base) / 2);
        at = write_edges::<A>(out, at, pair, c);
    }
    write_word::<A>(out, 24 + 2 * states, (at - base) / 2);
    at
}

#[inline]
fn pair_mark<A: Access>(property: &[u8], p: Header, states: usize, c: usize) -> bool {
    if states <= c {
        return false;
    }
    property_marked::<A>(property, p, c % p.states)
}

#[inline]
fn mark_byte<A: Access>(property: &[u8], p: Header, states: usize, b: usize) -> usize {
    let mut byte = 0;
    let mut weight = 1;
    for j in 0..8 {
        if pair_mark::<A>(property, p, states, 8 * b + j) {
            byte += weight;
        }
        weight *= 2;
    }
    byte
}

fn write_marks<A: Access>(
    out: &mut [u8],
    at: usize,
    property: &[u8],
    p: Header,
    states: usize,
) -> usize {
    let mut next = at;
    for b in 0..mark_bytes(states) {
        let byte = mark_byte::<A>(property, p, states, b);
        next = write_byte::<A>(out, next, byte as u8);
    }
    next
}

/// Writes the model file of the combination, which has so many edges; the number of its bytes.
pub fn write_product<A: Access>(out: &mut [u8], pair: Pair, edges: usize) -> usize {
    let states = pair.states();
    let start = pair.h.start * pair.p.states + pair.p.start;
    write_header::<A>(out, states, edges, start);
    let at = write_tables::<A>(out, pair);
    write_marks::<A>(out, at, pair.property, pair.p, states)
}
