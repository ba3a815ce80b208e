//! The edges of one combined state (s, q), from the parts that hold the rows of s and of q: a block for each successor
//! of s. The masks are looked at for the first block; each further block is made from the first one in the output.

use super::access::Access;
use super::model::{degree, edge_count, edge_target, successor, word, Header};
use super::property::mask_holds;
use super::writer::write_word;

/// A state of the rule: its number and letter, the part that holds its row, and the header of its file.
#[derive(Clone, Copy)]
pub struct RuleState<'a> {
    pub s: usize,
    pub letter: usize,
    pub part: &'a [u8],
    pub h: Header,
}

/// Writes the first block: base plus each target whose mask holds the letter.
#[inline]
fn write_block<A: Access>(
    out: &mut [u8],
    at: usize,
    targets: &[u8],
    masks: &[u8],
    letter: usize,
    base: usize,
) -> usize {
    let mut next = at;
    for k in 0..targets.len() / 2 {
        if mask_holds(word::<A>(masks, 2 * k), letter) {
            next = write_word::<A>(out, next, base + word::<A>(targets, 2 * k));
        }
    }
    next
}

/// Writes a block made from an earlier one: the `count` entries from place `from` on, with base replaced by another.
#[inline]
fn copy_block<A: Access>(
    out: &mut [u8],
    at: usize,
    from: usize,
    count: usize,
    base: usize,
    other: usize,
) -> usize {
    let mut next = at;
    for j in 0..count {
        let entry = word::<A>(out, from + 2 * j);
        next = write_word::<A>(out, next, other + (entry - base));
    }
    next
}

/// Writes the edges of (s, q), from the parts that hold the rows of s and of q, where the property has `size` states.
/// After the first successor of a state there are only edges.
#[inline]
pub fn write_row<A: Access>(
    out: &mut [u8],
    at: usize,
    state: RuleState,
    targets: &[u8],
    masks: &[u8],
    size: usize,
) -> usize {
    let RuleState { s, letter, part, h } = state;
    if degree(part, h) == 0 {
        return at;
    }
    let base = successor::<A>(part, s, 0) * size;
    let mut next = write_block::<A>(out, at, targets, masks, letter, base);
    let count = (next - at) / 2;
    if count == 0 {
        return next;
    }
    for k in 1..edge_count(part) {
        let other = edge_target::<A>(part, k) * size;
        next = copy_block::<A>(out, next, at, count, base, other);
    }
    next
}
