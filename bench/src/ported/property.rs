//! The property file: its check, and the leaves that read its targets, masks and marks by rows.

use super::access::Access;
use super::model::{
    bit, check_head, check_tables, edge_part, entry, marks_at, row, total_of, word, Header,
};

/// The header, or the number of the first broken rule; there is one mark table, and the total length counts the masks.
pub fn check_property<A: Access>(file: &[u8]) -> Result<Header, u16> {
    let h = check_head::<A>(file)?;
    let total = total_of(h.states, h.edges) + 2 * h.edges;
    check_tables::<A>(file, h, total, 1)
}

/// Some edge has a zero mask.
pub fn has_zero_mask<A: Access>(file: &[u8], h: Header) -> bool {
    let masks = total_of(h.states, h.edges);
    (0..h.edges).any(|e| entry::<A>(file, masks, e) == 0)
}

/// The part of the file that holds the targets of one state's row.
#[inline]
pub fn target_part<A: Access>(file: &[u8], h: Header, q: usize) -> &[u8] {
    row::<A>(file, h.states, q)
}

/// The part of the file that holds the masks of one state's row.
#[inline]
pub fn mask_part<A: Access>(file: &[u8], h: Header, q: usize) -> &[u8] {
    edge_part::<A>(file, total_of(h.states, h.edges), q)
}

/// The mask holds the letter: bit l of the mask is letter l.
#[inline]
pub fn mask_holds(mask: usize, letter: usize) -> bool {
    (mask >> letter) % 2 == 1
}

/// How many masks of a part hold the letter.
#[inline]
pub fn count_holding<A: Access>(masks: &[u8], letter: usize) -> usize {
    let mut held = 0;
    for k in 0..masks.len() / 2 {
        if mask_holds(word::<A>(masks, 2 * k), letter) {
            held += 1;
        }
    }
    held
}

/// State q is marked.
#[inline]
pub fn property_marked<A: Access>(file: &[u8], h: Header, q: usize) -> bool {
    bit::<A>(file, marks_at(h.states, h.edges), q)
}
