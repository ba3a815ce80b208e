//! Writers of the bytes of a model file: each puts its bytes into a lent output from a place on, and answers the next
//! place.

use super::access::Access;
use super::model::{edges_at, marks_at, total_of};

/// Writes one byte.
#[inline]
pub fn write_byte<A: Access>(out: &mut [u8], at: usize, byte: u8) -> usize {
    A::put(out, at, byte);
    at + 1
}

/// Writes a 16-bit number.
#[inline]
pub fn write_word<A: Access>(out: &mut [u8], at: usize, x: usize) -> usize {
    let next = write_byte::<A>(out, at, (x % 256) as u8);
    write_byte::<A>(out, next, (x / 256) as u8)
}

fn write_long<A: Access>(out: &mut [u8], at: usize, x: usize) -> usize {
    let next = write_word::<A>(out, at, x % 65536);
    write_word::<A>(out, next, x / 65536)
}

/// Writes the header of a model file with n states, m edges and an initial state.
pub fn write_header<A: Access>(out: &mut [u8], n: usize, m: usize, start: usize) -> usize {
    let counted = write_word::<A>(out, 0, n);
    let counted = write_word::<A>(out, counted, m);
    let begun = write_word::<A>(out, counted, start);
    let begun = write_word::<A>(out, begun, 0);
    let rows = write_long::<A>(out, begun, 24);
    let edges = write_long::<A>(out, rows, edges_at(n));
    let marks = write_long::<A>(out, edges, marks_at(n, m));
    write_long::<A>(out, marks, total_of(n, m))
}
