//! Back over the queue of a search: which states have a way on, one level a step, to an end.

use super::access::Access;
use super::model::{degree, row_part, successor, Header};
use super::spread::{get, put};

/// Some successor of s has the entry `next` in region 2.
fn leads_on<A: Access>(file: &[u8], h: Header, work: &[u16], s: usize, next: usize) -> bool {
    let n = h.states;
    let part = row_part::<A>(file, h, s);
    for k in 0..degree(part, h) {
        A::edge();
        let t = successor::<A>(part, s, k);
        if get::<A>(work, 2 * n + t) == next {
            return true;
        }
    }
    false
}

/// Goes back over the queue: a state keeps its level if it is flagged in region 4, or if a successor one level later
/// keeps its own; else its level becomes nothing.
pub fn keep_ways<A: Access>(file: &[u8], h: Header, work: &mut [u16], count: usize) {
    A::spread();
    let n = h.states;
    for i in (0..count).rev() {
        let s = get::<A>(work, 3 * n + i);
        if get::<A>(work, 4 * n + s) == 0 {
            let next = get::<A>(work, 2 * n + s) + 1;
            if !leads_on::<A>(file, h, work, s, next) {
                put::<A>(work, 2 * n + s, 0);
            }
        }
    }
}
