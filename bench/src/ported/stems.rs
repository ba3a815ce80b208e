//! Which states stand on the stem of a shortest lasso. Region 1 holds twice the distance plus 2 for each of them, and 1
//! more for a state that can start the loop.

use super::access::Access;
use super::model::Header;
use super::spread::{copy, distances_from, get, put};
use super::starts;
use super::ways::keep_ways;

/// Puts the entries of the stems into region 1: twice the level of region 2, and 1 more for a loop start.
fn put_stems<A: Access>(work: &mut [u16], n: usize) {
    for s in 0..n {
        let level = get::<A>(work, 2 * n + s);
        let flag = usize::from(get::<A>(work, n + s) != 0);
        put::<A>(work, n + s, 2 * level + flag);
    }
}

/// Puts the stems into region 1: the loop starts are the ends of ways back over the distances from the start.
pub fn prepare<A: Access>(file: &[u8], h: Header, work: &mut [u16], length: usize) {
    starts::prepare_starts::<A>(file, h, work, length);
    let n = h.states;
    let count = distances_from::<A>(file, h, work, h.start, length);
    copy::<A>(work, n, 4 * n, n);
    keep_ways::<A>(file, h, work, count);
    put_stems::<A>(work, n);
}
