//! Which states can start the loop of a shortest lasso, and the length of that loop.

use super::access::Access;
use super::model::{degree, row_part, successor, Header};
use super::spread::{clear, get, loop_length, put};

fn flag_row<A: Access>(file: &[u8], h: Header, work: &mut [u16], u: usize) {
    let n = h.states;
    let distance = get::<A>(work, u);
    let part = row_part::<A>(file, h, u);
    for k in 0..degree(part, h) {
        let t = successor::<A>(part, u, k);
        if get::<A>(work, t) <= distance {
            put::<A>(work, n + t, 1);
        }
    }
}

fn flag_starts<A: Access>(file: &[u8], h: Header, work: &mut [u16]) {
    let n = h.states;
    clear::<A>(work, n, 2 * n);
    for u in 0..n {
        if get::<A>(work, u) != 0 {
            flag_row::<A>(file, h, work, u);
        }
    }
}

fn start_loop<A: Access>(
    file: &[u8],
    h: Header,
    work: &mut [u16],
    length: usize,
    s: usize,
) -> usize {
    let reached = get::<A>(work, s);
    if reached == 0 || length < reached {
        return 0;
    }
    loop_length::<A>(file, h, work, s, length + 1 - reached).map_or(0, |l| l + 1)
}

/// Puts the loop length of each state that can start the loop of a shortest lasso into region 1.
pub fn prepare_starts<A: Access>(file: &[u8], h: Header, work: &mut [u16], length: usize) {
    let n = h.states;
    flag_starts::<A>(file, h, work);
    for s in 0..n {
        if get::<A>(work, n + s) != 0 {
            let value = start_loop::<A>(file, h, work, length, s);
            put::<A>(work, n + s, value);
        }
    }
}
