//! Flags in region 4 the ends of the ways after a loop start: the states of one level with a step to a goal, and the
//! marked states whose entries in two regions are the same.

use super::access::Access;
use super::follow::list_at;
use super::model::{degree, is_marked, row_part, successor, Header};
use super::spread::{get, put};

/// State y is a goal: it can start the loop, and stands on the list at the place of its distance, which is below the
/// bound.
pub fn is_goal<A: Access>(h: Header, work: &[u16], bound: usize, y: usize) -> bool {
    let stem_entry = get::<A>(work, h.states + y);
    let reached = stem_entry / 2;
    if stem_entry % 2 != 1 || reached == 0 || bound < reached {
        return false;
    }
    list_at::<A>(h, work, reached - 1) == y
}

/// State s has the level, and a step leads from it to a goal below the bound.
fn closes<A: Access>(
    file: &[u8],
    h: Header,
    work: &[u16],
    level: usize,
    bound: usize,
    s: usize,
) -> bool {
    if get::<A>(work, 2 * h.states + s) != level + 1 {
        return false;
    }
    let part = row_part::<A>(file, h, s);
    (0..degree(part, h)).any(|k| is_goal::<A>(h, work, bound, successor::<A>(part, s, k)))
}

/// Flags the states of a level with a step to a goal below the bound, and no other.
pub fn flag_closing<A: Access>(
    file: &[u8],
    h: Header,
    work: &mut [u16],
    level: usize,
    bound: usize,
) {
    let n = h.states;
    for s in 0..n {
        let flag = closes::<A>(file, h, work, level, bound, s);
        put::<A>(work, 4 * n + s, flag.into());
    }
}

/// Flags the marked states that are reached and have the same entry in regions 2 and 5, and takes no flag away.
pub fn flag_marked<A: Access>(file: &[u8], h: Header, work: &mut [u16]) {
    let n = h.states;
    for s in 0..n {
        if is_marked::<A>(file, h, s) {
            let level = get::<A>(work, 2 * n + s);
            if level != 0 && level == get::<A>(work, 5 * n + s) {
                put::<A>(work, 4 * n + s, 1);
            }
        }
    }
}
