//! Whether a state may stand at the next place of the list and close at a loop start that the list has passed, by a
//! search from that state.

use super::access::Access;
use super::model::{is_marked, Header};
use super::spread::{distances_from, from_marks, get};

/// The state at a place of the list.
#[inline]
pub fn list_at<A: Access>(h: Header, work: &[u16], place: usize) -> usize {
    if place == 0 {
        return h.start;
    }
    get::<A>(work, place - 1)
}

fn closes_marked<A: Access>(
    file: &[u8],
    h: Header,
    work: &[u16],
    place: usize,
    left: usize,
) -> bool {
    let n = h.states;
    let mut marked = false;
    for k in (0..=place).rev() {
        let s = list_at::<A>(h, work, k);
        if is_marked::<A>(file, h, s) {
            marked = true;
        }
        if marked {
            let level = get::<A>(work, 2 * n + s);
            if level != 0 && level <= left + 1 {
                return true;
            }
        }
    }
    false
}

fn closes_start<A: Access>(h: Header, work: &[u16], place: usize, left: usize) -> bool {
    let n = h.states;
    for k in 0..=place {
        let s = list_at::<A>(h, work, k);
        let level = get::<A>(work, 2 * n + s);
        if get::<A>(work, n + s) % 2 == 1 && level != 0 && level <= left + 1 {
            return true;
        }
    }
    false
}

/// From state t after the list up to a place, the list can close in time at a loop start that it has passed, with a mark
/// passed since then or ahead.
pub fn may_close<A: Access>(
    file: &[u8],
    h: Header,
    work: &mut [u16],
    length: usize,
    place: usize,
    t: usize,
) -> bool {
    let n = h.states;
    let left = length - (place + 1);
    distances_from::<A>(file, h, work, t, left + 1);
    if closes_marked::<A>(file, h, work, place, left) {
        return true;
    }
    if !closes_start::<A>(h, work, place, left) {
        return false;
    }
    from_marks::<A>(file, h, work, left + 1, n);
    closes_start::<A>(h, work, place, left)
}
