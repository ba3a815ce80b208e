//! The first list, the list after a given one, and writing a list to the answer table.

use super::access::Access;
use super::follow::list_at;
use super::model::{degree, row_part, successor, Header};
use super::passed::{append, retreat, Passed};
use super::spread::get;
use super::tested::may_follow;

fn least_follower<A: Access>(
    file: &[u8],
    h: Header,
    work: &mut [u16],
    length: usize,
    place: usize,
    bound: usize,
    passed: &mut Passed,
) -> Option<usize> {
    *passed = retreat::<A>(file, h, work, place, *passed);
    let s = list_at::<A>(h, work, place);
    let part = row_part::<A>(file, h, s);
    for k in 0..degree(part, h) {
        let t = successor::<A>(part, s, k);
        if bound <= t && may_follow::<A>(file, h, work, length, place, t, passed) {
            return Some(t);
        }
    }
    None
}

fn first_follower<A: Access>(
    file: &[u8],
    h: Header,
    work: &mut [u16],
    length: usize,
    place: usize,
    passed: &mut Passed,
) -> usize {
    let s = list_at::<A>(h, work, place);
    let part = row_part::<A>(file, h, s);
    let mut tried = 0;
    while tried + 1 < degree(part, h) {
        let t = successor::<A>(part, s, tried);
        if may_follow::<A>(file, h, work, length, place, t, passed) {
            return t;
        }
        tried += 1;
    }
    successor::<A>(part, s, tried)
}

fn complete<A: Access>(
    file: &[u8],
    h: Header,
    work: &mut [u16],
    length: usize,
    from: usize,
    passed: Passed,
) {
    let mut passed = passed;
    for place in from..length {
        let t = first_follower::<A>(file, h, work, length, place, &mut passed);
        passed = append::<A>(file, h, work, place, t, passed);
    }
}

/// Puts the first of the shortest accepting paths into region 0.
pub fn first<A: Access>(file: &[u8], h: Header, work: &mut [u16], length: usize) {
    let passed = retreat::<A>(file, h, work, 0, Passed::unknown(0));
    complete::<A>(file, h, work, length, 0, passed);
}

/// Puts the path after the one in region 0 there; false if that one is the last.
pub fn advance<A: Access>(file: &[u8], h: Header, work: &mut [u16], length: usize) -> bool {
    let mut passed = Passed::unknown(length);
    for place in (0..length).rev() {
        let bound = get::<A>(work, place) + 1;
        let next = least_follower::<A>(file, h, work, length, place, bound, &mut passed);
        if let Some(t) = next {
            let passed = append::<A>(file, h, work, place, t, passed);
            complete::<A>(file, h, work, length, place + 1, passed);
            return true;
        }
    }
    false
}

fn loop_start<A: Access>(h: Header, work: &[u16], transitions: usize) -> usize {
    let last = list_at::<A>(h, work, transitions);
    let mut k = 0;
    while list_at::<A>(h, work, k) != last {
        k += 1;
    }
    k
}

/// Writes the whole list; the place where its loop starts.
pub fn write_list<A: Access>(
    h: Header,
    work: &[u16],
    transitions: usize,
    answer: &mut [u16],
) -> usize {
    A::put(answer, 0, h.start as u16);
    A::part_mut(answer, 1, transitions + 1).copy_from_slice(A::part(work, 0, transitions));
    loop_start::<A>(h, work, transitions)
}
