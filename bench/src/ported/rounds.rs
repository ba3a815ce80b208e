//! The candidates, one round, and the rounds of a search. Region 0 holds the distances from the start throughout.

use super::access::Access;
use super::model::{is_marked, Header};
use super::spread::{copy, distances_from, get, put, spread};
use crate::fahkelo::Record;

/// Puts the distances from the start into region 0.
pub fn start_distances<A: Access>(file: &[u8], h: Header, work: &mut [u16]) {
    let n = h.states;
    distances_from::<A>(file, h, work, h.start, n);
    copy::<A>(work, 2 * n, 0, n);
}

fn is_candidate<A: Access>(file: &[u8], h: Header, work: &[u16], s: usize) -> bool {
    get::<A>(work, s) != 0 && is_marked::<A>(file, h, s)
}

/// The number of candidates.
pub fn count_candidates<A: Access>(file: &[u8], h: Header, work: &[u16]) -> usize {
    (0..h.states)
        .filter(|&s| is_candidate::<A>(file, h, work, s))
        .count()
}

/// The candidate at a place, where there is one.
pub fn candidate_at<A: Access>(file: &[u8], h: Header, work: &[u16], place: usize) -> usize {
    (0..h.states)
        .filter(|&s| is_candidate::<A>(file, h, work, s))
        .nth(place)
        .unwrap_or(0)
}

fn sum_entry(a: usize, b: usize) -> usize {
    if a == 0 || b == 0 {
        return 0;
    }
    a + b - 1
}

fn add_start_distances<A: Access>(work: &mut [u16], n: usize) {
    for s in 0..n {
        let from_start = get::<A>(work, s);
        let level = get::<A>(work, 2 * n + s);
        put::<A>(work, 2 * n + s, sum_entry(from_start, level));
    }
}

fn round<A: Access>(
    file: &[u8],
    h: Header,
    work: &mut [u16],
    r: usize,
    limit: usize,
) -> Option<u16> {
    if limit == 0 {
        return None;
    }
    distances_from::<A>(file, h, work, r, limit);
    add_start_distances::<A>(work, h.states);
    let answer = spread::<A>(file, h, work, limit, r);
    answer.length().map(|length| length as u16)
}

fn lower(a: usize, b: usize) -> usize {
    if a < b {
        a
    } else {
        b
    }
}

/// The greatest length that a round needs to find. The ceiling acts here and nowhere else.
fn limit_of(best: Option<u16>, n: usize, ceiling: u16) -> usize {
    let bound = lower(n, ceiling as usize);
    match best {
        None => bound,
        Some(length) => lower(length as usize, bound),
    }
}

fn lesser(a: Option<u16>, b: Option<u16>) -> Option<u16> {
    match (a, b) {
        (None, other) | (other, None) => other,
        (Some(x), Some(y)) => Some(x.min(y)),
    }
}

/// The record after one more round under a ceiling, the one for candidate r. The best is kept, also one above the
/// ceiling.
pub fn after_round<A: Access>(
    file: &[u8],
    h: Header,
    work: &mut [u16],
    r: usize,
    ceiling: u16,
    so_far: Record,
) -> Record {
    let limit = limit_of(so_far.best, h.states, ceiling);
    let length = round::<A>(file, h, work, r, limit);
    Record {
        done: so_far.done + 1,
        best: lesser(so_far.best, length),
    }
}

/// The record after all rounds under a ceiling that the allowance admits.
pub fn run_rounds<A: Access>(
    file: &[u8],
    h: Header,
    work: &mut [u16],
    ceiling: u16,
    allowance: usize,
) -> Record {
    let mut record = Record {
        done: 0,
        best: None,
    };
    for s in 0..h.states {
        if allowance <= record.done as usize {
            return record;
        }
        if is_candidate::<A>(file, h, work, s) {
            record = after_round::<A>(file, h, work, s, ceiling, record);
        }
    }
    record
}
