//! The one search there is: breadth-first by levels, from sources that start at levels of their own. The working table
//! is six regions of n entries: 0 distances from the start, 1 stems, 2 levels, 3 queue, 4 first source of a level, 5 next
//! source. An entry 0 stands for nothing; a level l stands as l + 1, a source s as s + 1. While a list is made, region 0
//! holds it, regions 2 and 5 hold the tables after its last loop start, and region 4 flags of ends.

use super::access::Access;
use super::model::{degree, edge_count, edge_target, is_marked, row_part, successor, Header};

/// The entry at a place.
#[inline]
pub fn get<A: Access>(table: &[u16], at: usize) -> usize {
    A::get(table, at) as usize
}

/// Stores a value at a place.
#[inline]
pub fn put<A: Access>(table: &mut [u16], at: usize, value: usize) {
    A::put(table, at, value as u16);
}

/// Makes the entries from one place up to another zero.
#[inline]
pub fn clear<A: Access>(table: &mut [u16], from: usize, to: usize) {
    A::part_mut(table, from, to).fill(0);
}

/// Copies n entries from one place to another; the two parts do not overlap.
#[inline]
pub fn copy<A: Access>(table: &mut [u16], from: usize, to: usize, n: usize) {
    let first = from.min(to);
    let both = A::part_mut(table, first, from.max(to) + n);
    both.copy_within(from - first..from - first + n, to - first);
}

/// The answer of a search: the length at which an edge into the target was found, or that there is none, with the number
/// of states reached.
#[derive(Clone, Copy)]
pub enum SpreadAnswer {
    Length(usize),
    Nothing(usize),
}

impl SpreadAnswer {
    /// The length, if one was found.
    pub fn length(self) -> Option<usize> {
        match self {
            SpreadAnswer::Length(length) => Some(length),
            SpreadAnswer::Nothing(_) => None,
        }
    }

    /// The number of states reached by a search without a target.
    pub fn count(self) -> usize {
        match self {
            SpreadAnswer::Length(_) => 0,
            SpreadAnswer::Nothing(count) => count,
        }
    }
}

fn list_source<A: Access>(work: &mut [u16], n: usize, level: usize, s: usize) {
    let first = get::<A>(work, 4 * n + level);
    put::<A>(work, 5 * n + s, first);
    put::<A>(work, 4 * n + level, s + 1);
}

fn plan<A: Access>(work: &mut [u16], n: usize, limit: usize) {
    clear::<A>(work, 4 * n, 4 * n + limit);
    for s in 0..n {
        let start = get::<A>(work, 2 * n + s);
        put::<A>(work, 2 * n + s, 0);
        let level = start.wrapping_sub(1);
        if level < limit {
            list_source::<A>(work, n, level, s);
        }
    }
}

fn reach<A: Access>(work: &mut [u16], n: usize, t: usize, level: usize, tail: usize) -> usize {
    if get::<A>(work, 2 * n + t) != 0 {
        return tail;
    }
    put::<A>(work, 2 * n + t, level + 1);
    put::<A>(work, tail, t);
    tail + 1
}

fn admit<A: Access>(work: &mut [u16], n: usize, level: usize, tail: usize) -> usize {
    let mut cursor = get::<A>(work, 4 * n + level);
    let mut end = tail;
    while 0 < cursor {
        let s = cursor - 1;
        end = reach::<A>(work, n, s, level, end);
        cursor = get::<A>(work, 5 * n + s);
    }
    end
}

/// The search by the edges of the file, from listed sources.
fn search_edges<A: Access>(
    file: &[u8],
    h: Header,
    work: &mut [u16],
    limit: usize,
    target: usize,
) -> SpreadAnswer {
    A::spread();
    let n = h.states;
    let mut at = 3 * n;
    let mut tail = 3 * n;
    for level in 0..limit {
        tail = admit::<A>(work, n, level, tail);
        let end = tail;
        while at < end {
            let s = get::<A>(work, at);
            let part = row_part::<A>(file, h, s);
            for k in 0..edge_count(part) {
                A::edge();
                let t = edge_target::<A>(part, k);
                if t == target {
                    return SpreadAnswer::Length(level + 1);
                }
                tail = reach::<A>(work, n, t, level + 1, tail);
            }
            at += 1;
        }
    }
    SpreadAnswer::Nothing(tail - 3 * n)
}

/// State s is in the list of a level.
fn is_listed<A: Access>(work: &[u16], n: usize, level: usize, s: usize) -> bool {
    let mut cursor = get::<A>(work, 4 * n + level);
    while s + 1 < cursor {
        cursor = get::<A>(work, 5 * n + (cursor - 1));
    }
    cursor == s + 1
}

/// How far a search has to look: up to the level of the target, if that is a source below the limit whose only successor
/// is itself, else up to the limit.
fn search_bound<A: Access>(
    file: &[u8],
    h: Header,
    work: &[u16],
    limit: usize,
    target: usize,
) -> usize {
    let n = h.states;
    if n <= target {
        return limit;
    }
    let part = row_part::<A>(file, h, target);
    if degree(part, h) != 1 || successor::<A>(part, target, 0) != target {
        return limit;
    }
    (0..limit)
        .find(|&level| is_listed::<A>(work, n, level, target))
        .unwrap_or(limit)
}

/// The search from listed sources. A target whose only successor is itself is reached from itself one step after its own
/// level, unless an edge leads into it before.
fn search_planned<A: Access>(
    file: &[u8],
    h: Header,
    work: &mut [u16],
    limit: usize,
    target: usize,
) -> SpreadAnswer {
    let bound = search_bound::<A>(file, h, work, limit, target);
    if limit <= bound {
        return search_edges::<A>(file, h, work, limit, target);
    }
    match search_edges::<A>(file, h, work, bound, target) {
        SpreadAnswer::Length(length) => SpreadAnswer::Length(length),
        SpreadAnswer::Nothing(_) => SpreadAnswer::Length(bound + 1),
    }
}

/// Searches from the sources whose start levels stand in region 2, below the limit.
pub fn spread<A: Access>(
    file: &[u8],
    h: Header,
    work: &mut [u16],
    limit: usize,
    target: usize,
) -> SpreadAnswer {
    plan::<A>(work, h.states, limit);
    search_planned::<A>(file, h, work, limit, target)
}

fn start_at<A: Access>(work: &mut [u16], n: usize, x: usize, limit: usize) {
    clear::<A>(work, 2 * n, 3 * n);
    clear::<A>(work, 4 * n, 4 * n + limit);
    list_source::<A>(work, n, 0, x);
}

fn keep_marked<A: Access>(file: &[u8], h: Header, work: &mut [u16]) {
    let n = h.states;
    for s in 0..n {
        if !is_marked::<A>(file, h, s) {
            put::<A>(work, 2 * n + s, 0);
        }
    }
}

/// Puts the distances from x, up to the limit, into region 2; how many states have one.
pub fn distances_from<A: Access>(
    file: &[u8],
    h: Header,
    work: &mut [u16],
    x: usize,
    limit: usize,
) -> usize {
    let n = h.states;
    start_at::<A>(work, n, x, limit);
    search_edges::<A>(file, h, work, limit, n).count()
}

/// Searches on from the marked states, at the levels that region 2 holds for them.
pub fn from_marks<A: Access>(
    file: &[u8],
    h: Header,
    work: &mut [u16],
    limit: usize,
    target: usize,
) -> SpreadAnswer {
    keep_marked::<A>(file, h, work);
    spread::<A>(file, h, work, limit, target)
}

/// The least length of a closed walk from x through a mark, if it is at most the limit.
pub fn loop_length<A: Access>(
    file: &[u8],
    h: Header,
    work: &mut [u16],
    x: usize,
    limit: usize,
) -> Option<usize> {
    distances_from::<A>(file, h, work, x, limit);
    from_marks::<A>(file, h, work, limit, x).length()
}
