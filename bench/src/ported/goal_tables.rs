//! Makes the two tables after a loop start: which state may stand at which place after it.

use super::access::Access;
use super::ends::{flag_closing, flag_marked};
use super::follow::list_at;
use super::model::{is_marked, Header};
use super::spread::{copy, distances_from, from_marks, get, put};
use super::ways::keep_ways;

/// The last place with a marked state up to a place, plus 1; or 0.
pub fn last_mark<A: Access>(file: &[u8], h: Header, work: &[u16], place: usize) -> usize {
    (0..=place)
        .rev()
        .find(|&k| is_marked::<A>(file, h, list_at::<A>(h, work, k)))
        .map_or(0, |k| k + 1)
}

/// Puts the least steps from x through a mark into region 2, exact below the limit; how many states the search reached.
fn later_levels<A: Access>(
    file: &[u8],
    h: Header,
    work: &mut [u16],
    x: usize,
    limit: usize,
) -> usize {
    let count = distances_from::<A>(file, h, work, x, limit);
    if is_marked::<A>(file, h, x) {
        return count;
    }
    from_marks::<A>(file, h, work, limit, h.states).count()
}

/// Makes the table for lists with a mark after the loop start at place b, in region 5.
fn make_later<A: Access>(file: &[u8], h: Header, work: &mut [u16], length: usize, b: usize) {
    let n = h.states;
    let x = list_at::<A>(h, work, b);
    let left = length - b;
    let count = later_levels::<A>(file, h, work, x, left);
    flag_closing::<A>(file, h, work, left - 1, b + 1);
    keep_ways::<A>(file, h, work, count);
    copy::<A>(work, 2 * n, 5 * n, n);
}

/// Makes the table for lists with no mark after the loop start at place b, in region 2, from the one for lists with a
/// mark. `mark` is the place of the last mark up to b plus 1, or 0.
fn make_sooner<A: Access>(
    file: &[u8],
    h: Header,
    work: &mut [u16],
    length: usize,
    b: usize,
    mark: usize,
) {
    let n = h.states;
    let x = list_at::<A>(h, work, b);
    let left = length - b;
    let own = get::<A>(work, 5 * n + x);
    let count = distances_from::<A>(file, h, work, x, left);
    put::<A>(work, 5 * n + x, own);
    flag_closing::<A>(file, h, work, left - 1, mark);
    flag_marked::<A>(file, h, work);
    keep_ways::<A>(file, h, work, count);
}

/// Makes both tables after the loop start at place b; if it is marked itself, they are the same.
pub fn make_tables<A: Access>(file: &[u8], h: Header, work: &mut [u16], length: usize, b: usize) {
    let mark = last_mark::<A>(file, h, work, b);
    make_later::<A>(file, h, work, length, b);
    if mark != b + 1 {
        make_sooner::<A>(file, h, work, length, b, mark);
    }
}
