//! Whether a state may stand at the next place of the list: by a look at region 1, at a goal or at one of two tables, or
//! by a search.

use super::access::Access;
use super::ends::is_goal;
use super::follow::may_close;
use super::goal_tables::make_tables;
use super::model::Header;
use super::passed::Passed;
use super::spread::get;

/// So many tests after a loop start are done by a search each; the next one makes the tables, which cost more.
const SEARCHES: usize = 2;

/// State t may stand after the list up to a place: the two begin some shortest lasso. The loop start is ahead if t stands
/// on a stem at its distance; else the list has to close at a loop start that it has passed. The first two such tests
/// after a loop start are done by searches; the tables are made for the third, and serve all that follow.
pub fn may_follow<A: Access>(
    file: &[u8],
    h: Header,
    work: &mut [u16],
    length: usize,
    place: usize,
    t: usize,
    passed: &mut Passed,
) -> bool {
    let n = h.states;
    if get::<A>(work, n + t) / 2 == place + 2 {
        return true;
    }
    if passed.start == 0 {
        return false;
    }
    let marked = passed.start < passed.mark;
    if place + 1 == length {
        let bound = if marked { passed.start } else { passed.mark };
        return is_goal::<A>(h, work, bound, t);
    }
    let b = passed.start - 1;
    if !passed.made {
        if passed.searches < SEARCHES {
            passed.searches += 1;
            return may_close::<A>(file, h, work, length, place, t);
        }
        make_tables::<A>(file, h, work, length, b);
        passed.made = true;
    }
    let region = if marked { 5 } else { 2 };
    get::<A>(work, region * n + t) == place + 2 - b
}
