//! The grade of a list with a claimed k, with every refusal in order.

use super::access::Access;
use super::gate::enter;
use super::model::Header;
use super::paths::{loops_at, first_break};
use super::rounds::{count_candidates, run_rounds, start_distances};
use super::spread::{clear, get, put};
use crate::fahkelo::{GradeAnswer, Verdict, FULL_CEILING};

/// An allowance that suffices for every model: the rounds are never stopped.
const ALL_ROUNDS: usize = 65535;

/// The entries but the last, all of them below n, are all different. A flag for each number below n stands in the table,
/// whatever stood there before.
fn all_different<A: Access>(list: &[u16], n: usize, work: &mut [u16]) -> bool {
    clear::<A>(work, 0, n);
    for j in 0..list.len() - 1 {
        let s = get::<A>(list, j);
        if get::<A>(work, s) != 0 {
            return false;
        }
        put::<A>(work, s, 1);
    }
    true
}

/// A list that breaks nowhere is an accepting path with that k.
fn accepts<A: Access>(file: &[u8], h: Header, list: &[u16], k: usize, work: &mut [u16]) -> bool {
    if list.len() <= k + 1 {
        return false;
    }
    get::<A>(list, 0) == h.start
        && all_different::<A>(list, h.states, work)
        && loops_at::<A>(file, h, list, k)
}

/// The list has the least length of an accepting path: all rounds are done.
fn is_least<A: Access>(file: &[u8], h: Header, list: &[u16], work: &mut [u16]) -> bool {
    start_distances::<A>(file, h, work);
    let count = count_candidates::<A>(file, h, work);
    let record = run_rounds::<A>(file, h, work, FULL_CEILING, ALL_ROUNDS);
    if ALL_ROUNDS < count {
        return false;
    }
    match record.best {
        None => false,
        Some(length) => list.len() == length as usize + 1,
    }
}

/// The verdict on a list that breaks nowhere. The rounds are done only if it is an accepting path.
fn verdict_of<A: Access>(
    file: &[u8],
    h: Header,
    list: &[u16],
    k: usize,
    work: &mut [u16],
) -> Verdict {
    if !accepts::<A>(file, h, list, k, work) {
        return Verdict::False;
    }
    if !is_least::<A>(file, h, list, work) {
        return Verdict::Accepting;
    }
    Verdict::Shortest
}

/// The grade of a list where no reason holds: a list that breaks is false.
fn grade_of_model<A: Access>(
    file: &[u8],
    h: Header,
    list: &[u16],
    k: usize,
    work: &mut [u16],
) -> GradeAnswer {
    match first_break::<A>(file, h, list) {
        Some(place) => GradeAnswer::Graded(Verdict::False, Some(place)),
        None => GradeAnswer::Graded(verdict_of::<A>(file, h, list, k, work), None),
    }
}

/// Grades a list with a claimed k, for the marks of a table: false, accepting or shortest, and the first place where the
/// list breaks.
pub fn grade<A: Access>(
    file: &[u8],
    mark_table: u16,
    list: &[u16],
    k: u16,
    work: &mut [u16],
) -> GradeAnswer {
    let h = match enter::<A>(file, mark_table, work) {
        Err(number) => return GradeAnswer::Refused(number),
        Ok(h) => h,
    };
    let answer = grade_of_model::<A>(file, h, list, k as usize, work);
    work.fill(0);
    answer
}
