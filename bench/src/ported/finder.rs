//! The three operations, with every refusal in order.

use super::access::{Access, Phase};
use super::gate::{ceiling_too_high, enter};
use super::model::Header;
use super::paths::is_lasso;
use super::places::{advance, first, write_list};
use super::rounds::{after_round, candidate_at, count_candidates, run_rounds, start_distances};
use super::spread::{get, put};
use super::stems::prepare;
use crate::fahkelo::{Ask, NextAnswer, Record, SearchAnswer, StepAnswer, FULL_CEILING};

/// The record after one more round under a ceiling, for the marks of a table.
pub fn step<A: Access>(
    file: &[u8],
    mark_table: u16,
    ceiling: u16,
    so_far: Record,
    work: &mut [u16],
) -> StepAnswer {
    let h = match enter::<A>(file, mark_table, work) {
        Err(number) => return StepAnswer::Refused(number),
        Ok(h) => h,
    };
    let answer = step_model::<A>(file, h, ceiling, so_far, work);
    work.fill(0);
    answer
}

fn step_model<A: Access>(
    file: &[u8],
    h: Header,
    ceiling: u16,
    so_far: Record,
    work: &mut [u16],
) -> StepAnswer {
    if ceiling_too_high(ceiling) {
        return StepAnswer::Refused(21);
    }
    start_distances::<A>(file, h, work);
    let place = so_far.done as usize;
    if count_candidates::<A>(file, h, work) <= place {
        return StepAnswer::Finished(so_far);
    }
    let r = candidate_at::<A>(file, h, work, place);
    StepAnswer::Advanced(after_round::<A>(file, h, work, r, ceiling, so_far))
}

/// The first of the shortest accepting paths, written to the answer table if it is not longer than the ceiling.
pub fn search<A: Access>(
    file: &[u8],
    ask: Ask,
    answer: &mut [u16],
    work: &mut [u16],
) -> SearchAnswer {
    let h = match enter::<A>(file, ask.mark_table, work) {
        Err(number) => return SearchAnswer::Refused(number),
        Ok(h) => h,
    };
    let result = search_model::<A>(file, h, ask, answer, work);
    work.fill(0);
    result
}

fn search_model<A: Access>(
    file: &[u8],
    h: Header,
    ask: Ask,
    answer: &mut [u16],
    work: &mut [u16],
) -> SearchAnswer {
    if ceiling_too_high(ask.ceiling) {
        return SearchAnswer::Refused(21);
    }
    A::phase(Phase::Rounds);
    start_distances::<A>(file, h, work);
    let count = count_candidates::<A>(file, h, work);
    let allowed = ask.allowance as usize;
    let record = run_rounds::<A>(file, h, work, ask.ceiling, allowed);
    if allowed < count {
        return SearchAnswer::Stopped(record);
    }
    match record.best {
        None => SearchAnswer::NoneWithin {
            rounds: record.done,
        },
        Some(length) => first_list::<A>(file, h, length, record.done, answer, work),
    }
}

fn first_list<A: Access>(
    file: &[u8],
    h: Header,
    length: u16,
    rounds: u16,
    answer: &mut [u16],
    work: &mut [u16],
) -> SearchAnswer {
    if 4096 < length {
        return SearchAnswer::Refused(14);
    }
    let l = length as usize;
    if answer.len() < l + 1 {
        return SearchAnswer::Refused(15);
    }
    A::phase(Phase::Prepare);
    prepare::<A>(file, h, work, l);
    A::phase(Phase::List);
    first::<A>(file, h, work, l);
    let k = write_list::<A>(h, work, l, answer);
    SearchAnswer::Found {
        length,
        loop_start: k as u16,
        rounds,
    }
}

/// The shortest accepting path that follows an earlier one, for the marks of a table, written to the answer table.
pub fn next<A: Access>(
    file: &[u8],
    mark_table: u16,
    earlier: &[u16],
    answer: &mut [u16],
    work: &mut [u16],
) -> NextAnswer {
    let h = match enter::<A>(file, mark_table, work) {
        Err(number) => return NextAnswer::Refused(number),
        Ok(h) => h,
    };
    let result = next_of_model::<A>(file, h, earlier, answer, work);
    work.fill(0);
    result
}

fn next_of_model<A: Access>(
    file: &[u8],
    h: Header,
    earlier: &[u16],
    answer: &mut [u16],
    work: &mut [u16],
) -> NextAnswer {
    A::phase(Phase::Rounds);
    start_distances::<A>(file, h, work);
    match run_rounds::<A>(file, h, work, FULL_CEILING, h.states).best {
        None => NextAnswer::Refused(13),
        Some(length) => next_list::<A>(file, h, length, earlier, answer, work),
    }
}

fn next_list<A: Access>(
    file: &[u8],
    h: Header,
    length: u16,
    earlier: &[u16],
    answer: &mut [u16],
    work: &mut [u16],
) -> NextAnswer {
    let l = length as usize;
    if !is_lasso::<A>(file, h, earlier, l) {
        return NextAnswer::Refused(13);
    }
    if 4096 < length {
        return NextAnswer::Refused(14);
    }
    A::phase(Phase::Prepare);
    prepare::<A>(file, h, work, l);
    A::phase(Phase::List);
    load::<A>(earlier, work);
    if !advance::<A>(file, h, work, l) {
        return NextAnswer::NoMore;
    }
    if answer.len() < l + 1 {
        return NextAnswer::Refused(15);
    }
    let k = write_list::<A>(h, work, l, answer);
    NextAnswer::Found {
        length,
        loop_start: k as u16,
    }
}

fn load<A: Access>(list: &[u16], work: &mut [u16]) {
    for j in 1..list.len() {
        put::<A>(work, j - 1, get::<A>(list, j));
    }
}
