//! What each call must answer and leave in its tables, from the facts of a file: the reasons to refuse in order, the
//! round record, the roll, the distances. The facts are those of the whole model, with the marks of each table; what a
//! ceiling does to them is said here.

use crate::fahkelo::{Ask, DistancesAnswer, NextAnswer, Record, SearchAnswer, StepAnswer, TABLE_0};
use crate::graph::Graph;
use crate::reference::{accepting, Facts};

/// A file's verdict: the number of the rule it breaks, or for each mark table its graph and facts.
pub type Verdict = Result<[(Graph, Facts); 2], u16>;

/// The graph and the facts for the mark table named; else 22, which comes first, or the number of the rule that the file
/// breaks.
pub fn named(verdict: &Verdict, mark_table: u16) -> Result<&(Graph, Facts), u16> {
    if mark_table > 1 {
        return Err(22);
    }
    let tables = verdict.as_ref().map_err(|&number| number)?;
    Ok(&tables[mark_table as usize])
}

/// The lesser of two lengths, none counting as more than every length.
fn lesser(a: Option<u16>, b: Option<u16>) -> Option<u16> {
    a.into_iter().chain(b).min()
}

/// The length of each round under a ceiling: a round whose least length lies above it has none.
pub fn rounds_within(facts: &Facts, ceiling: u16) -> impl Iterator<Item = Option<u16>> + '_ {
    let lengths = facts.round_lengths.iter();
    lengths.map(move |length| length.filter(|&least| least <= ceiling))
}

/// The first shortest accepting path, if it is not longer than the ceiling.
pub fn first_within(facts: &Facts, ceiling: u16) -> Option<&[u16]> {
    let first = facts.roll.first()?;
    let steps = first.len() - 1;
    (steps <= ceiling as usize).then_some(first)
}

/// The record after one more round under a ceiling, if a candidate is left. The best is kept, also one above the ceiling.
fn after_round(facts: &Facts, ceiling: u16, so_far: Record) -> Option<Record> {
    let length = rounds_within(facts, ceiling).nth(so_far.done as usize)?;
    Some(Record {
        done: so_far.done + 1,
        best: lesser(so_far.best, length),
    })
}

/// The reason 22, the reasons 1 to 11 of the file, then 12.
pub fn admitted(
    verdict: &Verdict,
    mark_table: u16,
    work_len: usize,
) -> Result<&(Graph, Facts), u16> {
    let admitted = named(verdict, mark_table)?;
    if work_len < 6 * admitted.0.states() {
        return Err(12);
    }
    Ok(admitted)
}

/// The reasons 22 and 1 to 12, and after them 21: the ceiling is above 4,096.
fn admitted_under(
    verdict: &Verdict,
    mark_table: u16,
    ceiling: u16,
    work_len: usize,
) -> Result<&(Graph, Facts), u16> {
    let admitted = admitted(verdict, mark_table, work_len)?;
    if ceiling > 4096 {
        return Err(21);
    }
    Ok(admitted)
}

pub fn step(
    verdict: &Verdict,
    mark_table: u16,
    ceiling: u16,
    so_far: Record,
    work_len: usize,
) -> StepAnswer {
    match admitted_under(verdict, mark_table, ceiling, work_len) {
        Err(number) => StepAnswer::Refused(number),
        Ok((_, facts)) => match after_round(facts, ceiling, so_far) {
            None => StepAnswer::Finished(so_far),
            Some(after) => StepAnswer::Advanced(after),
        },
    }
}

/// The reasons 14 and 15 against writing a list.
fn written(list: &[u16], answer_len: usize) -> Result<&[u16], u16> {
    if list.len() - 1 > 4096 {
        return Err(14);
    }
    if answer_len < list.len() {
        return Err(15);
    }
    Ok(list)
}

fn loop_start(graph: &Graph, list: &[u16]) -> u16 {
    accepting(graph, list).expect("the roll holds accepting paths") as u16
}

/// The answer of a search, and the list that it writes.
pub fn search(
    verdict: &Verdict,
    ask: Ask,
    answer_len: usize,
    work_len: usize,
) -> (SearchAnswer, &[u16]) {
    let Ask {
        mark_table,
        ceiling,
        allowance,
    } = ask;
    let (graph, facts) = match admitted_under(verdict, mark_table, ceiling, work_len) {
        Err(number) => return (SearchAnswer::Refused(number), &[]),
        Ok(admitted) => admitted,
    };
    let rounds = facts.candidates.len();
    if (allowance as usize) < rounds {
        let mut record = Record {
            done: 0,
            best: None,
        };
        for _ in 0..allowance {
            record =
                after_round(facts, ceiling, record).expect("the allowance is below the rounds");
        }
        return (SearchAnswer::Stopped(record), &[]);
    }
    let rounds = rounds as u16;
    match first_within(facts, ceiling) {
        None => (SearchAnswer::NoneWithin { rounds }, &[]),
        Some(first) => match written(first, answer_len) {
            Err(number) => (SearchAnswer::Refused(number), &[]),
            Ok(list) => (
                SearchAnswer::Found {
                    length: (list.len() - 1) as u16,
                    loop_start: loop_start(graph, list),
                    rounds,
                },
                list,
            ),
        },
    }
}

/// The answer of next, and the list that it writes. An earlier list of a roll that is cut off must not be its last.
pub fn next<'a>(
    verdict: &'a Verdict,
    mark_table: u16,
    earlier: &[u16],
    answer_len: usize,
    work_len: usize,
) -> (NextAnswer, &'a [u16]) {
    let (graph, facts) = match admitted(verdict, mark_table, work_len) {
        Err(number) => return (NextAnswer::Refused(number), &[]),
        Ok(admitted) => admitted,
    };
    if !is_shortest(graph, facts, earlier) {
        return (NextAnswer::Refused(13), &[]);
    }
    let follower = facts.roll.iter().find(|list| earlier < list.as_slice());
    match follower {
        None => {
            assert!(!facts.cut_off, "the roll is known behind the earlier list");
            (NextAnswer::NoMore, &[])
        }
        Some(list) => match written(list, answer_len) {
            Err(number) => (NextAnswer::Refused(number), &[]),
            Ok(list) => (
                NextAnswer::Found {
                    length: (list.len() - 1) as u16,
                    loop_start: loop_start(graph, list),
                },
                list,
            ),
        },
    }
}

/// The answer of a distance call, and the entries that it writes: the distance of each state if it is not above the
/// ceiling, else 65,535. It names no mark table, and depends on none.
pub fn distances(
    verdict: &Verdict,
    ceiling: u16,
    table_len: usize,
    work_len: usize,
) -> (DistancesAnswer, Vec<u16>) {
    let (graph, facts) = match admitted_under(verdict, TABLE_0, ceiling, work_len) {
        Err(number) => return (DistancesAnswer::Refused(number), vec![]),
        Ok(admitted) => admitted,
    };
    if table_len < graph.states() {
        return (DistancesAnswer::Refused(15), vec![]);
    }
    let entry = |distance: &Option<u16>| match *distance {
        Some(distance) if distance <= ceiling => distance,
        _ => 65535,
    };
    let entries = facts.distances.iter().map(entry).collect();
    (DistancesAnswer::Written(graph.states() as u16), entries)
}

/// The list is an accepting path of least length.
pub fn is_shortest(graph: &Graph, facts: &Facts, list: &[u16]) -> bool {
    accepting(graph, list).is_some() && Some(list.len() - 1) == facts.length()
}

/// The working table afterwards: untouched after the refusals 1 to 12, otherwise all zero, after 22 too.
pub fn work_after(verdict: &Verdict, mark_table: u16, before: &[u16]) -> Vec<u16> {
    match admitted(verdict, mark_table, before.len()) {
        Err(1..=12) => before.to_vec(),
        _ => vec![0; before.len()],
    }
}

/// The answer table afterwards, or the table of distances: what is written to its front, the rest unchanged.
pub fn answer_after(before: &[u16], list: &[u16]) -> Vec<u16> {
    let mut after = before.to_vec();
    after[..list.len()].copy_from_slice(list);
    after
}
