//! Sequences of searches, each with a ceiling of its own, and of nexts with the copy of the list last received, by each
//! version on the same two tables throughout. All calls name the same mark table, but for some that name a number above 1
//! and are refused. Each answer and the tables after it are compared with the book, which counts the lists received since
//! the last search that found one.

use crate::counts::Counts;
use crate::fahkelo::{Ask, NextAnswer, SearchAnswer};
use crate::oracle;
use crate::random::Random;
use crate::reference::Facts;
use crate::samples::{answer_len, ceiling_about, dirty, table_above_1};
use crate::trials::Case;
use crate::versions::{Version, VERSIONS};

/// The calls of a sequence.
const CALLS: usize = 8;

/// What a next is lent that is refused for the number of its mark table.
const ANY_LIST: [u16; 2] = [0, 65535];

/// A call; a next has the number of its mark table.
#[derive(Clone, Copy, Debug)]
enum Call {
    Search(Ask),
    Next(u16),
}

#[derive(Clone, Copy, Debug, PartialEq, Eq)]
enum Answer {
    Searched(SearchAnswer),
    Followed(NextAnswer),
}

/// A call, its answer, and the answer table after it.
struct Page {
    call: Call,
    answer: Answer,
    table: Vec<u16>,
}

/// A sequence on an accepted file, by each version.
pub fn compare_sequence(lot: &mut Random, counts: &mut Counts, case: Case) {
    let Ok((graph, facts)) = case.named() else {
        return;
    };
    counts.sequences += 1;
    let entries = facts.length().unwrap_or(1) + 1;
    let table_len = answer_len(lot, entries);
    let table = dirty(lot, table_len);
    let work_len = 6 * graph.states() + lot.below(3);
    let work = dirty(lot, work_len);
    let calls = draw_calls(lot, facts, case.mark_table);
    let book = book_of(case, facts, &calls, &table, work_len);
    for version in VERSIONS {
        if let Some(place) = first_difference(version, case.file, &book, &table, &work) {
            let what = format!("call {place} of {calls:?}: {}", version.name());
            counts.difference(&what, case.file);
        }
    }
}

/// Calls by lot, searches and more nexts: ceilings are about the length, allowances mostly enough, and one call in eight
/// names no mark table.
fn draw_calls(lot: &mut Random, facts: &Facts, mark_table: u16) -> Vec<Call> {
    let (length, rounds) = (facts.length().unwrap_or(1), facts.candidates.len());
    let mut call = || {
        let mark_table = match lot.below(8) {
            0 => table_above_1(lot),
            _ => mark_table,
        };
        if lot.below(5) > 1 {
            return Call::Next(mark_table);
        }
        let allowance = match lot.below(4) {
            0 => lot.below(rounds + 2) as u16,
            _ => 65535,
        };
        Call::Search(Ask {
            mark_table,
            ceiling: ceiling_about(lot, length),
            allowance,
        })
    };
    (0..CALLS).map(|_| call()).collect()
}

/// The pages of the calls, as far as the lists are known. A search that finds brings the first list, a next that finds
/// the one after the lists received since; all other calls bring none, and what was received stays.
fn book_of(case: Case, facts: &Facts, calls: &[Call], table: &[u16], work_len: usize) -> Vec<Page> {
    let mut table = table.to_vec();
    let mut received = 0;
    let mut pages = Vec::new();
    for &call in calls {
        let (answer, list) = match call {
            Call::Search(ask) => {
                let (answer, list) = oracle::search(case.verdict, ask, table.len(), work_len);
                if let SearchAnswer::Found { .. } = answer {
                    received = 1;
                }
                (Answer::Searched(answer), list)
            }
            Call::Next(mark_table) => {
                if facts.cut_off && received == facts.roll.len() {
                    break;
                }
                let copy = facts.roll[..received].last().map_or(&[][..], |list| list);
                let lent = lent_to_next(mark_table, copy);
                let (answer, list) =
                    oracle::next(case.verdict, mark_table, lent, table.len(), work_len);
                if let NextAnswer::Found { .. } = answer {
                    received += 1;
                }
                (Answer::Followed(answer), list)
            }
        };
        table = oracle::answer_after(&table, list);
        pages.push(Page {
            call,
            answer,
            table: table.clone(),
        });
    }
    pages
}

/// The list that a next is lent: the copy, unless it names no mark table.
fn lent_to_next(mark_table: u16, copy: &[u16]) -> &[u16] {
    if mark_table > 1 {
        return &ANY_LIST;
    }
    copy
}

/// The first call of a version whose answer or tables are not those of the book. The version is handed back the copy of
/// what it brought itself.
fn first_difference(
    version: &dyn Version,
    file: &[u8],
    book: &[Page],
    table: &[u16],
    work: &[u16],
) -> Option<usize> {
    let (mut table, mut work) = (table.to_vec(), work.to_vec());
    let mut copy = Vec::new();
    book.iter().position(|page| {
        let answer = match page.call {
            Call::Search(ask) => Answer::Searched(version.search(file, ask, &mut table, &mut work)),
            Call::Next(mark_table) => {
                let lent = lent_to_next(mark_table, &copy);
                Answer::Followed(version.next(file, mark_table, lent, &mut table, &mut work))
            }
        };
        if let Answer::Searched(SearchAnswer::Found { length, .. })
        | Answer::Followed(NextAnswer::Found { length, .. }) = answer
        {
            copy = table[..=length as usize].to_vec();
        }
        answer != page.answer || table != page.table || work.iter().any(|&entry| entry != 0)
    })
}
