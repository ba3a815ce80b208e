//! One call of the library, by its C function, and of versions in Rust beside it, each with copies of the same tables,
//! which are filled with any numbers first. The answer, the figures and all tables afterwards are compared with what the
//! oracle says.

use crate::counts::Counts;
use crate::fahkelo::{
    distances_into, kind, next_into, search_into, step_into, Ask, DistancesAnswer, NextAnswer,
    Record, SearchAnswer, StepAnswer, TABLE_0,
};
use crate::graph::Graph;
use crate::oracle::{self, Verdict};
use crate::random::Random;
use crate::reference::Facts;
use crate::samples::{dirty, out_len};
use crate::versions::{Version, PAIRED, SAFE, VERSIONS};

/// The versions in Rust whose steps, searches and nexts are held to the reference beside the library.
const FINDERS: [&dyn Version; 2] = [&SAFE, &PAIRED];

/// The value that is returned for an answer and its figures, as the C functions give them: a refusal has none.
trait Figures {
    fn figures(&self) -> (u16, Vec<u16>);
}

fn record_figures(record: &Record) -> Vec<u16> {
    match record.best {
        None => vec![record.done, 0, 0],
        Some(best) => vec![record.done, 1, best],
    }
}

impl Figures for StepAnswer {
    fn figures(&self) -> (u16, Vec<u16>) {
        match self {
            StepAnswer::Refused(number) => (*number, vec![]),
            StepAnswer::Finished(record) => (kind::FINISHED, record_figures(record)),
            StepAnswer::Advanced(record) => (kind::ADVANCED, record_figures(record)),
        }
    }
}

impl Figures for SearchAnswer {
    fn figures(&self) -> (u16, Vec<u16>) {
        match *self {
            SearchAnswer::Refused(number) => (number, vec![]),
            SearchAnswer::Stopped(record) => (kind::STOPPED, record_figures(&record)),
            SearchAnswer::Found {
                length,
                loop_start,
                rounds,
            } => (kind::FOUND, vec![length, loop_start, rounds]),
            SearchAnswer::NoneWithin { rounds } => (kind::NONE_WITHIN, vec![rounds]),
        }
    }
}

impl Figures for NextAnswer {
    fn figures(&self) -> (u16, Vec<u16>) {
        match *self {
            NextAnswer::Refused(number) => (number, vec![]),
            NextAnswer::Found { length, loop_start } => (kind::FOUND, vec![length, loop_start]),
            NextAnswer::NoMore => (kind::NO_MORE, vec![]),
        }
    }
}

impl Figures for DistancesAnswer {
    fn figures(&self) -> (u16, Vec<u16>) {
        match *self {
            DistancesAnswer::Refused(number) => (number, vec![]),
            DistancesAnswer::Written(entries) => (kind::WRITTEN, vec![entries]),
        }
    }
}

/// What calls are made on: a file with its verdict, and the mark table that they name. Distances name none.
#[derive(Clone, Copy)]
pub struct Case<'a> {
    pub file: &'a [u8],
    pub verdict: &'a Verdict,
    pub mark_table: u16,
}

impl<'a> Case<'a> {
    /// The graph and the facts for the mark table, or the number of the reason against it or the file.
    pub fn named(&self) -> Result<&'a (Graph, Facts), u16> {
        oracle::named(self.verdict, self.mark_table)
    }

    /// What a search names.
    fn ask(&self, ceiling: u16, allowance: u16) -> Ask {
        Ask {
            mark_table: self.mark_table,
            ceiling,
            allowance,
        }
    }
}

/// The tables of one call before it, and what they must hold after it. The answer table is that of distances too.
struct Tables {
    answer: Vec<u16>,
    answer_after: Vec<u16>,
    work: Vec<u16>,
    work_after: Vec<u16>,
}

impl Tables {
    /// Tables for a call that names a mark table.
    fn new(
        lot: &mut Random,
        verdict: &Verdict,
        mark_table: u16,
        answer_len: usize,
        work_len: usize,
        written: &[u16],
    ) -> Tables {
        let answer = dirty(lot, answer_len);
        let work = dirty(lot, work_len);
        Tables {
            answer_after: oracle::answer_after(&answer, written),
            work_after: oracle::work_after(verdict, mark_table, &work),
            answer,
            work,
        }
    }
}

/// A call on a file: what it is, its tables, and the answer that is expected.
struct Call<'a, T> {
    file: &'a [u8],
    what: String,
    tables: Tables,
    expected: T,
}

impl<T: Figures + PartialEq> Call<'_, T> {
    /// Calls versions with copies of the tables, and compares their answers and the tables afterwards.
    fn compare(
        &self,
        counts: &mut Counts,
        versions: &[&dyn Version],
        call: impl Fn(&dyn Version, &mut [u16], &mut [u16]) -> T,
    ) {
        let tables = &self.tables;
        for &version in versions {
            let (mut answer, mut work) = (tables.answer.clone(), tables.work.clone());
            let got = call(version, &mut answer, &mut work);
            if got != self.expected || answer != tables.answer_after || work != tables.work_after {
                self.differs(counts, version.name());
            }
        }
    }

    /// The same for a C function: its value, and the table of figures, past which nothing changes. The answer is counted.
    fn compare_in_c(
        &self,
        lot: &mut Random,
        counts: &mut Counts,
        name: &str,
        call: impl FnOnce(&mut [u16], &mut [u16], &mut [u16]) -> u16,
    ) {
        let tables = &self.tables;
        let (value, figures) = self.expected.figures();
        counts.count_value(value);
        let len = out_len(lot);
        let (mut answer, mut work, mut out) =
            (tables.answer.clone(), tables.work.clone(), dirty(lot, len));
        let mut out_after = out.clone();
        let got = call(&mut answer, &mut work, &mut out);
        let agrees = if len < 4 {
            counts.out_too_short += 1;
            let unchanged = (&out_after, &tables.answer, &tables.work);
            got == kind::OUT_TOO_SHORT && (&out, &answer, &work) == unchanged
        } else {
            out_after[..figures.len()].copy_from_slice(&figures);
            let expected = (&out_after, &tables.answer_after, &tables.work_after);
            got == value && (&out, &answer, &work) == expected
        };
        if !agrees {
            self.differs(counts, name);
        }
    }

    fn differs(&self, counts: &mut Counts, version: &str) {
        counts.difference(&format!("{}: {version}", self.what), self.file);
    }
}

pub fn compare_step(
    lot: &mut Random,
    counts: &mut Counts,
    case: Case,
    ceiling: u16,
    so_far: Record,
    work_len: usize,
) {
    let Case {
        file,
        verdict,
        mark_table,
    } = case;
    counts.steps += 1;
    let expected = oracle::step(verdict, mark_table, ceiling, so_far, work_len);
    if let StepAnswer::Advanced(Record { best: Some(b), .. }) = expected {
        counts.bests_above += u64::from(b > ceiling);
    }
    let call = Call {
        file,
        what: format!("step, table {mark_table}, under {ceiling} {so_far:?}"),
        tables: Tables::new(lot, verdict, mark_table, 0, work_len, &[]),
        expected,
    };
    call.compare_in_c(lot, counts, "proved", |_, work, out| {
        step_into(file, mark_table, ceiling, so_far, work, out)
    });
    call.compare(counts, &FINDERS, |version, _, work| {
        version.step(file, mark_table, ceiling, so_far, work)
    });
}

pub fn compare_search(
    lot: &mut Random,
    counts: &mut Counts,
    case: Case,
    ceiling: u16,
    allowance: u16,
    answer_len: usize,
    work_len: usize,
) {
    let Case { file, verdict, .. } = case;
    let ask = case.ask(ceiling, allowance);
    counts.searches += 1;
    let (expected, list) = oracle::search(verdict, ask, answer_len, work_len);
    if let (SearchAnswer::NoneWithin { .. }, Ok((_, facts))) = (expected, case.named()) {
        counts.lists_above += u64::from(facts.length().is_some());
    }
    let call = Call {
        file,
        what: format!("search {ask:?}"),
        tables: Tables::new(lot, verdict, case.mark_table, answer_len, work_len, list),
        expected,
    };
    call.compare_in_c(lot, counts, "proved", |answer, work, out| {
        search_into(file, ask, answer, work, out)
    });
    call.compare(counts, &FINDERS, |version, answer, work| {
        version.search(file, ask, answer, work)
    });
}

pub fn compare_next(
    lot: &mut Random,
    counts: &mut Counts,
    case: Case,
    earlier: &[u16],
    answer_len: usize,
    work_len: usize,
) {
    let Case {
        file,
        verdict,
        mark_table,
    } = case;
    counts.nexts += 1;
    let (expected, list) = oracle::next(verdict, mark_table, earlier, answer_len, work_len);
    let call = Call {
        file,
        what: format!("next, table {mark_table}, {earlier:?}"),
        tables: Tables::new(lot, verdict, mark_table, answer_len, work_len, list),
        expected,
    };
    call.compare_in_c(lot, counts, "proved", |answer, work, out| {
        next_into(file, mark_table, earlier, answer, work, out)
    });
    call.compare(counts, &FINDERS, |version, answer, work| {
        version.next(file, mark_table, earlier, answer, work)
    });
}

pub fn compare_distances(
    lot: &mut Random,
    counts: &mut Counts,
    case: Case,
    ceiling: u16,
    table_len: usize,
    work_len: usize,
) {
    let Case { file, verdict, .. } = case;
    counts.distances += 1;
    let (expected, entries) = oracle::distances(verdict, ceiling, table_len, work_len);
    let call = Call {
        file,
        what: format!("distances up to {ceiling}, {table_len}"),
        tables: Tables::new(lot, verdict, TABLE_0, table_len, work_len, &entries),
        expected,
    };
    call.compare_in_c(lot, counts, "in C", |distances, work, out| {
        distances_into(file, ceiling, distances, work, out)
    });
    call.compare(counts, &VERSIONS, |version, distances, work| {
        version.distances(file, ceiling, distances, work)
    });
}
