//! The differential run of grades: files, valid and damaged, and lists of many kinds with claims of k, whose verdicts,
//! places, figures and tables are compared with what the oracle says; among them the lists that searches bring, which
//! must all be graded shortest.

use std::collections::BTreeMap;

use crate::counts;
use crate::differential::{file_of, verdict_of};
use crate::fahkelo::{
    grade_into, kind, Ask, GradeAnswer, NextAnswer, SearchAnswer, Verdict, FULL_CEILING, TABLE_0,
    TABLE_1,
};
use crate::families::FAMILIES;
use crate::grade_oracle::{self, is_accepting};
use crate::grade_samples::{any_list, claim, draw, Kind, KINDS};
use crate::grades::{self, LONG};
use crate::model::Model;
use crate::oracle;
use crate::random::Random;
use crate::reference::accepting;
use crate::samples::{
    dirty, dirty_places, model_of_family, model_of_round, out_len, table_above_1, work_len,
};
use crate::trials::Case;
use crate::versions::{Proved, Version, VERSIONS};

/// Lists of each kind that are drawn for a file, and for a file of a family.
const LISTS: usize = 1;
const FAMILY_LISTS: usize = 6;

/// Lists of a file's roll that are received and graded.
const MOST_RECEIVED: usize = 20;

/// Grades of one kind of list: false with a place and without, accepting, shortest, refused.
type Tally = [u64; 5];

/// Counts of a run.
#[derive(Default)]
struct Counts {
    values: BTreeMap<u16, u64>,
    kinds: BTreeMap<Kind, Tally>,
    longest: usize,
    last_place: usize,
    long_paths: u64,
    out_too_short: u64,
    place_too_short: u64,
    files: counts::Counts,
}

impl Counts {
    fn difference(&mut self, what: &str, case: Case, call: &Call) {
        self.files.difference(what, case.file);
        if self.files.differences <= 10 {
            let shown = &call.list[..call.list.len().min(40)];
            println!(
                "  mark table {}, list of {} entries {shown:?}, k {}, working table of {}",
                case.mark_table,
                call.list.len(),
                call.k,
                call.work_len
            );
        }
    }
}

/// The arguments of a call beside the file and the mark table.
struct Call<'a> {
    kind: Kind,
    list: &'a [u16],
    k: u16,
    work_len: usize,
}

/// Runs the comparison on so many files, two of each model: bytes 6–7 are 0 and 1. Half of the models have two mark tables,
/// and so have the families. The number of differences.
pub fn run(count: u64, seed: u64) -> u64 {
    let mut lot = Random::new(seed);
    let mut counts = Counts::default();
    for round in 0..count.div_ceil(2) {
        let damaged = round % 3 == 2;
        let model = model_of_round(&mut lot, round);
        for model in [false, true].map(|stays| model.staying(stays)) {
            let file = file_of(&mut lot, &mut counts.files, &model, damaged);
            let written = (!damaged).then_some(&model);
            compare_file(&mut lot, &mut counts, &file, written, LISTS);
        }
    }
    for family in FAMILIES {
        let model = model_of_family(&mut lot, family);
        for model in [false, true].map(|stays| model.staying(stays)) {
            let file = model.to_bytes();
            compare_file(&mut lot, &mut counts, &file, Some(&model), FAMILY_LISTS);
        }
    }
    for name in LONG {
        compare_long(&mut lot, &mut counts, name);
    }
    print(&counts);
    counts.files.differences
}

fn print(counts: &Counts) {
    let words: Vec<String> = counts
        .values
        .iter()
        .map(|(value, n)| format!("{value}: {n}"))
        .collect();
    counts.files.print_files();
    println!("grades by value: {}", words.join(", "));
    println!("\n| lists | false, a place | false, none | accepting | shortest | refused |");
    println!("|---|---|---|---|---|---|");
    for (kind, tally) in &counts.kinds {
        let numbers = tally.map(|n| n.to_string());
        println!("| {kind:?} | {} |", numbers.join(" | "));
    }
    println!(
        "\nlongest list: {} entries; greatest place: {}; lists of at least 1,000 entries that break nowhere: {}",
        counts.longest, counts.last_place, counts.long_paths
    );
    println!(
        "of the calls in C, with too short a table for the figures: {}, for the place: {}",
        counts.out_too_short, counts.place_too_short
    );
    println!("differences {}", counts.files.differences);
}

/// All comparisons on one file, with so many lists of each kind: by both mark tables, and by a number above 1.
fn compare_file(
    lot: &mut Random,
    counts: &mut Counts,
    file: &[u8],
    written: Option<&Model>,
    lists: usize,
) {
    let verdict = &verdict_of(&mut counts.files, file, written);
    for mark_table in [TABLE_0, TABLE_1, table_above_1(lot)] {
        let case = Case {
            file,
            verdict,
            mark_table,
        };
        compare_lists(lot, counts, case, lists);
        if let Ok((graph, facts)) = case.named() {
            let expected = facts.roll.len().min(MOST_RECEIVED);
            if compare_received(lot, counts, case, graph.states()) != expected {
                counts
                    .files
                    .difference("the number of lists received", file);
            }
        }
    }
}

/// So many lists of each kind. Where there is no such mark table, they are drawn for table 0.
fn compare_lists(lot: &mut Random, counts: &mut Counts, case: Case, lists: usize) {
    let drawn_for = match case.named() {
        Err(22) => oracle::named(case.verdict, TABLE_0),
        named => named,
    };
    for kind in KINDS {
        for _ in 0..lists {
            let (list, states) = match drawn_for {
                Ok((graph, facts)) => (draw(lot, kind, graph, facts), graph.states()),
                Err(_) => (any_list(lot, 4), 4),
            };
            let call = Call {
                kind,
                k: claim(lot, &list),
                list: &list,
                work_len: work_len(lot, states),
            };
            compare(lot, counts, case, &call);
        }
    }
}

/// A measured long list, and the same broken at its last place, with both flags of bytes 6–7.
fn compare_long(lot: &mut Random, counts: &mut Counts, name: &str) {
    let grades::Graded { input, place, .. } = grades::named(name).expect("it is one of the names");
    let kind = match place {
        None => Kind::Long,
        Some(_) => Kind::LongBroken,
    };
    let mut broken = input.list.clone();
    *broken.last_mut().expect("the list is long") = u16::MAX;
    for stays in [0, 1] {
        let mut file = input.file.clone();
        file[6] = stays;
        let verdict = verdict_of(&mut counts.files, &file, None);
        let case = Case {
            file: &file,
            verdict: &verdict,
            mark_table: TABLE_0,
        };
        for (kind, list) in [(kind, &input.list), (Kind::LongBroken, &broken)] {
            let call = Call {
                kind,
                list,
                k: claim(lot, list),
                work_len: 6 * 4096,
            };
            compare(lot, counts, case, &call);
        }
    }
}

/// The lists that a search and next bring, each with its k; how many they are, as far as they are asked for.
fn compare_received(lot: &mut Random, counts: &mut Counts, case: Case, states: usize) -> usize {
    let Case {
        file, mark_table, ..
    } = case;
    let mut answer = vec![0; states + 1];
    let mut work = vec![0; 6 * states];
    let ask = Ask {
        mark_table,
        ..Ask::under(FULL_CEILING)
    };
    let found = Proved.search(file, ask, &mut answer, &mut work);
    let SearchAnswer::Found {
        length, loop_start, ..
    } = found
    else {
        return 0;
    };
    let entries = length as usize + 1;
    let mut k = loop_start;
    for received in 1..=MOST_RECEIVED {
        let list = answer[..entries].to_vec();
        let call = Call {
            kind: Kind::Received,
            list: &list,
            k,
            work_len: 6 * states,
        };
        let expected = compare(lot, counts, case, &call);
        if expected != GradeAnswer::Graded(Verdict::Shortest, None) {
            counts.difference("a list received is not graded shortest", case, &call);
        }
        match Proved.next(file, mark_table, &list, &mut answer, &mut work) {
            NextAnswer::Found { loop_start, .. } => k = loop_start,
            _ => return received,
        }
    }
    MOST_RECEIVED
}

/// The value that is returned for an answer.
fn value_of(answer: GradeAnswer) -> u16 {
    match answer {
        GradeAnswer::Refused(number) => number,
        GradeAnswer::Graded(Verdict::False, _) => kind::FALSE,
        GradeAnswer::Graded(Verdict::Accepting, _) => kind::ACCEPTING,
        GradeAnswer::Graded(Verdict::Shortest, _) => kind::SHORTEST,
    }
}

fn count(counts: &mut Counts, call: &Call, answer: GradeAnswer) {
    *counts.values.entry(value_of(answer)).or_default() += 1;
    let column = match answer {
        GradeAnswer::Graded(Verdict::False, Some(_)) => 0,
        GradeAnswer::Graded(Verdict::False, None) => 1,
        GradeAnswer::Graded(Verdict::Accepting, _) => 2,
        GradeAnswer::Graded(Verdict::Shortest, _) => 3,
        GradeAnswer::Refused(_) => 4,
    };
    counts.kinds.entry(call.kind).or_default()[column] += 1;
    counts.longest = counts.longest.max(call.list.len());
    if let GradeAnswer::Graded(_, place) = answer {
        counts.last_place = counts.last_place.max(place.unwrap_or(0));
        counts.long_paths += u64::from(place.is_none() && call.list.len() >= 1000);
    }
}

/// One call of the C function and of each version, with copies of the tables; the answer that is expected.
fn compare(lot: &mut Random, counts: &mut Counts, case: Case, call: &Call) -> GradeAnswer {
    let Case {
        file,
        verdict,
        mark_table,
    } = case;
    let expected = grade_oracle::grade(verdict, mark_table, call.list, call.k, call.work_len);
    count(counts, call, expected);
    if let Ok((graph, _)) = case.named() {
        let k = call.k as usize;
        if is_accepting(graph, call.list, k) != (accepting(graph, call.list) == Some(k)) {
            counts.difference("accepting: the oracle and the reference", case, call);
        }
    }
    let work = dirty(lot, call.work_len);
    let work_after = oracle::work_after(verdict, mark_table, &work);
    if !agrees_in_c(lot, counts, case, call, expected, &work, &work_after) {
        counts.difference("grade: in C", case, call);
    }
    for version in VERSIONS {
        let mut used = work.clone();
        let got = version.grade(file, mark_table, call.list, call.k, &mut used);
        if got != expected || used != work_after {
            counts.difference(&format!("grade: {}", version.name()), case, call);
        }
    }
    expected
}

/// Calls the C function with copies of the tables, and compares its value and all tables afterwards.
fn agrees_in_c(
    lot: &mut Random,
    counts: &mut Counts,
    case: Case,
    call: &Call,
    expected: GradeAnswer,
    work: &[u16],
    work_after: &[u16],
) -> bool {
    let out_len = out_len(lot);
    let place_len = match lot.below(12) {
        0 => 0,
        _ => lot.between(1, 3),
    };
    let mut out = dirty(lot, out_len);
    let mut place = dirty_places(lot, place_len);
    let mut used = work.to_vec();
    let (mut out_after, mut place_after) = (out.clone(), place.clone());
    let got = grade_into(
        case.file,
        case.mark_table,
        call.list,
        call.k,
        &mut place,
        &mut used,
        &mut out,
    );
    if out_len < 4 || place_len < 1 {
        counts.out_too_short += u64::from(out_len < 4);
        counts.place_too_short += u64::from(place_len < 1);
        return got == kind::OUT_TOO_SHORT
            && out == out_after
            && place == place_after
            && used == work;
    }
    if let GradeAnswer::Graded(_, broken) = expected {
        out_after[0] = u16::from(broken.is_some());
        if let Some(broken) = broken {
            place_after[0] = broken;
        }
    }
    got == value_of(expected) && out == out_after && place == place_after && used == work_after
}
