//! The differential run: many files, valid and damaged, and many calls on each, whose answers and tables are compared
//! with what the reference says. The library is called by its C functions, the versions in Rust beside it.

use crate::counts::Counts;
use crate::fahkelo::{Record, StepAnswer, FULL_CEILING, TABLE_0, TABLE_1};
use crate::families::FAMILIES;
use crate::graph::Graph;
use crate::model::Model;
use crate::oracle::{self, Verdict};
use crate::random::Random;
use crate::reference::{distances_by_sweeps, read, rounds_by_formula, Facts, SMALL};
use crate::samples::{
    answer_len, ceiling_about, damage, model_of_family, model_of_round, random_record,
    table_above_1, walk, work_len, wrong_list,
};
use crate::sequences::compare_sequence;
use crate::textbook::{Lister, Textbook};
use crate::trials::{compare_distances, compare_next, compare_search, compare_step, Case};

/// Lists of a larger model's roll that are compared.
const MOST_LISTS: usize = 60;

/// Runs the comparison on so many files, two of each model: bytes 6–7 are 0 and 1. Half of the models have two mark tables,
/// and so have the families. The number of differences.
pub fn run(count: u64, seed: u64) -> u64 {
    let mut lot = Random::new(seed);
    let mut counts = Counts::default();
    for round in 0..count.div_ceil(2) {
        let damaged = round % 2 == 1;
        let model = model_of_round(&mut lot, round);
        for model in [false, true].map(|stays| model.staying(stays)) {
            let file = file_of(&mut lot, &mut counts, &model, damaged);
            compare_file(&mut lot, &mut counts, &file, (!damaged).then_some(&model));
        }
    }
    for family in FAMILIES {
        let model = model_of_family(&mut lot, family);
        for stays in [false, true] {
            compare_family(&mut lot, &mut counts, &model.staying(stays).to_bytes());
        }
    }
    counts.print();
    counts.differences
}

/// The file of a model, damaged or not.
pub fn file_of(lot: &mut Random, counts: &mut Counts, model: &Model, damaged: bool) -> Vec<u8> {
    let mut file = model.to_bytes();
    if damaged {
        damage(lot, &mut file);
        counts.damaged += 1;
    }
    file
}

/// The file of a measured family, by both mark tables, and its distances.
fn compare_family(lot: &mut Random, counts: &mut Counts, file: &[u8]) {
    let verdict = &verdict_of(counts, file, None);
    for mark_table in [TABLE_0, TABLE_1] {
        let case = Case {
            file,
            verdict,
            mark_table,
        };
        let Ok((graph, facts)) = case.named() else {
            counts.difference("a family's file is refused", file);
            return;
        };
        compare_family_by(lot, counts, case, graph, facts);
        if mark_table == TABLE_0 {
            let ceilings = some_ceilings(greatest(&facts.distances));
            compare_all_distances(lot, counts, case, &ceilings, graph.states());
        }
    }
}

/// Searches and steps under some ceilings, the lists after the first, and a sequence, by one mark table of a family.
fn compare_family_by(
    lot: &mut Random,
    counts: &mut Counts,
    case: Case,
    graph: &Graph,
    facts: &Facts,
) {
    let states = graph.states();
    let needed = facts.length().map_or(1, |length| length + 1);
    for ceiling in some_ceilings(needed as u16 - 1) {
        let (answer, work) = (answer_len(lot, needed), work_len(lot, states));
        compare_search(lot, counts, case, ceiling, 65535, answer, work);
        let record = random_record(lot, facts.candidates.len(), needed, ceiling);
        compare_step(lot, counts, case, ceiling, record, 6 * states);
    }
    let roll = &facts.roll[..facts.roll.len().min(20)];
    compare_roll(lot, counts, case, roll, states);
    compare_sequence(lot, counts, case);
}

/// The ceilings that are above 4,096 or just not.
const HIGH_CEILINGS: [u16; 3] = [4096, 4097, 65535];

/// Every ceiling from 0 to one above a length, and the high ones.
fn all_ceilings(length: u16) -> Vec<u16> {
    (0..=length + 1).chain(HIGH_CEILINGS).collect()
}

/// Some of them, for a great length.
fn some_ceilings(length: u16) -> Vec<u16> {
    let about = [
        0,
        1,
        length / 2,
        length.saturating_sub(1),
        length,
        length + 1,
    ];
    about.into_iter().chain(HIGH_CEILINGS).collect()
}

/// The greatest of the lengths that there are, or 0.
fn greatest(lengths: &[Option<u16>]) -> u16 {
    lengths.iter().flatten().copied().max().unwrap_or(0)
}

/// The file's verdict by the reference. A model that was written must be read back.
pub fn verdict_of(counts: &mut Counts, file: &[u8], written: Option<&Model>) -> Verdict {
    let model = match read(file) {
        Err(number) => {
            if written.is_some() {
                counts.difference("the reference refuses a file as written", file);
            }
            counts.refused_files[number as usize] += 1;
            return Err(number);
        }
        Ok(model) => model,
    };
    if written.is_some_and(|written| *written != model) {
        counts.difference("the reference reads another model than was written", file);
    }
    counts.staying += u64::from(model.stays);
    counts.implying += u64::from(model.implies_steps());
    counts.two_tables += u64::from(model.second.is_some());
    if model.states() > SMALL {
        counts.large += 1;
    } else {
        counts.small += 1;
    }
    Ok([TABLE_0, TABLE_1].map(|mark_table| {
        let graph = Graph::of(model.clone(), mark_table);
        let facts = facts_of(counts, file, &graph);
        (graph, facts)
    }))
}

/// The facts of a graph: exhaustive ones of a small one, to which the textbook version is held, and else those of that.
fn facts_of(counts: &mut Counts, file: &[u8], graph: &Graph) -> Facts {
    let by_textbook = textbook_facts(graph);
    if graph.states() > SMALL {
        return by_textbook;
    }
    let facts = Facts::by_exhaustion(graph, FULL_CEILING);
    if facts.round_lengths != rounds_by_formula(graph, &facts.candidates) {
        counts.difference("rounds: exhaustive search and formula", file);
    }
    let known = facts.roll.len().min(MOST_LISTS);
    if by_textbook.candidates != facts.candidates
        || by_textbook.round_lengths != facts.round_lengths
        || by_textbook.roll[..] != facts.roll[..known]
    {
        counts.difference("exhaustive search and textbook", file);
    }
    facts
}

/// The facts of a graph by the textbook version.
fn textbook_facts(graph: &Graph) -> Facts {
    let textbook = Textbook::new(graph);
    let mut roll = Vec::new();
    let mut cut_off = false;
    if let Some(mut lister) = textbook.solve(FULL_CEILING) {
        roll.push(lister.list().to_vec());
        while lister.advance() {
            if roll.len() == MOST_LISTS {
                cut_off = true;
                break;
            }
            roll.push(lister.list().to_vec());
        }
    }
    Facts {
        candidates: textbook.candidates(),
        round_lengths: textbook.round_lengths(FULL_CEILING),
        roll,
        cut_off,
        distances: distances_by_sweeps(graph),
    }
}

/// What the oracle says of each ceiling must be what the exhaustive search says where an accepting path is one not longer
/// than the ceiling, on a small model, and what the textbook version says, which does not look for longer ones.
fn check_ceilings(counts: &mut Counts, file: &[u8], graph: &Graph, facts: &Facts, ceiling: u16) {
    let lengths: Vec<Option<u16>> = oracle::rounds_within(facts, ceiling).collect();
    let first = oracle::first_within(facts, ceiling);
    let textbook = Textbook::new(graph);
    let lister = textbook.solve(ceiling);
    if textbook.candidates() != facts.candidates
        || textbook.round_lengths(ceiling) != lengths
        || lister.as_ref().map(Lister::list) != first
    {
        counts.difference(&format!("the oracle and textbook under {ceiling}"), file);
    }
    if graph.states() > SMALL {
        return;
    }
    let within = Facts::by_exhaustion(graph, ceiling);
    let all_or_none = first.map_or(&[][..], |_| &facts.roll);
    if within.candidates != facts.candidates
        || within.round_lengths != lengths
        || within.roll != all_or_none
    {
        counts.difference(&format!("the oracle and exhaustive under {ceiling}"), file);
    }
}

/// All comparisons on one file. A file that is refused is tried by one of its mark tables, any other by both, and each by
/// a number above 1.
fn compare_file(lot: &mut Random, counts: &mut Counts, file: &[u8], written: Option<&Model>) {
    let verdict = &verdict_of(counts, file, written);
    let case = |mark_table| Case {
        file,
        verdict,
        mark_table,
    };
    match verdict {
        Err(_) => {
            let mark_table = lot.below(2) as u16;
            compare_naming(lot, counts, case(mark_table));
        }
        Ok(tables) => {
            for mark_table in [TABLE_0, TABLE_1] {
                compare_naming(lot, counts, case(mark_table));
                compare_sequence(lot, counts, case(mark_table));
            }
            let (graph, facts) = &tables[0];
            let ceilings = all_ceilings(greatest(&facts.distances));
            compare_all_distances(lot, counts, case(TABLE_0), &ceilings, graph.states());
        }
    }
    let no_table = table_above_1(lot);
    compare_no_table(lot, counts, case(no_table));
}

/// Steps, searches and nexts that name a mark table, 0 or 1; and distances on a file that is refused.
fn compare_naming(lot: &mut Random, counts: &mut Counts, case: Case) {
    let (states, needed, roll, ceilings) = match case.named() {
        Err(_) => (4, 3, Vec::new(), all_ceilings(0)),
        Ok((graph, facts)) => (
            graph.states(),
            facts.length().map_or(1, |length| length + 1),
            facts.roll.clone(),
            all_ceilings(greatest(&facts.round_lengths)),
        ),
    };
    for &ceiling in &ceilings {
        compare_under(lot, counts, case, ceiling, states, needed);
    }
    compare_all_steps(lot, counts, case, states, |lot| {
        ceiling_about(lot, needed - 1)
    });
    compare_roll(lot, counts, case, &roll, states);
    for _ in 0..6 {
        let earlier = match case.named() {
            Ok((graph, _)) if lot.once_in(3) => walk(lot, graph, needed),
            _ => wrong_list(lot, &roll, states, needed),
        };
        let (answer, work) = (answer_len(lot, needed), work_len(lot, states));
        if may_ask(case, &earlier) {
            compare_next(lot, counts, case, &earlier, answer, work);
        }
    }
    if case.verdict.is_err() {
        compare_all_distances(lot, counts, case, &ceilings, states);
    }
}

/// Steps, searches and nexts that name a number above 1, with any other arguments: lists of table 0 are among those lent.
fn compare_no_table(lot: &mut Random, counts: &mut Counts, case: Case) {
    let (states, needed, roll) = match oracle::named(case.verdict, TABLE_0) {
        Err(_) => (4, 3, &[][..]),
        Ok((graph, facts)) => (
            graph.states(),
            facts.length().map_or(1, |length| length + 1),
            &facts.roll[..],
        ),
    };
    let ceiling = ceiling_about(lot, needed - 1);
    compare_under(lot, counts, case, ceiling, states, needed);
    let lists = [
        roll.first().cloned().unwrap_or_default(),
        wrong_list(lot, roll, states, needed),
    ];
    for earlier in lists {
        let (answer, work) = (answer_len(lot, needed), work_len(lot, states));
        compare_next(lot, counts, case, &earlier, answer, work);
    }
}

/// Steps and searches under one ceiling.
fn compare_under(
    lot: &mut Random,
    counts: &mut Counts,
    case: Case,
    ceiling: u16,
    states: usize,
    needed: usize,
) {
    let mut rounds = 1;
    if let Ok((graph, facts)) = case.named() {
        rounds = facts.candidates.len();
        check_ceilings(counts, case.file, graph, facts, ceiling);
    }
    for _ in 0..4 {
        let record = random_record(lot, rounds, needed, ceiling);
        let length = work_len(lot, states);
        compare_step(lot, counts, case, ceiling, record, length);
    }
    compare_all_steps(lot, counts, case, states, |_| ceiling);
    let up_to_enough = 0..=(rounds + 1) as u16;
    for allowance in up_to_enough.chain([65535, lot.word()]) {
        let (answer, work) = (answer_len(lot, needed), work_len(lot, states));
        compare_search(lot, counts, case, ceiling, allowance, answer, work);
    }
}

/// Distances up to each of some ceilings, in tables with an entry too few, as many as there are states, and three more;
/// and with tables of any length.
fn compare_all_distances(
    lot: &mut Random,
    counts: &mut Counts,
    case: Case,
    ceilings: &[u16],
    states: usize,
) {
    for &ceiling in ceilings {
        for table in [states - 1, states, states + 3] {
            let work = 6 * states + lot.below(3);
            compare_distances(lot, counts, case, ceiling, table, work);
        }
        let (table, work) = (answer_len(lot, states), work_len(lot, states));
        compare_distances(lot, counts, case, ceiling, table, work);
    }
}

/// The oracle knows what follows the list.
fn may_ask(case: Case, earlier: &[u16]) -> bool {
    match case.named() {
        Ok((graph, facts)) if facts.cut_off => {
            !oracle::is_shortest(graph, facts, earlier)
                || facts
                    .roll
                    .last()
                    .is_some_and(|last| earlier < last.as_slice())
        }
        _ => true,
    }
}

/// Steps from the first record until the answer is "finished", each under a ceiling that is told.
fn compare_all_steps(
    lot: &mut Random,
    counts: &mut Counts,
    case: Case,
    states: usize,
    ceiling_of: impl Fn(&mut Random) -> u16,
) {
    let mut record = Record {
        done: 0,
        best: None,
    };
    loop {
        let ceiling = ceiling_of(lot);
        compare_step(lot, counts, case, ceiling, record, 6 * states);
        match oracle::step(case.verdict, case.mark_table, ceiling, record, 6 * states) {
            StepAnswer::Advanced(after) => record = after,
            _ => return,
        }
    }
}

/// Searches under the full ceiling, then asks for the next list until there are no more.
pub fn compare_roll(
    lot: &mut Random,
    counts: &mut Counts,
    case: Case,
    roll: &[Vec<u16>],
    states: usize,
) {
    let needed = roll.first().map_or(1, Vec::len);
    compare_search(lot, counts, case, FULL_CEILING, 65535, needed, 6 * states);
    for list in roll {
        if may_ask(case, list) {
            let answer = answer_len(lot, needed);
            compare_next(lot, counts, case, list, answer, 6 * states);
        }
    }
}
