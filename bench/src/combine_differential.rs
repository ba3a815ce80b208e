//! The differential run of combinations: rules, letters and properties, valid and damaged, whose answers, figures and
//! outputs are compared with what the reference says; then searches on the files that were written.

use std::collections::BTreeMap;

use crate::combinations::{Input, COMBINATIONS};
use crate::combine_measure::OUTPUT_MOST;
use crate::combine_samples::{
    at_limits, damage_input, dirty_bytes, has_two_tables, large, middle, output_len, small,
};
use crate::counts;
use crate::differential::{compare_roll, verdict_of};
use crate::fahkelo::{combine_into, kind, CombineAnswer, TABLE_0};
use crate::model::Model;
use crate::product::{is_pair_of_paths, product};
use crate::random::Random;
use crate::reference::{read, read_property};
use crate::samples::{dirty, out_len};
use crate::trials::Case;
use crate::versions::{Version, PAIRED, SAFE};

/// Lists of a result's roll that are compared.
const MOST_LISTS: usize = 4;

/// Counts of a run.
#[derive(Default)]
struct Counts {
    combinations: u64,
    rules_implying: u64,
    properties_implying: u64,
    rules_with_two: u64,
    properties_with_two: u64,
    values: BTreeMap<u16, u64>,
    largest: (usize, usize),
    paths: u64,
    out_too_short: u64,
    searches: counts::Counts,
}

impl Counts {
    fn difference(&mut self, what: &str, input: &Input) {
        self.searches.difference(what, &input.rule);
        if self.searches.differences <= 10 {
            println!("  letters {:02x?}", input.letters);
            println!("  property {:02x?}", input.property);
        }
    }
}

/// The flags of bytes 6–7, of a rule and of a property.
const FLAGS: [(bool, bool); 4] = [(false, false), (false, true), (true, false), (true, true)];

/// Runs the comparison on so many combinations, four of each input: bytes 6–7 of the rule and of the property are 0 and
/// 1. The number of differences.
pub fn run(count: u64, seed: u64) -> u64 {
    let mut lot = Random::new(seed);
    let mut counts = Counts::default();
    for round in 0..count.div_ceil(4) {
        let drawn = match round % 40 {
            0..=31 => small(&mut lot),
            32..=37 => middle(&mut lot),
            _ => large(&mut lot),
        };
        for (rule, property) in FLAGS {
            let mut input = drawn.staying(rule, property);
            if round % 3 == 2 {
                damage_input(&mut lot, &mut input);
            }
            compare(&mut lot, &mut counts, &input);
        }
    }
    for family in COMBINATIONS {
        let made = family.make();
        for (rule, property) in FLAGS {
            compare(&mut lot, &mut counts, &made.staying(rule, property));
        }
    }
    for (input, refusal) in at_limits() {
        if product(&input.rule, &input.letters, &input.property).err() != refusal {
            counts.difference("the reference at a limit", &input);
        }
        compare(&mut lot, &mut counts, &input);
    }
    print(&counts);
    counts.searches.differences
}

fn print(counts: &Counts) {
    let shown = |values: &BTreeMap<u16, u64>| {
        let words: Vec<String> = values.iter().map(|(i, n)| format!("{i}: {n}")).collect();
        words.join(", ")
    };
    println!(
        "combinations: {}; largest result: {} states, {} edges; lists held to be pairs of paths: {}",
        counts.combinations, counts.largest.0, counts.largest.1, counts.paths
    );
    println!(
        "bytes 6–7 are 1 and some state has no edge: {} rules, {} properties; two mark tables: {} rules, {} properties (17)",
        counts.rules_implying,
        counts.properties_implying,
        counts.rules_with_two,
        counts.properties_with_two
    );
    println!(
        "calls by value: {}; of the calls in C, with too short a table for the figures: {}",
        shown(&counts.values),
        counts.out_too_short
    );
    println!("searches on the results:");
    counts.searches.print();
}

/// All comparisons on one input: several outputs, and searches on the result.
fn compare(lot: &mut Random, counts: &mut Counts, input: &Input) {
    counts.combinations += 1;
    count_kinds(counts, input);
    let verdict = product(&input.rule, &input.letters, &input.property);
    let file = verdict.as_ref().map(Model::to_bytes).map_err(|&n| n);
    let needed = match &file {
        Ok(file) => file.len(),
        Err(_) if lot.once_in(4) => OUTPUT_MOST,
        Err(_) => 60,
    };
    let lengths = [needed, output_len(lot, needed), output_len(lot, needed)];
    for length in lengths {
        let output = dirty_bytes(lot, length);
        compare_call(lot, counts, input, &file, &output);
    }
    if let (Ok(model), Ok(file)) = (&verdict, &file) {
        counts.largest = counts.largest.max((model.states(), model.edges()));
        compare_searches(lot, counts, input, model, file);
    }
}

/// Counts the rule and the property, if they are accepted and have implied steps; the rule, if it is accepted and has two
/// mark tables; the property, if it has two and the masks after them.
fn count_kinds(counts: &mut Counts, input: &Input) {
    if let Ok(rule) = read(&input.rule) {
        counts.rules_implying += u64::from(rule.implies_steps());
        counts.rules_with_two += u64::from(rule.second.is_some());
    }
    if let Ok((property, _)) = read_property(&input.property) {
        counts.properties_implying += u64::from(property.implies_steps());
    }
    counts.properties_with_two += u64::from(has_two_tables(&input.property));
}

/// The answer for an output of a length.
fn answer_of(file: &Result<Vec<u8>, u16>, length: usize) -> CombineAnswer {
    match file {
        Err(number) => CombineAnswer::Refused(*number),
        Ok(file) if length < file.len() => CombineAnswer::Refused(15),
        Ok(file) => CombineAnswer::Written(file.len()),
    }
}

/// One call of the library, of the safe and of the paired version, with copies of the output.
fn compare_call(
    lot: &mut Random,
    counts: &mut Counts,
    input: &Input,
    file: &Result<Vec<u8>, u16>,
    before: &[u8],
) {
    let expected = answer_of(file, before.len());
    let mut after = before.to_vec();
    let (value, figure) = match (expected, file) {
        (CombineAnswer::Written(bytes), Ok(file)) => {
            after[..bytes].copy_from_slice(file);
            (kind::WRITTEN, Some(bytes as u16))
        }
        (CombineAnswer::Refused(number), _) => (number, None),
        _ => unreachable!("only a file is written"),
    };
    *counts.values.entry(value).or_default() += 1;
    let Input {
        rule,
        letters,
        property,
    } = input;
    let out_len = out_len(lot);
    let mut out = dirty(lot, out_len);
    let out_before = out.clone();
    let mut output = before.to_vec();
    let got = combine_into(rule, letters, property, &mut output, &mut out);
    let same = if out_len < 4 {
        counts.out_too_short += 1;
        got == kind::OUT_TOO_SHORT && out == out_before && output == before
    } else {
        let mut out_after = out_before;
        if let Some(figure) = figure {
            out_after[0] = figure;
        }
        got == value && out == out_after && output == after
    };
    if !same {
        counts.difference(&format!("combine, {} bytes: proved", before.len()), input);
    }
    for version in [&SAFE as &dyn Version, &PAIRED] {
        let mut output = before.to_vec();
        let got = version.combine(rule, letters, property, &mut output);
        if got != expected || output != after {
            let what = format!("combine, {} bytes: {}", before.len(), version.name());
            counts.difference(&what, input);
        }
    }
}

/// Searches on the file that the library wrote, compared with those on the pairs; each list must be a path of the rule
/// beside one of the property that agrees with its letters.
fn compare_searches(
    lot: &mut Random,
    counts: &mut Counts,
    input: &Input,
    model: &Model,
    file: &[u8],
) {
    let mut written = vec![0; file.len()];
    let Input {
        rule,
        letters,
        property,
    } = input;
    if combine_into(rule, letters, property, &mut written, &mut [0; 4]) != kind::WRITTEN {
        return;
    }
    let verdict = verdict_of(&mut counts.searches, &written, Some(model));
    let case = Case {
        file: &written,
        verdict: &verdict,
        mark_table: TABLE_0,
    };
    let Ok((_, facts)) = case.named() else {
        return;
    };
    let roll = &facts.roll[..facts.roll.len().min(MOST_LISTS)];
    compare_roll(lot, &mut counts.searches, case, roll, model.states());
    for list in roll {
        counts.paths += 1;
        if !is_pair_of_paths(rule, letters, property, list) {
            counts.difference(&format!("not a pair of paths: {list:?}"), input);
        }
    }
}
