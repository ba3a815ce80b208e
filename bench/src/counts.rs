//! The counts of a differential run of searches: its files, its calls by value, and its differences.

use std::collections::BTreeMap;
use std::ops::Range;

use crate::fahkelo::kind;
use crate::reference::SMALL;

/// Counts of a run.
#[derive(Default)]
pub struct Counts {
    pub small: u64,
    pub large: u64,
    pub staying: u64,
    pub implying: u64,
    pub two_tables: u64,
    pub refused_files: [u64; 16],
    pub damaged: u64,
    pub steps: u64,
    pub searches: u64,
    pub nexts: u64,
    pub distances: u64,
    pub sequences: u64,
    pub values: BTreeMap<u16, u64>,
    pub lists: u64,
    pub lists_above: u64,
    pub bests_above: u64,
    pub out_too_short: u64,
    pub differences: u64,
}

impl Counts {
    /// Counts a difference; the first ones are shown with their file.
    pub fn difference(&mut self, what: &str, file: &[u8]) {
        self.differences += 1;
        if self.differences <= 10 {
            println!("difference: {what}\n  file {file:02x?}");
        }
    }

    /// Counts an answer by its value.
    pub fn count_value(&mut self, value: u16) {
        *self.values.entry(value).or_default() += 1;
        self.lists += u64::from(value == kind::FOUND);
    }

    pub fn print(&self) {
        let of_values = |values: Range<u16>| {
            let shown = self.values.range(values);
            let words: Vec<String> = shown.map(|(i, n)| format!("{i}: {n}")).collect();
            words.join(", ")
        };
        self.print_files();
        println!(
            "calls: {} steps, {} searches, {} nexts, {} distances; lists received: {}",
            self.steps, self.searches, self.nexts, self.distances, self.lists
        );
        println!(
            "searches with a ceiling below the shortest lists, none within: {}; steps that kept a best above the ceiling: {}; sequences: {}",
            self.lists_above, self.bests_above, self.sequences
        );
        println!(
            "answers by kind: {}; of the calls in C, with too short a table for the figures: {}",
            of_values(kind::FROM..u16::MAX),
            self.out_too_short
        );
        println!("refusals by reason: {}", of_values(0..kind::FROM));
        println!("differences {}", self.differences);
    }

    /// Prints what the files were.
    pub fn print_files(&self) {
        let rules = self.refused_files.iter().enumerate();
        let refused: Vec<String> = rules
            .filter(|(_, &n)| n != 0)
            .map(|(i, n)| format!("{i}: {n}"))
            .collect();
        println!(
            "files accepted: {} of up to {SMALL} states (exhaustive), {} larger (textbook)",
            self.small, self.large
        );
        println!(
            "bytes 6–7 are 1 in {} of them, {} with implied steps; {} have two mark tables",
            self.staying, self.implying, self.two_tables
        );
        println!(
            "files damaged: {}; refused by rule: {}",
            self.damaged,
            refused.join(", ")
        );
    }
}
