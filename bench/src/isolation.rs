//! Isolation by trial, for `cargo test`: while the spare bits are zero, what a call answers by one mark table, and what it
//! leaves in its tables, does not depend on the marks of the other. Every bit of these is flipped, in accepted files and
//! in files that break a rule elsewhere.

use crate::counts::Counts;
use crate::differential::verdict_of;
use crate::fahkelo::{Ask, Record, TABLE_0, TABLE_1};
use crate::oracle::Verdict;
use crate::random::Random;
use crate::samples::{add_table, marks_of, random_model, wrong_list};
use crate::versions::{Version, VERSIONS};

/// What one call did: its answer as text, and its tables afterwards.
type Outcome = (String, Vec<u16>, Vec<u16>);

/// The outcomes of all four calls by a mark table, with various arguments, among them those that are refused.
fn outcomes(
    version: &dyn Version,
    file: &[u8],
    mark_table: u16,
    lists: &[Vec<u16>],
    states: usize,
) -> Vec<Outcome> {
    let mut all = Vec::new();
    let mut call =
        |entries: usize, short: usize, call: &dyn Fn(&mut [u16], &mut [u16]) -> String| {
            let (mut answer, mut work) = (vec![9; entries], vec![9; 6 * states - short]);
            let said = call(&mut answer, &mut work);
            all.push((said, answer, work));
        };
    for ceiling in [0, 2, 3, 4096, 4097] {
        for (done, best, short) in [
            (0, None, 0),
            (1, Some(4), 0),
            (1, Some(4), 1),
            (3, Some(1), 0),
            (65535, None, 0),
        ] {
            let so_far = Record { done, best };
            call(0, short, &|_, work| {
                format!(
                    "{:?}",
                    version.step(file, mark_table, ceiling, so_far, work)
                )
            });
        }
        for (allowance, entries, short) in [
            (0, 1, 0),
            (1, states + 1, 0),
            (2, states + 1, 0),
            (2, states + 1, 1),
            (65535, states + 1, 0),
            (65535, 1, 0),
        ] {
            let ask = Ask {
                mark_table,
                ceiling,
                allowance,
            };
            call(entries, short, &|answer, work| {
                format!("{:?}", version.search(file, ask, answer, work))
            });
        }
    }
    for list in lists {
        for entries in [states + 1, 1] {
            call(entries, 0, &|answer, work| {
                format!("{:?}", version.next(file, mark_table, list, answer, work))
            });
        }
        let home = list.iter().position(|s| Some(s) == list.last());
        for k in [home.unwrap_or(0) as u16, 0, 1] {
            call(0, 0, &|_, work| {
                format!("{:?}", version.grade(file, mark_table, list, k, work))
            });
        }
    }
    all
}

/// Lists to be lent: the first of both rolls, with changes, and any.
fn lists_for(lot: &mut Random, verdict: &Verdict, states: usize) -> Vec<Vec<u16>> {
    let mut lists = vec![wrong_list(lot, &[], states, 4)];
    for (_, facts) in verdict.iter().flatten() {
        let needed = facts.length().map_or(1, |length| length + 1);
        lists.push(wrong_list(lot, &facts.roll, states, needed));
        lists.extend(facts.roll.iter().take(3).cloned());
    }
    lists
}

/// A file of two mark tables whose spare bits are zero; each third breaks a rule in its row table or edge table.
fn random_file(lot: &mut Random, round: usize) -> Vec<u8> {
    let most = if round % 4 == 3 { 20 } else { 7 };
    let mut model = random_model(lot, 1, most).staying(lot.once_in(2));
    add_table(lot, &mut model);
    let mut file = model.to_bytes();
    let marks = marks_of(&file).0;
    if round % 3 == 2 {
        let at = 24 + 2 * lot.below((marks - 24) / 2);
        let value = [0, 1, 3, lot.below(64) as u16, lot.word()][lot.below(5)];
        file[at..at + 2].copy_from_slice(&value.to_le_bytes());
    }
    file
}

#[test]
fn the_marks_of_the_other_table() {
    let mut lot = Random::new(5);
    let mut counts = Counts::default();
    for round in 0..180 {
        let file = random_file(&mut lot, round);
        let states = u16::from_le_bytes([file[0], file[1]]) as usize;
        let verdict = verdict_of(&mut counts, &file, None);
        let lists = lists_for(&mut lot, &verdict, states);
        let (marks, size) = marks_of(&file);
        for (named, other) in [(TABLE_0, TABLE_1), (TABLE_1, TABLE_0)] {
            let at = marks + other as usize * size;
            for version in VERSIONS {
                let before = outcomes(version, &file, named, &lists, states);
                for s in 0..states {
                    let mut flipped = file.clone();
                    flipped[at + s / 8] ^= 1 << (s % 8);
                    let after = outcomes(version, &flipped, named, &lists, states);
                    assert!(
                        after == before,
                        "{}, table {named}, state {s} flipped in the other: {file:02x?}",
                        version.name()
                    );
                }
            }
        }
    }
    let refused: u64 = counts.refused_files.iter().sum();
    assert!(counts.differences == 0 && refused >= 30 && counts.two_tables >= 120);
    assert!([8, 9, 10]
        .iter()
        .all(|&rule| counts.refused_files[rule] > 0));
}
