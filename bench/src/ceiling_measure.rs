//! The measurement of ceilings: the search of a family under a ceiling far below its length beside the search of the whole
//! model, in one run, and the table of the results.

use std::time::Duration;

use crate::fahkelo::{SearchAnswer, FULL_CEILING};
use crate::families::{Family, FAMILIES};
use crate::measure::{
    agreed_answer, count_work, least_times_unequal, millis, ratio, search_once, textbook_once,
};
use crate::ported::access::Work;
use crate::versions::{Proved, PAIRED, SAFE, UNCHECKED};

pub const STATES: usize = 4096;

/// The steps that a classroom sheet holds.
const SHEET: usize = 60;

/// A family under its ceiling: the file, the length of its shortest accepting paths, and the ceiling.
pub struct Capped {
    pub family: &'static Family,
    file: Vec<u8>,
    length: usize,
    pub ceiling: u16,
}

/// The families whose shortest accepting paths are longer than a sheet. The ceiling is that of a sheet, or an eighth of
/// the length if that is less.
pub fn capped() -> impl Iterator<Item = Capped> {
    FAMILIES.iter().filter_map(|family| {
        let file = (family.make)(STATES).to_bytes();
        let length = textbook_once(&file, FULL_CEILING)?.len() - 1;
        let ceiling = SHEET.min(length / 8) as u16;
        (length > SHEET).then_some(Capped {
            family,
            file,
            length,
            ceiling,
        })
    })
}

/// The times of the proved search without the ceiling, then of the proved, safe, paired and unchecked ones under it.
fn times(file: &[u8], ceiling: u16) -> [Duration; 5] {
    least_times_unequal([
        &mut || drop(search_once(&Proved, file, STATES, FULL_CEILING)),
        &mut || drop(search_once(&Proved, file, STATES, ceiling)),
        &mut || drop(search_once(&SAFE, file, STATES, ceiling)),
        &mut || drop(search_once(&PAIRED, file, STATES, ceiling)),
        &mut || drop(search_once(&UNCHECKED, file, STATES, ceiling)),
    ])
}

/// The searches over the model and the edges that they look at, all phases together.
fn work(file: &[u8], ceiling: u16) -> (u64, u64) {
    let Work { spreads, edges, .. } = count_work(file, STATES, ceiling);
    (spreads.iter().sum(), edges.iter().sum())
}

/// Measures the families whose names hold a word, and prints the table.
pub fn run(word: &str) {
    println!("search of {STATES} states without a ceiling (4096) and under one far below the length, where there is none within;");
    println!("milliseconds of processor time; the last ratios are those under the ceiling\n");
    println!("| family | rounds | L | ceiling | spreads | under | edges looked at | under | proved | under | under/without | safe under | paired under | unchecked under | proved/safe | proved/paired | proved/unchecked |");
    println!("|---|---|---|---|---|---|---|---|---|---|---|---|---|---|---|---|---|");
    for capped in capped().filter(|capped| capped.family.name.contains(word)) {
        print_row(&capped);
    }
}

fn print_row(capped: &Capped) {
    let Capped {
        family,
        file,
        length,
        ceiling,
    } = capped;
    let SearchAnswer::NoneWithin { rounds } = agreed_answer(file, STATES, *ceiling) else {
        panic!("{}: a list within {ceiling}", family.name);
    };
    let (spreads, edges) = work(file, FULL_CEILING);
    let (spreads_under, edges_under) = work(file, *ceiling);
    let [without, proved, safe, paired, unchecked] = times(file, *ceiling);
    let [a, b, c, d, e] = [without, proved, safe, paired, unchecked].map(millis);
    println!(
        "| {} | {rounds} | {length} | {ceiling} | {spreads} | {spreads_under} | {edges} | {edges_under} | {a:.3} | {b:.3} | {:.4} | {c:.3} | {d:.3} | {e:.3} | {:.2} | {:.2} | {:.2} |",
        family.name,
        ratio(proved, without),
        ratio(proved, safe),
        ratio(proved, paired),
        ratio(proved, unchecked)
    );
}
