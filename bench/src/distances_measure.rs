//! The measurement of distances: each family through every version in one run, and the table of the results.

use std::hint::black_box;

use crate::fahkelo::{DistancesAnswer, FULL_CEILING, NOT_REACHED, TABLE_0};
use crate::families::{Family, FAMILIES};
use crate::graph::Graph;
use crate::measure::{time_columns, version_times};
use crate::reference::{distances_by_sweeps, read};
use crate::versions::{Version, VERSIONS};

const STATES: usize = 4096;

/// The two tables that are lent.
pub struct Tables {
    pub distances: [u16; STATES],
    pub work: [u16; 6 * STATES],
}

impl Tables {
    pub const fn filled(entry: u16) -> Tables {
        Tables {
            distances: [entry; STATES],
            work: [entry; 6 * STATES],
        }
    }
}

/// The file of a family.
pub fn file_of(family: &Family) -> Vec<u8> {
    (family.make)(STATES).to_bytes()
}

/// The distances of a model up to a ceiling by one version.
#[inline(never)]
pub fn distances_once(
    version: &dyn Version,
    file: &[u8],
    ceiling: u16,
    tables: &mut Tables,
) -> DistancesAnswer {
    version.distances(file, ceiling, &mut tables.distances, &mut tables.work)
}

/// All versions must write the distances that sweeps over the edges find, up to the full ceiling and up to half of the
/// greatest distance. The edges of the file, how many states have a distance, and the greatest.
fn agreed(family: &Family, file: &[u8]) -> (usize, usize, u16) {
    let model = read(file).expect("the families are valid files");
    let edges = model.edges();
    let graph = Graph::of(model, TABLE_0);
    let by_sweeps = distances_by_sweeps(&graph);
    let reached = by_sweeps.iter().flatten();
    let greatest = *reached.clone().max().expect("the start is reached");
    for version in VERSIONS {
        for ceiling in [FULL_CEILING, greatest / 2] {
            let within = |distance: &Option<u16>| distance.filter(|&d| d <= ceiling);
            let entries = by_sweeps.iter().map(|d| within(d).unwrap_or(NOT_REACHED));
            let mut tables = Tables::filled(9);
            let answer = distances_once(version, file, ceiling, &mut tables);
            assert!(
                answer == DistancesAnswer::Written(STATES as u16)
                    && entries.eq(tables.distances)
                    && tables.work == [0; 6 * STATES],
                "{}: the {} version differs up to {ceiling}",
                family.name,
                version.name()
            );
        }
    }
    (edges, reached.count(), greatest)
}

/// Measures the families whose names hold a word, and prints the table.
pub fn run(word: &str) {
    println!("distances of {STATES} states, microseconds of processor time\n");
    println!("| family | M | states reached | greatest distance | proved | safe | paired | unchecked | proved/safe | proved/paired | proved/unchecked |");
    println!("|---|---|---|---|---|---|---|---|---|---|---|");
    for family in FAMILIES.iter().filter(|family| family.name.contains(word)) {
        let file = file_of(family);
        let (edges, reached, greatest) = agreed(family, &file);
        let tables = [const { Tables::filled(0) }; 4];
        let times = version_times(tables, |version, tables| {
            black_box(distances_once(
                version,
                black_box(&file),
                FULL_CEILING,
                tables,
            ));
        });
        println!(
            "| {} | {edges} | {reached} | {greatest} | {} |",
            family.name,
            time_columns(times)
        );
    }
}
