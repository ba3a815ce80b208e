//! The measurement of grades: each family through every version in one run, and the table of the results.

use std::hint::black_box;

use crate::fahkelo::{GradeAnswer, TABLE_0};
use crate::grades::{self, Graded, Input, LONG};
use crate::measure::{time_columns, version_times};
use crate::ported::access::{Counting, Work};
use crate::ported::grade;
use crate::versions::{Version, VERSIONS};

/// The entries of a working table that suffices for every model.
pub const WORK_ENTRIES: usize = 6 * 4096;

/// One grade by one version.
#[inline(never)]
pub fn grade_once(version: &dyn Version, input: &Input, work: &mut [u16]) -> GradeAnswer {
    version.grade(&input.file, TABLE_0, &input.list, input.k, work)
}

/// All versions must give the verdict and the place of the family.
fn assert_agreed(family: &Graded) {
    for version in VERSIONS {
        let mut work = [9; WORK_ENTRIES];
        let answer = grade_once(version, &family.input, &mut work);
        assert!(
            answer == GradeAnswer::Graded(family.verdict, family.place)
                && work == [0; WORK_ENTRIES],
            "{}: the {} version differs",
            family.name,
            version.name()
        );
    }
}

/// Measures the families whose names hold a word, and prints the table.
pub fn run(word: &str) {
    println!("grade, microseconds of processor time\n");
    println!("| family | entries | verdict | proved | safe | paired | unchecked | proved/safe | proved/paired | proved/unchecked |");
    println!("|---|---|---|---|---|---|---|---|---|---|");
    for name in grades::names().filter(|name| name.contains(word)) {
        let family = grades::named(&name).expect("it is one of the names");
        assert_agreed(&family);
        let times = version_times([[0; WORK_ENTRIES]; 4], |version, work| {
            black_box(grade_once(version, black_box(&family.input), work));
        });
        println!(
            "| {} | {} | {:?} | {} |",
            family.name,
            family.input.list.len(),
            family.verdict,
            time_columns(times)
        );
    }
}

/// The work of a grade.
fn count_work(input: &Input) -> Work {
    let mut work = [0; WORK_ENTRIES];
    Counting::take();
    grade::grade::<Counting>(&input.file, TABLE_0, &input.list, input.k, &mut work);
    Counting::take()
}

/// Prints how the edges of the long lists are looked for: the edges, and the looks at places of rows for them.
pub fn print_counts() {
    println!("| family | edges looked for | looks | looks an edge | most looks for an edge |");
    println!("|---|---|---|---|---|");
    for name in LONG {
        let family = grades::named(name).expect("it is one of the names");
        let work = count_work(&family.input);
        println!(
            "| {name} | {} | {} | {:.2} | {} |",
            work.sought,
            work.looks,
            work.looks as f64 / work.sought.max(1) as f64,
            work.most_looks
        );
    }
}

#[cfg(test)]
mod tests {
    use super::*;

    fn named(name: &str) -> Input {
        grades::named(name).expect("there is the family").input
    }

    #[test]
    fn looks_for_the_edges_of_long_lists() {
        let most = [
            ("through-4096", 12),
            ("through-2048", 12),
            ("round-a-ring", 1),
        ];
        for (name, most) in most {
            let work = count_work(&named(name));
            assert_eq!((work.sought, work.most_looks), (69_999, most), "{name}");
        }
        assert_eq!(count_work(&named("broken-at-0")).sought, 0);
    }

    #[test]
    fn looks_for_any_number() {
        for name in ["through-4096", "through-2048"] {
            let mut input = named(name);
            for t in (0..4200).step_by(41).chain([4095, 4096, 65535]) {
                input.list = vec![0, t];
                assert!(count_work(&input).most_looks <= 12, "{name}, {t}");
            }
        }
    }
}
