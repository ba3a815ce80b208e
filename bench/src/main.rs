//! Compares the proved library with Rust versions: in speed, and in every answer and table.

#[cfg(test)]
mod ceiling_examples;
mod ceiling_measure;
mod clock;
mod combinations;
mod combine_differential;
mod combine_measure;
mod combine_samples;
mod counts;
mod differential;
mod distances_measure;
#[cfg(test)]
mod examples;
mod fahkelo;
mod families;
mod grade_differential;
mod grade_measure;
mod grade_oracle;
mod grade_samples;
mod grades;
mod graph;
#[cfg(test)]
mod isolation;
mod measure;
mod model;
mod oracle;
mod ported;
mod product;
mod property;
mod random;
mod reference;
mod samples;
mod sequences;
#[cfg(test)]
mod table_examples;
mod textbook;
mod trials;
mod versions;

use std::path::Path;
use std::process::ExitCode;

use fahkelo::FULL_CEILING;

const USAGE: &str = "\
fahkelo-bench [WORD]                           measure the families whose names hold the word (default: all)
fahkelo-bench differential COUNT SEED          compare answers and tables on COUNT files
fahkelo-bench counts [SIZE]                    the work of a search on each family, by phase
fahkelo-bench once VERSION FAMILY SIZE [CEILING]
                                               one search, for a profiler (proved, safe, paired, unchecked, textbook),
                                               under a ceiling (default: 4096)
fahkelo-bench families                         the names of the families
fahkelo-bench files FOLDER                     write the files of all families
fahkelo-bench ceiling [WORD]                   measure searches under a ceiling far below the length beside whole ones
fahkelo-bench ceiling-families                 the families measured so at 4,096 states: name, ceiling
fahkelo-bench distances [WORD]                 measure the distances of the families whose names hold the word
fahkelo-bench distances-once VERSION FAMILY    the distances of one family, for a profiler (proved, safe, paired, unchecked)
fahkelo-bench combine [WORD]                   measure the combinations whose names hold the word (default: all)
fahkelo-bench combine-differential COUNT SEED  compare answers and outputs on COUNT combinations
fahkelo-bench combine-once VERSION FAMILY      one combination, for a profiler (proved, safe, paired, unchecked)
fahkelo-bench combine-families                 the families of combinations: name, mask tests a pass, blocks
fahkelo-bench grade [WORD]                     measure the grades whose names hold the word (default: all)
fahkelo-bench grade-differential COUNT SEED    compare answers and tables on lists for COUNT files
fahkelo-bench grade-counts                     how the edges of the long lists are looked for
fahkelo-bench grade-once VERSION FAMILY        one grade, for a profiler (proved, safe, paired, unchecked)
fahkelo-bench grade-families                   the families of grades";

fn main() -> ExitCode {
    let words: Vec<String> = std::env::args().skip(1).collect();
    let words: Vec<&str> = words.iter().map(String::as_str).collect();
    done(&words).unwrap_or_else(|| {
        eprintln!("{USAGE}");
        ExitCode::from(2)
    })
}

/// Does what the words say; nothing if they are no command.
fn done(words: &[&str]) -> Option<ExitCode> {
    // Families whose names hold the word after the command are measured: all, if there is none.
    let word = words.get(1).copied().unwrap_or("");
    match *words {
        [] => measure::run(""),
        ["differential", count, seed] => return compared(differential::run, count, seed),
        ["counts"] => measure::print_counts(4096),
        ["counts", size] => measure::print_counts(size.parse().ok()?),
        ["once", version, family, size] => once(version, family, size, "4096")?,
        ["once", version, family, size, ceiling] => once(version, family, size, ceiling)?,
        ["families"] => {
            for family in families::FAMILIES {
                println!("{}", family.name);
            }
        }
        ["files", folder] => measure::write_all(Path::new(folder)),
        ["ceiling"] | ["ceiling", _] => ceiling_measure::run(word),
        ["ceiling-families"] => {
            for capped in ceiling_measure::capped() {
                println!("{} {}", capped.family.name, capped.ceiling);
            }
        }
        ["distances"] | ["distances", _] => distances_measure::run(word),
        ["distances-once", version, family] => distances(version, family)?,
        ["combine"] | ["combine", _] => combine_measure::run(word),
        ["combine-differential", count, seed] => {
            return compared(combine_differential::run, count, seed)
        }
        ["combine-once", version, family] => combine(version, family)?,
        ["combine-families"] => {
            for family in combinations::COMBINATIONS {
                let (tests, blocks) = (family.mask_tests(), family.blocks());
                println!("{} {tests} {blocks}", family.name);
            }
        }
        ["grade"] | ["grade", _] => grade_measure::run(word),
        ["grade-differential", count, seed] => {
            return compared(grade_differential::run, count, seed)
        }
        ["grade-counts"] => grade_measure::print_counts(),
        ["grade-once", version, family] => grade(version, family)?,
        ["grade-families"] => {
            for name in grades::names() {
                println!("{name}");
            }
        }
        [word] if !word.starts_with('-') => measure::run(word),
        _ => return None,
    }
    Some(ExitCode::SUCCESS)
}

/// A differential run, which answers the number of differences.
fn compared(run: fn(u64, u64) -> u64, count: &str, seed: &str) -> Option<ExitCode> {
    let differences = run(count.parse().ok()?, seed.parse().ok()?);
    Some(ExitCode::from(u8::from(differences != 0)))
}

fn once(version: &str, family: &str, size: &str, ceiling: &str) -> Option<()> {
    let states = size.parse().ok()?;
    let ceiling = ceiling.parse().ok()?;
    let file = (families::named(family)?.make)(states).to_bytes();
    if version == "textbook" {
        let length = measure::textbook_once(&file, ceiling).map(|list| list.len() - 1);
        println!("{length:?}");
        return Some(());
    }
    let version = versions::named(version)?;
    let (answer, _) = measure::search_once(version, &file, states, ceiling);
    println!("{answer:?}");
    Some(())
}

fn distances(version: &str, family: &str) -> Option<()> {
    let file = distances_measure::file_of(families::named(family)?);
    let version = versions::named(version)?;
    let mut tables = distances_measure::Tables::filled(0);
    let answer = distances_measure::distances_once(version, &file, FULL_CEILING, &mut tables);
    println!("{answer:?}");
    Some(())
}

fn combine(version: &str, family: &str) -> Option<()> {
    let input = combinations::named(family)?.make();
    let version = versions::named(version)?;
    let mut output = [0; combine_measure::OUTPUT_MOST];
    let answer = combine_measure::combine_once(version, &input, &mut output);
    println!("{answer:?}");
    Some(())
}

fn grade(version: &str, family: &str) -> Option<()> {
    let input = grades::named(family)?.input;
    let version = versions::named(version)?;
    let mut work = [0; grade_measure::WORK_ENTRIES];
    let answer = grade_measure::grade_once(version, &input, &mut work);
    println!("{answer:?}");
    Some(())
}
