//! The measurement: each family at each size through every version in one run, and the tables of the results.

use std::fs::File;
use std::path::{Path, PathBuf};
use std::process::Command;
use std::time::{Duration, Instant};

use crate::clock::{children_time, process_time};
use crate::fahkelo::{Ask, SearchAnswer, FULL_CEILING, TABLE_0};
use crate::families::{Family, FAMILIES};
use crate::graph::Graph;
use crate::model::Model;
use crate::ported::access::{Counting, Work};
use crate::ported::finder;
use crate::reference::{accepting, read};
use crate::textbook::Textbook;
use crate::versions::{Proved, Version, PAIRED, SAFE, UNCHECKED};

pub const SIZES: [usize; 3] = [256, 1024, 4096];
const ANSWER_ENTRIES: usize = 4097;

/// The lists of a sheet.
const MOST_LISTS: usize = 20;

/// A batch has so many calls that it takes about this long, and at least one.
const BATCH: Duration = Duration::from_millis(5);

/// The least time of a version is taken over batches that take about this long together, and at least `BATCHES`.
const ALL_BATCHES: Duration = Duration::from_millis(800);
const BATCHES: u32 = 8;

/// One search under a ceiling by one version, with fresh tables.
#[inline(never)]
pub fn search_once(
    version: &dyn Version,
    file: &[u8],
    states: usize,
    ceiling: u16,
) -> (SearchAnswer, Vec<u16>) {
    let mut answer = vec![0; ANSWER_ENTRIES];
    let mut work = vec![0; 6 * states];
    let result = version.search(file, Ask::under(ceiling), &mut answer, &mut work);
    (result, answer)
}

/// One search under a ceiling by the textbook version, from the file's bytes to the first list.
#[inline(never)]
pub fn textbook_once(file: &[u8], ceiling: u16) -> Option<Vec<u16>> {
    let model = read(file).expect("the families are valid files");
    let textbook = Textbook::new(&Graph::of(model, TABLE_0));
    textbook.solve(ceiling).map(|lister| lister.list().to_vec())
}

/// The processor time of one call, from a batch of them.
fn batch_time(calls: u32, mut call: impl FnMut()) -> Duration {
    let start = process_time();
    for _ in 0..calls {
        call();
    }
    (process_time() - start) / calls
}

/// The results of one family at one size.
struct Row {
    name: &'static str,
    states: usize,
    edges: usize,
    rounds: u16,
    length: Option<(u16, u16)>,
    times: [Duration; 5],
    sheet: Option<(Duration, Duration)>,
    spreads: u64,
}

/// So many calls make a batch, if one takes so long.
fn calls_in_batch(once: Duration) -> u32 {
    (BATCH.as_nanos() / once.as_nanos().max(1)).clamp(1, 10_000) as u32
}

/// Measures versions in turn, so that what disturbs one disturbs all, and keeps the least time of each. They take about
/// as long as each other: the first decides how many calls make a batch.
pub fn least_times<const K: usize>(versions: [&mut dyn FnMut(); K]) -> [Duration; K] {
    let once = batch_time(1, &mut *versions[0]);
    least_of_batches(versions, [calls_in_batch(once); K], once)
}

/// The same for versions of which the first takes the longest: each has its own number of calls in a batch.
pub fn least_times_unequal<const K: usize>(mut versions: [&mut dyn FnMut(); K]) -> [Duration; K] {
    let once = versions
        .each_mut()
        .map(|version| batch_time(1, &mut **version));
    least_of_batches(versions, once.map(calls_in_batch), once[0])
}

/// The least time of one call of each version, in batches of so many calls; one call of the first takes so long.
fn least_of_batches<const K: usize>(
    mut versions: [&mut dyn FnMut(); K],
    calls: [u32; K],
    once: Duration,
) -> [Duration; K] {
    let batches = ALL_BATCHES.as_nanos() / (once * calls[0]).as_nanos().max(1);
    let mut least = [Duration::MAX; K];
    for _ in 0..batches.max(BATCHES.into()) {
        for ((version, calls), least) in versions.iter_mut().zip(calls).zip(&mut least) {
            *least = batch_time(calls, version).min(*least);
        }
    }
    least
}

/// The least time of one call by each version, which has a table of its own.
pub fn version_times<T>(mut tables: [T; 4], call: impl Fn(&dyn Version, &mut T)) -> [Duration; 4] {
    let [a, b, c, d] = &mut tables;
    least_times([
        &mut || call(&Proved, a),
        &mut || call(&SAFE, b),
        &mut || call(&PAIRED, c),
        &mut || call(&UNCHECKED, d),
    ])
}

/// The columns of these times: microseconds, and the ratios of the first to the others.
pub fn time_columns(times: [Duration; 4]) -> String {
    let [proved, others @ ..] = times;
    let micros = times.map(|time| format!("{:.1}", time.as_secs_f64() * 1e6));
    let ratios = others.map(|other| format!("{:.2}", ratio(proved, other)));
    format!("{} | {}", micros.join(" | "), ratios.join(" | "))
}

fn times(file: &[u8], states: usize) -> [Duration; 5] {
    least_times([
        &mut || drop(search_once(&Proved, file, states, FULL_CEILING)),
        &mut || drop(search_once(&SAFE, file, states, FULL_CEILING)),
        &mut || drop(search_once(&PAIRED, file, states, FULL_CEILING)),
        &mut || drop(search_once(&UNCHECKED, file, states, FULL_CEILING)),
        &mut || drop(textbook_once(file, FULL_CEILING)),
    ])
}

/// All versions must give the same first list, or none, under a ceiling.
pub fn agreed_answer(file: &[u8], states: usize, ceiling: u16) -> SearchAnswer {
    let (proved, list) = search_once(&Proved, file, states, ceiling);
    for version in [&SAFE as &dyn Version, &PAIRED, &UNCHECKED] {
        let other = search_once(version, file, states, ceiling);
        assert!(
            other == (proved, list.clone()),
            "the {} version differs",
            version.name()
        );
    }
    let textbook = textbook_once(file, ceiling);
    let found = match proved {
        SearchAnswer::Found { length, .. } => Some(list[..=length as usize].to_vec()),
        _ => None,
    };
    assert!(textbook == found, "the textbook version differs");
    proved
}

/// The sheet of a file, by the textbook version.
fn sheet_text(file: &[u8]) -> String {
    let model = read(file).expect("the families are valid files");
    let (states, edges) = (model.states(), model.edges());
    let graph = Graph::of(model, TABLE_0);
    let textbook = Textbook::new(&graph);
    let rounds = textbook.candidates().len();
    let head = format!("model {states} {edges}\nrounds {rounds}\n");
    let Some(mut lister) = textbook.solve(FULL_CEILING) else {
        return head + "none\n";
    };
    let mut text = format!("{head}shortest {}\n", lister.list().len() - 1);
    for count in 1.. {
        let list = lister.list();
        let k = accepting(&graph, list).expect("the lister gives accepting paths");
        let words = |part: &[u16]| part.iter().map(u16::to_string).collect::<Vec<_>>();
        let line = [
            words(&list[..k]),
            vec!["|".into()],
            words(&list[k..list.len() - 1]),
        ];
        text += &(line.concat().join(" ") + "\n");
        let more = lister.advance();
        if !more || count == MOST_LISTS {
            text += &format!("{} {count}\n", if more { "more" } else { "end" });
            break;
        }
    }
    text
}

/// The time of day and the processor time of the desk sheet program on a file, the least of three runs; nothing if the
/// program is not there. It must print the sheet of the textbook version.
fn sheet_time(program: &Path, file: &Path) -> Option<(Duration, Duration)> {
    let expected = sheet_text(&std::fs::read(file).expect("the file was written"));
    let mut least: Option<(Duration, Duration)> = None;
    for _ in 0..3 {
        let input = File::open(file).ok()?;
        let (start, start_cpu) = (Instant::now(), children_time());
        let output = Command::new(program).stdin(input).output().ok()?;
        let (wall, cpu) = (start.elapsed(), children_time() - start_cpu);
        assert!(
            output.status.success() && output.stdout == expected.as_bytes(),
            "the sheet of {} differs",
            file.display()
        );
        least = Some(least.map_or((wall, cpu), |(w, c)| (wall.min(w), cpu.min(c))));
    }
    least
}

fn measure(family: &Family, states: usize, folder: &Path, program: &Path) -> Row {
    let model = (family.make)(states);
    let file = model.to_bytes();
    let path = write_file(folder, family.name, &model);
    let (length, rounds) = match agreed_answer(&file, states, FULL_CEILING) {
        SearchAnswer::Found {
            length,
            loop_start,
            rounds,
        } => (Some((length, loop_start)), rounds),
        SearchAnswer::NoneWithin { rounds } => (None, rounds),
        other => panic!("{}: {other:?}", family.name),
    };
    Row {
        name: family.name,
        states,
        edges: model.edges(),
        rounds,
        length,
        times: times(&file, states),
        sheet: sheet_time(program, &path),
        spreads: count_work(&file, states, FULL_CEILING).spreads.iter().sum(),
    }
}

/// The desk sheet program of the repository.
fn desk_sheet() -> PathBuf {
    Path::new(env!("CARGO_MANIFEST_DIR")).join("../target/bin/desk_sheet")
}

/// Writes a member of a family to a folder; its path.
fn write_file(folder: &Path, name: &str, model: &Model) -> PathBuf {
    let path = folder.join(format!("{name}-{}", model.states()));
    std::fs::write(&path, model.to_bytes()).expect("the folder can be written");
    path
}

/// Writes all members of all families to a folder.
pub fn write_all(folder: &Path) {
    std::fs::create_dir_all(folder).expect("the folder can be made");
    for family in FAMILIES {
        for states in SIZES {
            write_file(folder, family.name, &(family.make)(states));
        }
    }
}

pub fn millis(time: Duration) -> f64 {
    time.as_secs_f64() * 1000.0
}

pub fn ratio(a: Duration, b: Duration) -> f64 {
    a.as_secs_f64() / b.as_secs_f64()
}

/// Measures the families whose names hold a word, and prints the tables.
pub fn run(word: &str) {
    let folder = std::env::temp_dir().join(format!("fahkelo-bench-{}", std::process::id()));
    std::fs::create_dir_all(&folder).expect("a temporary folder can be made");
    let program = desk_sheet();
    let mut rows = Vec::new();
    println!("search, milliseconds of processor time; sheet, milliseconds of the whole program\n");
    println!("| family | N | M | rounds | L k | proved | safe | paired | unchecked | textbook | proved/safe | proved/paired | proved/unchecked | proved/textbook | sheet | its cpu |");
    println!("|---|---|---|---|---|---|---|---|---|---|---|---|---|---|---|---|");
    for family in FAMILIES.iter().filter(|family| family.name.contains(word)) {
        for states in SIZES {
            let row = measure(family, states, &folder, &program);
            print_row(&row);
            rows.push(row);
        }
    }
    print_growth(&rows);
    std::fs::remove_dir_all(&folder).expect("the temporary folder can be removed");
}

fn print_row(row: &Row) {
    let [proved, safe, paired, unchecked, textbook] = row.times;
    let figures = match row.length {
        None => "none".to_string(),
        Some((length, k)) => format!("{length} {k}"),
    };
    let sheet = match row.sheet {
        None => "– | –".to_string(),
        Some((wall, cpu)) => format!("{:.0} | {:.0}", millis(wall), millis(cpu)),
    };
    println!(
        "| {} | {} | {} | {} | {figures} | {:.3} | {:.3} | {:.3} | {:.3} | {:.3} | {:.2} | {:.2} | {:.2} | {:.2} | {sheet} |",
        row.name,
        row.states,
        row.edges,
        row.rounds,
        millis(proved),
        millis(safe),
        millis(paired),
        millis(unchecked),
        millis(textbook),
        ratio(proved, safe),
        ratio(proved, paired),
        ratio(proved, unchecked),
        ratio(proved, textbook)
    );
}

/// The growth from size to size: times, their quotients, and those of two measures of the work.
fn print_growth(rows: &[Row]) {
    println!("\ngrowth of the proved search, in milliseconds; beside each quotient of times that of rounds × (N + M),");
    println!(
        "and that of spreads × (N + M), the searches over the model that the algorithm does\n"
    );
    println!("| family | 256 | 1024 | 4096 | 1024 / 256 | rounds | spreads | 4096 / 1024 | rounds | spreads |");
    println!("|---|---|---|---|---|---|---|---|---|---|");
    for three in rows.chunks(SIZES.len()) {
        let time = |i: usize| millis(three[i].times[0]);
        let size = |i: usize| (three[i].states + three[i].edges) as f64;
        let rounds = |i: usize| f64::from(three[i].rounds.max(1)) * size(i);
        let spreads = |i: usize| three[i].spreads as f64 * size(i);
        let quotients = |i: usize| {
            format!(
                "{:.1} | {:.1} | {:.1}",
                time(i) / time(i - 1),
                rounds(i) / rounds(i - 1),
                spreads(i) / spreads(i - 1)
            )
        };
        println!(
            "| {} | {:.3} | {:.3} | {:.3} | {} | {} |",
            three[0].name,
            time(0),
            time(1),
            time(2),
            quotients(1),
            quotients(2)
        );
    }
}

/// The work of a search on a file under a ceiling.
pub fn count_work(file: &[u8], states: usize, ceiling: u16) -> Work {
    let mut answer = vec![0; ANSWER_ENTRIES];
    let mut work = vec![0; 6 * states];
    Counting::take();
    finder::search::<Counting>(file, Ask::under(ceiling), &mut answer, &mut work);
    Counting::take()
}

/// Prints the work of a search on each family at one size: spreads and passes done and edges looked at, by phase.
pub fn print_counts(states: usize) {
    println!("| family | spreads: rounds | prepare | list | edges: rounds | prepare | list |");
    println!("|---|---|---|---|---|---|---|");
    for family in FAMILIES {
        let file = (family.make)(states).to_bytes();
        let Work { spreads, edges, .. } = count_work(&file, states, FULL_CEILING);
        println!(
            "| {} | {} | {} | {} | {} | {} | {} |",
            family.name, spreads[0], spreads[1], spreads[2], edges[0], edges[1], edges[2]
        );
    }
}
