//! The examples of files with one and with two mark tables, for `cargo test`, by every version.

use crate::examples::{file_d, file_of, found, property, record, with_flag, NOTHING_DONE};
use crate::fahkelo::{
    grade_into, kind, next_into, search_into, step_into, Ask, CombineAnswer, DistancesAnswer,
    GradeAnswer, NextAnswer, Record, SearchAnswer, StepAnswer, Verdict, FULL_CEILING, TABLE_0,
    TABLE_1,
};
use crate::graph::Graph;
use crate::model::Model;
use crate::property::Property;
use crate::reference::{read, Facts};
use crate::textbook::{Lister, Textbook};
use crate::versions::{Version, VERSIONS};

/// Numbers that are no mark table's.
const NO_TABLES: [u16; 5] = [2, 3, 256, 257, 65535];

/// The file with a second mark table, in which some states are marked.
fn with_second(file: &[u8], marks: &[usize]) -> Vec<u8> {
    let mut model = read(file).expect("it is accepted");
    let states = 0..model.states();
    model.second = Some(states.map(|s| marks.contains(&s)).collect());
    model.to_bytes()
}

/// Example D with a second mark table, in which state 1 is marked.
fn file_two() -> Vec<u8> {
    with_second(&file_d(), &[1])
}

/// A file with another total length in its header.
fn with_total(mut file: Vec<u8>, total: usize) -> Vec<u8> {
    file[20..24].copy_from_slice(&(total as u32).to_le_bytes());
    file
}

fn naming(mark_table: u16) -> Ask {
    Ask {
        mark_table,
        ..Ask::under(FULL_CEILING)
    }
}

/// A search with tables that just do in D; the answer table afterwards. The working table becomes zero.
fn searched(version: &dyn Version, file: &[u8], ask: Ask) -> (SearchAnswer, [u16; 4]) {
    let (mut answer, mut work) = ([9; 4], [9; 30]);
    let result = version.search(file, ask, &mut answer, &mut work);
    assert_eq!(work, [0; 30], "{} {ask:?}", version.name());
    (result, answer)
}

/// The same for next.
fn followed(
    version: &dyn Version,
    file: &[u8],
    mark_table: u16,
    earlier: &[u16],
) -> (NextAnswer, [u16; 4]) {
    let (mut answer, mut work) = ([9; 4], [9; 30]);
    let result = version.next(file, mark_table, earlier, &mut answer, &mut work);
    assert_eq!(work, [0; 30], "{} {mark_table}", version.name());
    (result, answer)
}

/// The same for a step.
fn stepped(version: &dyn Version, file: &[u8], mark_table: u16, so_far: Record) -> StepAnswer {
    let mut work = [9; 30];
    let result = version.step(file, mark_table, FULL_CEILING, so_far, &mut work);
    assert_eq!(work, [0; 30], "{} {mark_table}", version.name());
    result
}

/// The same for a grade.
fn graded(
    version: &dyn Version,
    file: &[u8],
    mark_table: u16,
    list: &[u16],
    k: u16,
) -> (Verdict, Option<usize>) {
    let mut work = [9; 30];
    let answer = version.grade(file, mark_table, list, k, &mut work);
    assert_eq!(work, [0; 30], "{} {mark_table}", version.name());
    match answer {
        GradeAnswer::Graded(verdict, place) => (verdict, place),
        refused => panic!("{refused:?}"),
    }
}

#[test]
fn two_tables_are_the_printed_bytes() {
    let mut printed = file_d();
    printed[20] = 0x34;
    printed.push(2);
    assert_eq!(file_two(), printed);
    assert_eq!((printed.len(), &printed[50..]), (52, &[0x18, 2][..]));
}

#[test]
fn searches_by_either_table() {
    let follower = NextAnswer::Found {
        length: 3,
        loop_start: 1,
    };
    for version in VERSIONS {
        let two = file_two();
        for file in [&file_d(), &two] {
            let by_0 = searched(version, file, naming(TABLE_0));
            assert_eq!(by_0, (found(3, 1, 1), [0, 1, 3, 1]));
            let next = followed(version, file, TABLE_0, &[0, 1, 3, 1]);
            assert_eq!(next, (follower, [0, 2, 3, 2]));
            let last = followed(version, file, TABLE_0, &[0, 2, 3, 2]);
            assert_eq!(last, (NextAnswer::NoMore, [9; 4]));
        }
        let by_1 = searched(version, &two, naming(TABLE_1));
        assert_eq!(by_1, (found(3, 1, 1), [0, 1, 3, 1]));
        let next = followed(version, &two, TABLE_1, &[0, 1, 3, 1]);
        assert_eq!(next, (NextAnswer::NoMore, [9; 4]));
        let other = followed(version, &two, TABLE_1, &[0, 2, 3, 2]);
        assert_eq!(other, (NextAnswer::Refused(13), [9; 4]));
        let after_one = record(1, Some(3));
        for mark_table in [TABLE_0, TABLE_1] {
            let first = stepped(version, &two, mark_table, NOTHING_DONE);
            assert_eq!(first, StepAnswer::Advanced(after_one));
            let second = stepped(version, &two, mark_table, after_one);
            assert_eq!(second, StepAnswer::Finished(after_one));
        }
    }
}

/// The same by what the versions are held to.
#[test]
fn facts_by_either_table() {
    let both = [vec![0, 1, 3, 1], vec![0, 2, 3, 2]];
    let rolls = [(TABLE_0, [3], &both[..]), (TABLE_1, [1], &both[..1])];
    for (mark_table, candidates, roll) in rolls {
        let model = read(&file_two()).expect("it is accepted");
        let graph = Graph::of(model, mark_table);
        let facts = Facts::by_exhaustion(&graph, FULL_CEILING);
        assert_eq!(facts.candidates, candidates);
        assert_eq!(facts.roll, roll);
        let textbook = Textbook::new(&graph);
        let lister = textbook.solve(FULL_CEILING);
        assert_eq!(lister.as_ref().map(Lister::list), Some(&roll[0][..]));
    }
}

/// Table 1 of a file with one table holds no marks, whatever the allowance and the ceiling.
#[test]
fn table_1_of_a_file_with_one() {
    let file = file_d();
    let none_within = (SearchAnswer::NoneWithin { rounds: 0 }, [9; 4]);
    for version in VERSIONS {
        for (allowance, ceiling) in [(0, 4096), (65535, 4096), (0, 0), (65535, 0), (1, 3)] {
            let ask = Ask {
                mark_table: TABLE_1,
                ceiling,
                allowance,
            };
            assert_eq!(searched(version, &file, ask), none_within);
        }
        let so_far = [NOTHING_DONE, record(0, Some(9)), record(7, Some(2))];
        for record in so_far {
            let answer = stepped(version, &file, TABLE_1, record);
            assert_eq!(answer, StepAnswer::Finished(record));
        }
        let lists: [&[u16]; 3] = [&[0, 1, 3, 1], &[0, 2, 3, 2], &[]];
        for earlier in lists {
            let answer = followed(version, &file, TABLE_1, earlier);
            assert_eq!(answer, (NextAnswer::Refused(13), [9; 4]));
        }
    }
    for version in VERSIONS {
        let false_at = |place| (Verdict::False, place);
        let grade = |list: &[u16], k| graded(version, &file, TABLE_1, list, k);
        assert_eq!(grade(&[0, 1, 3, 1], 1), false_at(None));
        assert_eq!(grade(&[0, 3], 0), false_at(Some(1)));
        assert_eq!(grade(&[5], 0), false_at(Some(0)));
    }
}

#[test]
fn grades_by_either_table() {
    let two = file_two();
    for version in VERSIONS {
        let grade = |mark_table, list: &[u16], k| graded(version, &two, mark_table, list, k);
        for mark_table in [TABLE_0, TABLE_1] {
            assert_eq!(
                grade(mark_table, &[0, 1, 3, 1], 1),
                (Verdict::Shortest, None)
            );
            assert_eq!(grade(mark_table, &[0, 3], 0), (Verdict::False, Some(1)));
        }
        assert_eq!(grade(TABLE_0, &[0, 2, 3, 2], 1), (Verdict::Shortest, None));
        assert_eq!(grade(TABLE_1, &[0, 2, 3, 2], 1), (Verdict::False, None));
        assert_eq!(
            grade(TABLE_0, &[0, 1, 3, 2, 3], 2),
            (Verdict::Accepting, None)
        );
        assert_eq!(grade(TABLE_1, &[0, 1, 3, 2, 3], 2), (Verdict::False, None));
    }
}

/// Searches, steps and nexts that name a number above 1 are refused with 22 and leave the working table as told.
fn finders_refuse(version: &dyn Version, file: &[u8], mark_table: u16, work_after: &[u16]) {
    let dirty = || vec![9; work_after.len()];
    for (ceiling, answer_len) in [(4096, 4), (4097, 4), (4096, 0)] {
        let ask = Ask {
            ceiling,
            ..naming(mark_table)
        };
        let (mut answer, mut work) = ([9; 4], dirty());
        let got = version.search(file, ask, &mut answer[..answer_len], &mut work);
        assert_eq!((got, answer), (SearchAnswer::Refused(22), [9; 4]));
        assert_eq!(work, work_after);
        let mut work = dirty();
        let got = version.step(file, mark_table, ceiling, NOTHING_DONE, &mut work);
        assert_eq!((got, &work[..]), (StepAnswer::Refused(22), work_after));
    }
    for earlier in [&[0, 1, 3, 1][..], &[0, 9]] {
        let (mut answer, mut work) = ([9; 4], dirty());
        let got = version.next(file, mark_table, earlier, &mut answer, &mut work);
        assert_eq!((got, answer), (NextAnswer::Refused(22), [9; 4]));
        assert_eq!(work, work_after);
    }
}

/// 22 comes before every other reason, also with an empty file; the working table is zero after it, however short, and no
/// other table changes.
#[test]
fn no_such_table() {
    let (two, one, cut) = (file_two(), file_d(), file_d()[..50].to_vec());
    let flag = with_flag(file_two(), 2);
    for file in [&two[..], &one, &cut, &flag, &[]] {
        for (mark_table, work_len) in NO_TABLES
            .into_iter()
            .flat_map(|t| [(t, 30), (t, 29), (t, 0)])
        {
            let zeros = vec![0; work_len];
            for version in VERSIONS {
                finders_refuse(version, file, mark_table, &zeros);
            }
            for version in VERSIONS {
                let mut work = vec![9; work_len];
                let got = version.grade(file, mark_table, &[0, 1, 3, 1], 1, &mut work);
                assert_eq!((got, &work), (GradeAnswer::Refused(22), &zeros));
            }
        }
    }
}

/// The tables that are lent to a call in C.
struct Lent {
    answer: [u16; 4],
    place: [usize; 1],
    work: [u16; 30],
    out: [u16; 4],
}

/// A call in C on a file, with so many entries for the figures.
type CallInC = fn(&[u8], &mut Lent, usize) -> u16;

/// In C a short table for the figures comes before 22, and then nothing changes; after 22 the figures and the place are
/// those from before.
#[test]
fn no_such_table_in_c() {
    const LIST: [u16; 4] = [0, 1, 3, 1];
    let calls: [CallInC; 4] = [
        |file, t, len| step_into(file, 2, 4096, NOTHING_DONE, &mut t.work, &mut t.out[..len]),
        |file, t, len| {
            let out = &mut t.out[..len];
            search_into(file, naming(2), &mut t.answer, &mut t.work, out)
        },
        |file, t, len| {
            let out = &mut t.out[..len];
            next_into(file, 2, &LIST, &mut t.answer, &mut t.work, out)
        },
        |file, t, len| {
            let out = &mut t.out[..len];
            grade_into(file, 2, &LIST, 1, &mut t.place, &mut t.work, out)
        },
    ];
    for (out_len, value, work_after) in [(4, 22, [0; 30]), (3, kind::OUT_TOO_SHORT, [9; 30])] {
        for call in calls {
            let mut lent = Lent {
                answer: [9; 4],
                place: [usize::MAX],
                work: [9; 30],
                out: [7; 4],
            };
            let got = call(&file_two(), &mut lent, out_len);
            assert_eq!((got, lent.work), (value, work_after));
            assert_eq!((lent.out, lent.answer), ([7; 4], [9; 4]));
            assert_eq!(lent.place, [usize::MAX]);
        }
    }
}

/// The numbers with which every version refuses a step, a search, a next and a grade by a mark table; no table changes.
fn refusals_naming(file: &[u8], mark_table: u16) -> Vec<u16> {
    let mut numbers = Vec::new();
    for version in VERSIONS {
        let (mut answer, mut work) = ([9; 4], [9; 30]);
        match version.search(file, naming(mark_table), &mut answer, &mut work) {
            SearchAnswer::Refused(number) => numbers.push(number),
            other => panic!("{other:?}"),
        }
        match version.step(file, mark_table, 4096, NOTHING_DONE, &mut work) {
            StepAnswer::Refused(number) => numbers.push(number),
            other => panic!("{other:?}"),
        }
        match version.next(file, mark_table, &[0, 1, 3, 1], &mut answer, &mut work) {
            NextAnswer::Refused(number) => numbers.push(number),
            other => panic!("{other:?}"),
        }
        assert_eq!((answer, work), ([9; 4], [9; 30]));
    }
    for version in VERSIONS {
        let mut work = [9; 30];
        match version.grade(file, mark_table, &[0, 1, 3, 1], 1, &mut work) {
            GradeAnswer::Refused(number) => numbers.push(number),
            other => panic!("{other:?}"),
        }
        assert_eq!(work, [9; 30]);
    }
    numbers
}

/// Those with which every version refuses distances, and a combination with the file as the rule.
fn refusals_without_table(file: &[u8]) -> Vec<u16> {
    let mut numbers = Vec::new();
    for version in VERSIONS {
        let (mut table, mut work) = ([9; 5], [9; 30]);
        match version.distances(file, FULL_CEILING, &mut table, &mut work) {
            DistancesAnswer::Refused(number) => numbers.push(number),
            other => panic!("{other:?}"),
        }
        assert_eq!((table, work), ([9; 5], [9; 30]));
    }
    for version in VERSIONS {
        let mut output = [9; 60];
        match version.combine(file, &[0; 5], &[], &mut output) {
            CombineAnswer::Refused(number) => numbers.push(number),
            other => panic!("{other:?}"),
        }
        assert_eq!(output, [9; 60]);
    }
    numbers
}

/// The number with which every version refuses every call on a file, and the reference the file.
fn refusal_of(file: &[u8]) -> u16 {
    let mut numbers = refusals_without_table(file);
    for mark_table in [TABLE_0, TABLE_1] {
        numbers.extend(refusals_naming(file, mark_table));
    }
    assert!(numbers.iter().all(|&number| number == numbers[0]));
    assert_eq!(read(file).err(), Some(numbers[0]));
    numbers[0]
}

#[test]
fn spare_bits_of_either_table() {
    for bit in 5..8 {
        for table in [50, 51] {
            let mut file = file_two();
            file[table] |= 1 << bit;
            assert_eq!(refusal_of(&file), 11);
        }
        let mut file = file_d();
        file[50] |= 1 << bit;
        assert_eq!(refusal_of(&file), 11);
    }
}

/// Totals with one and with two tables pass 6, and no other; 7 compares the file's own length with the one given.
#[test]
fn total_lengths() {
    let wide = file_of(9, &[(0, 1), (1, 0)], &[8]);
    let files = [
        (file_d(), [51, 52]),
        (file_two(), [51, 52]),
        (with_second(&wide, &[7, 8]), [50, 52]),
        (wide, [50, 52]),
    ];
    for (file, allowed) in files {
        let about = (allowed[0] - 2)..(allowed[1] + 8);
        for total in about.chain([0, allowed[0] + 65536]) {
            let reason = if allowed.contains(&total) { 7 } else { 6 };
            if total != file.len() {
                assert_eq!(refusal_of(&with_total(file.clone(), total)), reason);
            }
        }
        assert_eq!(refusal_of(&file[..file.len() - 1]), 7);
        let longer = [&file[..], &[0]].concat();
        assert_eq!(refusal_of(&longer), 7);
    }
    // With the total of the other number of tables, and that length, the file is accepted.
    let zeros = with_total([&file_d()[..], &[0]].concat(), 52);
    assert_eq!(zeros, with_second(&file_d(), &[]));
    assert_eq!(with_total(file_two()[..51].to_vec(), 51), file_d());
}

/// A file of 25,626 bytes, the longest: a ring whose states each lead to themselves too. Both tables mark the last state.
#[test]
fn the_longest_file() {
    let mut model = Model::new(4096);
    for s in 0..4096 {
        model.edge(s, (s + 1) % 4096);
        model.edge(s, s);
    }
    let marked = |marks: [usize; 2]| (0..4096).map(|s| marks.contains(&s)).collect();
    model.marks = marked([0, 4095]);
    model.second = Some(marked([2, 4095]));
    let file = model.to_bytes();
    assert_eq!((file.len(), model.edges()), (25626, 8192));
    let longer = [&file[..], &[0]].concat();
    let refused = SearchAnswer::Refused;
    for version in VERSIONS {
        let mut work = vec![9; 6 * 4096];
        let mut search = |file: &[u8], mark_table| {
            let mut answer = [9; 4];
            let result = version.search(file, naming(mark_table), &mut answer, &mut work);
            (result, answer)
        };
        assert_eq!(search(&file, TABLE_0), (found(1, 0, 2), [0, 0, 9, 9]));
        assert_eq!(search(&file, TABLE_1), (found(3, 2, 2), [0, 1, 2, 2]));
        for mark_table in [TABLE_0, TABLE_1] {
            assert_eq!(search(&longer, mark_table), (refused(7), [9; 4]));
            assert_eq!(search(&file[..25625], mark_table), (refused(7), [9; 4]));
            let three = with_total(longer.clone(), 25627);
            assert_eq!(search(&three, mark_table), (refused(6), [9; 4]));
        }
    }
}

fn combined(version: &dyn Version, rule: &[u8], property: &[u8]) -> Result<Vec<u8>, u16> {
    let mut output = [9; 200];
    let letters = [0, 1, 0, 1, 0];
    let states = u16::from_le_bytes([rule[0], rule[1]]) as usize;
    match version.combine(rule, &letters[..states], property, &mut output) {
        CombineAnswer::Written(bytes) => Ok(output[..bytes].to_vec()),
        CombineAnswer::Refused(number) => {
            assert_eq!(output, [9; 200]);
            Err(number)
        }
    }
}

/// A rule may have one mark table or two, and its marks are not read; a property has one; the result has one.
#[test]
fn mark_tables_in_combinations() {
    let one = property().to_bytes();
    let mut two = property();
    two.model.second = Some(vec![false, false]);
    let two = two.to_bytes();
    assert_eq!(two.len(), one.len() + 1);
    for version in VERSIONS {
        let result = combined(version, &file_d(), &one).expect("it is not refused");
        assert_eq!(read(&result).expect("it is accepted").second, None);
        for marks in [&[][..], &[1], &[0, 1, 2, 3, 4]] {
            let rule = with_second(&file_d(), marks);
            assert_eq!(combined(version, &rule, &one), Ok(result.clone()));
            assert_eq!(combined(version, &rule, &two), Err(17));
        }
        assert_eq!(combined(version, &file_d(), &two), Err(17));
        let bare = file_of(2, &[], &[1]);
        assert_eq!(
            combined(version, &file_d(), &with_second(&bare, &[])),
            Err(17)
        );
        let mut spare = file_two();
        spare[51] |= 128;
        assert_eq!(combined(version, &spare, &one), Err(11));
    }
}

/// With 9 states and one edge the mask is as long as a mark table: the same bytes are a property and a model. A mask has no
/// spare bits, and a mark table may be zero.
#[test]
fn the_same_bytes_in_both_roles() {
    let mut model = Model::new(9);
    model.edge(0, 0);
    model.marks[0] = true;
    let of_mask = |mask: u16| Property::new(model.clone(), mask).to_bytes();
    let rule = file_of(1, &[(0, 0)], &[]);
    for version in VERSIONS {
        let result = combined(version, &rule, &of_mask(0x0101)).expect("it is not refused");
        assert_eq!(result, model.to_bytes());
        assert_eq!(combined(version, &rule, &of_mask(0x8001)), Ok(result));
        assert_eq!(combined(version, &rule, &of_mask(0)), Err(17));
    }
    for version in VERSIONS {
        let search = |mask, mark_table| {
            let mut work = [9; 54];
            let file = of_mask(mask);
            version.search(&file, naming(mark_table), &mut [9; 2], &mut work)
        };
        let none_within = |rounds| SearchAnswer::NoneWithin { rounds };
        assert_eq!(search(0x0101, TABLE_0), found(1, 0, 1));
        assert_eq!(search(0x0101, TABLE_1), found(1, 0, 1));
        assert_eq!(search(0x0100, TABLE_1), none_within(0));
        assert_eq!(search(0, TABLE_1), none_within(0));
        for mark_table in [TABLE_0, TABLE_1] {
            assert_eq!(search(0x8001, mark_table), SearchAnswer::Refused(11));
        }
    }
}

/// A sequence by table 1 of D, with calls between that 22 refuses: the copy received is still good after them.
#[test]
fn a_sequence_with_calls_for_no_table() {
    let file = with_second(&file_d(), &[1, 2]);
    for version in VERSIONS {
        let (mut answer, mut work) = ([9; 4], [9; 30]);
        let first = version.search(&file, naming(TABLE_1), &mut answer, &mut work);
        let copy = answer;
        assert_eq!((first, copy), (found(3, 1, 2), [0, 1, 3, 1]));
        let refused = version.search(&file, naming(2), &mut answer, &mut work);
        assert_eq!(refused, SearchAnswer::Refused(22));
        let refused = version.next(&file, 65535, &[7, 7], &mut answer, &mut work);
        assert_eq!(refused, NextAnswer::Refused(22));
        assert_eq!((answer, work), (copy, [0; 30]));
        let second = version.next(&file, TABLE_1, &copy, &mut answer, &mut work);
        let follower = NextAnswer::Found {
            length: 3,
            loop_start: 1,
        };
        assert_eq!((second, answer), (follower, [0, 2, 3, 2]));
        let copy = answer;
        let last = version.next(&file, TABLE_1, &copy, &mut answer, &mut work);
        assert_eq!((last, answer), (NextAnswer::NoMore, copy));
    }
}
