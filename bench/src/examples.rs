//! The examples of the contract through the wrapper, for `cargo test`; they show how the calls are used. Searches and
//! steps have the full ceiling here, and all calls name mark table 0; `ceiling_examples.rs` has other ceilings, and
//! distances, `table_examples.rs` files with two mark tables.

use crate::fahkelo::{
    combine, combine_into, grade, grade_into, kind, next, search, step, Ask, CombineAnswer,
    GradeAnswer, NextAnswer, Record, SearchAnswer, StepAnswer, Verdict, FULL_CEILING, TABLE_0,
};
use crate::model::Model;
use crate::property::Property;

pub const NOTHING_DONE: Record = record(0, None);

pub const fn record(done: u16, best: Option<u16>) -> Record {
    Record { done, best }
}

/// The file of a model from its edges and marks.
pub fn file_of(states: usize, edges: &[(usize, usize)], marks: &[usize]) -> Vec<u8> {
    let mut model = Model::new(states);
    for &(from, to) in edges {
        model.edge(from, to);
    }
    for &s in marks {
        model.marks[s] = true;
    }
    model.to_bytes()
}

/// The file with another number in bytes 6–7; with 1 a state without edges has an implied step to itself.
pub fn with_flag(mut file: Vec<u8>, flag: u16) -> Vec<u8> {
    file[6..8].copy_from_slice(&flag.to_le_bytes());
    file
}

pub fn file_a() -> Vec<u8> {
    file_of(1, &[], &[0])
}

fn file_b() -> Vec<u8> {
    file_of(1, &[(0, 0)], &[0])
}

pub fn file_d() -> Vec<u8> {
    let edges = [(0, 1), (0, 2), (1, 3), (2, 3), (3, 1), (3, 2), (4, 4)];
    file_of(5, &edges, &[3, 4])
}

pub fn file_h() -> Vec<u8> {
    let edges = [
        (0, 1),
        (0, 5),
        (1, 2),
        (2, 3),
        (3, 4),
        (4, 1),
        (5, 6),
        (6, 6),
    ];
    file_of(7, &edges, &[1, 6])
}

/// A search with enough room: the answer, and the list if there is one.
fn searched(file: &[u8], allowance: u16) -> (SearchAnswer, Vec<u16>) {
    let mut answer = [0; 4097];
    let mut work = vec![0; 6 * 4096];
    let ask = Ask {
        allowance,
        ..Ask::under(FULL_CEILING)
    };
    let result = search(file, ask, &mut answer, &mut work);
    match result {
        SearchAnswer::Found { length, .. } => (result, answer[..=length as usize].to_vec()),
        _ => (result, Vec::new()),
    }
}

pub fn found(length: u16, loop_start: u16, rounds: u16) -> SearchAnswer {
    SearchAnswer::Found {
        length,
        loop_start,
        rounds,
    }
}

/// Next on model D, with just enough room.
fn next_in_d(earlier: &[u16]) -> (NextAnswer, [u16; 4]) {
    let mut answer = [9; 4];
    let mut work = [9; 30];
    let result = next(&file_d(), TABLE_0, earlier, &mut answer, &mut work);
    assert_eq!(work, [0; 30]);
    (result, answer)
}

#[test]
fn file_d_is_the_printed_one() {
    let printed = [
        5, 0, 7, 0, 0, 0, 0, 0, 24, 0, 0, 0, 36, 0, 0, 0, 50, 0, 0, 0, 51, 0, 0, 0, 0, 0, 2, 0, 3,
        0, 4, 0, 6, 0, 7, 0, 1, 0, 2, 0, 3, 0, 3, 0, 1, 0, 2, 0, 4, 0, 24,
    ];
    assert_eq!(file_d(), printed);
}

#[test]
fn searches() {
    let none_within = |rounds| (SearchAnswer::NoneWithin { rounds }, vec![]);
    assert_eq!(searched(&file_a(), 65535), none_within(1));
    assert_eq!(searched(&file_b(), 65535), (found(1, 0, 1), vec![0, 0]));
    assert_eq!(searched(&file_of(1, &[(0, 0)], &[]), 65535), none_within(0));
    assert_eq!(
        searched(&file_d(), 65535),
        (found(3, 1, 1), vec![0, 1, 3, 1])
    );
    assert_eq!(
        searched(&file_of(2, &[(0, 1), (1, 1)], &[0]), 65535),
        none_within(1)
    );
    assert_eq!(
        searched(&file_of(2, &[(0, 1), (1, 0)], &[1]), 65535),
        (found(2, 0, 1), vec![0, 1, 0])
    );
    assert_eq!(
        searched(&file_of(2, &[(0, 1), (1, 1)], &[1]), 65535),
        (found(2, 1, 1), vec![0, 1, 1])
    );
    assert_eq!(searched(&file_h(), 2), (found(3, 2, 2), vec![0, 5, 6, 6]));
}

#[test]
fn stopped_searches_and_steps() {
    let (after_one, after_two) = (record(1, Some(5)), record(2, Some(3)));
    assert_eq!(
        searched(&file_h(), 0).0,
        SearchAnswer::Stopped(NOTHING_DONE)
    );
    assert_eq!(searched(&file_h(), 1).0, SearchAnswer::Stopped(after_one));
    let mut work = [0; 42];
    assert_eq!(
        step(&file_h(), TABLE_0, FULL_CEILING, NOTHING_DONE, &mut work),
        StepAnswer::Advanced(after_one)
    );
    assert_eq!(
        step(&file_h(), TABLE_0, FULL_CEILING, after_one, &mut work),
        StepAnswer::Advanced(after_two)
    );
    assert_eq!(
        step(&file_h(), TABLE_0, FULL_CEILING, after_two, &mut work),
        StepAnswer::Finished(after_two)
    );
    assert_eq!(
        step(&file_h(), TABLE_0, FULL_CEILING, after_two, &mut work[..41]),
        StepAnswer::Refused(12)
    );
}

#[test]
fn nexts() {
    let second = NextAnswer::Found {
        length: 3,
        loop_start: 1,
    };
    assert_eq!(next_in_d(&[0, 1, 3, 1]), (second, [0, 2, 3, 2]));
    assert_eq!(next_in_d(&[0, 2, 3, 2]), (NextAnswer::NoMore, [9; 4]));
    assert_eq!(next_in_d(&[0, 2, 3, 1]), (NextAnswer::Refused(13), [9; 4]));
}

#[test]
fn a_state_that_stays() {
    let file = with_flag(file_a(), 1);
    let after_one = record(1, Some(1));
    let mut work = [9; 6];
    assert_eq!(
        step(&file, TABLE_0, FULL_CEILING, NOTHING_DONE, &mut work),
        StepAnswer::Advanced(after_one)
    );
    assert_eq!(
        step(&file, TABLE_0, FULL_CEILING, after_one, &mut work),
        StepAnswer::Finished(after_one)
    );
    assert_eq!(searched(&file, 65535), (found(1, 0, 1), vec![0, 0]));
    let mut answer = [9; 2];
    assert_eq!(
        next(&file, TABLE_0, &[0, 0], &mut answer, &mut work),
        NextAnswer::NoMore
    );
    assert_eq!((answer, work), ([9; 2], [0; 6]));
}

#[test]
fn a_way_to_a_state_that_stays() {
    let file = file_of(2, &[(0, 1)], &[1]);
    assert_eq!(
        searched(&file, 65535),
        (SearchAnswer::NoneWithin { rounds: 1 }, vec![])
    );
    assert_eq!(
        searched(&with_flag(file, 1), 65535),
        (found(2, 1, 1), vec![0, 1, 1])
    );
}

#[test]
fn a_flag_where_every_state_has_edges() {
    for file in [file_b(), file_d(), file_h()] {
        let staying = with_flag(file.clone(), 1);
        for allowance in [0, 1, 2, 65535] {
            assert_eq!(searched(&staying, allowance), searched(&file, allowance));
        }
        let mut work = [0; 42];
        assert_eq!(
            step(&staying, TABLE_0, FULL_CEILING, NOTHING_DONE, &mut work),
            step(&file, TABLE_0, FULL_CEILING, NOTHING_DONE, &mut work)
        );
    }
}

#[test]
fn flags_above_1() {
    for flag in [2, 3, 255, 256, 257, 65535] {
        let file = with_flag(file_a(), flag);
        assert_eq!(searched(&file, 65535).0, SearchAnswer::Refused(5));
        let mut work = [0; 6];
        assert_eq!(
            step(&file, TABLE_0, FULL_CEILING, NOTHING_DONE, &mut work),
            StepAnswer::Refused(5)
        );
        assert_eq!(
            next(&file, TABLE_0, &[0, 0], &mut [0; 2], &mut work),
            NextAnswer::Refused(5)
        );
    }
}

pub fn longest_ring() -> Vec<u8> {
    let edges: Vec<(usize, usize)> = (0..4096).map(|s| (s, (s + 1) % 4096)).collect();
    file_of(4096, &edges, &[4095])
}

#[test]
fn the_longest_ring() {
    let file = longest_ring();
    let (result, list) = searched(&file, 65535);
    let expected: Vec<u16> = (0..4096).chain([0]).collect();
    assert_eq!((result, list), (found(4096, 0, 1), expected));
    let mut work = vec![0; 6 * 4096];
    let mut short = vec![9; 4096];
    assert_eq!(
        search(&file, Ask::under(FULL_CEILING), &mut short, &mut work),
        SearchAnswer::Refused(15)
    );
    assert_eq!(short, vec![9; 4096]);
}

/// A rule that goes back and forth, with the letters 0 and 1.
fn rule_file() -> Vec<u8> {
    file_of(2, &[(0, 1), (1, 0)], &[])
}

const LETTERS: [u8; 2] = [0, 1];

/// A property whose state tells the last letter: 0 leads to state 0, 1 to state 1, which is marked.
pub fn property() -> Property {
    let mut model = Model::new(2);
    for (from, to) in [(0, 0), (0, 1), (1, 0), (1, 1)] {
        model.edge(from, to);
    }
    model.marks[1] = true;
    let mut property = Property::new(model, 0);
    property.masks = vec![vec![1, 2], vec![1, 2]];
    property
}

fn property_file() -> Vec<u8> {
    property().to_bytes()
}

/// What the rule and the property combine to.
const COMBINED: [u8; 43] = [
    4, 0, 4, 0, 0, 0, 0, 0, 24, 0, 0, 0, 34, 0, 0, 0, 42, 0, 0, 0, 43, 0, 0, 0, 0, 0, 1, 0, 2, 0,
    3, 0, 4, 0, 2, 0, 2, 0, 1, 0, 1, 0, 10,
];

#[test]
fn property_file_is_the_printed_one() {
    let printed = [
        2, 0, 4, 0, 0, 0, 0, 0, 24, 0, 0, 0, 30, 0, 0, 0, 38, 0, 0, 0, 47, 0, 0, 0, 0, 0, 2, 0, 4,
        0, 0, 0, 1, 0, 0, 0, 1, 0, 2, 1, 0, 2, 0, 1, 0, 2, 0,
    ];
    assert_eq!(property_file(), printed);
}

#[test]
fn a_combination_and_its_search() {
    let mut output = [9; 50];
    assert_eq!(
        combine(&rule_file(), &LETTERS, &property_file(), &mut output),
        CombineAnswer::Written(43)
    );
    assert_eq!(output[..43], COMBINED);
    assert_eq!(output[43..], [9; 7]);
    assert_eq!(
        searched(&output[..43], 65535),
        (found(3, 1, 1), vec![0, 2, 1, 2])
    );
}

#[test]
fn an_output_that_just_does() {
    let mut output = [9; 43];
    assert_eq!(
        combine(&rule_file(), &LETTERS, &property_file(), &mut output[..42]),
        CombineAnswer::Refused(15)
    );
    assert_eq!(output, [9; 43]);
    assert_eq!(
        combine(&rule_file(), &LETTERS, &property_file(), &mut output),
        CombineAnswer::Written(43)
    );
    assert_eq!(output, COMBINED);
}

#[test]
fn the_figure_of_a_combination() {
    let mut output = [0; 43];
    let mut out = [7; 5];
    let (rule, property) = (rule_file(), property_file());
    assert_eq!(
        combine_into(&rule, &LETTERS, &property, &mut output, &mut out),
        kind::WRITTEN
    );
    assert_eq!(out, [43, 7, 7, 7, 7]);
    let mut short = [7; 3];
    assert_eq!(
        combine_into(&[], &LETTERS, &property, &mut output, &mut short),
        kind::OUT_TOO_SHORT
    );
    assert_eq!((short, output), ([7; 3], COMBINED));
}

#[test]
fn refused_combinations() {
    let (rule, property) = (rule_file(), property_file());
    let mut last_mask_zero = property.clone();
    last_mask_zero[45] = 0;
    let large = file_of(2049, &[], &[]);
    let refused = |rule: &[u8], letters: &[u8], property: &[u8]| {
        let mut output = [9; 60];
        let answer = combine(rule, letters, property, &mut output);
        assert_eq!(output, [9; 60]);
        answer
    };
    let inputs: [(&[u8], &[u8], &[u8], u16); 10] = [
        (&[], &[16], &[], 1),
        (&rule[..rule.len() - 1], &LETTERS, &property, 7),
        (&property, &LETTERS, &property, 6),
        (&rule, &[0], &property, 16),
        (&rule, &[0, 1, 0], &property, 16),
        (&rule, &[0, 16], &[], 16),
        (&rule, &LETTERS, &property[..46], 17),
        (&rule, &LETTERS, &rule, 17),
        (&rule, &LETTERS, &last_mask_zero, 17),
        (&large, &[0; 2049], &property, 18),
    ];
    for (rule, letters, property, number) in inputs {
        assert_eq!(
            refused(rule, letters, property),
            CombineAnswer::Refused(number)
        );
    }
}

/// The bytes of a combination, in an output that is large enough.
fn combined(rule: &[u8], letters: &[u8], property: &[u8]) -> Vec<u8> {
    let mut output = [9; 60];
    match combine(rule, letters, property, &mut output) {
        CombineAnswer::Written(bytes) => output[..bytes].to_vec(),
        refused => panic!("{refused:?}"),
    }
}

#[test]
fn implied_steps_of_a_rule() {
    let rule = file_of(1, &[], &[]);
    let mut model = Model::new(1);
    model.edge(0, 0);
    model.marks[0] = true;
    let property = Property::new(model, 8).to_bytes();
    let staying = with_flag(rule.clone(), 1);
    for flag in [0, 1] {
        let property = with_flag(property.clone(), flag);
        assert_eq!(combined(&staying, &[3], &property), file_b());
        assert_eq!(combined(&staying, &[2], &property), file_a());
        assert_eq!(combined(&rule, &[3], &property), file_a());
    }
}

#[test]
fn implied_steps_of_a_property_are_not_read() {
    let (loops, stays) = (file_b(), with_flag(file_a(), 1));
    assert_eq!(combined(&loops, &[3], &stays), file_a());
    assert_eq!(combined(&stays, &[3], &stays), file_a());
}

#[test]
fn combinations_with_flags_above_1() {
    let (rule, property) = (rule_file(), property_file());
    for flag in [2, 256, 257] {
        let mut output = [9; 60];
        let wrong_rule = with_flag(rule.clone(), flag);
        let wrong_property = with_flag(property.clone(), flag);
        assert_eq!(
            combine(&wrong_rule, &LETTERS, &property, &mut output),
            CombineAnswer::Refused(5)
        );
        assert_eq!(
            combine(&rule, &LETTERS, &wrong_property, &mut output),
            CombineAnswer::Refused(17)
        );
        assert_eq!(output, [9; 60]);
    }
}

/// The verdict, and the first place where the list breaks.
type Grade = (Verdict, Option<usize>);

/// The grade of a list with a working table that just does; the table is zero afterwards.
fn graded(file: &[u8], list: &[u16], k: u16) -> Grade {
    let states = u16::from_le_bytes([file[0], file[1]]) as usize;
    let mut work = vec![9; 6 * states];
    let answer = grade(file, TABLE_0, list, k, &mut work);
    assert_eq!(work, vec![0; 6 * states]);
    match answer {
        GradeAnswer::Graded(verdict, place) => (verdict, place),
        refused => panic!("{refused:?}"),
    }
}

const NO_PATH: Grade = (Verdict::False, None);
const ACCEPTING: Grade = (Verdict::Accepting, None);
const SHORTEST: Grade = (Verdict::Shortest, None);

fn broken_at(place: usize) -> Grade {
    (Verdict::False, Some(place))
}

#[test]
fn grades_in_d() {
    let lists: [(&[u16], u16, Grade); 15] = [
        (&[0, 1, 3, 1], 1, SHORTEST),
        (&[0, 2, 3, 2], 1, SHORTEST),
        (&[0, 1, 3, 2, 3], 2, ACCEPTING),
        (&[0, 1, 3, 1], 0, NO_PATH),
        (&[0, 2, 3, 1], 1, NO_PATH),
        (&[0, 3], 0, broken_at(1)),
        (&[1, 3, 1], 0, NO_PATH),
        (&[0, 1, 3, 1, 3], 2, NO_PATH),
        (&[5], 0, broken_at(0)),
        (&[0, 1, 5], 0, broken_at(2)),
        (&[], 0, NO_PATH),
        (&[0], 0, NO_PATH),
        (&[0, 1, 3, 1], 3, NO_PATH),
        (&[0, 1, 3, 1], 65535, NO_PATH),
        (&[0, 1, 3, 1, 4, 65535], 1, broken_at(4)),
    ];
    for (list, k, expected) in lists {
        assert_eq!(graded(&file_d(), list, k), expected, "{list:?} {k}");
    }
}

#[test]
fn grades_in_h_and_b() {
    assert_eq!(graded(&file_h(), &[0, 1, 2, 3, 4, 1], 1), ACCEPTING);
    assert_eq!(graded(&file_h(), &[0, 5, 6, 6], 2), SHORTEST);
    assert_eq!(graded(&file_b(), &[0, 0], 0), SHORTEST);
}

#[test]
fn the_grade_of_a_state_that_stays() {
    assert_eq!(graded(&with_flag(file_a(), 1), &[0, 0], 0), SHORTEST);
    assert_eq!(graded(&file_a(), &[0, 0], 0), broken_at(1));
}

#[test]
fn the_grade_of_a_list_received() {
    let mut answer = [0; 8];
    let mut work = [0; 42];
    let SearchAnswer::Found {
        length, loop_start, ..
    } = search(&file_h(), Ask::under(FULL_CEILING), &mut answer, &mut work)
    else {
        panic!("there is an accepting path");
    };
    let list = &answer[..=length as usize];
    assert_eq!(
        grade(&file_h(), TABLE_0, list, loop_start, &mut work),
        GradeAnswer::Graded(Verdict::Shortest, None)
    );
}

#[test]
fn long_lists() {
    let file = file_of(2, &[(0, 1), (1, 0)], &[1]);
    let mut list = [0, 1].repeat(35_000);
    assert_eq!(graded(&file, &list, 0), NO_PATH);
    list[69_999] = 0;
    assert_eq!(graded(&file, &list, 0), broken_at(69_999));
    list[69_999] = 2;
    assert_eq!(graded(&file, &list, 65535), broken_at(69_999));
}

#[test]
fn the_figure_and_the_place_of_a_grade() {
    let file = file_d();
    let mut work = [9; 30];
    let (mut out, mut place) = ([7; 5], [usize::MAX; 2]);
    assert_eq!(
        grade_into(
            &file,
            TABLE_0,
            &[0, 1, 3, 1],
            1,
            &mut place,
            &mut work,
            &mut out
        ),
        kind::SHORTEST
    );
    assert_eq!(
        (out, place, work),
        ([0, 7, 7, 7, 7], [usize::MAX; 2], [0; 30])
    );
    assert_eq!(
        grade_into(&file, TABLE_0, &[0, 3], 0, &mut place, &mut work, &mut out),
        kind::FALSE
    );
    assert_eq!((out, place), ([1, 7, 7, 7, 7], [1, usize::MAX]));
}

#[test]
fn refused_grades() {
    let file = file_d();
    let (mut work, mut out, mut place) = ([9; 30], [7; 4], [usize::MAX]);
    let mut refused = |file: &[u8], work_len, place_len, out_len| {
        let (work_lent, place_lent) = (&mut work[..work_len], &mut place[..place_len]);
        let out_lent = &mut out[..out_len];
        let number = grade_into(
            file,
            TABLE_0,
            &[0, 1, 3, 1],
            1,
            place_lent,
            work_lent,
            out_lent,
        );
        assert_eq!((work, out, place), ([9; 30], [7; 4], [usize::MAX]));
        number
    };
    assert_eq!(refused(&file, 29, 1, 4), 12);
    assert_eq!(refused(&file, 0, 1, 4), 12);
    assert_eq!(refused(&file[..50], 30, 1, 4), 7);
    assert_eq!(refused(&[], 0, 1, 4), 1);
    assert_eq!(refused(&with_flag(file_d(), 2), 30, 1, 4), 5);
    assert_eq!(refused(&file, 30, 0, 4), kind::OUT_TOO_SHORT);
    assert_eq!(refused(&file, 30, 1, 3), kind::OUT_TOO_SHORT);
    assert_eq!(refused(&[], 30, 0, 0), kind::OUT_TOO_SHORT);
}
