//! The examples of ceilings and distances, for `cargo test`, by every version.

use crate::examples::{file_d, file_h, found, longest_ring, record, with_flag, NOTHING_DONE};
use crate::fahkelo::{
    distances_into, kind, search_into, step_into, Ask, DistancesAnswer, NextAnswer, SearchAnswer,
    StepAnswer, TABLE_0,
};
use crate::graph::Graph;
use crate::reference::{distances_by_sweeps, read, Facts};
use crate::textbook::{Lister, Textbook};
use crate::versions::{Version, VERSIONS};

/// A search in H with any numbers in tables that just do; the answer table afterwards. The working table becomes zero.
fn searched_in_h(version: &dyn Version, ceiling: u16, allowance: u16) -> (SearchAnswer, [u16; 5]) {
    let mut answer = [9; 5];
    let mut work = [9; 42];
    let ask = Ask {
        allowance,
        ..Ask::under(ceiling)
    };
    let result = version.search(&file_h(), ask, &mut answer, &mut work);
    assert_eq!(work, [0; 42]);
    (result, answer)
}

#[test]
fn searches_in_h_under_ceilings() {
    let first = (found(3, 2, 2), [0, 5, 6, 6, 9]);
    let none_within = (SearchAnswer::NoneWithin { rounds: 2 }, [9; 5]);
    let stopped = |best| (SearchAnswer::Stopped(record(1, best)), [9; 5]);
    let nothing_done = (SearchAnswer::Stopped(NOTHING_DONE), [9; 5]);
    let searches = [
        (4096, 65535, first),
        (4, 65535, first),
        (3, 65535, first),
        (3, 2, first),
        (2, 65535, none_within),
        (2, 2, none_within),
        (1, 65535, none_within),
        (0, 65535, none_within),
        (4096, 1, stopped(Some(5))),
        (5, 1, stopped(Some(5))),
        (4, 1, stopped(None)),
        (3, 1, stopped(None)),
        (0, 1, stopped(None)),
        (5, 0, nothing_done),
        (0, 0, nothing_done),
    ];
    for version in VERSIONS {
        for (ceiling, allowance, expected) in searches {
            let got = searched_in_h(version, ceiling, allowance);
            assert_eq!(got, expected, "{} {ceiling} {allowance}", version.name());
        }
    }
}

/// The same by what the versions are held to: the rounds and the first list under a ceiling.
#[test]
fn rounds_in_h_under_ceilings() {
    let graph = Graph::of(read(&file_h()).expect("it is accepted"), TABLE_0);
    let textbook = Textbook::new(&graph);
    let rounds = [
        (4096, [Some(5), Some(3)]),
        (5, [Some(5), Some(3)]),
        (4, [None, Some(3)]),
        (3, [None, Some(3)]),
        (2, [None, None]),
        (0, [None, None]),
    ];
    for (ceiling, lengths) in rounds {
        let facts = Facts::by_exhaustion(&graph, ceiling);
        let lister = textbook.solve(ceiling);
        let first = (ceiling >= 3).then_some(&[0, 5, 6, 6][..]);
        assert_eq!(facts.candidates, [1, 6]);
        assert_eq!(facts.round_lengths, lengths);
        assert_eq!(facts.roll.first().map(Vec::as_slice), first);
        assert_eq!(textbook.round_lengths(ceiling), lengths);
        assert_eq!(lister.as_ref().map(Lister::list), first);
    }
}

#[test]
fn steps_in_h_under_ceilings() {
    let steps = [
        (4, record(0, None), record(1, None)),
        (5, record(0, None), record(1, Some(5))),
        (4096, record(0, None), record(1, Some(5))),
        (0, record(0, None), record(1, None)),
        (4, record(0, Some(9)), record(1, Some(9))),
        (5, record(0, Some(9)), record(1, Some(5))),
        (5, record(0, Some(4)), record(1, Some(4))),
        (0, record(0, Some(65535)), record(1, Some(65535))),
        (4, record(0, Some(0)), record(1, Some(0))),
        (3, record(1, Some(5)), record(2, Some(3))),
        (2, record(1, Some(5)), record(2, Some(5))),
        (2, record(1, None), record(2, None)),
    ];
    for version in VERSIONS {
        for (ceiling, so_far, after) in steps {
            let mut work = [9; 42];
            let got = version.step(&file_h(), TABLE_0, ceiling, so_far, &mut work);
            let what = format!("{} {ceiling} {so_far:?}", version.name());
            assert_eq!(got, StepAnswer::Advanced(after), "{what}");
            assert_eq!(work, [0; 42], "{what}");
        }
        let done = record(2, Some(9));
        let got = version.step(&file_h(), TABLE_0, 0, done, &mut [9; 42]);
        assert_eq!(got, StepAnswer::Finished(done));
    }
}

/// 21 comes after 12, before 15 and before any answer; the working table is untouched after 12 and zero after 21.
#[test]
fn ceilings_above_4096() {
    let file = file_h();
    for (version, ceiling) in VERSIONS.into_iter().flat_map(|v| [(v, 4097), (v, 65535)]) {
        for (answer_len, allowance) in [(4, 65535), (3, 65535), (0, 65535), (4, 1), (4, 0)] {
            let ask = Ask {
                allowance,
                ..Ask::under(ceiling)
            };
            let (mut answer, mut work) = ([9; 4], [9; 42]);
            let got = version.search(&file, ask, &mut answer[..answer_len], &mut work[..41]);
            assert_eq!((got, work), (SearchAnswer::Refused(12), [9; 42]));
            let got = version.search(&file[..50], ask, &mut answer, &mut work);
            assert_eq!((got, work), (SearchAnswer::Refused(7), [9; 42]));
            let got = version.search(&file, ask, &mut answer[..answer_len], &mut work);
            assert_eq!((got, work), (SearchAnswer::Refused(21), [0; 42]));
            assert_eq!(answer, [9; 4]);
        }
        for so_far in [NOTHING_DONE, record(1, Some(5)), record(2, Some(3))] {
            let mut work = [9; 42];
            let got = version.step(&file, TABLE_0, ceiling, so_far, &mut work[..41]);
            assert_eq!((got, work), (StepAnswer::Refused(12), [9; 42]));
            let got = version.step(&file, TABLE_0, ceiling, so_far, &mut work);
            assert_eq!((got, work), (StepAnswer::Refused(21), [0; 42]));
        }
    }
}

#[test]
fn the_longest_ring_under_ceilings() {
    let file = longest_ring();
    let whole: Vec<u16> = (0..4096).chain([0]).collect();
    for version in VERSIONS {
        let mut work = vec![9; 6 * 4096];
        let mut search = |ceiling, answer: &mut [u16]| {
            let result = version.search(&file, Ask::under(ceiling), answer, &mut work);
            assert!(work.iter().all(|&entry| entry == 0));
            result
        };
        let mut answer = vec![9; 4097];
        assert_eq!(
            search(4095, &mut answer),
            SearchAnswer::NoneWithin { rounds: 1 }
        );
        assert_eq!(answer, vec![9; 4097]);
        assert_eq!(
            search(4095, &mut []),
            SearchAnswer::NoneWithin { rounds: 1 }
        );
        assert_eq!(search(4096, &mut answer[..4096]), SearchAnswer::Refused(15));
        assert_eq!(search(4097, &mut answer[..4096]), SearchAnswer::Refused(21));
        assert_eq!(answer, vec![9; 4097]);
        assert_eq!(search(4096, &mut answer), found(4096, 0, 1));
        assert_eq!(answer, whole);
    }
}

/// A search that finds, one with a ceiling below the length, then next with the copy of what was found.
#[test]
fn a_sequence_with_two_ceilings() {
    let file = file_d();
    for version in VERSIONS {
        let (mut answer, mut work) = ([9; 4], [9; 30]);
        let first = version.search(&file, Ask::under(3), &mut answer, &mut work);
        let copy = answer;
        assert_eq!((first, copy), (found(3, 1, 1), [0, 1, 3, 1]));
        let second = version.search(&file, Ask::under(2), &mut answer, &mut work);
        assert_eq!(second, SearchAnswer::NoneWithin { rounds: 1 });
        assert_eq!(answer, copy);
        let third = version.next(&file, TABLE_0, &copy, &mut answer, &mut work);
        let follower = NextAnswer::Found {
            length: 3,
            loop_start: 1,
        };
        assert_eq!((third, answer), (follower, [0, 2, 3, 2]));
    }
}

#[test]
fn the_figures_under_a_ceiling() {
    let (file, mut answer, mut work) = (file_h(), [9; 4], [9; 42]);
    let mut out = [7; 5];
    let ask = Ask::under(2);
    assert_eq!(
        search_into(&file, ask, &mut answer, &mut work, &mut out),
        kind::NONE_WITHIN
    );
    assert_eq!((kind::NONE_WITHIN, out), (103, [2, 7, 7, 7, 7]));
    let mut out = [7; 4];
    let ask = Ask::under(4097);
    assert_eq!(
        search_into(&file, ask, &mut answer, &mut work, &mut out),
        21
    );
    assert_eq!(
        step_into(&file, TABLE_0, 4097, NOTHING_DONE, &mut work, &mut out),
        21
    );
    assert_eq!((out, answer), ([7; 4], [9; 4]));
    let nine = record(0, Some(9));
    assert_eq!(
        step_into(&file, TABLE_0, 4, nine, &mut work, &mut out),
        kind::ADVANCED
    );
    assert_eq!(out, [1, 1, 9, 7]);
}

const FAR: u16 = 65535;

#[test]
fn distances_in_d() {
    let tables = [
        (4096, [0, 1, 1, 2, FAR]),
        (3, [0, 1, 1, 2, FAR]),
        (2, [0, 1, 1, 2, FAR]),
        (1, [0, 1, 1, FAR, FAR]),
        (0, [0, FAR, FAR, FAR, FAR]),
    ];
    for (version, flag) in VERSIONS.into_iter().flat_map(|v| [(v, 0), (v, 1)]) {
        let file = with_flag(file_d(), flag);
        for (ceiling, expected) in tables {
            for more in [0, 3] {
                let (mut table, mut work) = ([9; 8], [9; 31]);
                let lent = &mut table[..5 + more];
                let got = version.distances(&file, ceiling, lent, &mut work);
                assert_eq!(got, DistancesAnswer::Written(5), "{}", version.name());
                assert_eq!((table[..5].to_vec(), work), (expected.to_vec(), [0; 31]));
                assert_eq!(table[5..], [9; 3]);
            }
        }
    }
}

/// The order is 1 to 12, 21, 15. No refused call changes the table; the working table is zero after 21 and 15.
#[test]
fn refused_distances() {
    let file = file_d();
    let flag = with_flag(file_d(), 2);
    let calls: [(&[u8], u16, usize, usize, u16); 9] = [
        (&file, 4096, 4, 30, 15),
        (&file, 0, 0, 30, 15),
        (&file, 4097, 5, 30, 21),
        (&file, 65535, 8, 30, 21),
        (&file, 4097, 4, 30, 21),
        (&file, 4097, 4, 29, 12),
        (&file, 4096, 5, 0, 12),
        (&file[..50], 4097, 4, 0, 7),
        (&flag, 4097, 4, 0, 5),
    ];
    for version in VERSIONS {
        for (file, ceiling, entries, work_len, number) in calls {
            let (mut table, mut work) = ([9; 8], [9; 30]);
            let lent = &mut table[..entries];
            let got = version.distances(file, ceiling, lent, &mut work[..work_len]);
            assert_eq!(got, DistancesAnswer::Refused(number), "{}", version.name());
            assert_eq!(table, [9; 8]);
            assert_eq!(work, if number < 13 { [9; 30] } else { [0; 30] });
        }
    }
}

#[test]
fn the_figure_of_distances() {
    let (file, mut table, mut work) = (file_d(), [9; 6], [9; 30]);
    let mut out = [7; 5];
    let mut distances = |ceiling, entries: usize, out: &mut [u16]| {
        let kind = distances_into(&file, ceiling, &mut table[..entries], &mut work, out);
        (kind, table)
    };
    assert_eq!(distances(4096, 6, &mut [7; 3]), (100, [9; 6]));
    assert_eq!(distances(4097, 6, &mut out), (21, [9; 6]));
    assert_eq!(distances(4096, 4, &mut out), (15, [9; 6]));
    assert_eq!(out, [7; 5]);
    assert_eq!(
        distances(1, 5, &mut out),
        (kind::WRITTEN, [0, 1, 1, FAR, FAR, 9])
    );
    assert_eq!((kind::WRITTEN, out), (107, [5, 7, 7, 7, 7]));
}

#[test]
fn distances_round_the_longest_ring() {
    let file = longest_ring();
    let whole: Vec<u16> = (0..4096).collect();
    let graph = Graph::of(read(&file).expect("it is accepted"), TABLE_0);
    let by_sweeps = distances_by_sweeps(&graph);
    assert!(by_sweeps.into_iter().eq(whole.iter().copied().map(Some)));
    for version in VERSIONS {
        for ceiling in [4096, 4095, 4094, 60, 0] {
            let (mut table, mut work) = (vec![9; 4096], vec![9; 6 * 4096]);
            let got = version.distances(&file, ceiling, &mut table, &mut work);
            assert_eq!(got, DistancesAnswer::Written(4096));
            let within = |&d: &u16| if d <= ceiling { d } else { FAR };
            assert!(table.into_iter().eq(whole.iter().map(within)));
        }
    }
}
