//! What is known of a list up to a place, kept as the list grows and shrinks: its last loop start, its last mark, and
//! whether the tables after that loop start are there.

use super::access::Access;
use super::follow::list_at;
use super::goal_tables::last_mark;
use super::model::{is_marked, Header};
use super::spread::{get, put};

/// What is known of a list up to a place: the places of its last loop start and of its last mark, plus 1, or 0; how many
/// tests after that loop start were done by a search; and whether the tables after it are there.
#[derive(Clone, Copy)]
pub struct Passed {
    pub start: usize,
    pub mark: usize,
    pub searches: usize,
    pub made: bool,
}

impl Passed {
    /// Nothing is known of a list up to a place.
    pub fn unknown(place: usize) -> Passed {
        Passed {
            start: place + 2,
            mark: place + 2,
            searches: 0,
            made: false,
        }
    }

    /// The same with these as the last loop start and the last mark: another loop start has searches and tables of its own.
    fn moved(self, start: usize, mark: usize) -> Passed {
        let same = start == self.start;
        Passed {
            start,
            mark,
            searches: if same { self.searches } else { 0 },
            made: same && self.made,
        }
    }
}

/// The state at place k can start the loop, and stands at its distance.
fn starts_at<A: Access>(h: Header, work: &[u16], k: usize) -> bool {
    let s = list_at::<A>(h, work, k);
    get::<A>(work, h.states + s) == 2 * (k + 1) + 1
}

/// The last place with a loop start up to a place, plus 1; or 0.
fn last_start<A: Access>(h: Header, work: &[u16], place: usize) -> usize {
    (0..=place)
        .rev()
        .find(|&k| starts_at::<A>(h, work, k))
        .map_or(0, |k| k + 1)
}

/// What is known of the list up to a place, from what was known of a longer one.
pub fn retreat<A: Access>(
    file: &[u8],
    h: Header,
    work: &[u16],
    place: usize,
    passed: Passed,
) -> Passed {
    let start = if passed.start <= place + 1 {
        passed.start
    } else {
        last_start::<A>(h, work, place)
    };
    let mark = if passed.mark <= place + 1 {
        passed.mark
    } else {
        last_mark::<A>(file, h, work, place)
    };
    passed.moved(start, mark)
}

/// Puts state t at the place after the given one of the list, and says what is known of the list then.
pub fn append<A: Access>(
    file: &[u8],
    h: Header,
    work: &mut [u16],
    place: usize,
    t: usize,
    passed: Passed,
) -> Passed {
    put::<A>(work, place, t);
    let start = if starts_at::<A>(h, work, place + 1) {
        place + 2
    } else {
        passed.start
    };
    let mark = if is_marked::<A>(file, h, list_at::<A>(h, work, place + 1)) {
        place + 2
    } else {
        passed.mark
    };
    passed.moved(start, mark)
}
