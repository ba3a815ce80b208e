//! The proved library, as a Rust program uses it: slices go in, enums come out, and all unsafe code of the use is here.
//!
//! Any bytes may be lent as the file and tables of any length as the tables. The working table needs six entries a
//! state, the answer table one entry more than the path has transitions, the table of distances one entry a state, the
//! output of a combination the bytes of the result, at most 25,114; with less the call is refused with its number.

/// The functions of the static library, as `include/fahkelo.h` declares them: a slice is a pointer and a length.
mod c {
    extern "C" {
        pub fn fahkelo_step(
            file: *const u8,
            file_len: usize,
            mark_table: u16,
            ceiling: u16,
            done: u16,
            has_best: u8,
            best: u16,
            work: *mut u16,
            work_len: usize,
            out: *mut u16,
            out_len: usize,
        ) -> u16;
        pub fn fahkelo_search(
            file: *const u8,
            file_len: usize,
            mark_table: u16,
            ceiling: u16,
            allowance: u16,
            answer: *mut u16,
            answer_len: usize,
            work: *mut u16,
            work_len: usize,
            out: *mut u16,
            out_len: usize,
        ) -> u16;
        pub fn fahkelo_next(
            file: *const u8,
            file_len: usize,
            mark_table: u16,
            earlier: *const u16,
            earlier_len: usize,
            answer: *mut u16,
            answer_len: usize,
            work: *mut u16,
            work_len: usize,
            out: *mut u16,
            out_len: usize,
        ) -> u16;
        pub fn fahkelo_combine(
            rule: *const u8,
            rule_len: usize,
            letters: *const u8,
            letters_len: usize,
            property: *const u8,
            property_len: usize,
            output: *mut u8,
            output_len: usize,
            out: *mut u16,
            out_len: usize,
        ) -> u16;
        pub fn fahkelo_grade(
            file: *const u8,
            file_len: usize,
            mark_table: u16,
            list: *const u16,
            list_len: usize,
            k: u16,
            place: *mut usize,
            place_len: usize,
            work: *mut u16,
            work_len: usize,
            out: *mut u16,
            out_len: usize,
        ) -> u16;
        pub fn fahkelo_distances(
            file: *const u8,
            file_len: usize,
            ceiling: u16,
            distances: *mut u16,
            distances_len: usize,
            work: *mut u16,
            work_len: usize,
            out: *mut u16,
            out_len: usize,
        ) -> u16;
    }
}

/// The greatest ceiling: no shortest accepting path is above it, so that the answers are those of the whole model.
pub const FULL_CEILING: u16 = 4096;

/// The mark tables that a call may name. Table 1 of a file with one mark table holds no marks.
pub const TABLE_0: u16 = 0;
pub const TABLE_1: u16 = 1;

/// What a search names beside the file and the tables: the mark table, the length that no path may exceed, at most
/// `FULL_CEILING`, and the rounds that it is allowed.
#[derive(Clone, Copy, Debug, PartialEq, Eq)]
pub struct Ask {
    pub mark_table: u16,
    pub ceiling: u16,
    pub allowance: u16,
}

impl Ask {
    /// All rounds, whatever the model, for the marks of table 0 and under a ceiling.
    pub fn under(ceiling: u16) -> Ask {
        Ask {
            mark_table: TABLE_0,
            ceiling,
            allowance: u16::MAX,
        }
    }
}

/// The number of rounds done, and the best length that they found.
#[derive(Clone, Copy, Debug, PartialEq, Eq)]
pub struct Record {
    pub done: u16,
    pub best: Option<u16>,
}

/// The answer of a step.
#[derive(Clone, Copy, Debug, PartialEq, Eq)]
pub enum StepAnswer {
    Refused(u16),
    Finished(Record),
    Advanced(Record),
}

/// The answer of a search. On `Found` the list stands in the answer table, in `length + 1` entries; on `NoneWithin` no
/// accepting path has the length of the ceiling or less.
#[derive(Clone, Copy, Debug, PartialEq, Eq)]
pub enum SearchAnswer {
    Refused(u16),
    Stopped(Record),
    Found {
        length: u16,
        loop_start: u16,
        rounds: u16,
    },
    NoneWithin {
        rounds: u16,
    },
}

/// The answer of next. On `Found` the list stands in the answer table, in `length + 1` entries.
#[derive(Clone, Copy, Debug, PartialEq, Eq)]
pub enum NextAnswer {
    Refused(u16),
    Found { length: u16, loop_start: u16 },
    NoMore,
}

/// The answer of a combination. On `Written` the model file stands in the first so many bytes of the output.
#[derive(Clone, Copy, Debug, PartialEq, Eq)]
pub enum CombineAnswer {
    Refused(u16),
    Written(usize),
}

/// What a grade says of a list with a claimed k: it is no accepting path, it is one, it is one of least length.
#[derive(Clone, Copy, Debug, PartialEq, Eq)]
pub enum Verdict {
    False,
    Accepting,
    Shortest,
}

/// The answer of a grade: the verdict, and the first place where the list breaks, if it does.
#[derive(Clone, Copy, Debug, PartialEq, Eq)]
pub enum GradeAnswer {
    Refused(u16),
    Graded(Verdict, Option<usize>),
}

/// The entry of a state that has no distance up to the ceiling.
pub const NOT_REACHED: u16 = 65535;

/// The answer of a distance call. On `Written` the distances stand in the first so many entries of the table, one for
/// each state, `NOT_REACHED` where there is none up to the ceiling.
#[derive(Clone, Copy, Debug, PartialEq, Eq)]
pub enum DistancesAnswer {
    Refused(u16),
    Written(u16),
}

/// The return values of the C functions: the kinds of answer. A value below them is the number of a refusal.
pub mod kind {
    pub const FROM: u16 = 100;
    pub const OUT_TOO_SHORT: u16 = 100;
    pub const STOPPED: u16 = 101;
    pub const FOUND: u16 = 102;
    pub const NONE_WITHIN: u16 = 103;
    pub const NO_MORE: u16 = 104;
    pub const FINISHED: u16 = 105;
    pub const ADVANCED: u16 = 106;
    pub const WRITTEN: u16 = 107;
    pub const FALSE: u16 = 108;
    pub const ACCEPTING: u16 = 109;
    pub const SHORTEST: u16 = 110;
}

/// `fahkelo_step` over slices: the kind, with its figures in `out`, or the number of the refusal.
pub fn step_into(
    file: &[u8],
    mark_table: u16,
    ceiling: u16,
    so_far: Record,
    work: &mut [u16],
    out: &mut [u16],
) -> u16 {
    let (has_best, best) = match so_far.best {
        None => (0, 0),
        Some(best) => (1, best),
    };
    // SAFETY: each pointer and length is that of one slice, valid for the call, and the mutable ones overlap nothing.
    unsafe {
        c::fahkelo_step(
            file.as_ptr(),
            file.len(),
            mark_table,
            ceiling,
            so_far.done,
            has_best,
            best,
            work.as_mut_ptr(),
            work.len(),
            out.as_mut_ptr(),
            out.len(),
        )
    }
}

/// `fahkelo_search` over slices: the kind, with its figures in `out`, or the number of the refusal.
pub fn search_into(
    file: &[u8],
    ask: Ask,
    answer: &mut [u16],
    work: &mut [u16],
    out: &mut [u16],
) -> u16 {
    // SAFETY: as in `step_into`.
    unsafe {
        c::fahkelo_search(
            file.as_ptr(),
            file.len(),
            ask.mark_table,
            ask.ceiling,
            ask.allowance,
            answer.as_mut_ptr(),
            answer.len(),
            work.as_mut_ptr(),
            work.len(),
            out.as_mut_ptr(),
            out.len(),
        )
    }
}

/// `fahkelo_next` over slices: the kind, with its figures in `out`, or the number of the refusal.
pub fn next_into(
    file: &[u8],
    mark_table: u16,
    earlier: &[u16],
    answer: &mut [u16],
    work: &mut [u16],
    out: &mut [u16],
) -> u16 {
    // SAFETY: as in `step_into`.
    unsafe {
        c::fahkelo_next(
            file.as_ptr(),
            file.len(),
            mark_table,
            earlier.as_ptr(),
            earlier.len(),
            answer.as_mut_ptr(),
            answer.len(),
            work.as_mut_ptr(),
            work.len(),
            out.as_mut_ptr(),
            out.len(),
        )
    }
}

/// `fahkelo_combine` over slices: the kind, with its figures in `out`, or the number of the refusal.
pub fn combine_into(
    rule: &[u8],
    letters: &[u8],
    property: &[u8],
    output: &mut [u8],
    out: &mut [u16],
) -> u16 {
    // SAFETY: as in `step_into`; the rule, the letters and the property are only read and may overlap each other.
    unsafe {
        c::fahkelo_combine(
            rule.as_ptr(),
            rule.len(),
            letters.as_ptr(),
            letters.len(),
            property.as_ptr(),
            property.len(),
            output.as_mut_ptr(),
            output.len(),
            out.as_mut_ptr(),
            out.len(),
        )
    }
}

/// `fahkelo_grade` over slices: the kind, with its figure in `out` and the place, if there is one, in `place`, or the
/// number of the refusal.
pub fn grade_into(
    file: &[u8],
    mark_table: u16,
    list: &[u16],
    k: u16,
    place: &mut [usize],
    work: &mut [u16],
    out: &mut [u16],
) -> u16 {
    // SAFETY: as in `step_into`.
    unsafe {
        c::fahkelo_grade(
            file.as_ptr(),
            file.len(),
            mark_table,
            list.as_ptr(),
            list.len(),
            k,
            place.as_mut_ptr(),
            place.len(),
            work.as_mut_ptr(),
            work.len(),
            out.as_mut_ptr(),
            out.len(),
        )
    }
}

/// `fahkelo_distances` over slices: the kind, with its figure in `out`, or the number of the refusal.
pub fn distances_into(
    file: &[u8],
    ceiling: u16,
    distances: &mut [u16],
    work: &mut [u16],
    out: &mut [u16],
) -> u16 {
    // SAFETY: as in `step_into`.
    unsafe {
        c::fahkelo_distances(
            file.as_ptr(),
            file.len(),
            ceiling,
            distances.as_mut_ptr(),
            distances.len(),
            work.as_mut_ptr(),
            work.len(),
            out.as_mut_ptr(),
            out.len(),
        )
    }
}

/// The record that three figures stand for.
fn record_of(figures: &[u16; 4]) -> Record {
    Record {
        done: figures[0],
        best: (figures[1] != 0).then_some(figures[2]),
    }
}

/// The record after one more round under a ceiling, for the marks of a table; any record may be given, and its best is
/// kept unless the round finds a lesser length.
pub fn step(
    file: &[u8],
    mark_table: u16,
    ceiling: u16,
    so_far: Record,
    work: &mut [u16],
) -> StepAnswer {
    let mut out = [0; 4];
    match step_into(file, mark_table, ceiling, so_far, work, &mut out) {
        number if number < kind::FROM => StepAnswer::Refused(number),
        kind::FINISHED => StepAnswer::Finished(record_of(&out)),
        kind::ADVANCED => StepAnswer::Advanced(record_of(&out)),
        other => unreachable!("a step has no answer of kind {other}"),
    }
}

/// The first of the shortest accepting paths, if they are not longer than the ceiling, after at most `ask.allowance`
/// rounds.
pub fn search(file: &[u8], ask: Ask, answer: &mut [u16], work: &mut [u16]) -> SearchAnswer {
    let mut out = [0; 4];
    match search_into(file, ask, answer, work, &mut out) {
        number if number < kind::FROM => SearchAnswer::Refused(number),
        kind::STOPPED => SearchAnswer::Stopped(record_of(&out)),
        kind::FOUND => SearchAnswer::Found {
            length: out[0],
            loop_start: out[1],
            rounds: out[2],
        },
        kind::NONE_WITHIN => SearchAnswer::NoneWithin { rounds: out[0] },
        other => unreachable!("a search has no answer of kind {other}"),
    }
}

/// The shortest accepting path that follows an earlier one, in dictionary order, for the marks of a table.
pub fn next(
    file: &[u8],
    mark_table: u16,
    earlier: &[u16],
    answer: &mut [u16],
    work: &mut [u16],
) -> NextAnswer {
    let mut out = [0; 4];
    match next_into(file, mark_table, earlier, answer, work, &mut out) {
        number if number < kind::FROM => NextAnswer::Refused(number),
        kind::FOUND => NextAnswer::Found {
            length: out[0],
            loop_start: out[1],
        },
        kind::NO_MORE => NextAnswer::NoMore,
        other => unreachable!("next has no answer of kind {other}"),
    }
}

/// The combination of a rule, whose states have the letters, with a property: a model file, written to the output.
pub fn combine(rule: &[u8], letters: &[u8], property: &[u8], output: &mut [u8]) -> CombineAnswer {
    let mut out = [0; 4];
    match combine_into(rule, letters, property, output, &mut out) {
        number if number < kind::FROM => CombineAnswer::Refused(number),
        kind::WRITTEN => CombineAnswer::Written(out[0] as usize),
        other => unreachable!("a combination has no answer of kind {other}"),
    }
}

/// The grade of a list, of any length, with a claimed k, for the marks of a table.
pub fn grade(file: &[u8], mark_table: u16, list: &[u16], k: u16, work: &mut [u16]) -> GradeAnswer {
    let mut out = [0; 4];
    let mut place = [0];
    let verdict = match grade_into(file, mark_table, list, k, &mut place, work, &mut out) {
        number if number < kind::FROM => return GradeAnswer::Refused(number),
        kind::FALSE => Verdict::False,
        kind::ACCEPTING => Verdict::Accepting,
        kind::SHORTEST => Verdict::Shortest,
        other => unreachable!("a grade has no answer of kind {other}"),
    };
    GradeAnswer::Graded(verdict, (out[0] != 0).then_some(place[0]))
}

/// The distance of each state from the initial state, or `NOT_REACHED` if there is none up to the ceiling.
pub fn distances(
    file: &[u8],
    ceiling: u16,
    distances: &mut [u16],
    work: &mut [u16],
) -> DistancesAnswer {
    let mut out = [0; 4];
    match distances_into(file, ceiling, distances, work, &mut out) {
        number if number < kind::FROM => DistancesAnswer::Refused(number),
        kind::WRITTEN => DistancesAnswer::Written(out[0]),
        other => unreachable!("a distance call has no answer of kind {other}"),
    }
}
