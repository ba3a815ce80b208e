//! How the ported algorithm reaches an entry: with bounds checks, with one of them for each 16-bit number of a file,
//! without them, or with them and counting its work.

use std::cell::Cell;

/// The phases of a call, by which work is counted.
#[derive(Clone, Copy, Debug, PartialEq, Eq)]
pub enum Phase {
    Rounds,
    Prepare,
    List,
}

/// A way of access to tables and files: with bounds checks, where nothing else is said.
#[forbid(unsafe_code)]
pub trait Access {
    /// A 16-bit number of a file is read by one part of two bytes, not byte by byte. It is a constant: where each way of
    /// access had a function for this, the compiled combination with bounds checks had up to 36 in 100 more instructions.
    const PAIRED: bool = false;

    #[inline(always)]
    fn get<T: Copy>(table: &[T], at: usize) -> T {
        table[at]
    }

    #[inline(always)]
    fn put<T>(table: &mut [T], at: usize, value: T) {
        table[at] = value;
    }

    #[inline(always)]
    fn part<T>(table: &[T], from: usize, to: usize) -> &[T] {
        &table[from..to]
    }

    #[inline(always)]
    fn part_mut<T>(table: &mut [T], from: usize, to: usize) -> &mut [T] {
        &mut table[from..to]
    }

    /// A phase begins.
    #[inline(always)]
    fn phase(_: Phase) {}

    /// A spread is done, or a pass back over its queue.
    #[inline(always)]
    fn spread() {}

    /// An edge is looked at by a spread, or a step by a pass.
    #[inline(always)]
    fn edge() {}

    /// An edge is looked for in a row.
    #[inline(always)]
    fn seek() {}

    /// A place of the row is looked at.
    #[inline(always)]
    fn look() {}
}

/// With bounds checks.
pub struct Checked;

#[forbid(unsafe_code)]
impl Access for Checked {}

/// With bounds checks, a 16-bit number that is read from a file by one part of two bytes.
pub struct Paired;

#[forbid(unsafe_code)]
impl Access for Paired {
    const PAIRED: bool = true;
}

/// Without bounds checks. It is for the ported algorithm only, whose places are within the tables: the proofs show it of
/// the same text, and the differential run compares the version with checks on the same calls.
pub struct Unchecked;

impl Access for Unchecked {
    #[inline(always)]
    fn get<T: Copy>(table: &[T], at: usize) -> T {
        debug_assert!(at < table.len());
        // SAFETY: the algorithm reads within the table.
        unsafe { *table.get_unchecked(at) }
    }

    #[inline(always)]
    fn put<T>(table: &mut [T], at: usize, value: T) {
        debug_assert!(at < table.len());
        // SAFETY: the algorithm writes within the table.
        unsafe { *table.get_unchecked_mut(at) = value }
    }

    #[inline(always)]
    fn part<T>(table: &[T], from: usize, to: usize) -> &[T] {
        debug_assert!(from <= to && to <= table.len());
        // SAFETY: the ends are in order and within the table.
        unsafe { table.get_unchecked(from..to) }
    }

    #[inline(always)]
    fn part_mut<T>(table: &mut [T], from: usize, to: usize) -> &mut [T] {
        debug_assert!(from <= to && to <= table.len());
        // SAFETY: the ends are in order and within the table.
        unsafe { table.get_unchecked_mut(from..to) }
    }
}

/// The work of one call: for each phase, spreads and passes done, and edges looked at by them; edges looked for in rows,
/// the looks at places of rows for them, all and the most for one edge.
#[derive(Clone, Copy, Debug, Default, PartialEq, Eq)]
pub struct Work {
    pub spreads: [u64; 3],
    pub edges: [u64; 3],
    pub sought: u64,
    pub looks: u64,
    pub most_looks: u64,
}

thread_local! {
    static PHASE: Cell<usize> = const { Cell::new(0) };
    static LOOKS: Cell<u64> = const { Cell::new(0) };
    static WORK: Cell<Work> = const {
        Cell::new(Work { spreads: [0; 3], edges: [0; 3], sought: 0, looks: 0, most_looks: 0 })
    };
}

/// With bounds checks, counting.
pub struct Counting;

impl Counting {
    /// What was counted since the last call of this function.
    pub fn take() -> Work {
        PHASE.set(0);
        WORK.take()
    }

    fn add(change: impl FnOnce(&mut Work, usize)) {
        let mut work = WORK.get();
        change(&mut work, PHASE.get());
        WORK.set(work);
    }
}

impl Access for Counting {
    fn phase(phase: Phase) {
        PHASE.set(phase as usize);
    }

    fn spread() {
        Self::add(|work, phase| work.spreads[phase] += 1);
    }

    fn edge() {
        Self::add(|work, phase| work.edges[phase] += 1);
    }

    fn seek() {
        LOOKS.set(0);
        Self::add(|work, _| work.sought += 1);
    }

    fn look() {
        let looks = LOOKS.get() + 1;
        LOOKS.set(looks);
        Self::add(|work, _| {
            work.looks += 1;
            work.most_looks = work.most_looks.max(looks);
        });
    }
}
