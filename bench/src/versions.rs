//! The versions compared: each is handed the same files and tables.

use std::marker::PhantomData;

use crate::fahkelo::{
    self, Ask, CombineAnswer, DistancesAnswer, GradeAnswer, NextAnswer, Record, SearchAnswer,
    StepAnswer,
};
use crate::ported::access::{Access, Checked, Paired, Unchecked};
use crate::ported::{combine, distances, finder, grade};

/// The proved library.
pub struct Proved;

/// The same algorithms in Rust, with one way of access to the tables.
pub struct Ported<A>(&'static str, PhantomData<A>);

/// With bounds checks.
pub const SAFE: Ported<Checked> = Ported("safe", PhantomData);

/// Safe Rust with one check for each 16-bit number that is read from the file.
pub const PAIRED: Ported<Paired> = Ported("paired", PhantomData);

/// Without bounds checks.
pub const UNCHECKED: Ported<Unchecked> = Ported("unchecked", PhantomData);

/// All versions, in the order of the tables.
pub const VERSIONS: [&dyn Version; 4] = [&Proved, &SAFE, &PAIRED, &UNCHECKED];

/// The version of a name.
pub fn named(name: &str) -> Option<&'static dyn Version> {
    VERSIONS.into_iter().find(|version| version.name() == name)
}

/// The trait of all versions, from the operations: for each the module of `ported` that has it, its name, its arguments
/// and its answer.
macro_rules! versions {
    ($($module:ident::$operation:ident($($argument:ident: $kind:ty),*) -> $answer:ty;)*) => {
        /// A version: its name, and the operations of `fahkelo.rs`.
        pub trait Version {
            fn name(&self) -> &'static str;
            $(fn $operation(&self, $($argument: $kind),*) -> $answer;)*
        }

        impl Version for Proved {
            fn name(&self) -> &'static str {
                "proved"
            }

            $(fn $operation(&self, $($argument: $kind),*) -> $answer {
                fahkelo::$operation($($argument),*)
            })*
        }

        impl<A: Access> Version for Ported<A> {
            fn name(&self) -> &'static str {
                self.0
            }

            $(fn $operation(&self, $($argument: $kind),*) -> $answer {
                $module::$operation::<A>($($argument),*)
            })*
        }
    };
}

versions! {
    finder::step(file: &[u8], mark_table: u16, ceiling: u16, so_far: Record, work: &mut [u16]) -> StepAnswer;
    finder::search(file: &[u8], ask: Ask, answer: &mut [u16], work: &mut [u16]) -> SearchAnswer;
    finder::next(file: &[u8], mark_table: u16, earlier: &[u16], answer: &mut [u16], work: &mut [u16]) -> NextAnswer;
    combine::combine(rule: &[u8], letters: &[u8], property: &[u8], output: &mut [u8]) -> CombineAnswer;
    grade::grade(file: &[u8], mark_table: u16, list: &[u16], k: u16, work: &mut [u16]) -> GradeAnswer;
    distances::distances(file: &[u8], ceiling: u16, distances: &mut [u16], work: &mut [u16]) -> DistancesAnswer;
}
