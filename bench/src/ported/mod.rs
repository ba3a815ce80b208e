//! The proved algorithms once more, in Rust. The search, step by step in the same table of 6 × N entries: what the
//! crates checking, model, frontier, edge_search, spread, walks, ways, candidates, round, round_limit, after_round,
//! rounds, begun, starts, stems, looks, ends, goal_tables, passed, moves, tested, followers, completion, listing,
//! current, cursor, gate, step, search and next do; its functions are divided otherwise, and lengths are plain numbers
//! here. The combination, function by function: what the crates property, writer, combine_row, combine_edges,
//! combine_marks, combine_file, combine_letters and combine do. The grade, function by function: what the crates paths,
//! grade_accepts, grade_least and grade do, over the rounds of the search. The distances, function by function: what the
//! crate distances does, over those that a search starts with. The text is shared by the versions with bounds checks,
//! for each byte or for each 16-bit number of a file, and without them.

pub mod access;
pub mod combine;
mod combine_file;
mod combine_row;
pub mod distances;
mod ends;
pub mod finder;
mod follow;
mod gate;
mod goal_tables;
pub mod grade;
mod model;
mod passed;
mod paths;
mod places;
mod property;
mod rounds;
mod spread;
mod starts;
mod stems;
mod tested;
mod ways;
mod writer;
