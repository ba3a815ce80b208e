//! The families of lists that are graded and measured, on models of 4,096 states: long lists, whose steps are most of the
//! work; the first shortest list of each family of models, whose rounds are; and a list that breaks at once.

use crate::fahkelo::{Verdict, FULL_CEILING, TABLE_0};
use crate::families::{self, Family, FAMILIES};
use crate::graph::Graph;
use crate::measure::textbook_once;
use crate::model::Model;
use crate::random::Random;
use crate::reference::{accepting, read};

const STATES: usize = 4096;

/// The entries of a long list.
const ENTRIES: usize = 70_000;

/// What is graded.
pub struct Input {
    pub file: Vec<u8>,
    pub list: Vec<u16>,
    pub k: u16,
}

/// A family: its name, what is graded, and the verdict and place.
pub struct Graded {
    pub name: String,
    pub input: Input,
    pub verdict: Verdict,
    pub place: Option<usize>,
}

/// The long lists and the list that breaks at once.
pub const LONG: [&str; 4] = [
    "through-4096",
    "through-2048",
    "round-a-ring",
    "broken-at-0",
];

/// The names of all families, in the order of the table.
pub fn names() -> impl Iterator<Item = String> {
    let shortest = FAMILIES
        .iter()
        .map(|family| format!("shortest-{}", family.name));
    LONG.map(String::from).into_iter().chain(shortest)
}

/// The family of a name.
pub fn named(name: &str) -> Option<Graded> {
    let (input, verdict, place) = match name {
        "through-4096" => (through_hub(full_hub()), Verdict::False, None),
        "through-2048" => (through_hub(half_hub()), Verdict::False, None),
        "round-a-ring" => (round_a_ring(), Verdict::False, None),
        "broken-at-0" => (broken_at_0(), Verdict::False, Some(0)),
        _ => {
            let family = families::named(name.strip_prefix("shortest-")?)?;
            (shortest_of(family), Verdict::Shortest, None)
        }
    };
    Some(Graded {
        name: name.to_string(),
        input,
        verdict,
        place,
    })
}

/// The start leads to all states, itself too, and each of them back.
fn full_hub() -> Model {
    let mut model = Model::new(STATES);
    for s in 0..STATES {
        model.edge(0, s);
        model.edge(s, 0);
    }
    model.marks.fill(true);
    model
}

/// The start leads to the upper half of the states, and each of these back. None stands at the place of its number, so
/// the whole row is halved for each.
fn half_hub() -> Model {
    let mut model = Model::new(STATES);
    for s in STATES / 2..STATES {
        model.edge(0, s);
        model.edge(s, 0);
        model.marks[s] = true;
    }
    model
}

/// A list that goes from the start to a successor drawn by lot and back, again and again.
fn through_hub(model: Model) -> Input {
    let mut lot = Random::new(6);
    let row = &model.succs[0];
    let there_and_back = (0..ENTRIES / 2).flat_map(|_| [0, row[lot.below(row.len())]]);
    Input {
        list: there_and_back.collect(),
        file: model.to_bytes(),
        k: 0,
    }
}

/// A list that goes round a ring again and again.
fn round_a_ring() -> Input {
    let ring = families::named("ring-all-marked").expect("there is the family");
    Input {
        file: (ring.make)(STATES).to_bytes(),
        list: (0..ENTRIES).map(|j| (j % STATES) as u16).collect(),
        k: 0,
    }
}

/// A long list whose first entry is no state.
fn broken_at_0() -> Input {
    let mut input = round_a_ring();
    input.list[0] = STATES as u16;
    input
}

/// The first shortest list of a family of models, with its k.
fn shortest_of(family: &Family) -> Input {
    let file = (family.make)(STATES).to_bytes();
    let list = textbook_once(&file, FULL_CEILING).expect("the family has an accepting path");
    let model = read(&file).expect("the families are valid files");
    let graph = Graph::of(model, TABLE_0);
    let k = accepting(&graph, &list).expect("the list is accepting") as u16;
    Input { file, list, k }
}
