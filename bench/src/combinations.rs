//! The families of combinations that are measured: N rule states by Q property states, with results of full size, 4,096
//! states (or 4,095) and 8,192 edges (or 8,190).

use crate::model::Model;
use crate::property::Property;
use crate::random::Random;

/// The files of a combination.
#[derive(Clone)]
pub struct Input {
    pub rule: Vec<u8>,
    pub letters: Vec<u8>,
    pub property: Vec<u8>,
}

impl Input {
    /// The same files with the flags of bytes 6–7 as given, for the rule and for the property.
    pub fn staying(&self, rule: bool, property: bool) -> Input {
        let mut input = self.clone();
        input.rule[6] = rule as u8;
        input.property[6] = property as u8;
        input
    }
}

/// A family: the states and edges of the rule and of the property, and how many property edges hold each letter of the
/// rule. The edges are spread evenly over the states.
pub struct Combination {
    pub name: &'static str,
    pub rule_states: usize,
    pub rule_edges: usize,
    pub property_states: usize,
    pub property_edges: usize,
    pub held: usize,
}

/// All families, in the order of the tables.
pub const COMBINATIONS: &[Combination] = &[
    family("4096x1", 4096, 8192, 1, 1, 1),
    family("2048x2", 2048, 4096, 2, 4, 2),
    family("1024x4", 1024, 2048, 4, 16, 4),
    family("64x64", 64, 128, 64, 4096, 64),
    family("4x1024", 4, 16, 1024, 8192, 512),
    family("2x2048", 2, 4, 2048, 8192, 2048),
    family("1x4096", 1, 1, 4096, 8192, 8192),
    family("most-blocks", 91, 8192, 45, 2025, 1),
    family("tests-1024", 45, 45, 91, 1024, 182),
    family("tests-2048", 45, 45, 91, 2048, 182),
    family("tests-4096", 45, 45, 91, 4096, 182),
    family("most-tests", 45, 45, 91, 8192, 182),
];

const fn family(
    name: &'static str,
    rule_states: usize,
    rule_edges: usize,
    property_states: usize,
    property_edges: usize,
    held: usize,
) -> Combination {
    Combination {
        name,
        rule_states,
        rule_edges,
        property_states,
        property_edges,
        held,
    }
}

/// The family of a name.
pub fn named(name: &str) -> Option<&'static Combination> {
    COMBINATIONS.iter().find(|family| family.name == name)
}

/// The letter that no state of a rule has; every mask holds it, so that none is zero.
const UNUSED: usize = 15;

impl Combination {
    /// The masks that are tested in one pass over the combined states.
    pub fn mask_tests(&self) -> usize {
        self.rule_states * self.property_edges
    }

    /// The blocks that are written: one for each combined state and successor of its rule state.
    pub fn blocks(&self) -> usize {
        self.rule_edges * self.property_states
    }

    /// The edges of the result.
    pub fn edges(&self) -> usize {
        self.rule_edges * self.held
    }

    /// The files of the family.
    pub fn make(&self) -> Input {
        let mut lot = Random::new(5);
        let rule = circulant(self.rule_states, self.rule_edges);
        let letters = (0..self.rule_states).map(|_| lot.below(UNUSED) as u8);
        let letters = letters.collect();
        let mut model = circulant(self.property_states, self.property_edges);
        for q in 0..self.property_states {
            model.marks[q] = lot.once_in(3);
        }
        let mut property = Property::new(model, 1 << UNUSED);
        for letter in 0..UNUSED {
            hold(&mut lot, &mut property, letter, self.held);
        }
        Input {
            rule: rule.to_bytes(),
            letters,
            property: property.to_bytes(),
        }
    }
}

/// A model of n states, in which the edges are spread evenly: edge e leads from state e mod n, e / n + 1 steps around.
fn circulant(n: usize, edges: usize) -> Model {
    let mut model = Model::new(n);
    for e in 0..edges {
        let (s, step) = (e % n, e / n + 1);
        model.edge(s, (s + step) % n);
    }
    model
}

/// Lets so many masks hold a letter, drawn by lot.
fn hold(lot: &mut Random, property: &mut Property, letter: usize, count: usize) {
    let mut left = count;
    let mut edges = property.model.edges();
    for mask in property.masks.iter_mut().flatten() {
        if lot.below(edges) < left {
            *mask |= 1 << letter;
            left -= 1;
        }
        edges -= 1;
    }
}
