//! The families of model files that are measured. Each is made for any number of states that is a power of 4, from 256
//! up to 4,096, with at most twice as many edges.

use crate::model::Model;
use crate::random::Random;

/// A family: its name, and how a member is made.
pub struct Family {
    pub name: &'static str,
    pub make: fn(usize) -> Model,
}

/// All families, in the order of the tables.
pub const FAMILIES: &[Family] = &[
    family("ring-one-mark", ring_one_mark),
    family("ring-all-marked", ring_all_marked),
    family("ladder", ladder),
    family("grid", grid),
    family("torus-all-marked", torus),
    family("random-few-marks", random_few_marks),
    family("random-many-marks", random_many_marks),
    family("hub", hub),
    family("diamonds", diamonds),
    family("decoys", decoys),
    family("decoys-twice", decoys_twice),
    family("long-stem", long_stem),
    family("steps-back", steps_back),
    family("largest", largest),
    family("sinks", sinks),
    family("nested", nested),
    family("marks-before-dead-ends", marks_before_dead_ends),
];

const fn family(name: &'static str, make: fn(usize) -> Model) -> Family {
    Family { name, make }
}

/// The family of a name.
pub fn named(name: &str) -> Option<&'static Family> {
    FAMILIES.iter().find(|family| family.name == name)
}

/// Each state leads to the next, the last one to the first.
fn ring(n: usize) -> Model {
    let mut model = Model::new(n);
    for s in 0..n {
        model.edge(s, (s + 1) % n);
    }
    model
}

fn ring_one_mark(n: usize) -> Model {
    let mut model = ring(n);
    model.marks[n - 1] = true;
    model
}

fn ring_all_marked(n: usize) -> Model {
    let mut model = ring(n);
    model.marks.fill(true);
    model
}

/// Each of two states of a rung leads to both of the next, the last rung to the first; the last state is marked.
fn ladder(n: usize) -> Model {
    let mut model = Model::new(n);
    for s in 0..n {
        let next = (s / 2 + 1) % (n / 2);
        model.edge(s, 2 * next);
        model.edge(s, 2 * next + 1);
    }
    model.marks[n - 1] = true;
    model
}

/// A square with steps right and down; the last corner is marked and leads to the first.
fn grid(n: usize) -> Model {
    let side = n.isqrt();
    let mut model = Model::new(n);
    for s in 0..n {
        if s % side + 1 < side {
            model.edge(s, s + 1);
        }
        if s + side < n {
            model.edge(s, s + side);
        }
    }
    model.edge(n - 1, 0);
    model.marks[n - 1] = true;
    model
}

/// A square with steps right and down that lead around; all states are marked.
fn torus(n: usize) -> Model {
    let side = n.isqrt();
    let mut model = Model::new(n);
    for s in 0..n {
        model.edge(s, s / side * side + (s + 1) % side);
        model.edge(s, (s + side) % n);
    }
    model.marks.fill(true);
    model
}

/// Two edges a state, to states drawn by lot.
fn random(n: usize, seed: u64) -> Model {
    let mut lot = Random::new(seed);
    let mut model = Model::new(n);
    for s in 0..n {
        model.edge(s, lot.below(n));
        model.edge(s, lot.below(n));
    }
    model
}

fn random_few_marks(n: usize) -> Model {
    let mut model = random(n, 1);
    let mut lot = Random::new(2);
    for _ in 0..8 {
        model.marks[lot.below(n)] = true;
    }
    model
}

fn random_many_marks(n: usize) -> Model {
    let mut model = random(n, 3);
    let mut lot = Random::new(4);
    for s in 0..n {
        model.marks[s] = lot.once_in(2);
    }
    model
}

/// The start leads to all other states and each of them back; these are marked.
fn hub(n: usize) -> Model {
    let mut model = Model::new(n);
    for s in 1..n {
        model.edge(0, s);
        model.edge(s, 0);
        model.marks[s] = true;
    }
    model
}

/// A ring of diamonds, each with two ways through; the last of its states is marked.
fn diamonds(n: usize) -> Model {
    let mut model = Model::new(n);
    let count = n / 3;
    for d in 0..count {
        let next = (d + 1) % count * 3;
        model.edge(3 * d, 3 * d + 1);
        model.edge(3 * d, 3 * d + 2);
        model.edge(3 * d + 1, next);
        model.edge(3 * d + 2, next);
    }
    model.marks[3 * count - 1] = true;
    model.marks[3 * count - 2] = true;
    model
}

/// A way of half the states after 24 first steps, marked at its end, which leads to the start. From each of its states
/// an edge leads to the state after the way. Answers that state.
fn way(model: &mut Model, n: usize) -> usize {
    let firsts = 24;
    let start = firsts + 1;
    let end = start + n / 2 - 1;
    for first in 1..=firsts {
        model.edge(0, first);
        model.edge(first, start);
    }
    for s in start..end {
        model.edge(s, s + 1);
        model.edge(s, end + 1);
    }
    model.edge(end, 0);
    model.marks[end] = true;
    end + 1
}

/// Edges from a state to all after it, and from each of these to the next; the last has none.
fn dead_ends(model: &mut Model, from: usize) {
    let n = model.states();
    for s in from + 1..n {
        model.edge(from, s);
        if s + 1 < n {
            model.edge(s, s + 1);
        }
    }
}

/// Each state of the way leads to a hub of dead ends too, which has the greater number: a list costs a test at every
/// place of the list before.
fn decoys(n: usize) -> Model {
    let mut model = Model::new(n);
    let hub = way(&mut model, n);
    dead_ends(&mut model, hub);
    model
}

/// The same, but the start and a mark are both reached from the dead ends in time, so that each test by a search needs
/// its second one.
fn decoys_twice(n: usize) -> Model {
    let mut model = Model::new(n);
    let gate = way(&mut model, n);
    let hub = gate + 1;
    model.edge(gate, 0);
    model.edge(gate, hub);
    model.marks[hub] = true;
    dead_ends(&mut model, hub);
    model
}

/// A stem of all states but the loop of two at its end; from each of its states an edge leads back to the start.
fn long_stem(n: usize) -> Model {
    let mut model = Model::new(n);
    for s in 0..n - 1 {
        model.edge(s, s + 1);
        model.edge(s, 0);
    }
    model.edge(n - 1, n - 2);
    model.marks[n - 1] = true;
    model
}

/// The same with edges one step back, so that every state may start a loop.
fn steps_back(n: usize) -> Model {
    let mut model = Model::new(n);
    for s in 0..n - 1 {
        model.edge(s, s + 1);
        if 0 < s {
            model.edge(s, s - 1);
        }
    }
    model.edge(n - 1, n - 1);
    model.marks[n - 1] = true;
    model
}

/// Steps of one and of two around a ring; all states are marked.
fn largest(n: usize) -> Model {
    let mut model = Model::new(n);
    for s in 0..n {
        model.edge(s, (s + 1) % n);
        model.edge(s, (s + 2) % n);
    }
    model.marks.fill(true);
    model
}

/// A way of half the states. Each of them leads to a state of its own without edges, which stays; those of the second
/// half of the way are marked.
fn sinks(n: usize) -> Model {
    let mut model = Model::new(n);
    model.stays = true;
    let half = n / 2;
    for s in 0..half {
        if s + 1 < half {
            model.edge(s, s + 1);
        }
        model.edge(s, half + s);
        model.marks[half + s] = half / 2 <= s;
    }
    model
}

/// A way of two thirds of the states; from each of its states an edge leads back to the start. Its end is marked and leads
/// to all others, so that each of them can start the loop, and the first list passes them all.
fn nested(n: usize) -> Model {
    let mut model = Model::new(n);
    let end = 2 * n / 3 - 2;
    for s in 0..end {
        model.edge(s, s + 1);
        model.edge(s, 0);
        model.edge(end, s);
    }
    model.marks[end] = true;
    model
}

/// The start leads to half of the states, which are marked and stand in rings of four. Each of them can start the loop,
/// and leads to a hub of dead ends too: a search along the edges enters these, one against the edges does not.
fn marks_before_dead_ends(n: usize) -> Model {
    let mut model = Model::new(n);
    let half = n / 2;
    let hub = 1;
    for s in hub + 1..half {
        model.edge(hub, s);
    }
    for s in half..n {
        model.edge(0, s);
        model.edge(s, hub);
        model.edge(s, s / 4 * 4 + (s + 1) % 4);
        model.marks[s] = true;
    }
    model
}
