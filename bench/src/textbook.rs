//! The shortest lassos without a limit on memory, as one would write it from a textbook: breadth-first searches along
//! and against the edges for each candidate, then the lists by backward distances. It shares nothing with the proved
//! algorithm but the definitions.

use crate::graph::Graph;

const NONE: u32 = u32::MAX;

/// Successor (or predecessor) lists, all in one vector.
struct Adjacency {
    first: Vec<u32>,
    targets: Vec<u16>,
}

impl Adjacency {
    fn of(n: usize, edges: impl Iterator<Item = (u16, u16)> + Clone) -> Adjacency {
        let mut first = vec![0u32; n + 1];
        for (from, _) in edges.clone() {
            first[from as usize + 1] += 1;
        }
        for s in 0..n {
            first[s + 1] += first[s];
        }
        let mut place = first.clone();
        let mut targets = vec![0; first[n] as usize];
        for (from, to) in edges {
            targets[place[from as usize] as usize] = to;
            place[from as usize] += 1;
        }
        Adjacency { first, targets }
    }

    fn of_state(&self, s: u16) -> &[u16] {
        let s = s as usize;
        &self.targets[self.first[s] as usize..self.first[s + 1] as usize]
    }
}

/// Distances from one state, with the states reached in the order of their distances.
struct Search {
    distance: Vec<u32>,
    reached: Vec<u16>,
}

impl Search {
    fn new(n: usize) -> Search {
        Search {
            distance: vec![NONE; n],
            reached: Vec::with_capacity(n),
        }
    }

    /// Replaces the distances by those from a state, up to a limit.
    fn run(&mut self, adjacency: &Adjacency, from: u16, limit: u32) {
        for &s in &self.reached {
            self.distance[s as usize] = NONE;
        }
        self.reached.clear();
        self.distance[from as usize] = 0;
        self.reached.push(from);
        let mut at = 0;
        while at < self.reached.len() {
            let s = self.reached[at];
            at += 1;
            let next = self.distance[s as usize] + 1;
            if limit < next {
                break;
            }
            for &t in adjacency.of_state(s) {
                if self.distance[t as usize] == NONE {
                    self.distance[t as usize] = next;
                    self.reached.push(t);
                }
            }
        }
    }
}

/// A graph with both adjacencies, and the distances from the start.
pub struct Textbook {
    start: u16,
    marks: Vec<bool>,
    forward: Adjacency,
    backward: Adjacency,
    from_start: Vec<u32>,
}

impl Textbook {
    pub fn new(graph: &Graph) -> Textbook {
        let n = graph.states();
        let rows = graph.succs.iter().enumerate();
        let edges = rows.flat_map(|(s, row)| row.iter().map(move |&t| (s as u16, t)));
        let forward = Adjacency::of(n, edges.clone());
        let backward = Adjacency::of(n, edges.map(|(s, t)| (t, s)));
        let mut search = Search::new(n);
        search.run(&forward, graph.start, NONE - 1);
        Textbook {
            start: graph.start,
            marks: graph.marks.clone(),
            forward,
            backward,
            from_start: search.distance,
        }
    }

    fn states(&self) -> usize {
        self.marks.len()
    }

    /// The marked states that the start reaches, ascending.
    pub fn candidates(&self) -> Vec<u16> {
        let states = 0..self.states();
        states
            .filter(|&s| self.marks[s] && self.from_start[s] != NONE)
            .map(|s| s as u16)
            .collect()
    }

    /// All rounds: the least length, if it is not above the ceiling, and the lister of its lists. Rounds need no length
    /// above the ceiling or the best so far.
    pub fn solve(&self, ceiling: u16) -> Option<Lister<'_>> {
        let mut rounds = Rounds::new(self);
        let mut best = None;
        for r in self.candidates() {
            let limit = best.unwrap_or(u32::from(ceiling));
            best = rounds.length(r, limit).or(best);
        }
        best.map(|length| Lister::new(self, length as usize, rounds.loops))
    }

    /// The length of each candidate's round, if it is not above the ceiling.
    pub fn round_lengths(&self, ceiling: u16) -> Vec<Option<u16>> {
        let mut rounds = Rounds::new(self);
        let lengths = self.candidates().into_iter();
        lengths
            .map(|r| rounds.length(r, u32::from(ceiling)))
            .map(|length| length.map(|length| length as u16))
            .collect()
    }
}

/// The two searches of a round, and the least loop through a mark found so far for each state.
struct Rounds<'a> {
    model: &'a Textbook,
    ahead: Search,
    behind: Search,
    loops: Vec<u32>,
}

impl<'a> Rounds<'a> {
    fn new(model: &'a Textbook) -> Rounds<'a> {
        let n = model.states();
        Rounds {
            model,
            ahead: Search::new(n),
            behind: Search::new(n),
            loops: vec![NONE; n],
        }
    }

    /// The least length of an accepting path whose loop holds r, if it is at most the limit.
    fn length(&mut self, r: u16, limit: u32) -> Option<u32> {
        let model = self.model;
        self.ahead.run(&model.forward, r, limit);
        self.behind.run(&model.backward, r, limit);
        let mut best = NONE;
        for &s in &self.ahead.reached {
            let there = self.ahead.distance[s as usize];
            let back = if s == r {
                self.shortest_return(r)
            } else {
                self.behind.distance[s as usize]
            };
            if back == NONE {
                continue;
            }
            let around = there + back;
            let known = &mut self.loops[s as usize];
            *known = around.min(*known);
            best = best.min(model.from_start[s as usize] + around);
        }
        (best <= limit).then_some(best)
    }

    /// The least length of a path with at least one edge from r to r.
    fn shortest_return(&self, r: u16) -> u32 {
        let last_steps = self.model.backward.of_state(r).iter();
        let lengths = last_steps.map(|&p| self.ahead.distance[p as usize]);
        lengths.min().map_or(NONE, |d| d.saturating_add(1))
    }
}

/// For one loop start: the least steps from each state to it, and the least steps that meet a mark on the way.
struct Returns {
    plain: Vec<u32>,
    through_mark: Vec<u32>,
}

/// A loop that a list may have begun: its start, and whether a mark stands on it so far.
#[derive(Clone, Copy)]
struct Begun {
    start: u16,
    marked: bool,
}

/// What is possible after a prefix: more stem, and the loops begun.
struct Prefix {
    on_stem: bool,
    begun: Vec<Begun>,
}

/// The lists of least length in dictionary order.
pub struct Lister<'a> {
    model: &'a Textbook,
    length: usize,
    starts_loop: Vec<bool>,
    stem: Vec<bool>,
    returns: Vec<Option<Returns>>,
    list: Vec<u16>,
    prefixes: Vec<Prefix>,
}

impl<'a> Lister<'a> {
    /// The lister, at the first list.
    fn new(model: &'a Textbook, length: usize, loops: Vec<u32>) -> Lister<'a> {
        let n = model.states();
        let sums = (0..n).map(|s| model.from_start[s].saturating_add(loops[s]));
        let starts_loop: Vec<bool> = sums.map(|sum| sum as usize == length).collect();
        let stem = stem_states(model, &starts_loop);
        let mut lister = Lister {
            model,
            length,
            starts_loop,
            stem,
            returns: (0..n).map(|_| None).collect(),
            list: Vec::with_capacity(length + 1),
            prefixes: Vec::with_capacity(length + 1),
        };
        lister.push(model.start);
        lister.complete();
        lister
    }

    /// The current list.
    pub fn list(&self) -> &[u16] {
        &self.list
    }

    /// Goes to the next list; false if the current one is the last.
    pub fn advance(&mut self) -> bool {
        while 1 < self.list.len() {
            self.prefixes.pop();
            let last = self.list.pop().expect("the list is not empty");
            if self.extend_from(last + 1) {
                self.complete();
                return true;
            }
        }
        false
    }

    fn complete(&mut self) {
        while self.list.len() <= self.length {
            let extended = self.extend_from(0);
            assert!(extended, "a prefix that was admitted has an extension");
        }
    }

    /// Adds the least state from a bound on that may stand next.
    fn extend_from(&mut self, bound: u16) -> bool {
        let model = self.model;
        let last = *self.list.last().expect("the list is not empty");
        let followers = model.forward.of_state(last).iter();
        for &t in followers.filter(|&&t| bound <= t) {
            if self.push(t) {
                return true;
            }
        }
        false
    }

    /// Adds a state, if the list with it begins some list of least length.
    fn push(&mut self, t: u16) -> bool {
        let place = self.list.len();
        let left = (self.length - place) as u32;
        let at_start = place == 0;
        let on_stem = (at_start || self.prefixes[place - 1].on_stem)
            && self.model.from_start[t as usize] as usize == place
            && self.stem[t as usize];
        let marked = self.model.marks[t as usize];
        let mut begun = Vec::new();
        if !at_start {
            for i in 0..self.prefixes[place - 1].begun.len() {
                let earlier = self.prefixes[place - 1].begun[i];
                let now = Begun {
                    marked: earlier.marked || marked,
                    ..earlier
                };
                if self.steps_home(now, t) <= left {
                    begun.push(now);
                }
            }
        }
        if on_stem && self.starts_loop[t as usize] {
            begun.push(Begun { start: t, marked });
        }
        if !on_stem && begun.is_empty() {
            return false;
        }
        self.list.push(t);
        self.prefixes.push(Prefix { on_stem, begun });
        true
    }

    /// The least steps from a state to the start of a loop, through a mark if none was met yet.
    fn steps_home(&mut self, begun: Begun, t: u16) -> u32 {
        let model = self.model;
        let returns = self.returns[begun.start as usize]
            .get_or_insert_with(|| returns_to(model, begun.start));
        if begun.marked {
            returns.plain[t as usize]
        } else {
            returns.through_mark[t as usize]
        }
    }
}

/// The states from which steps that each lead one further from the start end at the start of a loop.
fn stem_states(model: &Textbook, starts_loop: &[bool]) -> Vec<bool> {
    let mut by_distance: Vec<u16> = (0..model.states() as u16)
        .filter(|&s| model.from_start[s as usize] != NONE)
        .collect();
    by_distance.sort_unstable_by_key(|&s| std::cmp::Reverse(model.from_start[s as usize]));
    let mut stem = starts_loop.to_vec();
    for s in by_distance {
        let next = model.from_start[s as usize] + 1;
        let mut followers = model.forward.of_state(s).iter();
        stem[s as usize] |=
            followers.any(|&t| model.from_start[t as usize] == next && stem[t as usize]);
    }
    stem
}

/// The steps to a loop start, by one search against the edges over pairs of a state and "a mark is still to be met".
fn returns_to(model: &Textbook, home: u16) -> Returns {
    let n = model.states();
    let mut plain = vec![NONE; n];
    let mut through_mark = vec![NONE; n];
    let mut queue: Vec<(u16, bool)> = Vec::with_capacity(2 * n);
    let mut at = 0;
    plain[home as usize] = 0;
    queue.push((home, false));
    if model.marks[home as usize] {
        through_mark[home as usize] = 0;
        queue.push((home, true));
    }
    while at < queue.len() {
        let (s, mark_met) = queue[at];
        at += 1;
        let table = if mark_met { &through_mark } else { &plain };
        let next = table[s as usize] + 1;
        for &p in model.backward.of_state(s) {
            if !mark_met && plain[p as usize] == NONE {
                plain[p as usize] = next;
                queue.push((p, false));
            }
            let meets = mark_met || model.marks[p as usize];
            if meets && through_mark[p as usize] == NONE {
                through_mark[p as usize] = next;
                queue.push((p, true));
            }
        }
    }
    Returns {
        plain,
        through_mark,
    }
}
