//! The model file: its check by the rules 1 to 11, where its tables stand, and the leaves that read it.

#![forbid(unsafe_code)]

use super::access::Access;

/// The fields of an accepted file, and the mark table by which it is read. `stays`: a state without edges has an implied
/// step to itself.
#[derive(Clone, Copy)]
pub struct Header {
    pub states: usize,
    pub edges: usize,
    pub start: usize,
    pub stays: bool,
    pub table: usize,
}

impl Header {
    /// The same header, by which another mark table is read.
    pub fn naming(self, table: usize) -> Header {
        Header { table, ..self }
    }
}

/// A 16-bit number by one part of two bytes, with one check.
#[inline(always)]
fn pair(file: &[u8], at: usize) -> usize {
    let bytes = file[at..at + 2].try_into().expect("a part of two bytes");
    u16::from_le_bytes(bytes) as usize
}

#[inline]
pub fn word<A: Access>(file: &[u8], at: usize) -> usize {
    if A::PAIRED {
        return pair(file, at);
    }
    A::get(file, at) as usize + 256 * A::get(file, at + 1) as usize
}

#[inline]
pub fn entry<A: Access>(file: &[u8], table: usize, k: usize) -> usize {
    word::<A>(file, table + 2 * k)
}

fn long<A: Access>(file: &[u8], at: usize) -> usize {
    word::<A>(file, at) + 65536 * word::<A>(file, at + 2)
}

/// Bit s of the bytes from a place on, eight to a byte.
#[inline]
pub fn bit<A: Access>(file: &[u8], at: usize, s: usize) -> bool {
    (A::get(file, at + s / 8) >> (s % 8)) % 2 == 1
}

/// The same bit, where the byte may be past the end of the file: there no bit is set.
#[inline]
fn bit_if_there<A: Access>(file: &[u8], at: usize, s: usize) -> bool {
    at + s / 8 < file.len() && bit::<A>(file, at, s)
}

/// The offset of the edge table.
#[inline]
pub fn edges_at(n: usize) -> usize {
    24 + 2 * (n + 1)
}

/// The offset of the marks.
#[inline]
pub fn marks_at(n: usize, m: usize) -> usize {
    edges_at(n) + 2 * m
}

/// The number of bytes of a mark table.
#[inline]
pub fn mark_bytes(n: usize) -> usize {
    n.div_ceil(8)
}

/// The offset of mark table t.
#[inline]
fn table_at(n: usize, m: usize, t: usize) -> usize {
    marks_at(n, m) + t * mark_bytes(n)
}

/// The total length of a model file with one mark table.
#[inline]
pub fn total_of(n: usize, m: usize) -> usize {
    marks_at(n, m) + mark_bytes(n)
}

/// The most mark tables that a model file may have.
const MARK_TABLES: usize = 2;

/// The header, which names mark table 0, or the number of the first broken rule.
pub fn check<A: Access>(file: &[u8]) -> Result<Header, u16> {
    let h = check_head::<A>(file)?;
    check_tables::<A>(file, h, total_of(h.states, h.edges), MARK_TABLES)
}

/// The rules 1 to 5.
pub fn check_head<A: Access>(file: &[u8]) -> Result<Header, u16> {
    if file.len() < 24 {
        return Err(1);
    }
    let states = word::<A>(file, 0);
    let edges = word::<A>(file, 2);
    let start = word::<A>(file, 4);
    if states == 0 || 4096 < states {
        return Err(2);
    }
    if 8192 < edges {
        return Err(3);
    }
    if states <= start {
        return Err(4);
    }
    let reserved = word::<A>(file, 6);
    if 1 < reserved {
        return Err(5);
    }
    Ok(Header {
        states,
        edges,
        start,
        stays: reserved == 1,
        table: 0,
    })
}

/// The rules 6 to 11, by the total length that the kind of file has with one mark table, and the most mark tables that
/// it may have.
pub fn check_tables<A: Access>(
    file: &[u8],
    h: Header,
    total: usize,
    tables: usize,
) -> Result<Header, u16> {
    let n = h.states;
    let m = h.edges;
    if offsets_broken::<A>(file, n, m, total, tables) {
        return Err(6);
    }
    if file.len() != long::<A>(file, 20) {
        return Err(7);
    }
    if rows_broken::<A>(file, n, m) {
        return Err(8);
    }
    if targets_broken::<A>(file, n, m) {
        return Err(9);
    }
    if order_broken::<A>(file, n) {
        return Err(10);
    }
    if spare_set::<A>(file, n, m, tables) {
        return Err(11);
    }
    Ok(h)
}

fn total_fits<A: Access>(file: &[u8], n: usize, total: usize, tables: usize) -> bool {
    let size = mark_bytes(n);
    let given = long::<A>(file, 20);
    (0..tables).any(|t| given == total + t * size)
}

fn offsets_broken<A: Access>(file: &[u8], n: usize, m: usize, total: usize, tables: usize) -> bool {
    long::<A>(file, 8) != 24
        || long::<A>(file, 12) != edges_at(n)
        || long::<A>(file, 16) != marks_at(n, m)
        || !total_fits::<A>(file, n, total, tables)
}

fn rows_broken<A: Access>(file: &[u8], n: usize, m: usize) -> bool {
    if entry::<A>(file, 24, 0) != 0 {
        return true;
    }
    for s in 0..n {
        if entry::<A>(file, 24, s + 1) < entry::<A>(file, 24, s) {
            return true;
        }
    }
    entry::<A>(file, 24, n) != m
}

fn targets_broken<A: Access>(file: &[u8], n: usize, m: usize) -> bool {
    let base = edges_at(n);
    (0..m).any(|e| n <= entry::<A>(file, base, e))
}

fn ascends<A: Access>(part: &[u8]) -> bool {
    (1..part.len() / 2).all(|k| word::<A>(part, 2 * (k - 1)) < word::<A>(part, 2 * k))
}

fn order_broken<A: Access>(file: &[u8], n: usize) -> bool {
    (0..n).any(|s| !ascends::<A>(row::<A>(file, n, s)))
}

fn spare_of_table<A: Access>(file: &[u8], n: usize, m: usize, t: usize) -> bool {
    let at = table_at(n, m, t);
    (n..8 * mark_bytes(n)).any(|s| bit_if_there::<A>(file, at, s))
}

fn spare_set<A: Access>(file: &[u8], n: usize, m: usize, tables: usize) -> bool {
    (0..tables).any(|t| spare_of_table::<A>(file, n, m, t))
}

/// The part of a table with a 16-bit number for each edge, from byte `base` on, that belongs to row s.
#[inline]
pub fn edge_part<A: Access>(file: &[u8], base: usize, s: usize) -> &[u8] {
    let from = base + 2 * entry::<A>(file, 24, s);
    let to = base + 2 * entry::<A>(file, 24, s + 1);
    A::part(file, from, to)
}

/// The part of the file that holds the targets of row s, in a file of n states.
#[inline]
pub fn row<A: Access>(file: &[u8], n: usize, s: usize) -> &[u8] {
    edge_part::<A>(file, edges_at(n), s)
}

/// The part of the file that holds the targets of one state's row.
#[inline]
pub fn row_part<A: Access>(file: &[u8], h: Header, s: usize) -> &[u8] {
    row::<A>(file, h.states, s)
}

/// The number of edges in a row's part.
#[inline]
pub fn edge_count(part: &[u8]) -> usize {
    part.len() / 2
}

/// Where the edge at place k of a row's part leads.
#[inline]
pub fn edge_target<A: Access>(part: &[u8], k: usize) -> usize {
    word::<A>(part, 2 * k)
}

/// The number of successors of a state, by its row's part; a state without edges that stays has one, itself.
#[inline]
pub fn degree(part: &[u8], h: Header) -> usize {
    let count = edge_count(part);
    if 0 < count {
        return count;
    }
    usize::from(h.stays)
}

/// The successor of state s at place k, by its row's part; the only one of a state without edges is itself.
#[inline]
pub fn successor<A: Access>(part: &[u8], s: usize, k: usize) -> usize {
    if edge_count(part) == 0 {
        return s;
    }
    edge_target::<A>(part, k)
}

/// There is an edge from s to t. Successors ascend, so t is looked for in the middle of the places where it can stand,
/// which halves them: it stands at none after place t.
pub fn has_edge<A: Access>(file: &[u8], h: Header, s: usize, t: usize) -> bool {
    A::seek();
    let part = row_part::<A>(file, h, s);
    let d = degree(part, h);
    let mut low = 0;
    let mut high = if t < d { t + 1 } else { d };
    while low < high {
        A::look();
        let middle = low + (high - low) / 2;
        let u = successor::<A>(part, s, middle);
        if u == t {
            return true;
        }
        if u < t {
            low = middle + 1;
        } else {
            high = middle;
        }
    }
    false
}

/// State s is marked in the mark table that the header names: no state is if the file has no such table.
#[inline]
pub fn is_marked<A: Access>(file: &[u8], h: Header, s: usize) -> bool {
    let at = table_at(h.states, h.edges, h.table);
    if file.len() < at + mark_bytes(h.states) {
        return false;
    }
    bit::<A>(file, at, s)
}
