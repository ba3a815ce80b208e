//! What a differential run draws by lot: models, damage to files, lengths and contents of tables, records and lists.

use crate::fahkelo::Record;
use crate::families::Family;
use crate::graph::Graph;
use crate::model::Model;
use crate::random::Random;
use crate::reference::SMALL;

/// A model drawn by lot: sparse or dense, with few marks or many.
pub fn random_model(lot: &mut Random, least: usize, most: usize) -> Model {
    let n = lot.between(least, most);
    let mut model = Model::new(n);
    model.start = lot.below(n) as u16;
    let dense = if n <= SMALL {
        lot.between(1, n)
    } else {
        lot.between(1, 3)
    };
    let least_degree = lot.below(2);
    for s in 0..n {
        for _ in 0..lot.between(least_degree, dense) {
            model.edge(s, lot.below(n));
        }
    }
    let rarity = lot.between(1, n.min(12));
    for s in 0..n {
        model.marks[s] = lot.once_in(rarity);
    }
    model
}

/// Gives a model a second mark table: with few marks or many, with those of the first one, or with none.
pub fn add_table(lot: &mut Random, model: &mut Model) {
    let n = model.states();
    let rarity = lot.between(1, n.min(12));
    let drawn = (0..n).map(|_| lot.once_in(rarity)).collect();
    model.second = Some(match lot.below(8) {
        0 => model.marks.clone(),
        1 => vec![false; n],
        _ => drawn,
    });
}

/// The number of a mark table that there is not.
pub fn table_above_1(lot: &mut Random) -> u16 {
    [2, 3, 255, 256, 257, 65535, lot.word().max(2)][lot.below(7)]
}

/// The model of a round of a differential run: two in twenty are larger than what is tried exhaustively, and half of them
/// have a second mark table.
pub fn model_of_round(lot: &mut Random, round: u64) -> Model {
    let (least, most) = if round % 20 >= 18 {
        (SMALL + 1, 40)
    } else {
        (1, SMALL)
    };
    let mut model = random_model(lot, least, most);
    if lot.once_in(2) {
        add_table(lot, &mut model);
    }
    model
}

/// The model of a measured family with a second mark table.
pub fn model_of_family(lot: &mut Random, family: &Family) -> Model {
    let mut model = (family.make)(256);
    add_table(lot, &mut model);
    model
}

/// Damages a file in one of several ways, up to three times.
pub fn damage(lot: &mut Random, file: &mut Vec<u8>) {
    for _ in 0..lot.between(1, 3) {
        match lot.below(10) {
            0 if !file.is_empty() => {
                let at = lot.below(file.len());
                file[at] ^= 1 << lot.below(8);
            }
            1 if !file.is_empty() => {
                let at = lot.below(file.len());
                file[at] = lot.byte();
            }
            2 => {
                let keep = lot.below(file.len() + 1);
                file.truncate(keep);
            }
            3 => {
                for _ in 0..lot.between(1, 4) {
                    file.push(if lot.once_in(2) { 0 } else { lot.byte() });
                }
            }
            4 if file.len() >= 24 => damage_field(lot, file),
            5 if file.len() >= 28 => {
                let at = 24 + 2 * lot.below((file.len() - 24) / 2);
                let value = [0, 1, lot.below(8) as u16, lot.word()][lot.below(4)];
                file[at..at + 2].copy_from_slice(&value.to_le_bytes());
            }
            6 if file.len() >= 24 => {
                let value = [0, 1, 2, 256, 257, lot.word()][lot.below(6)];
                file[6..8].copy_from_slice(&value.to_le_bytes());
            }
            7 if file.len() >= 24 => damage_size(lot, file),
            8 if file.len() >= 24 => set_spare_bit(lot, file),
            _ => {
                if let Some(last) = file.last_mut() {
                    *last ^= 1 << lot.below(8);
                }
            }
        }
    }
}

/// Where the marks of a file should stand, and how many bytes a mark table has, by the numbers in its header.
pub fn marks_of(file: &[u8]) -> (usize, usize) {
    let word = |at: usize| u16::from_le_bytes([file[at], file[at + 1]]) as usize;
    let (n, m) = (word(0), word(2));
    (24 + 2 * (n + 1) + 2 * m, n.div_ceil(8))
}

/// Puts a total length with one, two or three mark tables into the header, or one between them or beside them; once in two
/// times the file gets that length.
fn damage_size(lot: &mut Random, file: &mut Vec<u8>) {
    let (marks, size) = marks_of(file);
    let total = match lot.below(6) {
        0 => marks + size,
        1 | 2 => marks + 2 * size,
        3 => marks + 3 * size,
        _ => marks + lot.below(3 * size + 2),
    };
    file[20..24].copy_from_slice(&(total as u32).to_le_bytes());
    if lot.once_in(2) {
        file.truncate(total);
        let zeros = lot.once_in(2);
        while file.len() < total {
            file.push(if zeros { 0 } else { lot.byte() });
        }
    }
}

/// Sets a bit after the last state's in one of the mark tables, if there is such a bit and the table is there.
fn set_spare_bit(lot: &mut Random, file: &mut [u8]) {
    let (marks, size) = marks_of(file);
    let spare = 8 * size - u16::from_le_bytes([file[0], file[1]]) as usize;
    let last = marks + (1 + lot.below(2)) * size;
    if spare > 0 && last <= file.len() {
        file[last - 1] |= 0x80 >> lot.below(spare);
    }
}

/// Changes a field of the header by a little or to an extreme value.
fn damage_field(lot: &mut Random, file: &mut [u8]) {
    if lot.once_in(2) {
        let at = 2 * lot.below(4);
        let old = u16::from_le_bytes([file[at], file[at + 1]]);
        let values = [
            0,
            old.wrapping_add(1),
            old.wrapping_sub(1),
            4096,
            4097,
            8192,
            8193,
            65535,
        ];
        let value = values[lot.below(values.len())];
        file[at..at + 2].copy_from_slice(&value.to_le_bytes());
    } else {
        let at = 8 + 4 * lot.below(4);
        let old = u32::from_le_bytes([file[at], file[at + 1], file[at + 2], file[at + 3]]);
        let values = [
            0,
            old.wrapping_add(1),
            old.wrapping_sub(1),
            old | 0x8000_0000,
            old + 0x1_0000,
            u32::MAX,
        ];
        let value = values[lot.below(values.len())];
        file[at..at + 4].copy_from_slice(&value.to_le_bytes());
    }
}

/// A table of a length with any contents.
pub fn dirty(lot: &mut Random, len: usize) -> Vec<u16> {
    (0..len).map(|_| lot.word()).collect()
}

/// A table of places with any numbers of all 64 bits, some of them the greatest.
pub fn dirty_places(lot: &mut Random, len: usize) -> Vec<usize> {
    let mut place = || match lot.below(4) {
        0 => usize::MAX,
        _ => lot.number(),
    };
    (0..len).map(|_| place()).collect()
}

/// A length of a working table: mostly enough, sometimes short, sometimes longer than needed.
pub fn work_len(lot: &mut Random, states: usize) -> usize {
    match lot.below(8) {
        0 => (6 * states).saturating_sub(lot.between(1, 7)),
        1 => lot.below(6 * states + 1),
        2 | 3 => 6 * states + lot.between(1, 20),
        _ => 6 * states,
    }
}

/// A length of a table for the figures of a call in C, which needs four entries: mostly enough.
pub fn out_len(lot: &mut Random) -> usize {
    match lot.below(12) {
        0 => lot.below(4),
        _ => lot.between(4, 6),
    }
}

/// A ceiling about a length, or any: at the length, just above or below it, far below, too high.
pub fn ceiling_about(lot: &mut Random, length: usize) -> u16 {
    let ceiling = match lot.below(8) {
        0 => length.saturating_sub(1),
        1 => length + 1,
        2 => lot.below(length + 1),
        3 => 4097,
        4 => lot.below(65536),
        5 => length,
        _ => 4096,
    };
    ceiling as u16
}

/// A length of an answer table: mostly enough, sometimes one too short, sometimes none.
pub fn answer_len(lot: &mut Random, needed: usize) -> usize {
    match lot.below(8) {
        0 => needed.saturating_sub(1),
        1 => lot.below(needed + 1),
        2 | 3 => needed + lot.between(1, 9),
        _ => needed,
    }
}

/// A record that a search may have produced, or any other, often with a best at a ceiling or just above it.
pub fn random_record(lot: &mut Random, rounds: usize, needed: usize, ceiling: u16) -> Record {
    let done = match lot.below(4) {
        0 => lot.word(),
        _ => lot.below(rounds + 2) as u16,
    };
    let best = match lot.below(6) {
        0 | 1 => None,
        2 => Some(lot.word()),
        3 => Some(ceiling.saturating_add(lot.below(3) as u16)),
        _ => Some(lot.below(needed + 3) as u16),
    };
    Record { done, best }
}

/// A path of so many states from the start, as far as there is one: often a lasso, with a mark or without.
pub fn walk(lot: &mut Random, graph: &Graph, entries: usize) -> Vec<u16> {
    walk_from(lot, graph, graph.start, entries)
}

/// The same from another state.
pub fn walk_from(lot: &mut Random, graph: &Graph, first: u16, entries: usize) -> Vec<u16> {
    let mut path = vec![first];
    while path.len() < entries {
        let row = &graph.succs[path[path.len() - 1] as usize];
        if row.is_empty() {
            break;
        }
        path.push(row[lot.below(row.len())]);
    }
    path
}

/// A list that is mostly no shortest accepting path: one of the roll with a change, or any.
pub fn wrong_list(lot: &mut Random, roll: &[Vec<u16>], states: usize, needed: usize) -> Vec<u16> {
    if roll.is_empty() || lot.once_in(5) {
        let len = lot.below(needed + 3);
        return (0..len).map(|_| lot.below(states + 1) as u16).collect();
    }
    let mut list = roll[lot.below(roll.len())].clone();
    let at = lot.below(list.len());
    match lot.below(6) {
        0 => list[at] = lot.below(states) as u16,
        1 => list[at] = lot.word(),
        2 => list.truncate(at),
        3 => list.push(lot.below(states) as u16),
        4 => {
            let loop_again = list[at..].to_vec();
            list.extend(loop_again);
        }
        _ => {
            let other = lot.below(list.len());
            list.swap(at, other);
        }
    }
    list
}
