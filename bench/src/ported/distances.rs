//! The distances from the initial state, up to a ceiling, with every refusal in order.

use super::access::Access;
use super::gate::{ceiling_too_high, enter};
use super::model::Header;
use super::rounds::start_distances;
use crate::fahkelo::{DistancesAnswer, NOT_REACHED};

/// The mark table of a call that names none. Distances do not depend on marks.
const TABLE_NOT_NAMED: u16 = 0;

/// The entry of a state, from what the working table holds for it: one more than its distance, or 0 if it has none.
#[inline]
fn entry_for(stored: u16, ceiling: u16) -> u16 {
    if stored == 0 {
        return NOT_REACHED;
    }
    let distance = stored - 1;
    if distance <= ceiling {
        return distance;
    }
    NOT_REACHED
}

/// The distances of all states, where none of 1 to 12 holds. They are found in full; the ceiling only decides which of
/// them are written.
fn distances_model<A: Access>(
    file: &[u8],
    h: Header,
    ceiling: u16,
    output: &mut [u16],
    work: &mut [u16],
) -> DistancesAnswer {
    let n = h.states;
    if ceiling_too_high(ceiling) {
        return DistancesAnswer::Refused(21);
    }
    if output.len() < n {
        return DistancesAnswer::Refused(15);
    }
    start_distances::<A>(file, h, work);
    for s in 0..n {
        A::put(output, s, entry_for(A::get(work, s), ceiling));
    }
    DistancesAnswer::Written(n as u16)
}

/// Writes the distance of each state from the initial state, or 65,535 if there is none up to the ceiling.
pub fn distances<A: Access>(
    file: &[u8],
    ceiling: u16,
    output: &mut [u16],
    work: &mut [u16],
) -> DistancesAnswer {
    let h = match enter::<A>(file, TABLE_NOT_NAMED, work) {
        Err(number) => return DistancesAnswer::Refused(number),
        Ok(h) => h,
    };
    let written = distances_model::<A>(file, h, ceiling, output, work);
    work.fill(0);
    written
}
