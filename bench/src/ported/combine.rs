//! The combination of a rule with a property, with every refusal in order.

use super::access::Access;
use super::combine_file::{count_edges, write_product, Pair};
use super::model::{check, total_of};
use super::property::{check_property, has_zero_mask};
use crate::fahkelo::CombineAnswer;

/// The combination, written as a model file from the first byte of the output on.
pub fn combine<A: Access>(
    rule: &[u8],
    letters: &[u8],
    property: &[u8],
    output: &mut [u8],
) -> CombineAnswer {
    let h = match check::<A>(rule) {
        Err(number) => return CombineAnswer::Refused(number),
        Ok(h) => h,
    };
    if letters_broken::<A>(letters, h.states) {
        return CombineAnswer::Refused(16);
    }
    let p = match check_property::<A>(property) {
        Err(_) => return CombineAnswer::Refused(17),
        Ok(p) => p,
    };
    if has_zero_mask::<A>(property, p) {
        return CombineAnswer::Refused(17);
    }
    let pair = Pair {
        rule,
        h,
        letters,
        property,
        p,
    };
    within_limits::<A>(pair, output)
}

fn letters_broken<A: Access>(letters: &[u8], n: usize) -> bool {
    letters.len() != n || (0..n).any(|s| 15 < A::get(letters, s))
}

/// From reason 18 on: both files and the letters are as they should be.
fn within_limits<A: Access>(pair: Pair, output: &mut [u8]) -> CombineAnswer {
    let states = pair.states();
    if 4096 < states {
        return CombineAnswer::Refused(18);
    }
    let edges = count_edges::<A>(pair);
    if 8192 < edges {
        return CombineAnswer::Refused(18);
    }
    if output.len() < total_of(states, edges) {
        return CombineAnswer::Refused(15);
    }
    CombineAnswer::Written(write_product::<A>(output, pair, edges))
}
