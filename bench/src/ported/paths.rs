//! Tests of a given list: the first place where it breaks, whether it is a path, whether it closes at a mark, whether it
//! is a lasso of a length.

use super::access::Access;
use super::model::{has_edge, is_marked, Header};
use super::spread::get;

/// The first place whose entry is no state or, past place 0, is not reached by an edge from the entry before it.
pub fn first_break<A: Access>(file: &[u8], h: Header, list: &[u16]) -> Option<usize> {
    if list.is_empty() {
        return None;
    }
    let first = get::<A>(list, 0);
    if h.states <= first {
        return Some(0);
    }
    let mut j = 0;
    while j + 1 < list.len() {
        let s = get::<A>(list, j);
        let t = get::<A>(list, j + 1);
        if !has_edge::<A>(file, h, s, t) {
            return Some(j + 1);
        }
        j += 1;
    }
    None
}

fn is_path<A: Access>(file: &[u8], h: Header, list: &[u16]) -> bool {
    get::<A>(list, 0) == h.start && first_break::<A>(file, h, list).is_none()
}

/// From place k on a list that breaks nowhere is a closed walk with a mark: the last entry is the one at k, and one of
/// those from k to before the last is marked.
pub fn loops_at<A: Access>(file: &[u8], h: Header, list: &[u16], k: usize) -> bool {
    let end = list.len() - 1;
    if get::<A>(list, end) != get::<A>(list, k) {
        return false;
    }
    (k..end).any(|j| is_marked::<A>(file, h, get::<A>(list, j)))
}

/// The last entry of a path from the start stands at an earlier place too, and a mark from there on: then so it is from
/// the first of its places.
fn closes<A: Access>(file: &[u8], h: Header, list: &[u16]) -> bool {
    let end = list.len() - 1;
    let last = get::<A>(list, end);
    match (0..end).find(|&k| get::<A>(list, k) == last) {
        Some(k) => loops_at::<A>(file, h, list, k),
        None => false,
    }
}

/// The list is a lasso of the given length.
pub fn is_lasso<A: Access>(file: &[u8], h: Header, list: &[u16], transitions: usize) -> bool {
    list.len() == transitions + 1 && is_path::<A>(file, h, list) && closes::<A>(file, h, list)
}
