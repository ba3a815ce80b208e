//! The gate of the calls on one model: reason 22 of those that name a mark table, the reasons 1 to 12, and reason 21 of
//! those that take a ceiling.

use super::access::Access;
use super::model::{check, Header};

/// The header, with the mark table that is named, or the number of the first reason that holds: 22, whatever the file,
/// after which the working table is zero, or 1 to 12.
#[inline]
pub fn enter<A: Access>(file: &[u8], mark_table: u16, work: &mut [u16]) -> Result<Header, u16> {
    if 1 < mark_table {
        work.fill(0);
        return Err(22);
    }
    let h = check::<A>(file)?;
    if work.len() < 6 * h.states {
        return Err(12);
    }
    Ok(h.naming(mark_table as usize))
}

/// The ceiling is above 4,096: reason 21, which is applied after 12.
#[inline]
pub fn ceiling_too_high(ceiling: u16) -> bool {
    4096 < ceiling
}
