//! The cut search.

use super::input::test_point;
use super::limits::{FACET, UNIT};
use super::table::Table;
use crate::decoder::{Cut, Refusal};

/// The odd set which the values, from −U to U, violate, and by how much, or none.
pub fn cut_of(values: impl Iterator<Item = i32>) -> Option<Cut> {
    // Without values the least stays above U, so nothing is violated.
    let (mut mask, mut left, mut least, mut nearest) = (0u32, 0, UNIT + 1, 0);
    for (place, value) in values.enumerate() {
        mask |= u32::from(value < 0) << place;
        left += UNIT - value.abs();
        if value.abs() < least {
            (least, nearest) = (value.abs(), place);
        }
    }
    if mask.count_ones() % 2 == 0 {
        mask ^= 1 << nearest;
        left += 2 * least;
    }
    (left < FACET).then(|| Cut { mask, depth: (FACET - left) as u32 })
}

pub fn search(code: &[u8], spins: &[i32], check: usize) -> Result<Option<Cut>, Refusal> {
    let table = Table::parse(code)?;
    test_point(&table, spins)?;
    if check >= table.checks() {
        return Err(Refusal::REQUEST);
    }
    let members = table.members_of(check).iter();
    Ok(cut_of(members.map(|&member| spins[usize::from(member)])))
}
