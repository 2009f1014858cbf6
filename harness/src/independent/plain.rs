//! The round as the paper has it, step by step, with no thought of speed.

use super::certificate::{bound, cuts, write};
use super::cut::cut_of;
use super::input::agreement;
use super::limits::{FACET, GREATEST_MULTIPLIER, MULTIPLIER_LIMIT, ROUND_LIMIT, UNIT};
use super::table::Table;
use crate::decoder::{Buffers, Cut, Record};

pub fn run(table: &Table, frame: &[i16], mut record: Record, wanted: u32, mut lent: Buffers) -> Record {
    for _ in 0..wanted {
        if record.status != Record::RUNNING {
            break;
        }
        let certified = round(table, frame, &mut lent);
        record.rounds += 1;
        if certified {
            record.status = Record::CERTIFIED;
        } else if record.rounds == ROUND_LIMIT {
            record.status = Record::SPENT;
        }
    }
    record
}

/// One round; answers whether it certifies, and then has written word and certificate.
fn round(table: &Table, frame: &[i16], lent: &mut Buffers) -> bool {
    lent.spins.copy_from_slice(&spins(table, frame, lent.sums));
    for check in 0..table.checks() {
        relax(table, check, lent);
    }
    lent.sums.copy_from_slice(&sums(table, lent.copies, lent.offsets));
    let Some(word) = candidate(table, lent.spins) else {
        return false;
    };
    let bound = bound(table, frame, 1, cuts(lent.multipliers, lent.masks));
    let certified = bound == agreement(frame, &word);
    if certified {
        lent.word.copy_from_slice(&word);
        write(lent.multipliers, lent.masks, lent.certificate);
    }
    certified
}

fn clip(value: i32) -> i32 {
    value.clamp(-UNIT, UNIT)
}

fn spins(table: &Table, frame: &[i16], sums: &[i32]) -> Vec<i32> {
    let totals = frame.iter().zip(sums).map(|(&l, sum)| i32::from(l) + sum);
    totals.zip(&table.degrees).map(|(total, &degree)| clip(nearest(total, i32::from(degree)))).collect()
}

/// Each bit's sum of z − y over its edges.
fn sums(table: &Table, copies: &[i32], offsets: &[i32]) -> Vec<i32> {
    let mut sums = vec![0; table.bits];
    for (edge, &member) in table.members.iter().enumerate() {
        sums[usize::from(member)] += copies[edge] - offsets[edge];
    }
    sums
}

/// A total over its bit's degree: the nearest whole number, of two the one away from zero.
pub fn nearest(total: i32, degree: i32) -> i32 {
    // The rest has the total's sign.
    let (toward_zero, rest) = (total / degree, total % degree);
    if 2 * rest.abs() < degree {
        toward_zero
    } else {
        toward_zero + total.signum()
    }
}

/// Steps 2 and 3 on one check.
fn relax(table: &Table, check: usize, lent: &mut Buffers) {
    let row = table.row(check);
    let edge_spins = table.members[row.clone()].iter().map(|&member| lent.spins[usize::from(member)]);
    let values: Vec<i32> = edge_spins.zip(&lent.offsets[row.clone()]).map(|(spin, y)| spin + y).collect();
    let (mask, multiplier, depth) = match cut_of(values.iter().map(|&v| clip(v))) {
        None => (0, 0, 0),
        Some(Cut { mask, .. }) => {
            (mask, least_multiplier(&values, mask), FACET - left_side(&values, mask, 0))
        }
    };
    // So no call is refused with 44.
    assert!(multiplier <= GREATEST_MULTIPLIER, "multiplier {multiplier}");
    for (place, edge) in row.enumerate() {
        lent.copies[edge] = moved(&values, mask, multiplier, place);
        lent.offsets[edge] = values[place] - lent.copies[edge];
    }
    lent.multipliers[check] = multiplier as u32;
    lent.masks[check] = mask;
    lent.depths[check] = depth as u32;
}

fn in_set(mask: u32, place: usize) -> bool {
    mask >> place & 1 == 1
}

/// The copy at that place after the step.
fn moved(values: &[i32], mask: u32, multiplier: i32, place: usize) -> i32 {
    let step = if in_set(mask, place) { multiplier } else { -multiplier };
    clip(values[place] + step)
}

/// The left side of the set's inequality after the step; at multiplier 0 that of the values clipped.
fn left_side(values: &[i32], mask: u32, multiplier: i32) -> i32 {
    let term = |place| {
        let z = moved(values, mask, multiplier, place);
        if in_set(mask, place) {
            UNIT + z
        } else {
            UNIT - z
        }
    };
    (0..values.len()).map(term).sum()
}

/// The least whole number that meets the set's inequality, by bisection.
pub fn least_multiplier(values: &[i32], mask: u32) -> i32 {
    let (mut fails, mut met) = (0, MULTIPLIER_LIMIT as i32 + 1);
    while met - fails > 1 {
        let middle = fails + (met - fails) / 2;
        if left_side(values, mask, middle) >= FACET {
            met = middle;
        } else {
            fails = middle;
        }
    }
    met
}

/// The candidate, if no spin is 0 and it meets all checks.
fn candidate(table: &Table, spins: &[i32]) -> Option<Vec<u8>> {
    let word: Vec<u8> = spins.iter().map(|&spin| u8::from(spin < 0)).collect();
    let even = |row: std::ops::Range<usize>| {
        table.members[row].iter().map(|&member| u32::from(word[usize::from(member)])).sum::<u32>() % 2 == 0
    };
    (spins.iter().all(|&spin| spin != 0) && table.rows().all(even)).then_some(word)
}
