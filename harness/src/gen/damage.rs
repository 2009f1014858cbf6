//! Damaged code files: each refusal from 1 to 7, and combinations.

use super::code::bytes_of;
use super::rng::Rng;
use crate::independent::limits::{DEGREE_LIMIT, SIZE_LIMIT};
use crate::independent::table::{u16_at, Table};

fn set_u16(code: &mut [u8], place: usize, value: u16) {
    code[place..place + 2].copy_from_slice(&value.to_le_bytes());
}

/// One or two damages; the file may come out sound now and then.
pub fn damage(rng: &mut Rng, code: &mut Vec<u8>) {
    for _ in 0..rng.pick(&[1, 1, 2]) {
        once(rng, code);
    }
}

fn once(rng: &mut Rng, code: &mut Vec<u8>) {
    if code.len() < 10 {
        return code.push(rng.draw() as u8);
    }
    match rng.below(11) {
        0 => code.truncate(rng.below(4)),
        1 => set_u16(code, 2 * rng.below(2), rng.pick(&[0, SIZE_LIMIT as u16 + 1, u16::MAX])),
        2 => code.truncate(rng.between(4, code.len() - 1)),
        // A count of 0 is wrong only beside the next start or the length.
        3 => wrong_entry(rng, code, 2, &[0, DEGREE_LIMIT as u16 + 1, u16::MAX]),
        4 => wrong_start(rng, code),
        5 => resize(rng, code),
        6 => wrong_member(rng, code),
        7 => *code = bit_count(rng),
        8 => *code = too_many_edges(rng),
        9 => empty_checks(rng, code),
        _ => {
            let place = rng.below(code.len());
            code[place] ^= 1 << rng.below(8);
        }
    }
}

/// Overwrites a number of a random entry of the contents, if the file has as many as it says.
fn wrong_entry(rng: &mut Rng, code: &mut [u8], offset: usize, values: &[u16]) {
    let check = rng.below(usize::from(u16_at(code, 2)).max(1));
    let place = 4 + 4 * check + offset;
    if place + 2 <= code.len() {
        set_u16(code, place, rng.pick(values));
    }
}

fn wrong_start(rng: &mut Rng, code: &mut [u8]) {
    let start = rng.below(40) as u16;
    wrong_entry(rng, code, 0, &[start, u16::MAX]);
}

fn resize(rng: &mut Rng, code: &mut Vec<u8>) {
    match rng.below(3) {
        0 => code.push(0),
        1 => code.extend([0, 0]),
        _ => {
            code.pop();
        }
    }
}

/// A member out of range, or out of order with the one before it.
fn wrong_member(rng: &mut Rng, code: &mut [u8]) {
    let first = 4 + 4 * usize::from(u16_at(code, 2));
    if first + 4 > code.len() {
        return;
    }
    let place = first + 2 * rng.below((code.len() - first) / 2 - 1);
    let (member, bits) = (u16_at(code, place), u16_at(code, 0));
    set_u16(code, place + 2, rng.pick(&[member, bits, u16::MAX, member.wrapping_sub(1)]));
}

/// Bit 0 in one check too many, or the last bit in none.
fn bit_count(rng: &mut Rng) -> Vec<u8> {
    let rest = rng.between(1, 3) as u16;
    let (bits, times) = rng.pick(&[(1 + rest, DEGREE_LIMIT + 1), (2 + rest, 3), (1 + rest, 200)]);
    let mut checks = vec![vec![0]; times - 1];
    checks.push((0..=rest).collect());
    bytes_of(usize::from(bits), &checks)
}

/// The members of one check, or of all, taken out of a sound file: sound again, or bits are left in no check.
fn empty_checks(rng: &mut Rng, code: &mut Vec<u8>) {
    let Ok(table) = Table::parse(code) else { return };
    let (chosen, all) = (rng.below(table.checks()), rng.one_in(4));
    let row = |check| if all || check == chosen { Vec::new() } else { table.members_of(check).to_vec() };
    *code = bytes_of(table.bits, &(0..table.checks()).map(row).collect::<Vec<_>>());
}

/// More edges than allowed, by one or by many; the bodies may be missing.
fn too_many_edges(rng: &mut Rng) -> Vec<u8> {
    let checks = rng.pick(&[257, 300, SIZE_LIMIT]);
    let mut rows: Vec<Vec<u16>> = vec![(0..DEGREE_LIMIT as u16).collect(); checks];
    rows[checks - 1].truncate(rng.between(1, DEGREE_LIMIT));
    let mut code = bytes_of(SIZE_LIMIT, &rows);
    if rng.one_in(2) {
        code.truncate(4 + 4 * checks);
    }
    code
}
