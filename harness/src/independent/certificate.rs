//! Certificates: their form (10 to 14), reduced numbers, bound and gap, and the judge with its mark.

use super::input::{agreement, test_frame, test_word};
use super::limits::{certificate_length, ENTRY_LIMIT, MULTIPLIER_LIMIT, SCALE_LIMIT, SIZE_LIMIT};
use super::table::{place, u16_at, Table};
use crate::decoder::{Refusal, Verdict};
use std::ops::Range;

#[derive(Clone, Copy)]
pub struct Entry {
    pub check: usize,
    pub multiplier: u32,
    pub mask: u32,
}

pub fn u32_at(bytes: &[u8], place: usize) -> u32 {
    u32::from(u16_at(bytes, place)) | u32::from(u16_at(bytes, place + 2)) << 16
}

/// Scale and entries of a certificate for the table.
pub fn parse(table: &Table, bytes: &[u8]) -> Result<(u16, Vec<Entry>), Refusal> {
    if bytes.len() < certificate_length(0) {
        return Err(Refusal::CERTIFICATE_LENGTH);
    }
    let entries = usize::from(u16_at(bytes, 0));
    if entries > ENTRY_LIMIT || bytes.len() != certificate_length(entries) {
        return Err(Refusal::CERTIFICATE_LENGTH);
    }
    let scale = u16_at(bytes, 2);
    if !(1..=SCALE_LIMIT).contains(&scale) {
        return Err(Refusal::CERTIFICATE_SCALE);
    }
    let (contents, bodies) = bytes[4..].split_at(6 * entries);
    let mut parsed: Vec<Entry> = Vec::with_capacity(entries);
    for (content, body) in contents.chunks_exact(6).zip(bodies.chunks_exact(4)) {
        let check = usize::from(u16_at(content, 0));
        let entry = Entry { check, multiplier: u32_at(content, 2), mask: u32_at(body, 0) };
        test_entry(table, parsed.last(), &entry)?;
        parsed.push(entry);
    }
    Ok((scale, parsed))
}

fn test_entry(table: &Table, before: Option<&Entry>, entry: &Entry) -> Result<(), Refusal> {
    if entry.check >= table.checks() || !(1..=MULTIPLIER_LIMIT).contains(&entry.multiplier) {
        return Err(Refusal::ENTRY);
    }
    let degree = table.row(entry.check).len();
    let inside = u64::from(entry.mask) < 1 << degree;
    if entry.mask.count_ones() % 2 == 0 || !inside {
        return Err(Refusal::ENTRY_MASK);
    }
    match before {
        Some(last) if (last.check, last.mask) >= (entry.check, entry.mask) => Err(Refusal::ENTRY_ORDER),
        _ => Ok(()),
    }
}

/// The bits' reduced numbers, 0 past them; full-sized, so that a masked member needs no bounds check.
type Reduced = [i64; SIZE_LIMIT];

/// Works out the reduced numbers, where zeros stand. Answers the multipliers' bound on the agreement, times the
/// scale.
#[inline(always)]
fn reduce(
    table: &Table,
    frame: &[i16],
    scale: u16,
    entries: impl Iterator<Item = Entry>,
    reduced: &mut Reduced,
) -> i64 {
    for (r, &l) in reduced.iter_mut().zip(frame) {
        *r = i64::from(i32::from(scale) * i32::from(l));
    }
    let mut bound = 0;
    for entry in entries {
        let members = table.members_of(entry.check);
        let multiplier = i64::from(entry.multiplier);
        bound += multiplier * (members.len() as i64 - 2);
        let mut set = entry.mask;
        for &member in members {
            // All ones for a member outside the set, whose multiplier is subtracted.
            let outside = i64::from(set & 1) - 1;
            reduced[place(member)] += (multiplier ^ outside) - outside;
            set >>= 1;
        }
    }
    bound + reduced.iter().map(|r| r.abs()).sum::<i64>()
}

/// The bound alone, for a round's multipliers.
pub fn bound(table: &Table, frame: &[i16], scale: u16, entries: impl Iterator<Item = Entry>) -> i64 {
    reduce(table, frame, scale, entries, &mut [0; SIZE_LIMIT])
}

/// No early exit: the loop without one is vectorised.
fn none_is_zero(reduced: &[i64]) -> bool {
    reduced.iter().fold(true, |all, &r| all & (r != 0))
}

/// The first check with an odd number of ones.
fn broken_check(table: &Table, word: &[u8]) -> Option<usize> {
    let mut ones = [0; SIZE_LIMIT];
    ones[..table.bits].copy_from_slice(word);
    let odd =
        |row: Range<usize>| table.members[row].iter().fold(0, |odd, &member| odd ^ ones[place(member)]) == 1;
    table.rows().position(odd)
}

pub fn judge(code: &[u8], frame: &[i16], word: &[u8], certificate: &[u8]) -> Result<Verdict, Refusal> {
    let table = Table::parse(code)?;
    test_frame(&table, frame)?;
    test_word(&table, word)?;
    let (scale, entries) = parse(&table, certificate)?;
    if let Some(check) = broken_check(&table, word) {
        return Ok(Verdict::Broken(check as u32));
    }
    let mut reduced = [0; SIZE_LIMIT];
    let bound = reduce(&table, frame, scale, entries.into_iter(), &mut reduced);
    match bound - i64::from(scale) * agreement(frame, word) {
        0 => Ok(Verdict::Certified { sole: none_is_zero(&reduced[..table.bits]) }),
        gap => Ok(Verdict::Gap(gap)),
    }
}

/// A round's cuts, in check order.
pub fn cuts<'a>(multipliers: &'a [u32], masks: &'a [u32]) -> impl Iterator<Item = Entry> + 'a {
    let all = multipliers.iter().zip(masks).enumerate();
    all.filter(|(_, (&multiplier, _))| multiplier != 0).map(|(check, (&multiplier, &mask))| Entry {
        check,
        multiplier,
        mask,
    })
}

/// Writes a round's cuts as a certificate of scale 1; bytes past it stay.
pub fn write(multipliers: &[u32], masks: &[u32], out: &mut [u8]) {
    let entries = cuts(multipliers, masks).count();
    out[0..2].copy_from_slice(&(entries as u16).to_le_bytes());
    out[2..4].copy_from_slice(&1u16.to_le_bytes());
    let (contents, bodies) = out[4..certificate_length(entries)].split_at_mut(6 * entries);
    let places = contents.chunks_exact_mut(6).zip(bodies.chunks_exact_mut(4));
    for (entry, (content, body)) in cuts(multipliers, masks).zip(places) {
        content[..2].copy_from_slice(&(entry.check as u16).to_le_bytes());
        content[2..].copy_from_slice(&entry.multiplier.to_le_bytes());
        body.copy_from_slice(&entry.mask.to_le_bytes());
    }
}
