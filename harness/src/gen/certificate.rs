//! Certificates: from runs, edited, and random ones of the right form.

use super::empty::{checks_where, layout_of};
use super::rng::Rng;
use super::state::{Shape, State};
use crate::decoder::{Decoder, Record};
use crate::independent::certificate::Entry;
use crate::independent::limits::{ENTRY_LIMIT, MULTIPLIER_LIMIT, SCALE_LIMIT};
use crate::independent::table::Table;
use crate::independent::Independent;

/// A certificate not yet written, so that it can be edited.
pub struct Draft {
    pub scale: u16,
    pub entries: Vec<Entry>,
}

impl Draft {
    /// A run's cuts after at most so many rounds, and its word if it was certified.
    pub fn of_run(code: &[u8], frame: &[i16], rounds: u32) -> (Draft, Option<Vec<u8>>) {
        let mut state = State::zeroed(&Shape::of(code).expect("a sound code"));
        let called = Independent.rounds(code, frame, Record::FRESH, rounds, state.lend_all());
        let certified = called.record.status == Record::CERTIFIED;
        (Draft::of_cuts(&state), certified.then(|| state.word.lent().to_vec()))
    }

    /// The cuts of the last round, in buffers just as long as needed.
    pub fn of_cuts(state: &State) -> Draft {
        let cuts = state.multipliers.lent().iter().zip(state.masks.lent()).enumerate();
        let entries = cuts
            .filter(|(_, (&multiplier, _))| multiplier != 0)
            .map(|(check, (&multiplier, &mask))| Entry { check, multiplier, mask })
            .collect();
        Draft { scale: 1, entries }
    }

    /// Any entries of the right form, in order.
    pub fn random(rng: &mut Rng, table: &Table) -> Draft {
        let most = if rng.one_in(12) { ENTRY_LIMIT } else { 12 };
        let large = rng.one_in(3);
        let checks = checks_where(true, &layout_of(table));
        let count = rng.between(0, most);
        let mut entries: Vec<Entry> = (0..count).map(|_| entry(rng, table, &checks, large)).collect();
        entries.sort_unstable_by_key(|entry| (entry.check, entry.mask));
        entries.dedup_by_key(|entry| (entry.check, entry.mask));
        let scale = if rng.one_in(2) { SCALE_LIMIT } else { rng.between(1, 1023) as u16 };
        Draft { scale, entries }
    }

    pub fn bytes(&self) -> Vec<u8> {
        let mut bytes = (self.entries.len() as u16).to_le_bytes().to_vec();
        bytes.extend(self.scale.to_le_bytes());
        for entry in &self.entries {
            bytes.extend((entry.check as u16).to_le_bytes());
            bytes.extend(entry.multiplier.to_le_bytes());
        }
        bytes.extend(self.entries.iter().flat_map(|entry| entry.mask.to_le_bytes()));
        bytes
    }

    /// The same bound at a greater scale.
    pub fn rescale(&mut self, rng: &mut Rng) {
        let largest = self.entries.iter().map(|entry| entry.multiplier).max().unwrap_or(1);
        let most = (MULTIPLIER_LIMIT / largest).min(u32::from(SCALE_LIMIT)) as usize;
        let scale = rng.between(1, most);
        self.scale = scale as u16;
        self.entries.iter_mut().for_each(|entry| entry.multiplier *= scale as u32);
    }

    /// Adds an entry that names an empty check, in its order: 13 whatever the mask, unless the multiplier meets
    /// 12 first.
    pub fn name_empty(&mut self, rng: &mut Rng, check: usize) {
        let multiplier = rng.pick(&[0, 1, 5, MULTIPLIER_LIMIT, MULTIPLIER_LIMIT + 1, u32::MAX]);
        let mask = rng.pick(&[0, 1, 3, 7, 1 << 31, u32::MAX >> 1, u32::MAX]);
        let at = self.entries.partition_point(|entry| entry.check < check);
        self.entries.insert(at, Entry { check, multiplier, mask });
    }

    /// One edit of an entry: some keep the form, some meet 12, 13 or 14.
    pub fn edit_entry(&mut self, rng: &mut Rng, table: &Table) {
        if self.entries.is_empty() {
            let checks = checks_where(true, &layout_of(table));
            return self.entries.push(entry(rng, table, &checks, false));
        }
        let at = rng.below(self.entries.len());
        let place = 1 << rng.below(32);
        let chosen = &mut self.entries[at];
        match rng.below(9) {
            0 => chosen.multiplier = chosen.multiplier.wrapping_add(1),
            1 => chosen.multiplier = chosen.multiplier.wrapping_sub(1),
            2 => chosen.multiplier = rng.pick(&[0, MULTIPLIER_LIMIT, MULTIPLIER_LIMIT + 1, u32::MAX]),
            3 => chosen.check = rng.pick(&[table.checks(), table.checks() - 1, 65_535]),
            4 => chosen.mask ^= place,
            5 => chosen.mask ^= 3,
            6 => chosen.mask = rng.pick(&[0, u32::MAX, 1, 1 << 31]),
            7 => self.entries.swap(at, 0),
            _ => self.entries.insert(at, self.entries[at]),
        }
    }
}

/// A random entry of the right form, on one of these checks, which have members.
fn entry(rng: &mut Rng, table: &Table, checks: &[usize], large: bool) -> Entry {
    let check = rng.pick(checks);
    let degree = table.row(check).len() as u32;
    let mut mask = rng.draw() as u32 & (u32::MAX >> (32 - degree));
    if mask.count_ones() % 2 == 0 {
        mask ^= 1 << rng.below(degree as usize);
    }
    let multiplier = if large { MULTIPLIER_LIMIT } else { rng.between(1, 6000) as u32 };
    Entry { check, multiplier, mask }
}

/// Damages the bytes: length, number of entries or scale (10, 11).
pub fn damage(rng: &mut Rng, bytes: &mut Vec<u8>) {
    match rng.below(7) {
        0 => bytes.truncate(rng.below(4)),
        1 => bytes.push(0),
        2 => {
            bytes.pop();
        }
        3 => bytes[0] = bytes[0].wrapping_add(1),
        4 => {
            // One entry too many, of a fitting length.
            bytes.resize(4 + 10 * (ENTRY_LIMIT + 1), 0);
            bytes[..2].copy_from_slice(&(ENTRY_LIMIT as u16 + 1).to_le_bytes());
        }
        _ => {
            let scale = rng.pick(&[0, SCALE_LIMIT + 1, u16::MAX]);
            bytes[2..4].copy_from_slice(&scale.to_le_bytes());
        }
    }
}
