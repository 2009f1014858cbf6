//! Claims for the judge: a frame, a word and a certificate, which may belong together.

use super::certificate::Draft;
use super::codeword;
use super::empty::{checks_where, layout_of};
use super::rng::Rng;
use crate::independent::certificate::Entry;
use crate::independent::limits::{FRAME_LIMIT, MULTIPLIER_LIMIT, SCALE_LIMIT};
use crate::independent::table::Table;

pub struct Claim {
    pub frame: Vec<i16>,
    pub word: Vec<u8>,
    pub draft: Draft,
}

/// A claim whose gap is 0, but for a few, with reduced numbers of 0 or without. The word is a codeword, and each
/// set is its ones on a check with one member changed, so that it meets the set's inequality with equality. The
/// multiplier pulls that member's reduced number to the word's side and pushes those of the others off it; the
/// frame makes up for the pushes.
pub fn tight(rng: &mut Rng, table: &Table) -> Claim {
    let word = codeword::random(rng, table);
    let any = rng.between(1, usize::from(SCALE_LIMIT)) as u16;
    let scale = rng.pick(&[1, 1, 2, any, SCALE_LIMIT]);
    let mut making = Making { table, word, scale, entries: Vec::new(), pushes: vec![0; table.bits] };
    let mut checks = checks_where(true, &layout_of(table));
    rng.shuffle(&mut checks);
    checks.truncate(rng.between(0, 12));
    checks.into_iter().for_each(|check| making.add_entries(rng, check));
    making.finish(rng)
}

struct Making<'a> {
    table: &'a Table,
    word: Vec<u8>,
    scale: u16,
    entries: Vec<Entry>,
    /// By how much each bit's reduced number is pushed off the word's side.
    pushes: Vec<i64>,
}

impl Making<'_> {
    /// One entry on a check or several, unless no frame makes up for them.
    fn add_entries(&mut self, rng: &mut Rng, check: usize) {
        let members = self.table.members_of(check);
        let bit_of = |place: usize| usize::from(members[place]);
        let mut changed: Vec<usize> = (0..members.len()).collect();
        rng.shuffle(&mut changed);
        changed.truncate(rng.pick(&[1, 1, 2, 2, 3, members.len()]));
        let ones = (0..members.len()).map(|place| u32::from(self.word[bit_of(place)]) << place).sum::<u32>();
        // Two equal multipliers cancel where either set has its change.
        let equal = rng.one_in(2).then(|| self.multiplier(rng));
        let mut pushes = self.pushes.clone();
        let mut entries = Vec::new();
        for change in changed {
            let multiplier = equal.unwrap_or_else(|| self.multiplier(rng));
            for place in 0..members.len() {
                let push = i64::from(multiplier);
                pushes[bit_of(place)] += if place == change { -push } else { push };
            }
            entries.push(Entry { check, multiplier, mask: ones ^ (1 << change) });
        }
        let most = i64::from(self.scale) * i64::from(FRAME_LIMIT - 1);
        if members.iter().all(|&member| pushes[usize::from(member)] <= most) {
            self.pushes = pushes;
            self.entries.extend(entries);
        }
    }

    /// Many are multiples of the scale: a frame can make up for those exactly.
    fn multiplier(&self, rng: &mut Rng) -> u32 {
        let scale = u32::from(self.scale);
        match rng.below(8) {
            0..=2 => scale * rng.between(1, 9) as u32,
            3..=4 => scale * rng.between(1, 4_000) as u32,
            5 => rng.between(1, 9) as u32,
            6 => rng.between(1, 1_000_000) as u32,
            _ => rng.pick(&[MULTIPLIER_LIMIT, MULTIPLIER_LIMIT - 1, 1 << 16, 1 << 23]),
        }
    }

    /// The least size, with the word's sign, of a frame number that makes up for the pushes on the bit; and whether
    /// it does so exactly, so that the reduced number is 0.
    fn least(&self, bit: usize) -> (i64, bool) {
        let (push, scale) = (self.pushes[bit], i64::from(self.scale));
        let least = (-(-push).div_euclid(scale)).max(-i64::from(FRAME_LIMIT));
        (least, scale * least == push)
    }

    /// The bits that get a reduced number of 0: of those that can, none, the first, the last, some or all.
    fn zeros(&self, rng: &mut Rng) -> Vec<usize> {
        let mut exact: Vec<usize> = (0..self.table.bits).filter(|&bit| self.least(bit).1).collect();
        match rng.below(8) {
            0..=3 => exact.clear(),
            4 => exact.truncate(1),
            5 => drop(exact.drain(..exact.len().saturating_sub(1))),
            6 => exact.retain(|_| rng.one_in(2)),
            _ => {}
        }
        exact
    }

    /// Chooses the frame.
    fn finish(mut self, rng: &mut Rng) -> Claim {
        let reach = rng.pick(&[1, 3, 400, FRAME_LIMIT as usize]);
        let mut size = |bit| {
            let (least, exact) = self.least(bit);
            let above = least + i64::from(exact);
            let chosen = if above <= 0 && rng.one_in(4) { 0 } else { above + rng.below(reach) as i64 };
            chosen.min(FRAME_LIMIT.into())
        };
        let mut sizes: Vec<i64> = (0..self.table.bits).map(&mut size).collect();
        self.zeros(rng).into_iter().for_each(|bit| sizes[bit] = self.least(bit).0);
        if rng.one_in(8) {
            // One reduced number off the word's side.
            let bit = rng.below(sizes.len());
            sizes[bit] = (self.least(bit).0 - 1).max(-i64::from(FRAME_LIMIT));
        }
        let signed = |(size, &bit): (i64, &u8)| if bit == 0 { size as i16 } else { -size as i16 };
        let frame = sizes.into_iter().zip(&self.word).map(signed).collect();
        self.entries.sort_unstable_by_key(|entry| (entry.check, entry.mask));
        Claim { frame, word: self.word, draft: Draft { scale: self.scale, entries: self.entries } }
    }
}
