//! The rounds as a receiver would run them. The pass over the checks looks at each edge, finds cut, multiplier
//! and depth of the check in one, and stores the edge, adding it to its bit's sum for the next round.

use super::certificate::{bound, cuts, write};
use super::input::agreement;
use super::limits::{DEGREE_LIMIT, ROUND_LIMIT, SIZE_LIMIT, UNIT};
use super::multiplier::{least, reciprocal_of, upper};
use super::table::{place, Table};
use crate::decoder::{Buffers, Record};

/// The spin's size: the nearest whole number to the total's size over its bit's degree, halves up, clipped.
/// `reciprocal` is the degree's. Twice the size over the degree is exact far beyond 2U, and further out never
/// too small. Four times the size is below 2^31.
#[inline(always)]
pub fn spin_size(total: i32, reciprocal: u32) -> i32 {
    let halves = upper(total.unsigned_abs() << 2, reciprocal);
    (halves.div_ceil(2) as i32).min(UNIT)
}

/// Per-bit state. Full-sized, so that a masked member needs no bounds check.
struct Bits {
    /// z − y over the bit's edges: the lent sums, and then those gathered for the next round.
    sums: [i32; SIZE_LIMIT],
    spins: [i32; SIZE_LIMIT],
    reciprocals: [u32; SIZE_LIMIT],
}

/// Calls a method for a constant degree above 0, so that its loops have a known length.
macro_rules! with_degree {
    ($degree:expr, $part:ident.$method:ident($($argument:expr),*)) => {
        with_degree!(@ $degree, $part, $method, ($($argument),*),
            1 2 3 4 5 6 7 8 9 10 11 12 13 14 15 16 17 18 19 20 21 22 23 24 25 26 27 28 29 30 31 32)
    };
    (@ $degree:expr, $part:ident, $method:ident, $arguments:tt, $($d:literal)*) => {
        match $degree {
            $($d => $part.$method::<$d> $arguments,)*
            _ => unreachable!("a degree is at most {DEGREE_LIMIT}"),
        }
    };
}

pub fn run(table: &Table, frame: &[i16], mut record: Record, wanted: u32, mut lent: Buffers) -> Record {
    if wanted == 0 {
        return record;
    }
    let last = ROUND_LIMIT.min(record.rounds + wanted);
    let mut bits = Bits::new(table, lent.sums);
    while record.status == Record::RUNNING && record.rounds < last {
        let no_zero = bits.take_spins(frame);
        let met = pass(table, &mut bits, &mut lent);
        record.rounds += 1;
        if no_zero && met && certifies(table, frame, &bits, &mut lent) {
            record.status = Record::CERTIFIED;
        } else if record.rounds == ROUND_LIMIT {
            record.status = Record::SPENT;
        }
    }
    lent.spins.copy_from_slice(&bits.spins[..table.bits]);
    lent.sums.copy_from_slice(&bits.sums[..table.bits]);
    record
}

impl Bits {
    fn new(table: &Table, sums: &[i32]) -> Bits {
        let zero = [0; SIZE_LIMIT];
        let mut bits = Bits { sums: zero, spins: zero, reciprocals: [0; SIZE_LIMIT] };
        for (reciprocal, &degree) in bits.reciprocals.iter_mut().zip(&table.degrees) {
            *reciprocal = reciprocal_of(u32::from(degree));
        }
        bits.sums[..table.bits].copy_from_slice(sums);
        bits
    }

    /// Turns totals into spins, and begins the next sums. Answers whether no spin is 0.
    fn take_spins(&mut self, frame: &[i16]) -> bool {
        let mut no_zero = true;
        let bits = self.sums.iter_mut().zip(&mut self.spins).zip(&self.reciprocals).zip(frame);
        for (((sum, spin), &reciprocal), &l) in bits {
            let total = i32::from(l) + *sum;
            let size = spin_size(total, reciprocal);
            let side = total >> 31;
            *spin = (size ^ side) - side;
            no_zero &= size != 0;
            *sum = 0;
        }
        no_zero
    }
}

/// Steps 2 and 3 on all checks. Answers whether the spins' signs meet them all.
fn pass(table: &Table, bits: &mut Bits, lent: &mut Buffers) -> bool {
    let mut broken = 0;
    for run in &table.runs {
        let part = Part {
            members: &table.members[run.edges.clone()],
            copies: &mut lent.copies[run.edges.clone()],
            offsets: &mut lent.offsets[run.edges.clone()],
            multipliers: &mut lent.multipliers[run.checks.clone()],
            masks: &mut lent.masks[run.checks.clone()],
            depths: &mut lent.depths[run.checks.clone()],
        };
        broken |= match run.degree {
            0 => part.clear(),
            degree => with_degree!(degree, part.relax(bits)),
        };
    }
    broken >= 0
}

/// The checks of a run of equal degrees, and their edges.
struct Part<'a> {
    members: &'a [u16],
    copies: &'a mut [i32],
    offsets: &'a mut [i32],
    multipliers: &'a mut [u32],
    masks: &'a mut [u32],
    depths: &'a mut [u32],
}

impl Part<'_> {
    /// Empty checks: met by any spins, and without a cut.
    fn clear(self) -> i32 {
        self.multipliers.fill(0);
        self.masks.fill(0);
        self.depths.fill(0);
        0
    }

    /// Answers a negative number if the spins have an odd number of ones on some check.
    fn relax<const D: usize>(self, bits: &mut Bits) -> i32 {
        let mut broken = 0;
        // In the forms that the older rustc has which builds it for 32 bits.
        let members = self.members.chunks_exact(D).map(|part| <&[u16; D]>::try_from(part).unwrap());
        let copies = self.copies.chunks_exact_mut(D).map(|part| <&mut [i32; D]>::try_from(part).unwrap());
        let offsets = self.offsets.chunks_exact_mut(D).map(|part| <&mut [i32; D]>::try_from(part).unwrap());
        let edges = members.zip(copies).zip(offsets);
        let cuts = self.multipliers.iter_mut().zip(self.masks).zip(self.depths);
        for (((members, copies), offsets), ((multiplier, mask), depth)) in edges.zip(cuts) {
            let seen = look(bits, members, offsets);
            broken |= seen.spin_signs;
            // The last round's multiplier is mostly near.
            let (b, lack) = least(&seen.heights, seen.least_size(), seen.change(), *multiplier);
            let turned = seen.turned();
            move_copies(bits, members, copies, offsets, &seen, b, turned);
            *multiplier = b as u32;
            *mask = if b == 0 { 0 } else { seen.negative ^ turned };
            *depth = lack as u32;
        }
        broken
    }
}

/// What one look at a check's values tells.
struct Seen<const D: usize> {
    values: [i32; D],
    /// U − |v|.
    heights: [i32; D],
    /// The least |v|, times 32, plus its place.
    nearest: u32,
    /// The members with v below 0.
    negative: u32,
    /// Negative if an odd number of the values is, and of the spins.
    signs: i32,
    spin_signs: i32,
}

/// Works out v = spin + y. From the last member to the first, so that the mask comes out in order.
#[inline(always)]
fn look<const D: usize>(bits: &Bits, members: &[u16; D], offsets: &[i32; D]) -> Seen<D> {
    let (mut nearest, mut negative, mut signs, mut spin_signs) = (u32::MAX, 0, 0, 0);
    let (mut values, mut heights) = ([0; D], [0; D]);
    for k in (0..D).rev() {
        let spin = bits.spins[place(members[k])];
        let v = spin + offsets[k];
        values[k] = v;
        heights[k] = UNIT - v.abs();
        nearest = nearest.min(v.unsigned_abs() << 5 | k as u32);
        negative = negative << 1 | v as u32 >> 31;
        signs ^= v;
        spin_signs ^= spin;
    }
    Seen { values, heights, nearest, negative, signs, spin_signs }
}

impl<const D: usize> Seen<D> {
    /// The least |v|.
    #[inline(always)]
    fn least_size(&self) -> i32 {
        (self.nearest >> 5) as i32
    }

    /// What the member that changes sides adds to the inequality's left side.
    #[inline(always)]
    fn change(&self) -> i32 {
        2 * self.least_size() & !(self.signs >> 31)
    }

    /// The member that changes sides, as a mask.
    #[inline(always)]
    fn turned(&self) -> u32 {
        1 << (self.nearest & 31) & !(self.signs >> 31) as u32
    }
}

/// Moves each value toward 0 by b, the turned one away from it, and clips; stores copies, offsets and
/// sums.
#[inline(always)]
fn move_copies<const D: usize>(
    bits: &mut Bits,
    members: &[u16; D],
    copies: &mut [i32; D],
    offsets: &mut [i32; D],
    seen: &Seen<D>,
    b: i32,
    turned: u32,
) {
    for k in 0..D {
        let v = seen.values[k];
        let b = if turned >> k & 1 == 1 { -b } else { b };
        let side = v >> 31;
        let outward = UNIT - (seen.heights[k] + b).max(0);
        let z = (outward ^ side) - side;
        copies[k] = z;
        offsets[k] = v - z;
        bits.sums[place(members[k])] += 2 * z - v;
    }
}

/// Whether this round's multipliers prove the candidate; if so, word and certificate are written.
#[cold]
fn certifies(table: &Table, frame: &[i16], bits: &Bits, lent: &mut Buffers) -> bool {
    let word: Vec<u8> = bits.spins[..table.bits].iter().map(|&spin| u8::from(spin < 0)).collect();
    let bound = bound(table, frame, 1, cuts(lent.multipliers, lent.masks));
    let certified = bound == agreement(frame, &word);
    if certified {
        lent.word.copy_from_slice(&word);
        write(lent.multipliers, lent.masks, lent.certificate);
    }
    certified
}
