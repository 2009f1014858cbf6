//! Seeded codes and frames, the same on every machine.

use jugnayap::{limits, Code};

/// A source of numbers (splitmix64).
pub struct Rng(u64);

impl Rng {
    pub fn new(seed: u64) -> Rng {
        Rng(seed)
    }

    fn draw(&mut self) -> u64 {
        self.0 = self.0.wrapping_add(0x9e37_79b9_7f4a_7c15);
        let mut x = self.0;
        x = (x ^ (x >> 30)).wrapping_mul(0xbf58_476d_1ce4_e5b9);
        x = (x ^ (x >> 27)).wrapping_mul(0x94d0_49bb_1331_11eb);
        x ^ (x >> 31)
    }

    /// From `low` to `high`, both included.
    pub fn between(&mut self, low: usize, high: usize) -> usize {
        low + (self.draw() % (high - low + 1) as u64) as usize
    }

    pub fn shuffle<T>(&mut self, list: &mut [T]) {
        for last in (1..list.len()).rev() {
            list.swap(last, self.between(0, last));
        }
    }
}

/// A code before it is one: the members of its checks, ascending.
pub struct Table {
    pub bits: usize,
    pub checks: Vec<Vec<u16>>,
}

impl Table {
    /// So many checks, of degrees from 1 to `most` while the edges last, on a number of bits for which there is room.
    pub fn random(rng: &mut Rng, checks: usize, most: usize) -> Table {
        let degrees = degrees(rng, checks, most);
        let edges: usize = degrees.iter().sum();
        let least = edges.div_ceil(limits::DEGREE).max(degrees.iter().copied().max().unwrap());
        let most = edges.min(limits::BITS);
        let bits = [least, most, rng.between(least, most)][rng.between(0, 2)];
        let mut table = Table { bits, checks: dealt(rng, bits, &degrees) };
        table.vary(rng, edges);
        table.checks.iter_mut().for_each(|members| members.sort_unstable());
        table
    }

    /// With empty checks among its own, so many at most, where there is room.
    pub fn with_empty(mut self, rng: &mut Rng, most: usize) -> Table {
        for _ in 0..rng.between(0, most).min(limits::CHECKS - self.checks.len()) {
            let place = rng.between(0, self.checks.len());
            self.checks.insert(place, Vec::new());
        }
        self
    }

    /// Puts other bits in the places of some, so that the bits' degrees become uneven.
    fn vary(&mut self, rng: &mut Rng, times: usize) {
        let mut degrees = vec![0; self.bits];
        self.checks.iter().flatten().for_each(|&bit| degrees[usize::from(bit)] += 1);
        for _ in 0..times {
            let check = rng.between(0, self.checks.len() - 1);
            let members = &mut self.checks[check];
            let place = rng.between(0, members.len() - 1);
            let (old, new) = (usize::from(members[place]), rng.between(0, self.bits - 1));
            let fits = degrees[old] > 1 && degrees[new] < limits::DEGREE;
            if fits && !members.contains(&(new as u16)) {
                members[place] = new as u16;
                degrees[old] -= 1;
                degrees[new] += 1;
            }
        }
    }

    pub fn code(&self) -> Code {
        Code::from_checks(self.bits, &self.checks).unwrap()
    }
}

/// The checks' degrees; each gets 1 at least, however few edges are left.
fn degrees(rng: &mut Rng, checks: usize, most: usize) -> Vec<usize> {
    let mut left = limits::EDGES;
    let degree = |check| {
        let degree = rng.between(1, most).min(left - (checks - 1 - check));
        left -= degree;
        degree
    };
    (0..checks).map(degree).collect()
}

/// Bits dealt to the checks in turns, so that each bit stands in about as many.
fn dealt(rng: &mut Rng, bits: usize, degrees: &[usize]) -> Vec<Vec<u16>> {
    let mut circle: Vec<u16> = (0..bits as u16).collect();
    rng.shuffle(&mut circle);
    let mut deal = circle.iter().copied().cycle();
    degrees.iter().map(|&degree| deal.by_ref().take(degree).collect()).collect()
}

/// A code of a few checks, some of them empty.
pub fn small(rng: &mut Rng) -> Code {
    let (checks, most) = (rng.between(1, 9), rng.between(2, 7));
    Table::random(rng, checks, most).with_empty(rng, 2).code()
}

/// Numbers about the mean, `reach` either way.
pub fn frame(rng: &mut Rng, bits: usize, mean: i16, reach: i16) -> Vec<i16> {
    (0..bits).map(|_| mean - reach + rng.between(0, 2 * reach as usize) as i16).collect()
}
