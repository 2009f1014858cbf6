//! Code files: regular, random, and at the limits.

use super::empty;
use super::rng::Rng;
use crate::independent::limits::{code_length, DEGREE_LIMIT, EDGE_LIMIT, SIZE_LIMIT};

/// The code file of these checks, whose members ascend.
pub fn bytes_of(bits: usize, checks: &[Vec<u16>]) -> Vec<u8> {
    let edges = checks.iter().map(Vec::len).sum();
    let mut code = Vec::with_capacity(code_length(checks.len(), edges));
    code.extend((bits as u16).to_le_bytes());
    code.extend((checks.len() as u16).to_le_bytes());
    let mut start = 0u16;
    for check in checks {
        code.extend(start.to_le_bytes());
        code.extend((check.len() as u16).to_le_bytes());
        start = start.wrapping_add(check.len() as u16);
    }
    code.extend(checks.iter().flatten().flat_map(|member| member.to_le_bytes()));
    code
}

/// One check on bits 0, 1, 2.
pub fn three_bits() -> Vec<u8> {
    bytes_of(3, &[vec![0, 1, 2]])
}

/// A regular code of so many bits: each in `column` checks, each check with `row` members. The checks
/// come out whole, and there are far more bits than members of a check.
pub fn regular(rng: &mut Rng, bits: usize, column: usize, row: usize) -> Vec<u8> {
    let edges = bits * column;
    let mut sockets: Vec<u16> = (0..edges).map(|socket| (socket / column) as u16).collect();
    rng.shuffle(&mut sockets);
    let repeated = |sockets: &[u16], at: usize| {
        let first = at / row * row;
        (first..first + row).any(|other| other != at && sockets[other] == sockets[at])
    };
    // A bit that stands twice in a check trades places with a random one, until no bit does.
    while let Some(at) = (0..edges).find(|&at| repeated(&sockets, at)) {
        let other = rng.below(edges);
        sockets.swap(at, other);
    }
    let checks: Vec<Vec<u16>> = sockets.chunks(row).map(ascending).collect();
    bytes_of(bits, &checks)
}

fn ascending(members: &[u16]) -> Vec<u16> {
    let mut sorted = members.to_vec();
    sorted.sort_unstable();
    sorted
}

/// A table under construction, kept within the limits.
struct Draft {
    checks: Vec<Vec<u16>>,
    degrees: Vec<usize>,
    edges: usize,
}

impl Draft {
    fn new(bits: usize, checks: usize) -> Draft {
        Draft { checks: vec![Vec::new(); checks], degrees: vec![0; bits], edges: 0 }
    }

    fn add(&mut self, check: usize, bit: usize) -> bool {
        let row = &mut self.checks[check];
        let fits = row.len() < DEGREE_LIMIT && self.degrees[bit] < DEGREE_LIMIT && self.edges < EDGE_LIMIT;
        if !fits || row.contains(&(bit as u16)) {
            return false;
        }
        row.push(bit as u16);
        self.degrees[bit] += 1;
        self.edges += 1;
        true
    }

    /// Gives every bit and every check an edge; there must be room, with at most 16 of one to the other.
    fn cover(&mut self, rng: &mut Rng) {
        for bit in 0..self.degrees.len() {
            while !self.add(rng.below(self.checks.len()), bit) {}
        }
        for check in 0..self.checks.len() {
            while self.checks[check].is_empty() && !self.add(check, rng.below(self.degrees.len())) {}
        }
    }

    /// Adds edges up to a number, or until there is hardly room.
    fn fill(&mut self, rng: &mut Rng, edges: usize) {
        for _ in 0..4 * edges {
            if self.edges >= edges {
                return;
            }
            let (check, bit) = (rng.below(self.checks.len()), rng.below(self.degrees.len()));
            self.add(check, bit);
        }
    }

    /// Adds a check equal to another, if the limits allow.
    fn repeat(&mut self, rng: &mut Rng) {
        let row = self.checks[rng.below(self.checks.len())].clone();
        let room = self.checks.len() < SIZE_LIMIT && self.edges + row.len() <= EDGE_LIMIT;
        if room && row.iter().all(|&bit| self.degrees[usize::from(bit)] < DEGREE_LIMIT) {
            self.checks.push(Vec::new());
            for bit in row {
                self.add(self.checks.len() - 1, usize::from(bit));
            }
        }
    }

    fn bytes(&self) -> Vec<u8> {
        let checks: Vec<Vec<u16>> = self.checks.iter().map(|row| ascending(row)).collect();
        bytes_of(self.degrees.len(), &checks)
    }
}

/// A random code of about that many bits: any shape, equal checks and checks of one member included. No check
/// is empty.
pub fn random(rng: &mut Rng, most_bits: usize) -> Vec<u8> {
    let bits = rng.between(1, most_bits);
    let checks = rng.between((bits / 12).max(1), (2 * bits).min(SIZE_LIMIT).min(16 * bits));
    let mut draft = Draft::new(bits, checks);
    draft.cover(rng);
    let dense = rng.between(1, 6) * bits.max(checks);
    draft.fill(rng, dense.min(EDGE_LIMIT));
    if rng.one_in(3) {
        draft.repeat(rng);
    }
    draft.bytes()
}

/// A code at one or more of the limits.
pub fn at_limits(rng: &mut Rng) -> Vec<u8> {
    let chain = |length: usize| (0..length as u16).map(|bit| vec![bit]).collect::<Vec<_>>();
    match rng.below(8) {
        0 => bytes_of(1, &[vec![0]]),
        1 => bytes_of(32, &[(0..32).collect()]),
        2 => bytes_of(1, &vec![vec![0]; 32]),
        3 => bytes_of(SIZE_LIMIT, &chain(SIZE_LIMIT)),
        // Every check and every bit of degree 32, and as many edges as there may be.
        4 => bytes_of(256, &(0..256).map(|first| wheel(first, 256, 32)).collect::<Vec<_>>()),
        5 => bytes_of(
            SIZE_LIMIT,
            &(0..SIZE_LIMIT).map(|first| wheel(first, SIZE_LIMIT, 4)).collect::<Vec<_>>(),
        ),
        6 => {
            bytes_of(SIZE_LIMIT, &(0..64).map(|row| (32 * row..32 * row + 32).collect()).collect::<Vec<_>>())
        }
        _ => bytes_of(64, &(0..SIZE_LIMIT).map(|row| vec![(row % 64) as u16]).collect::<Vec<_>>()),
    }
}

/// Every seventh bit of a circle, from the first on.
fn wheel(first: usize, bits: usize, degree: usize) -> Vec<u16> {
    let members: Vec<u16> = (0..degree).map(|k| ((first + 7 * k) % bits) as u16).collect();
    ascending(&members)
}

/// A code of any size, mostly small; one in four has empty checks.
pub fn any(rng: &mut Rng) -> Vec<u8> {
    let code = of_any_size(rng);
    if rng.one_in(4) {
        empty::put_in(rng, &code)
    } else {
        code
    }
}

fn of_any_size(rng: &mut Rng) -> Vec<u8> {
    match rng.below(100) {
        0..=59 => random(rng, 8),
        60..=89 => random(rng, 40),
        90..=96 => random(rng, 300),
        97 => random(rng, SIZE_LIMIT),
        98 => {
            let bits = 2 * rng.between(12, 200);
            regular(rng, bits, 3, 6)
        }
        _ => at_limits(rng),
    }
}
