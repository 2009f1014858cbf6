//! The code file: contents, then bodies (refusals 1 to 7).

use super::limits::{code_length, DEGREE_LIMIT, EDGE_LIMIT, SIZE_LIMIT};
use crate::decoder::{Refusal, Sizes};
use std::ops::Range;

pub struct Table {
    pub bits: usize,
    /// First edge of each check, and E at the end.
    starts: Vec<u16>,
    /// The bit of each edge, check after check.
    pub members: Vec<u16>,
    /// The number of edges of each bit.
    pub degrees: Vec<u16>,
    /// The checks, in runs of equal degree.
    pub runs: Vec<Run>,
}

/// Checks one after another of equal degree.
pub struct Run {
    pub degree: usize,
    pub checks: Range<usize>,
    pub edges: Range<usize>,
}

/// A member as an index into a full-sized array, which then needs no bounds check.
#[inline(always)]
pub fn place(member: u16) -> usize {
    usize::from(member) & (SIZE_LIMIT - 1)
}

pub fn u16_at(bytes: &[u8], place: usize) -> u16 {
    u16::from_le_bytes([bytes[place], bytes[place + 1]])
}

impl Table {
    pub fn parse(code: &[u8]) -> Result<Table, Refusal> {
        let (bits, checks) = sizes(code)?;
        let contents = code[4..].get(..4 * checks).ok_or(Refusal::FILE_LENGTH)?;
        let starts = starts(contents)?;
        let edges = usize::from(starts[checks]);
        if code.len() != code_length(checks, edges) {
            return Err(Refusal::FILE_LENGTH);
        }
        let bodies = code[4 + 4 * checks..].chunks_exact(2);
        let members: Vec<u16> = bodies.map(|pair| u16_at(pair, 0)).collect();
        if !members_sound(bits, &starts, &members) {
            return Err(Refusal::FILE_MEMBER);
        }
        let degrees = degrees(bits, &members)?;
        let runs = runs(&starts);
        Ok(Table { bits, starts, members, degrees, runs })
    }

    pub fn checks(&self) -> usize {
        self.starts.len() - 1
    }

    pub fn edges(&self) -> usize {
        self.members.len()
    }

    pub fn sizes(&self) -> Sizes {
        Sizes { bits: self.bits as u32, checks: self.checks() as u32, edges: self.edges() as u32 }
    }

    /// The edges of each check, in order.
    pub fn rows(&self) -> impl Iterator<Item = Range<usize>> + '_ {
        rows(&self.starts)
    }

    pub fn row(&self, check: usize) -> Range<usize> {
        usize::from(self.starts[check])..usize::from(self.starts[check + 1])
    }

    pub fn members_of(&self, check: usize) -> &[u16] {
        &self.members[self.row(check)]
    }
}

fn rows(starts: &[u16]) -> impl Iterator<Item = Range<usize>> + '_ {
    starts.windows(2).map(|pair| usize::from(pair[0])..usize::from(pair[1]))
}

/// Whether members ascend within checks and are bits. Passes over all edges at once are vectorised.
fn members_sound(bits: usize, starts: &[u16], members: &[u16]) -> bool {
    let descends = |(before, member): (&u16, &u16)| u16::from(before >= member);
    let after = members.get(1..).unwrap_or_default();
    let descents: u16 = members.iter().zip(after).map(descends).sum();
    // A check may begin with a smaller member than the last one's; no other descent is allowed. An empty
    // check begins with none, and shares its start with the next one.
    let inner = rows(starts).filter(|row| row.start > 0 && !row.is_empty());
    let at_starts: u16 = inner.map(|row| descends((&members[row.start - 1], &members[row.start]))).sum();
    let largest = members.iter().fold(0, |largest, &member| largest.max(member));
    descents == at_starts && usize::from(largest) < bits
}

/// The number of edges of each bit.
fn degrees(bits: usize, members: &[u16]) -> Result<Vec<u16>, Refusal> {
    let mut degrees = [0; SIZE_LIMIT];
    for &member in members {
        degrees[place(member)] += 1;
    }
    let degrees = &degrees[..bits];
    let wrong = |&degree: &u16| !(1..=DEGREE_LIMIT as u16).contains(&degree);
    if degrees.iter().fold(false, |any, degree| any | wrong(degree)) {
        return Err(Refusal::FILE_BIT);
    }
    Ok(degrees.to_vec())
}

fn runs(starts: &[u16]) -> Vec<Run> {
    let mut runs: Vec<Run> = Vec::new();
    for (check, edges) in rows(starts).enumerate() {
        match runs.last_mut() {
            Some(run) if run.degree == edges.len() => {
                run.checks.end = check + 1;
                run.edges.end = edges.end;
            }
            _ => runs.push(Run { degree: edges.len(), checks: check..check + 1, edges }),
        }
    }
    runs
}

fn sizes(code: &[u8]) -> Result<(usize, usize), Refusal> {
    if code.len() < 4 {
        return Err(Refusal::FILE_SHORT);
    }
    let (bits, checks) = (usize::from(u16_at(code, 0)), usize::from(u16_at(code, 2)));
    let allowed = 1..=SIZE_LIMIT;
    if !allowed.contains(&bits) || !allowed.contains(&checks) {
        return Err(Refusal::FILE_SIZES);
    }
    Ok((bits, checks))
}

/// Every count is tested before any start.
fn starts(contents: &[u8]) -> Result<Vec<u16>, Refusal> {
    let mut starts = vec![0; contents.len() / 4 + 1];
    let (mut counts_sound, mut starts_sound, mut next) = (true, true, 0);
    for (entry, after) in contents.chunks_exact(4).zip(&mut starts[1..]) {
        let count = usize::from(u16_at(entry, 2));
        counts_sound &= count <= DEGREE_LIMIT;
        starts_sound &= usize::from(u16_at(entry, 0)) == next;
        next += count;
        *after = next as u16;
    }
    match (counts_sound, starts_sound && next <= EDGE_LIMIT) {
        (false, _) => Err(Refusal::FILE_COUNT),
        (true, false) => Err(Refusal::FILE_START),
        (true, true) => Ok(starts),
    }
}
