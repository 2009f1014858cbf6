//! A run's start and its calls for rounds: what is refused (17, 41, 42, 43), and in which order.

use super::input::test_frame;
use super::limits::{certificate_length, OFFSET_STEP, ROUND_LIMIT, SIZE_LIMIT, UNIT};
use super::table::{place, Table};
use crate::decoder::{Buffers, Called, Record, Refusal, StartBuffers};

/// Does rounds on an admitted call and answers the new record.
pub type Rounds = fn(&Table, &[i16], Record, u32, Buffers) -> Record;

pub fn start(code: &[u8], lent: StartBuffers) -> Result<Record, Refusal> {
    let table = Table::parse(code)?;
    let (bits, edges) = (table.bits, table.edges());
    if lent.copies.len() < edges || lent.offsets.len() < edges || lent.sums.len() < bits {
        return Err(Refusal::BUFFER);
    }
    lent.copies[..edges].fill(0);
    lent.offsets[..edges].fill(0);
    lent.sums[..bits].fill(0);
    Ok(Record::FRESH)
}

pub fn rounds(code: &[u8], frame: &[i16], record: Record, wanted: u32, lent: Buffers, run: Rounds) -> Called {
    match admit(code, frame, record, wanted, &lent) {
        Ok(table) => Called::done(run(&table, frame, record, wanted, exact(&table, lent))),
        Err(refusal) => Called::refused(refusal, record),
    }
}

fn admit(code: &[u8], frame: &[i16], record: Record, wanted: u32, lent: &Buffers) -> Result<Table, Refusal> {
    let table = Table::parse(code)?;
    test_frame(&table, frame)?;
    if wanted > ROUND_LIMIT {
        return Err(Refusal::REQUEST);
    }
    if !long_enough(&table, lent) {
        return Err(Refusal::BUFFER);
    }
    if record.status == Record::CERTIFIED || record.status == Record::SPENT {
        return Err(Refusal::ENDED);
    }
    if record.status != Record::RUNNING || record.rounds >= ROUND_LIMIT {
        return Err(Refusal::STATE);
    }
    if !in_limits(&table, record, lent) || !sums_true(&table, lent) {
        return Err(Refusal::STATE);
    }
    Ok(table)
}

fn long_enough(table: &Table, lent: &Buffers) -> bool {
    let (bits, checks, edges) = (table.bits, table.checks(), table.edges());
    lent.spins.len() >= bits
        && lent.copies.len() >= edges
        && lent.offsets.len() >= edges
        && lent.sums.len() >= bits
        && lent.multipliers.len() >= checks
        && lent.masks.len() >= checks
        && lent.depths.len() >= checks
        && lent.word.len() >= bits
        && lent.certificate.len() >= certificate_length(checks)
}

/// Whether copies and offsets are what a run of so many rounds, below the limit, may leave.
fn in_limits(table: &Table, record: Record, lent: &Buffers) -> bool {
    // No early exit: the loop without one is vectorised.
    let within = |values: &[i32], limit: i32| {
        values[..table.edges()].iter().fold(true, |fit, &x| fit & (x >= -limit) & (x <= limit))
    };
    within(lent.copies, UNIT) && within(lent.offsets, OFFSET_STEP * record.rounds as i32)
}

/// Whether each sum is that of z − y over its bit's edges. In their limits these leave no sum beyond 32 bits.
fn sums_true(table: &Table, lent: &Buffers) -> bool {
    let mut sums = [0; SIZE_LIMIT];
    for ((&member, z), y) in table.members.iter().zip(&*lent.copies).zip(&*lent.offsets) {
        sums[place(member)] += z - y;
    }
    sums[..table.bits] == lent.sums[..table.bits]
}

/// The first parts that a call may write; but the certificate's length is known only at the end.
fn exact<'a>(table: &Table, lent: Buffers<'a>) -> Buffers<'a> {
    let (bits, checks, edges) = (table.bits, table.checks(), table.edges());
    Buffers {
        spins: &mut lent.spins[..bits],
        copies: &mut lent.copies[..edges],
        offsets: &mut lent.offsets[..edges],
        sums: &mut lent.sums[..bits],
        multipliers: &mut lent.multipliers[..checks],
        masks: &mut lent.masks[..checks],
        depths: &mut lent.depths[..checks],
        word: &mut lent.word[..bits],
        certificate: lent.certificate,
    }
}
