//! The paper's limits, each once.

/// U: spin +U is bit 0, spin −U is bit 1.
pub const UNIT: i32 = 4_096;
/// The right side of a parity inequality.
pub const FACET: i32 = 2 * UNIT;
/// Most bits, and most checks.
pub const SIZE_LIMIT: usize = 2_048;
/// Most members of a check, which may have none, and most checks of a bit, which is in one at least.
pub const DEGREE_LIMIT: usize = 32;
pub const EDGE_LIMIT: usize = 8_192;
pub const FRAME_LIMIT: i16 = 8_191;
pub const ROUND_LIMIT: u32 = 1_024;
/// An offset grows by at most this in a round.
pub const OFFSET_STEP: i32 = 8_192;
pub const ENTRY_LIMIT: usize = 4_096;
pub const SCALE_LIMIT: u16 = 1_023;
pub const MULTIPLIER_LIMIT: u32 = 16_777_215;
/// No round's multiplier is greater, since an offset is at most a step for each round done.
pub const GREATEST_MULTIPLIER: i32 = OFFSET_STEP * ROUND_LIMIT as i32;

/// Bytes of a certificate with that many entries.
pub const fn certificate_length(entries: usize) -> usize {
    4 + 10 * entries
}

/// Bytes of a code file with so many checks and edges.
pub const fn code_length(checks: usize, edges: usize) -> usize {
    4 + 4 * checks + 2 * edges
}
