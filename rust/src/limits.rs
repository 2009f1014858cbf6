//! The limits of tables, frames, runs, cuts and certificates.

/// Bits of a code, 1 to this.
pub const BITS: usize = 2048;
/// Parity checks of a code, 1 to this.
pub const CHECKS: usize = 2048;
/// Members of a check, 0 to this, and checks of a bit, 1 to this.
pub const DEGREE: usize = 32;
/// Edges of a code, at most.
pub const EDGES: usize = 8192;
/// A frame's numbers are from minus this to this.
pub const FRAME: i16 = 8191;
/// Rounds of a run, at most.
pub const ROUNDS: u32 = 1024;
/// The spin of a bit that is certainly 0; its negative is a certain 1.
pub const UNIT: i32 = 4096;
/// A cut's depth is 1 to this: the whole right side of a parity inequality.
pub const DEPTH: u32 = 2 * UNIT as u32;
/// Entries of a certificate, at most.
pub const ENTRIES: usize = 4096;
/// A certificate's scale is 1 to this.
pub const SCALE: u16 = 1023;
/// A certificate's multipliers are 1 to this.
pub const MULTIPLIER: u32 = 16_777_215;
