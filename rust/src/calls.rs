//! The proved library's calls on plain slices. Each takes any bytes, numbers and lengths, and answers or
//! refuses by number; a refused call changes nothing. An answer that the C header does not allow is a panic.
//! The types of the crate's root own their buffers and are easier to use.

use crate::{ffi, limits, Refusal};

/// The sizes of a code.
#[derive(Clone, Copy, Debug, PartialEq, Eq)]
pub struct Sizes {
    /// n: the number of bits.
    pub bits: u32,
    /// m: the number of parity checks.
    pub checks: u32,
    /// E: the members of all checks together.
    pub edges: u32,
}

/// A parity inequality that a point violates. That of an odd set of a check's members says: the sum of U + spin
/// over the set, plus the sum of U − spin over the other members, is at least 2U, where U is
/// [`UNIT`](limits::UNIT).
#[derive(Clone, Copy, Debug, PartialEq, Eq)]
pub struct Cut {
    /// The odd set, as a mask of the check's members.
    pub mask: u32,
    /// By how much the inequality falls short: 2U less its left side, 1 to 8,192.
    pub depth: u32,
}

/// What the judge says of a word and a certificate that it does not refuse.
#[derive(Clone, Copy, Debug, PartialEq, Eq)]
pub enum Verdict {
    /// The word breaks this check, the first of those.
    Broken(u32),
    /// No codeword, and no point of the relaxation, agrees better with the frame than the word.
    Certified {
        /// Whether every reduced number of the certificate differs from 0. Then no other codeword, and no other
        /// point of the relaxation, agrees as well as the word. False claims nothing: the word may be alone, and
        /// another certificate may show it.
        sole: bool,
    },
    /// The bound is this much above the word's agreement times the certificate's scale.
    Gap(i64),
}

/// A run's record. The status stays a number, since a half-done run may hold any.
#[repr(C)]
#[derive(Clone, Copy, Debug, PartialEq, Eq)]
pub struct Record {
    /// The rounds done.
    pub rounds: u32,
    /// [`RUNNING`](Self::RUNNING), [`CERTIFIED`](Self::CERTIFIED) or [`SPENT`](Self::SPENT).
    pub status: u32,
}

impl Record {
    /// The status of a run that may go on.
    pub const RUNNING: u32 = 0;
    /// The status of a run that ended with a word and a certificate.
    pub const CERTIFIED: u32 = 1;
    /// The status of a run whose rounds brought no certificate.
    pub const SPENT: u32 = 2;
    /// What a start leaves.
    pub const FRESH: Record = Record { rounds: 0, status: Self::RUNNING };
}

/// A call for rounds: the refusal, if any, and the record that the call leaves.
#[derive(Clone, Copy, Debug, PartialEq, Eq)]
pub struct Called {
    /// Why the call was refused, if it was.
    pub refusal: Option<Refusal>,
    /// The record after the call; of a refused one, that before it.
    pub record: Record,
}

impl Called {
    /// A call that was not refused.
    pub fn done(record: Record) -> Called {
        Called { refusal: None, record }
    }

    /// A call that was.
    pub fn refused(refusal: Refusal, record: Record) -> Called {
        Called { refusal: Some(refusal), record }
    }
}

/// Hands a macro the buffers lent to a call for rounds: the name, the elements, and which of the code's
/// numbers (bits, checks, edges, or the length of a certificate with an entry for each check) says how many
/// of them a call needs.
#[doc(hidden)]
#[macro_export]
macro_rules! each_buffer {
    ($then:ident) => {
        $then! {
            spins: i32, bits;
            copies: i32, edges;
            offsets: i32, edges;
            sums: i32, bits;
            multipliers: u32, checks;
            masks: u32, checks;
            depths: u32, checks;
            word: u8, bits;
            certificate: u8, certificate;
        }
    };
}
pub(crate) use each_buffer;

macro_rules! lent {
    ($($name:ident: $element:ty, $need:ident;)*) => {
        /// The buffers lent to a call for rounds, each as long as its field says, or longer, where `bits`,
        /// `checks` and `edges` are the code's and `certificate` is 4 + 10 × `checks`.
        ///
        /// A call that does a round leaves what the last one has: each bit's spin, each edge's copy and
        /// offset, each bit's sum of copies less offsets over its edges, each check's multiplier, mask and
        /// depth. One that certifies also writes word and certificate. The sums are compared with copies and
        /// offsets on entry.
        #[derive(Debug)]
        pub struct Buffers<'a> {
            $(
                #[doc = concat!("At least `", stringify!($need), "` elements.")]
                pub $name: &'a mut [$element],
            )*
        }
    };
}
each_buffer!(lent);

// Written out: a macro that picks these from the table is longer.
/// The buffers lent to a start, each as long as its field says, or longer, where `bits` and `edges` are the
/// code's. A start zeroes the first elements of each, as many as its field says.
#[derive(Debug)]
pub struct StartBuffers<'a> {
    /// At least `edges` elements.
    pub copies: &'a mut [i32],
    /// At least `edges` elements.
    pub offsets: &'a mut [i32],
    /// At least `bits` elements.
    pub sums: &'a mut [i32],
}

impl Buffers<'_> {
    /// Those of a start, lent anew.
    pub fn for_start(&mut self) -> StartBuffers<'_> {
        StartBuffers { copies: self.copies, offsets: self.offsets, sums: self.sums }
    }
}

/// The answer of a call: `value` at number 0. A refusal has zeros beside its number (`rest_zero`).
fn answer<T>(number: u32, rest_zero: bool, value: T) -> Result<T, Refusal> {
    if number == 0 {
        return Ok(value);
    }
    assert!(rest_zero, "refusal {number} with an answer beside it");
    Err(Refusal(number))
}

fn cut(raw: &ffi::Cut) -> Option<Cut> {
    match (raw.mask, raw.depth) {
        (0, 0) => None,
        (1.., 1..=limits::DEPTH) => Some(Cut { mask: raw.mask, depth: raw.depth }),
        (mask, depth) => panic!("cut of mask {mask}, depth {depth}"),
    }
}

fn verdict(raw: &ffi::Verdict) -> Verdict {
    match (raw.kind, raw.value, raw.sole) {
        (0, check, 0) => Verdict::Broken(u32::try_from(check).expect("a check number")),
        (1, 0, sole @ 0..=1) => Verdict::Certified { sole: sole == 1 },
        (2, gap @ 1.., 0) => Verdict::Gap(gap),
        (kind, value, sole) => panic!("verdict of kind {kind}, value {value}, sole {sole}"),
    }
}

// SAFETY, for every call below: pointer and length come from one slice that outlives the call, and no
// two lent slices overlap, as the borrow checker sees to.

/// The version of the proved library: major times 10,000, plus minor times 100, plus patch.
pub fn version() -> u32 {
    unsafe { ffi::jugnayap_version() }
}

/// Checks a code file. Refusals: 1 to 7.
pub fn check_table(code: &[u8]) -> Result<Sizes, Refusal> {
    let raw = unsafe { ffi::jugnayap_check_table(code.as_ptr(), code.len()) };
    let sizes = Sizes { bits: raw.bits, checks: raw.checks, edges: raw.edges };
    answer(raw.number, sizes == Sizes { bits: 0, checks: 0, edges: 0 }, sizes)
}

/// The parity inequality of a check that these spins violate, or none. Refusals: 1 to 7, 16, 17.
pub fn search_cut(code: &[u8], spins: &[i32], check: usize) -> Result<Option<Cut>, Refusal> {
    let raw =
        unsafe { ffi::jugnayap_search_cut(code.as_ptr(), code.len(), spins.as_ptr(), spins.len(), check) };
    let cut = cut(&raw);
    answer(raw.number, cut.is_none(), cut)
}

/// Judges a word and a certificate. Refusals: 1 to 7, 8, 9, 15, 10, 11, then entry by entry 12, 13, 14.
pub fn judge(code: &[u8], frame: &[i16], word: &[u8], certificate: &[u8]) -> Result<Verdict, Refusal> {
    let raw = unsafe {
        ffi::jugnayap_judge(
            code.as_ptr(),
            code.len(),
            frame.as_ptr(),
            frame.len(),
            word.as_ptr(),
            word.len(),
            certificate.as_ptr(),
            certificate.len(),
        )
    };
    let verdict = verdict(&raw);
    answer(raw.number, verdict == Verdict::Broken(0), verdict)
}

/// The agreement of a word with a frame: the sum of the frame's numbers, added where the bit is 0 and
/// subtracted where it is 1. Refusals: 1 to 7, 8, 9, 15.
pub fn agreement(code: &[u8], frame: &[i16], word: &[u8]) -> Result<i64, Refusal> {
    let raw = unsafe {
        ffi::jugnayap_agreement(
            code.as_ptr(),
            code.len(),
            frame.as_ptr(),
            frame.len(),
            word.as_ptr(),
            word.len(),
        )
    };
    answer(raw.number, raw.agreement == 0, raw.agreement)
}

/// Starts a run: zeroes the buffers lent as far as [`StartBuffers`] says. Refusals: 1 to 7, 41.
pub fn start(code: &[u8], lent: StartBuffers) -> Result<Record, Refusal> {
    let raw = unsafe {
        ffi::jugnayap_start(
            code.as_ptr(),
            code.len(),
            lent.copies.as_mut_ptr(),
            lent.copies.len(),
            lent.offsets.as_mut_ptr(),
            lent.offsets.len(),
            lent.sums.as_mut_ptr(),
            lent.sums.len(),
        )
    };
    answer(raw.number, raw.run == Record { rounds: 0, status: 0 }, raw.run)
}

/// Does the rounds wanted, or fewer if the run ends. Refusals: 1 to 7, 8, 9, 17, 41, 42, 43.
pub fn rounds(code: &[u8], frame: &[i16], record: Record, wanted: u32, lent: Buffers) -> Called {
    macro_rules! call {
        ($($name:ident: $element:ty, $need:ident;)*) => {
            ffi::jugnayap_rounds(
                code.as_ptr(),
                code.len(),
                frame.as_ptr(),
                frame.len(),
                record,
                wanted,
                $(lent.$name.as_mut_ptr(), lent.$name.len(),)*
            )
        };
    }
    let raw = unsafe { each_buffer!(call) };
    let refusal = (raw.number != 0).then_some(Refusal(raw.number));
    Called { refusal, record: raw.run }
}

#[cfg(test)]
mod tests {
    use super::*;
    use std::panic::catch_unwind;

    #[test]
    fn cuts_have_mask_and_depth_or_neither() {
        let allowed = |mask, depth| catch_unwind(|| cut(&ffi::Cut { number: 0, mask, depth })).is_ok();
        for (mask, depth) in [(0, 0), (1, 1), (1, 8192), (u32::MAX, 1)] {
            assert!(allowed(mask, depth), "{mask}, {depth}");
        }
        for (mask, depth) in [(0, 1), (1, 0), (1, 8193), (1, u32::MAX)] {
            assert!(!allowed(mask, depth), "{mask}, {depth}");
        }
    }

    #[test]
    fn verdicts_have_a_mark_only_where_passed() {
        let read =
            |kind, value, sole| catch_unwind(|| verdict(&ffi::Verdict { number: 0, kind, value, sole })).ok();
        for (kind, value, sole, verdict) in [
            (0, 0, 0, Verdict::Broken(0)),
            (0, 2047, 0, Verdict::Broken(2047)),
            (1, 0, 0, Verdict::Certified { sole: false }),
            (1, 0, 1, Verdict::Certified { sole: true }),
            (2, 1, 0, Verdict::Gap(1)),
            (2, i64::MAX, 0, Verdict::Gap(i64::MAX)),
        ] {
            assert_eq!(read(kind, value, sole), Some(verdict), "{kind}, {value}, {sole}");
        }
        for (kind, value, sole) in [
            (0, 0, 1),
            (0, -1, 0),
            (1, 1, 0),
            (1, 1, 1),
            (1, 0, 2),
            (1, 0, u32::MAX),
            (2, 0, 0),
            (2, -1, 0),
            (2, 5, 1),
            (3, 0, 0),
        ] {
            assert_eq!(read(kind, value, sole), None, "{kind}, {value}, {sole}");
        }
    }
}
