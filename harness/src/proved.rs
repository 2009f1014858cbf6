//! The proved decoder, by the calls of `jugnayap`. An answer that the C header does not allow is a panic.

use crate::decoder::{Buffers, Called, Cut, Decoder, Record, Refusal, Sizes, StartBuffers, Verdict};
use jugnayap::calls;

pub struct Proved;

impl Decoder for Proved {
    fn name(&self) -> &'static str {
        "proved"
    }

    fn check_table(&self, code: &[u8]) -> Result<Sizes, Refusal> {
        calls::check_table(code)
    }

    fn search_cut(&self, code: &[u8], spins: &[i32], check: usize) -> Result<Option<Cut>, Refusal> {
        calls::search_cut(code, spins, check)
    }

    fn judge(&self, code: &[u8], frame: &[i16], word: &[u8], certificate: &[u8]) -> Result<Verdict, Refusal> {
        calls::judge(code, frame, word, certificate)
    }

    fn agreement(&self, code: &[u8], frame: &[i16], word: &[u8]) -> Result<i64, Refusal> {
        calls::agreement(code, frame, word)
    }

    fn start(&self, code: &[u8], lent: StartBuffers) -> Result<Record, Refusal> {
        calls::start(code, lent)
    }

    fn rounds(&self, code: &[u8], frame: &[i16], record: Record, wanted: u32, lent: Buffers) -> Called {
        calls::rounds(code, frame, record, wanted, lent)
    }
}
