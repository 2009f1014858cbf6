//! A decoder written from the documents alone: the oracle of the differential tests and the rival in
//! the benchmark. `Independent` is the fast one; `Plain` does its rounds word for word as the paper
//! says, and shares with it only what comes before the rounds.

#![forbid(unsafe_code)]

pub mod call;
pub mod certificate;
pub mod cut;
pub mod fast;
pub mod input;
pub mod limits;
pub mod multiplier;
pub mod plain;
pub mod table;
#[cfg(test)]
mod tests;

use crate::decoder::{Buffers, Called, Cut, Decoder, Record, Refusal, Sizes, StartBuffers, Verdict};

pub struct Independent;
pub struct Plain;

macro_rules! decoder {
    ($type:ident, $name:literal, $rounds:path) => {
        impl Decoder for $type {
            fn name(&self) -> &'static str {
                $name
            }

            fn check_table(&self, code: &[u8]) -> Result<Sizes, Refusal> {
                Ok(table::Table::parse(code)?.sizes())
            }

            fn search_cut(&self, code: &[u8], spins: &[i32], check: usize) -> Result<Option<Cut>, Refusal> {
                cut::search(code, spins, check)
            }

            fn judge(
                &self,
                code: &[u8],
                frame: &[i16],
                word: &[u8],
                certificate: &[u8],
            ) -> Result<Verdict, Refusal> {
                certificate::judge(code, frame, word, certificate)
            }

            fn agreement(&self, code: &[u8], frame: &[i16], word: &[u8]) -> Result<i64, Refusal> {
                input::agreement_of(code, frame, word)
            }

            fn start(&self, code: &[u8], lent: StartBuffers) -> Result<Record, Refusal> {
                call::start(code, lent)
            }

            fn rounds(
                &self,
                code: &[u8],
                frame: &[i16],
                record: Record,
                wanted: u32,
                lent: Buffers,
            ) -> Called {
                call::rounds(code, frame, record, wanted, lent, $rounds)
            }
        }
    };
}

decoder!(Independent, "independent", fast::run);
decoder!(Plain, "plain", plain::run);
