//! What every decoder here answers, and the trait through which they are compared.

pub use jugnayap::calls::{Buffers, Called, Cut, Record, Sizes, StartBuffers, Verdict};
pub use jugnayap::Refusal;

pub trait Decoder: Sync {
    fn name(&self) -> &'static str;
    fn check_table(&self, code: &[u8]) -> Result<Sizes, Refusal>;
    /// The violated odd set as a mask of the check's members, and its depth, or none.
    fn search_cut(&self, code: &[u8], spins: &[i32], check: usize) -> Result<Option<Cut>, Refusal>;
    fn judge(&self, code: &[u8], frame: &[i16], word: &[u8], certificate: &[u8]) -> Result<Verdict, Refusal>;
    fn agreement(&self, code: &[u8], frame: &[i16], word: &[u8]) -> Result<i64, Refusal>;
    fn start(&self, code: &[u8], lent: StartBuffers) -> Result<Record, Refusal>;
    fn rounds(&self, code: &[u8], frame: &[i16], record: Record, wanted: u32, lent: Buffers) -> Called;
}
