//! Measures the proved decoder against one written independently of it, from the documents alone.

pub mod cases;
pub mod clock;
pub mod decoder;
pub mod gen;
pub mod independent;
#[cfg(feature = "proved")]
pub mod proved;
pub mod seen;

use decoder::Decoder;
use gen::rng::Rng;

/// Every decoder.
#[cfg(feature = "proved")]
pub const ALL: [&dyn Decoder; 3] = [&independent::Independent, &independent::Plain, &proved::Proved];
#[cfg(not(feature = "proved"))]
pub const ALL: [&dyn Decoder; 2] = [&independent::Independent, &independent::Plain];

/// Those that a long series is put to; the proved one is last.
#[cfg(feature = "proved")]
pub const SHIPPED: [&dyn Decoder; 2] = [&independent::Independent, &proved::Proved];
#[cfg(not(feature = "proved"))]
pub const SHIPPED: [&dyn Decoder; 1] = [&independent::Independent];

/// So many cases of a series on every decoder, each with its own source of numbers.
pub fn each(series: u64, cases: u64) -> impl Iterator<Item = (&'static dyn Decoder, Rng)> {
    let case = move |index| ALL.map(|decoder| (decoder, Rng::of_case(series, index)));
    (0..cases).flat_map(case)
}
