//! A small seeded series of cases to the proved decoder, the independent one and the plain one.

use harness::cases::compare::{compare, Seen, Tally};
use harness::cases::{make, CERTIFIED, SOLE};
use harness::decoder::Decoder;
use harness::independent::{Independent, Plain};
use harness::proved::Proved;

fn series(decoders: &[&dyn Decoder], seed: u64, count: u64) -> Tally {
    let mut seen = Seen::default();
    for (index, case) in make::series(seed, count).enumerate() {
        if let Err(what) = compare(decoders, &case, &mut seen) {
            panic!("seed {seed} case {index} ({}): {what}", case.kind());
        }
    }
    seen.tally
}

#[test]
fn fast_rounds_are_the_plain_ones() {
    let tally = series(&[&Plain, &Independent], 1, 20_000);
    for answer in ["running", "certified", "spent"] {
        assert!(tally[&("rounds", answer.to_string())] >= 100, "{answer}");
    }
}

#[test]
fn proved_decoder_is_the_independent_one() {
    let tally = series(&[&Independent, &Proved], 2, 20_000);
    for answer in [CERTIFIED, SOLE] {
        assert!(tally[&("judge", answer.to_string())] >= 100, "{answer}");
    }
}
