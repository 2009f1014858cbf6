//! fuzz SEED COUNT [FIRST] [--digests FILE]: a seeded series of cases to the proved decoder and the independent
//! one.
//!
//! Each refusal, cuts of the least and of the greatest depth, and the multipliers at 43's limits must be met at
//! least a few times over a whole series, and verdicts of gap 0 more often, with the mark and without it. Refusal
//! 44 is not among them: no run that passes 43 can meet it.
//!
//! FILE gets a line for each block of cases: the first one's number, and a digest of all inputs and of all that
//! the proved decoder answered and left. The independent one's would be the same, or the program fails. Without
//! the feature `proved` the independent decoder runs alone, and the digests are its own.

use harness::cases::compare::{compare, Seen, Tally};
use harness::cases::{make, Case, CERTIFIED, EDGES, GREATEST_DEPTH, LEAST_DEPTH, SOLE};
use harness::decoder::Refusal;
use harness::gen::rng::Rng;
use harness::SHIPPED;
use std::ops::Range;
use std::panic::{catch_unwind, AssertUnwindSafe};
use std::process::ExitCode;

const REFUSALS: [u32; 20] = [1, 2, 3, 4, 5, 6, 7, 8, 9, 10, 11, 12, 13, 14, 15, 16, 17, 41, 42, 43];
/// The least number of times that each has to be met.
const FEW: u64 = 5;
/// One case in so many, on average, has to get a verdict of gap 0 with the mark, and one without it. Of the cases as
/// they are made one in 19 gets the former, and one in 62 the latter.
const VERDICTS: u64 = 200;
/// The cases of a digest.
const BLOCK: u64 = 1_000;

fn try_case(seed: u64, index: u64, seen: &mut Seen) -> Result<(), String> {
    let case: Case = make::case(&mut Rng::of_case(seed, index));
    let outcome = catch_unwind(AssertUnwindSafe(|| compare(&SHIPPED, &case, seen)));
    let outcome = outcome.unwrap_or_else(|_| Err("a decoder panicked".into()));
    outcome.map_err(|what| format!("seed {seed} case {index} ({}): {what}", case.kind()))
}

/// Answers how many cases differ.
fn try_block(seed: u64, cases: Range<u64>, seen: &mut Seen) -> usize {
    let differing = cases.filter_map(|index| try_case(seed, index, seen).err());
    differing.map(|what| println!("{what}")).count()
}

/// Answers that have to be met a few times, as the tally has them.
fn wanted() -> impl Iterator<Item = String> {
    let refusals = REFUSALS.into_iter().map(|number| format!("{:?}", Refusal(number)));
    let words = [LEAST_DEPTH, GREATEST_DEPTH].into_iter().chain(EDGES.map(|(_, word)| word));
    refusals.chain(words.map(String::from))
}

/// How often an answer was met, from one call or from any.
fn met(tally: &Tally, from: Option<&str>, wanted: &str) -> u64 {
    let counts = |call: &str, answer: &str| answer == wanted && call == from.unwrap_or(call);
    tally.iter().filter(|((call, answer), _)| counts(call, answer)).map(|(_, count)| count).sum()
}

/// All answers that were met too few times.
fn missing(tally: &Tally, cases: u64) -> Vec<String> {
    let few = wanted().filter(|answer| met(tally, None, answer) < FEW);
    let verdicts = [CERTIFIED, SOLE].into_iter().map(String::from);
    few.chain(verdicts.filter(|answer| met(tally, Some("judge"), answer) < cases / VERDICTS)).collect()
}

fn print(tally: &Tally) {
    for ((call, answer), count) in tally {
        println!("{call:10} {answer:14} {count}");
    }
}

fn series(seed: u64, cases: Range<u64>, digests: Option<&str>) -> Result<(), String> {
    let (mut seen, mut differences, mut lines) = (Seen::default(), 0, String::new());
    let (count, whole) = (cases.end - cases.start, cases.start == 0);
    for first in cases.clone().step_by(BLOCK as usize) {
        differences += try_block(seed, first..cases.end.min(first + BLOCK), &mut seen);
        lines += &format!("{first} {:016x}\n", seen.digest.take());
    }
    print(&seen.tally);
    let written = digests.map_or(Ok(()), |file| std::fs::write(file, lines));
    written.map_err(|error| format!("no digests written: {error}"))?;
    let missing = missing(&seen.tally, count);
    if whole && !missing.is_empty() {
        return Err(format!("{missing:?} were met too few times"));
    }
    let decoders = SHIPPED.map(|decoder| decoder.name()).join(" and ");
    let last = format!("fuzz: {count} inputs, {differences} differences");
    if differences > 0 {
        return Err(last);
    }
    println!("{last} ({decoders}, words of {} bits)", usize::BITS);
    Ok(())
}

fn main() -> ExitCode {
    let mut arguments: Vec<String> = std::env::args().skip(1).collect();
    let option = arguments.iter().position(|argument| argument == "--digests");
    let digests = option.map(|at| arguments.split_off(at)).filter(|option| option.len() == 2);
    let numbers: Option<Vec<u64>> = arguments.iter().map(|text| text.parse().ok()).collect();
    let (seed, cases) = match numbers.as_deref() {
        Some([seed, count]) if option.is_some() == digests.is_some() => (*seed, 0..*count),
        Some([seed, count, first]) if option.is_some() == digests.is_some() => (*seed, *first..first + count),
        _ => {
            eprintln!("usage: fuzz SEED COUNT [FIRST] [--digests FILE]");
            return ExitCode::from(2);
        }
    };
    match series(seed, cases, digests.as_ref().map(|option| option[1].as_str())) {
        Ok(()) => ExitCode::SUCCESS,
        Err(what) => {
            println!("{what}");
            ExitCode::FAILURE
        }
    }
}
