//! The same case to every decoder: answers, records and whole buffers must be equal.

use super::digest::Digest;
use super::{Answer, Case, Run, EDGES};
use crate::decoder::{Decoder, Record};
use crate::gen::state::{Lengths, State};
use std::collections::BTreeMap;

/// How often each call gave each kind of answer.
pub type Tally = BTreeMap<(&'static str, String), u64>;

/// What was seen of the cases so far.
#[derive(Default)]
pub struct Seen {
    pub tally: Tally,
    /// Of the inputs, and of what the last decoder answered and left in all its buffers. Another decoder's is
    /// the same as long as nothing differs.
    pub digest: Digest,
}

impl Seen {
    fn count(&mut self, label: (&'static str, String)) {
        *self.tally.entry(label).or_default() += 1;
    }
}

/// Puts a case to all decoders. Says what differs from the first one's, if anything does.
pub fn compare(decoders: &[&dyn Decoder], case: &Case, seen: &mut Seen) -> Result<(), String> {
    case.put(&mut seen.digest);
    match case {
        Case::Run(run) => compare_run(decoders, run, seen),
        _ => {
            let answers: Vec<Answer> = decoders.iter().map(|decoder| single(*decoder, case)).collect();
            agree(decoders, &answers, seen)
        }
    }
}

fn agree(decoders: &[&dyn Decoder], answers: &[Answer], seen: &mut Seen) -> Result<(), String> {
    seen.count(answers[0].label());
    seen.digest.numbers(format!("{:?}", answers.last()).as_bytes());
    match answers.iter().position(|answer| *answer != answers[0]) {
        None => Ok(()),
        Some(k) => {
            let (first, other) = (decoders[0].name(), decoders[k].name());
            Err(format!("{first} answers {:?}, {other} answers {:?}", answers[0], answers[k]))
        }
    }
}

fn single(decoder: &dyn Decoder, case: &Case) -> Answer {
    match case {
        Case::Table { code } => Answer::Table(decoder.check_table(code)),
        Case::Cut { code, point, check } => Answer::Cut(decoder.search_cut(code, point, *check)),
        Case::Judge { code, frame, word, certificate } => {
            Answer::Judge(decoder.judge(code, frame, word, certificate))
        }
        Case::Agreement { code, frame, word } => Answer::Agreement(decoder.agreement(code, frame, word)),
        Case::Run(_) => unreachable!("a run is a list of calls"),
    }
}

/// One decoder's side of a list of calls.
struct Side<'a> {
    decoder: &'a dyn Decoder,
    record: Record,
    state: State,
}

impl Side<'_> {
    fn start(&mut self, run: &Run, lengths: &Lengths) -> Answer {
        let answer = self.decoder.start(&run.code, self.state.lend(lengths).for_start());
        self.record = answer.unwrap_or(self.record);
        Answer::Start(answer)
    }

    fn call(&mut self, run: &Run, wanted: u32, lengths: &Lengths) -> Answer {
        let lent = self.state.lend(lengths);
        let called = self.decoder.rounds(&run.code, &run.frame, self.record, wanted, lent);
        self.record = called.record;
        Answer::Rounds(called)
    }
}

fn compare_run(decoders: &[&dyn Decoder], run: &Run, seen: &mut Seen) -> Result<(), String> {
    let new = |decoder| Side { decoder, record: run.record, state: run.state.clone() };
    let mut sides: Vec<Side> = decoders.iter().copied().map(new).collect();
    if let Some(lengths) = &run.start {
        let answers: Vec<Answer> = sides.iter_mut().map(|side| side.start(run, lengths)).collect();
        agree(decoders, &answers, seen)?;
        same_buffers(&sides, seen).map_err(|what| format!("after the start, {what}"))?;
    }
    for (place, (wanted, lengths)) in run.calls.iter().enumerate() {
        let before = sides[0].record.rounds;
        let answers: Vec<Answer> = sides.iter_mut().map(|side| side.call(run, *wanted, lengths)).collect();
        agree(decoders, &answers, seen).map_err(|what| format!("call {place}: {what}"))?;
        same_buffers(&sides, seen).map_err(|what| format!("after call {place}, {what}"))?;
        if sides[0].record.rounds > before {
            count_edges(&sides[0].state, seen);
        }
    }
    Ok(())
}

/// Whole buffers, with what was not lent and the guards.
fn same_buffers(sides: &[Side], seen: &mut Seen) -> Result<(), String> {
    let first = &sides[0];
    for other in &sides[1..] {
        if let Some(buffer) = first.state.differing(&other.state) {
            return Err(format!("{buffer} of {} and {} differ", first.decoder.name(), other.decoder.name()));
        }
    }
    sides[sides.len() - 1].state.put(&mut seen.digest);
    Ok(())
}

/// Counts a call that has left one of the multipliers at the edge.
fn count_edges(state: &State, seen: &mut Seen) {
    let left = state.multipliers.lent();
    for (multiplier, word) in EDGES {
        if left.contains(&multiplier) {
            seen.count(("left", word.into()));
        }
    }
}

#[cfg(test)]
mod tests {
    use super::*;
    use crate::decoder::Verdict;
    use crate::independent::Independent;

    /// So marks are compared across word sizes, as all answers are.
    #[test]
    fn digest_has_the_mark() {
        let digest = |sole| {
            let mut seen = Seen::default();
            agree(&[&Independent], &[Answer::Judge(Ok(Verdict::Certified { sole }))], &mut seen).unwrap();
            seen.digest.take()
        };
        assert_ne!(digest(false), digest(true));
    }
}
