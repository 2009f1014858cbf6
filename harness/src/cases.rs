//! Cases: one call, or a list of calls on the same buffers, put to several decoders at once.

pub mod compare;
pub mod digest;
pub mod make;

use crate::decoder::{Called, Cut, Record, Refusal, Sizes, Verdict};
use crate::gen::state::{Lengths, State};
use digest::Digest;
use jugnayap::limits::DEPTH;

pub enum Case {
    Table { code: Vec<u8> },
    Cut { code: Vec<u8>, point: Vec<i32>, check: usize },
    Judge { code: Vec<u8>, frame: Vec<i16>, word: Vec<u8>, certificate: Vec<u8> },
    Agreement { code: Vec<u8>, frame: Vec<i16>, word: Vec<u8> },
    Run(Box<Run>),
}

/// A list of calls for rounds, after a start or on a half-done run.
pub struct Run {
    pub code: Vec<u8>,
    pub frame: Vec<i16>,
    pub record: Record,
    pub state: State,
    /// What is lent to a start, if the list begins with one; only the lengths of `StartBuffers` count.
    pub start: Option<Lengths>,
    pub calls: Vec<(u32, Lengths)>,
}

impl Case {
    pub fn kind(&self) -> &'static str {
        match self {
            Case::Table { .. } => "table",
            Case::Cut { .. } => "cut",
            Case::Judge { .. } => "judge",
            Case::Agreement { .. } => "agreement",
            Case::Run(_) => "run",
        }
    }

    /// Adds the inputs to a digest.
    pub fn put(&self, digest: &mut Digest) {
        digest.numbers(self.kind().as_bytes());
        match self {
            Case::Table { code } => digest.numbers(code),
            Case::Cut { code, point, check } => {
                digest.numbers(code);
                digest.numbers(point);
                digest.size(*check);
            }
            Case::Judge { code, frame, word, certificate } => {
                digest.numbers(code);
                digest.numbers(frame);
                digest.numbers(word);
                digest.numbers(certificate);
            }
            Case::Agreement { code, frame, word } => {
                digest.numbers(code);
                digest.numbers(frame);
                digest.numbers(word);
            }
            Case::Run(run) => run.put(digest),
        }
    }
}

impl Run {
    fn put(&self, digest: &mut Digest) {
        digest.numbers(&self.code);
        digest.numbers(&self.frame);
        digest.numbers(&[self.record.rounds, self.record.status]);
        self.state.put(digest);
        self.start.iter().for_each(|lengths| digest.sizes(lengths));
        for (wanted, lengths) in &self.calls {
            digest.number(*wanted);
            digest.sizes(lengths);
        }
    }
}

#[derive(Clone, Copy, Debug, PartialEq, Eq)]
pub enum Answer {
    Table(Result<Sizes, Refusal>),
    Cut(Result<Option<Cut>, Refusal>),
    Judge(Result<Verdict, Refusal>),
    Agreement(Result<i64, Refusal>),
    Start(Result<Record, Refusal>),
    Rounds(Called),
}

/// The tally's words for cuts of depth 1 and of depth 2U.
pub const LEAST_DEPTH: &str = "least depth";
pub const GREATEST_DEPTH: &str = "greatest depth";

/// The tally's words for verdicts of gap 0, without the mark and with it.
pub const CERTIFIED: &str = "certified";
pub const SOLE: &str = "certified sole";

/// Multipliers that only a run resumed at 43's limits has, and the tally's words for calls that left one: that
/// of 32 members whose values are all as far out as can be, where the sum of heights is the least, and the
/// greatest that there is, on one member.
pub const EDGES: [(u32, &str); 2] = [(8_380_672, "edge of 32"), (8_388_608, "edge of 1")];

impl Answer {
    /// The call and its kind of answer, for the tally.
    pub fn label(&self) -> (&'static str, String) {
        match self {
            Answer::Table(answer) => ("table", word_for(answer, |_| "accepted")),
            Answer::Cut(answer) => ("cut", word_for(answer, cut_word)),
            Answer::Judge(answer) => ("judge", word_for(answer, verdict_word)),
            Answer::Agreement(answer) => ("agreement", word_for(answer, |_| "answered")),
            Answer::Start(answer) => ("start", word_for(answer, |_| "started")),
            Answer::Rounds(called) => {
                let answer = called.refusal.map_or(Ok(called.record), Err);
                ("rounds", word_for(&answer, status_word))
            }
        }
    }
}

fn word_for<T: Copy>(answer: &Result<T, Refusal>, word: impl Fn(T) -> &'static str) -> String {
    match answer {
        Ok(value) => word(*value).into(),
        Err(refusal) => format!("{refusal:?}"),
    }
}

fn cut_word(cut: Option<Cut>) -> &'static str {
    match cut {
        None => "none",
        Some(Cut { depth: 1, .. }) => LEAST_DEPTH,
        Some(Cut { depth: DEPTH, .. }) => GREATEST_DEPTH,
        Some(_) => "another depth",
    }
}

fn verdict_word(verdict: Verdict) -> &'static str {
    match verdict {
        Verdict::Broken(_) => "broken check",
        Verdict::Certified { sole: false } => CERTIFIED,
        Verdict::Certified { sole: true } => SOLE,
        Verdict::Gap(_) => "gap",
    }
}

fn status_word(record: Record) -> &'static str {
    match record.status {
        Record::RUNNING => "running",
        Record::CERTIFIED => "certified",
        Record::SPENT => "spent",
        _ => "another status",
    }
}
