//! `jugnayap judge`: what the proved judge says of each frame's word and certificate.

use std::ffi::OsStr;

use jugnayap::{calls, Code, Refusal, Verdict};

use super::arguments::{Arguments, Command};
use super::errors::{Failure, Status};
use super::inputs::{missing, open_code_and_frames, Certificates, Claim, Frames, Selection, Words};
use super::outputs::{clash, Output};
use super::progress::Progress;
use super::results::report_refusal;

pub const COMMAND: Command = Command {
    name: "judge",
    operands: &["CODE", "FRAMES", "WORDS", "CERTIFICATES"],
    flags: &["--binary", "--quiet"],
    valued: &[("--gain", "a number"), ("--from", "a frame's number"), ("--count", "a number of frames")],
    help: include_str!("help/judge.txt"),
    run,
};

fn run(arguments: &Arguments) -> Result<Status, Failure> {
    let selection = Selection::of(arguments)?;
    let [code, frames, words, certificates] = [0, 1, 2, 3].map(|place| arguments.operand(place));
    let inputs = [code, frames, words, certificates];
    let standard = OsStr::new("-");
    if let Some(message) = selection.shared_input(&inputs).or_else(|| clash(&inputs, &[standard])) {
        return Err(arguments.usage(message));
    }
    let (code, frames) =
        open_code_and_frames(code, frames, selection).map_err(|failure| report_refusal(failure, standard))?;
    let words = Words::open(words, code.bits(), selection.from)?;
    let certificates = Certificates::open(certificates, selection.from)?;
    let output = Output::create(standard)?;
    let progress = Progress::begin(arguments.has("--quiet") || frames.are_typed());
    let tally = Tally::default();
    Judging { code, frames, words, certificates, output, tally, progress, selection }.run()
}

/// What is said of a frame.
enum Said {
    Judged(Result<Verdict, Refusal>),
    /// No word and no certificate, so nothing is claimed.
    NoClaim,
}

#[derive(Default)]
struct Tally {
    frames: u64,
    certified: u64,
    gap: u64,
    broken: u64,
    refused: u64,
    none: u64,
    /// Of those certified.
    sole: u64,
}

impl Tally {
    fn failed(&self) -> u64 {
        self.gap + self.broken + self.refused
    }
}

/// Claims being judged.
struct Judging {
    code: Code,
    frames: Frames,
    words: Words,
    certificates: Certificates,
    output: Output,
    tally: Tally,
    progress: Progress,
    selection: Selection,
}

impl Judging {
    fn run(mut self) -> Result<Status, Failure> {
        let done = self.judge_all().and_then(|()| self.write_total());
        let flushed = self.output.flush();
        done.and(flushed)?;
        Ok(if self.tally.failed() == 0 { Status::Done } else { Status::Refused })
    }

    fn number(&self) -> u64 {
        self.selection.from + self.tally.frames
    }

    fn judge_all(&mut self) -> Result<(), Failure> {
        while self.selection.wants_more(self.tally.frames) {
            if self.frames.waits() {
                self.output.flush()?;
            }
            if !self.advance()? {
                break;
            }
            let said = self.judge_frame()?;
            self.write_frame(said)?;
            let part = self.selection.part_done(self.tally.frames, self.frames.part_done());
            let came_to = [("certified", self.tally.certified), ("failed", self.tally.failed())];
            self.progress.show(self.tally.frames, part, &came_to);
        }
        Ok(())
    }

    /// Goes on in all three files; false if all of them end.
    fn advance(&mut self) -> Result<bool, Failure> {
        let there = [self.frames.advance()?, self.words.advance()?, self.certificates.advance()?];
        let names = [self.frames.name(), self.words.name(), self.certificates.name()];
        let place_of = |wanted: bool| there.iter().position(|&found| found == wanted);
        match (place_of(false), place_of(true)) {
            (Some(shorter), Some(longer)) => Err(missing(names[shorter], self.number(), names[longer])),
            (ended, _) => Ok(ended.is_none()),
        }
    }

    fn judge_frame(&self) -> Result<Said, Failure> {
        let (with, without) = match (self.words.claim(), self.certificates.claim()) {
            (Claim::Is(word), Claim::Is(certificate)) => {
                let frame = self.frames.numbers();
                return Ok(Said::Judged(calls::judge(self.code.file(), frame, word, certificate)));
            }
            (Claim::Absent, Claim::Absent) => return Ok(Said::NoClaim),
            (Claim::Is(_), Claim::Absent) => {
                (self.words.place(self.number()), self.certificates.place(self.number()))
            }
            (Claim::Absent, Claim::Is(_)) => {
                (self.certificates.place(self.number()), self.words.place(self.number()))
            }
        };
        Err(Failure::Input(format!("{without}: none, one for what {with} has wanted")))
    }

    fn write_frame(&mut self, said: Said) -> Result<(), Failure> {
        let number = self.number();
        self.tally.frames += 1;
        let (count, text) = match said {
            Said::Judged(Ok(Verdict::Certified { sole })) => {
                self.tally.sole += u64::from(sole);
                (&mut self.tally.certified, if sole { "certified sole" } else { "certified" }.to_owned())
            }
            Said::Judged(Ok(Verdict::Gap(gap))) => (&mut self.tally.gap, format!("gap {gap}")),
            Said::Judged(Ok(Verdict::Broken(check))) => {
                (&mut self.tally.broken, format!("breaks check {check}"))
            }
            Said::Judged(Err(refusal)) => (&mut self.tally.refused, format!("refused {}", refusal.0)),
            Said::NoClaim => (&mut self.tally.none, "none".to_owned()),
        };
        *count += 1;
        if self.output.is_terminal() {
            self.progress.hide();
        }
        self.output.write_line(format_args!("frame {number} {text}"))?;
        if self.output.is_terminal() {
            self.output.flush()?;
        }
        Ok(())
    }

    fn write_total(&mut self) -> Result<(), Failure> {
        let Tally { frames, certified, gap, broken, refused, none, sole } = self.tally;
        self.output.write_line(format_args!(
            "frames {frames} certified {certified} gap {gap} broken {broken} refused {refused} none {none} \
             sole {sole}"
        ))
    }
}
