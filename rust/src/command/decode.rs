//! `jugnayap decode`: a report of each frame, and if wanted its word and certificate.

use std::ffi::OsStr;

use super::arguments::{Arguments, Command};
use super::decoder::{Decoded, Decoder};
use super::errors::{Failure, Status};
use super::inputs::{open_code_and_frames, Frames, Selection, Sent};
use super::outputs::clash;
use super::progress::Progress;
use super::results::{report_refusal, Destinations, Results};
use super::summary::Tally;

pub const COMMAND: Command = Command {
    name: "decode",
    operands: &["CODE", "FRAMES"],
    flags: &["--binary", "--binary-out", "--quiet"],
    valued: &[
        ("--gain", "a number"),
        ("--scale", "auto or 1"),
        ("--from", "a frame's number"),
        ("--count", "a number of frames"),
        ("--report", "a file"),
        ("--words", "a file"),
        ("--certificates", "a file"),
        ("--sent", "a file"),
        ("--wrong", "a file"),
    ],
    help: include_str!("help/decode.txt"),
    run,
};

#[derive(Clone, Copy, PartialEq, Eq)]
enum Scale {
    Unsaid,
    One,
    Auto,
}

/// What the arguments ask for.
struct Plan<'a> {
    code: &'a OsStr,
    frames: &'a OsStr,
    selection: Selection,
    scale: Scale,
    sent: Option<&'a OsStr>,
    destinations: Destinations<'a>,
    quiet: bool,
}

impl<'a> Plan<'a> {
    fn of(arguments: &'a Arguments) -> Result<Plan<'a>, Failure> {
        let plan = Plan {
            code: arguments.operand(0),
            frames: arguments.operand(1),
            selection: Selection::of(arguments)?,
            scale: scale_of(arguments)?,
            sent: arguments.value("--sent"),
            destinations: Destinations {
                report: arguments.value("--report").unwrap_or(OsStr::new("-")),
                words: arguments.value("--words"),
                certificates: arguments.value("--certificates"),
                wrong: arguments.value("--wrong"),
                binary: arguments.has("--binary-out"),
            },
            quiet: arguments.has("--quiet"),
        };
        match plan.contradiction() {
            Some(message) => Err(arguments.usage(message)),
            None => Ok(plan),
        }
    }

    fn contradiction(&self) -> Option<String> {
        let Destinations { report, words, certificates, wrong, binary } = self.destinations;
        if report == "-" && [words, certificates, wrong].contains(&Some(OsStr::new("-"))) {
            return Some("only one output can be standard output, so --report FILE is needed".into());
        }
        if wrong.is_some() && self.sent.is_none() {
            return Some("--wrong needs --sent FILE".into());
        }
        if binary && words.is_none() && certificates.is_none() {
            return Some("--binary-out needs --words FILE or --certificates FILE".into());
        }
        let inputs: Vec<&OsStr> = [self.code, self.frames].into_iter().chain(self.sent).collect();
        self.selection.shared_input(&inputs).or_else(|| clash(&inputs, &self.destinations.all()))
    }
}

fn scale_of(arguments: &Arguments) -> Result<Scale, Failure> {
    match arguments.value("--scale").map(OsStr::to_str) {
        None => Ok(Scale::Unsaid),
        Some(Some("1")) => Ok(Scale::One),
        Some(Some("auto")) => Ok(Scale::Auto),
        Some(_) => Err(arguments.usage("--scale takes auto or 1".into())),
    }
}

fn run(arguments: &Arguments) -> Result<Status, Failure> {
    let plan = Plan::of(arguments)?;
    let from = plan.selection.from;
    // Only the first piece of a report tells of the code.
    let (code, frames) = open_code_and_frames(plan.code, plan.frames, plan.selection).map_err(|failure| {
        if from == 0 {
            report_refusal(failure, plan.destinations.report)
        } else {
            failure
        }
    })?;
    let sent = plan.sent.map(|operand| Sent::open(operand, code.bits(), from)).transpose()?;
    let mut results = Results::create(&plan.destinations, &code)?;
    if from == 0 {
        results.write_code(&code)?;
    }
    Decoding {
        decoder: Decoder::of(&code, plan.scale == Scale::Auto),
        progress: Progress::begin(plan.quiet || frames.are_typed()),
        frames,
        sent,
        visible: results.on_terminal(),
        results,
        tally: Tally::default(),
        selection: plan.selection,
    }
    .run(&plan)
}

/// Frames being decoded.
struct Decoding<'c> {
    decoder: Decoder<'c>,
    frames: Frames,
    sent: Option<Sent>,
    results: Results,
    /// Whether a person sees results and bar on one terminal.
    visible: bool,
    tally: Tally,
    progress: Progress,
    selection: Selection,
}

impl Decoding<'_> {
    fn run(mut self, plan: &Plan) -> Result<Status, Failure> {
        let done = self.decode_all();
        // What came before a failure is written all the same.
        let flushed = self.results.flush();
        done.and(flushed)?;
        self.progress.hide();
        if !plan.quiet {
            self.tally.say(self.progress.seconds(), plan.sent.is_some(), plan.scale != Scale::Unsaid);
        }
        Ok(self.tally.status())
    }

    fn number(&self) -> u64 {
        self.selection.from + self.tally.frames
    }

    fn decode_all(&mut self) -> Result<(), Failure> {
        while self.selection.wants_more(self.tally.frames) {
            // Whoever waits for results gets them before more is waited for.
            if self.frames.waits() {
                self.results.flush()?;
            }
            if !self.frames.advance()? {
                let number = self.number();
                return match &mut self.sent {
                    Some(sent) => sent.refuse_more(number, self.frames.name()),
                    None => Ok(()),
                };
            }
            self.decode_frame()?;
        }
        Ok(())
    }

    fn decode_frame(&mut self) -> Result<(), Failure> {
        let number = self.number();
        if let Some(sent) = &mut self.sent {
            sent.advance(number, self.frames.name())?;
        }
        let decoded = self.decoder.decode(number, self.frames.numbers())?;
        let wrong = match (&self.sent, &decoded) {
            (Some(sent), Decoded::Certified { word, .. }) => sent.differs(word),
            _ => false,
        };
        if self.visible {
            self.progress.hide();
        }
        self.results.write_frame(number, &decoded, wrong)?;
        if self.visible {
            self.results.flush()?;
        }
        self.tally.count(number, self.frames.numbers(), &decoded, wrong);
        let part = self.selection.part_done(self.tally.frames, self.frames.part_done());
        let came_to = [("certified", self.tally.certified), ("spent", self.tally.spent)];
        self.progress.show(self.tally.frames, part, &came_to);
        Ok(())
    }
}
