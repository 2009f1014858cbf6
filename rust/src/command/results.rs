//! What decode writes: the report, and for each frame its word and certificate.

use std::ffi::OsStr;
use std::fmt::Display;

use jugnayap::Code;

use super::decoder::Decoded;
use super::errors::Failure;
use super::inputs::{NO_BIT, NO_CERTIFICATE};
use super::outputs::Output;

/// Where the results go, as the arguments name it.
pub struct Destinations<'a> {
    pub report: &'a OsStr,
    pub words: Option<&'a OsStr>,
    pub certificates: Option<&'a OsStr>,
    /// The numbers of certified frames whose word was not sent.
    pub wrong: Option<&'a OsStr>,
    /// Whether words and certificates are written in binary form.
    pub binary: bool,
}

impl<'a> Destinations<'a> {
    pub fn all(&self) -> Vec<&'a OsStr> {
        [Some(self.report), self.words, self.certificates, self.wrong].into_iter().flatten().collect()
    }
}

pub struct Results {
    report: Output,
    words: Option<Output>,
    certificates: Option<Output>,
    wrong: Option<Output>,
    binary: bool,
    no_word: Vec<u8>,
}

impl Results {
    pub fn create(destinations: &Destinations, code: &Code) -> Result<Results, Failure> {
        let create = |operand: Option<&OsStr>| operand.map(Output::create).transpose();
        Ok(Results {
            report: Output::create(destinations.report)?,
            words: create(destinations.words)?,
            certificates: create(destinations.certificates)?,
            wrong: create(destinations.wrong)?,
            binary: destinations.binary,
            no_word: vec![NO_BIT; code.bits()],
        })
    }

    fn outputs(&mut self) -> impl Iterator<Item = &mut Output> {
        let others = [&mut self.words, &mut self.certificates, &mut self.wrong];
        std::iter::once(&mut self.report).chain(others.into_iter().flatten())
    }

    /// Whether a person sees them line by line.
    pub fn on_terminal(&mut self) -> bool {
        self.outputs().any(|output| output.is_terminal())
    }

    pub fn flush(&mut self) -> Result<(), Failure> {
        self.outputs().try_for_each(Output::flush)
    }

    pub fn write_code(&mut self, code: &Code) -> Result<(), Failure> {
        let (bits, checks, edges) = (code.bits(), code.checks(), code.edges());
        self.report.write_line(format_args!("bits {bits} checks {checks} edges {edges}"))
    }

    pub fn write_frame(&mut self, number: u64, decoded: &Decoded, wrong: bool) -> Result<(), Failure> {
        self.write_report(number, decoded)?;
        let (word, certificate) = match decoded {
            Decoded::Certified { word, certificate, .. } => (Some(word), Some(certificate)),
            _ => (None, None),
        };
        if let Some(output) = &mut self.words {
            let item = word.map(|word| (word as &dyn Display, word.bytes()));
            output.write_item(item, self.binary, &self.no_word)?;
        }
        if let Some(output) = &mut self.certificates {
            let item = certificate.map(|certificate| (certificate as &dyn Display, certificate.bytes()));
            output.write_item(item, self.binary, &NO_CERTIFICATE)?;
        }
        match &mut self.wrong {
            Some(output) if wrong => output.write_line(format_args!("{number}")),
            _ => Ok(()),
        }
    }

    fn write_report(&mut self, number: u64, decoded: &Decoded) -> Result<(), Failure> {
        let report = &mut self.report;
        match decoded {
            Decoded::Certified { rounds, agreement, certificate, .. } => {
                let cuts = certificate.cuts();
                report.write_line(format_args!("frame {number} certified {rounds} {agreement} {cuts}"))
            }
            Decoded::Spent { rounds } => report.write_line(format_args!("frame {number} spent {rounds}")),
            Decoded::Refused(refusal) => {
                report.write_line(format_args!("frame {number} refused {}", refusal.0))
            }
        }
    }
}

/// The line of a code file that is refused, in place of the whole report. Answers what it was given.
pub fn report_refusal(failure: Failure, report: &OsStr) -> Failure {
    let Failure::Refused { refusal, .. } = &failure else { return failure };
    let write = |mut output: Output| {
        output.write_line(format_args!("refused {}", refusal.0))?;
        output.flush()
    };
    match Output::create(report).and_then(write) {
        Ok(()) => failure,
        Err(failed) => failed,
    }
}
