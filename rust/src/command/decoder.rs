//! A frame's run, at a scale if wanted. What it certifies is put to the judge before anybody hears of it.

use jugnayap::{limits, scale, Answer, Certificate, Certified, Code, Refusal, Run, Verdict, Word};

use super::errors::Failure;

/// What a frame comes to.
pub enum Decoded {
    Certified { rounds: u32, agreement: i64, word: Word, certificate: Certificate },
    Spent { rounds: u32 },
    Refused(Refusal),
}

pub struct Decoder<'c> {
    code: &'c Code,
    run: Run<'c>,
    scaled: bool,
}

impl<'c> Decoder<'c> {
    /// If `scaled`, each frame is run as many times as large as the range allows.
    pub fn of(code: &'c Code, scaled: bool) -> Decoder<'c> {
        Decoder { code, run: Run::start(code), scaled }
    }

    pub fn decode(&mut self, number: u64, frame: &[i16]) -> Result<Decoded, Failure> {
        let scale = if self.scaled { scale::greatest(frame) } else { 1 };
        self.run.restart();
        let answer = if scale == 1 {
            self.run.rounds(frame, limits::ROUNDS)
        } else {
            self.run.rounds(&scale::times(scale, frame), limits::ROUNDS)
        };
        match answer {
            Err(refusal) => Ok(Decoded::Refused(refusal)),
            Ok(Answer::Certified(found)) => self.judged(number, frame, scale, found),
            Ok(Answer::Spent) => Ok(Decoded::Spent { rounds: self.run.rounds_done() }),
            Ok(Answer::Running) => unreachable!("{} rounds end a run", limits::ROUNDS),
        }
    }

    /// A certificate of the frame times k is one of the frame at scale k.
    fn judged(&self, number: u64, frame: &[i16], scale: u16, found: Certified) -> Result<Decoded, Failure> {
        let Certified { rounds, word, certificate } = found;
        let certificate = if scale == 1 { certificate } else { certificate.at_scale(scale) };
        let verdict = self.code.judge(frame, &word, &certificate);
        match (verdict, self.code.agreement(frame, &word)) {
            (Ok(Verdict::Certified { .. }), Ok(agreement)) => {
                Ok(Decoded::Certified { rounds, agreement, word, certificate })
            }
            (verdict, _) => Err(Failure::Device(format!(
                "internal error: frame {number} is certified, but the judge says {verdict:?}"
            ))),
        }
    }
}
