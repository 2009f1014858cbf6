//! Which frames are wanted, of which code, and how they are written.

use std::ffi::OsStr;

use jugnayap::Code;

use super::code::{read_code, read_code_in_front};
use super::{Frames, Source};
use crate::command::arguments::Arguments;
use crate::command::errors::Failure;

/// How frames are written.
#[derive(Clone, Copy)]
pub enum Form {
    Whole,
    /// Amplitudes, which times the gain are the frame's numbers.
    Amplitudes {
        gain: f32,
    },
    Binary,
}

/// Which frames are wanted, and how they are written.
#[derive(Clone, Copy)]
pub struct Selection {
    pub form: Form,
    pub from: u64,
    pub count: Option<u64>,
}

impl Selection {
    pub fn of(arguments: &Arguments) -> Result<Selection, Failure> {
        let fits = |gain: &f32| gain.is_finite() && *gain > 0.0;
        let gain = arguments.number("--gain", "a finite number above 0", fits)?;
        let form = match (gain, arguments.has("--binary")) {
            (Some(_), true) => {
                return Err(
                    arguments.usage("--binary frames are 16-bit numbers, which --gain is not for".into())
                )
            }
            (Some(gain), false) => Form::Amplitudes { gain },
            (None, true) => Form::Binary,
            (None, false) => Form::Whole,
        };
        let from = arguments.number("--from", "a frame's number", |_: &u64| true)?.unwrap_or(0);
        let count = arguments.number("--count", "a number of frames", |_: &u64| true)?;
        Ok(Selection { form, from, count })
    }

    /// Whether so many frames are fewer than wanted.
    pub fn wants_more(&self, done: u64) -> bool {
        self.count.is_none_or(|count| done < count)
    }

    /// The part of the frames wanted that is done, as far as it is known from the part of the file.
    pub fn part_done(&self, done: u64, of_file: Option<f64>) -> Option<f64> {
        let of_count = self.count.map(|count| done as f64 / count.max(1) as f64);
        of_count.into_iter().chain(of_file).reduce(f64::max)
    }

    /// What is wrong with inputs, code and frames first, that are all on standard input: only a code file
    /// says where it ends, and only bytes can follow it.
    pub fn shared_input(&self, inputs: &[&OsStr]) -> Option<String> {
        let standard = inputs.iter().filter(|operand| **operand == "-").count();
        let both = inputs[0] == "-" && inputs[1] == "-";
        match (standard, both, self.form) {
            (0 | 1, ..) | (2, true, Form::Binary) => None,
            (2, true, _) => Some("CODE and FRAMES on one standard input need --binary".into()),
            _ => Some("several inputs on one standard input".into()),
        }
    }
}

/// The code and the frames, of which the first one wanted comes first. If both are standard input, the
/// code file comes first there.
pub fn open_code_and_frames(
    code: &OsStr,
    frames: &OsStr,
    selection: Selection,
) -> Result<(Code, Frames), Failure> {
    if code == "-" && frames == "-" {
        let mut source = Source::open(code, "a code file and frames of 16-bit numbers")?;
        let code = read_code_in_front(&mut source)?;
        let frames = Frames::over(source, &code, selection)?;
        return Ok((code, frames));
    }
    let code = read_code(&mut Source::open(code, "an alist or a code file")?)?;
    let awaited = match selection.form {
        Form::Whole => format!("frames of {} whole numbers, one frame a line,", code.bits()),
        Form::Amplitudes { .. } => format!("frames of {} numbers, one frame a line,", code.bits()),
        Form::Binary => format!("frames of {} 16-bit numbers", code.bits()),
    };
    let frames = Frames::over(Source::open(frames, &awaited)?, &code, selection)?;
    Ok((code, frames))
}
