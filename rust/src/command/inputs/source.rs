//! A file or standard input, read through a buffer.

use std::ffi::OsStr;
use std::fs::File;
use std::io::{self, ErrorKind, IsTerminal, Read, Seek, SeekFrom};
use std::ops::Range;
use std::os::fd::AsFd;

use crate::command::errors::{say, Failure};

/// Bytes read at once.
const AT_ONCE: usize = 1 << 16;

pub struct Source {
    name: String,
    file: File,
    /// What is read and not taken stands from `start` to `end`.
    buffer: Vec<u8>,
    start: usize,
    end: usize,
    /// How much more than what is asked for is read.
    ahead: usize,
    ended: bool,
    typed: bool,
    /// The bytes of a regular file, which can be skipped and of which a part done is known.
    length: Option<u64>,
    taken: u64,
    /// How much of `taken` is no part of what is to be done.
    skipped: u64,
}

impl Source {
    /// Opens a file, or standard input for `-`; there a person at a terminal is told what is awaited.
    pub fn open(operand: &OsStr, awaited: &str) -> Result<Source, Failure> {
        let standard = operand == "-";
        let name = if standard { "standard input".into() } else { operand.to_string_lossy().into_owned() };
        let opened = if standard { standard_input(awaited) } else { File::open(operand) };
        let mut file = opened.map_err(|error| Failure::device(&name, &error))?;
        let length = match file.metadata() {
            Ok(about) if about.is_file() => {
                Some(about.len().saturating_sub(file.stream_position().unwrap_or(0)))
            }
            _ => None,
        };
        Ok(Source {
            name,
            typed: standard && file.is_terminal(),
            file,
            buffer: Vec::new(),
            start: 0,
            end: 0,
            ahead: AT_ONCE,
            ended: false,
            length,
            taken: 0,
            skipped: 0,
        })
    }

    /// Whether more is read than is asked for. It is, unless what follows may be another reader's.
    pub fn read_ahead(&mut self, ahead: bool) {
        self.ahead = if ahead { AT_ONCE } else { 0 };
    }

    pub fn name(&self) -> &str {
        &self.name
    }

    /// Whether a person types it.
    pub fn is_typed(&self) -> bool {
        self.typed
    }

    /// Reads until so many bytes are there, or the input ends; and shows all that are there.
    pub fn fill(&mut self, wanted: usize) -> Result<&[u8], Failure> {
        while self.end - self.start < wanted && !self.ended {
            if self.start > 0 {
                self.buffer.copy_within(self.start..self.end, 0);
                self.end -= self.start;
                self.start = 0;
            }
            self.read_some((self.end + self.ahead).max(wanted))?;
        }
        Ok(self.waiting())
    }

    /// Reads to the end; or no further where there is more than so many bytes.
    pub fn fill_to_end(&mut self, limit: usize) -> Result<&[u8], Failure> {
        let mut seen = 0;
        while seen <= limit {
            let there = self.fill(seen + 1)?.len();
            if there == seen {
                break;
            }
            seen = there;
        }
        Ok(self.waiting())
    }

    fn read_some(&mut self, room: usize) -> Result<(), Failure> {
        if self.buffer.len() < room {
            self.buffer.resize(room, 0);
        }
        match self.file.read(&mut self.buffer[self.end..room]) {
            Ok(0) => self.ended = true,
            Ok(count) => self.end += count,
            Err(error) if error.kind() == ErrorKind::Interrupted => {}
            Err(error) => return Err(Failure::device(&self.name, &error)),
        }
        Ok(())
    }

    /// What is read and not taken yet.
    pub fn waiting(&self) -> &[u8] {
        &self.buffer[self.start..self.end]
    }

    /// Takes so many of the bytes that are there. They can be looked at until the next call of `fill`.
    pub fn take(&mut self, count: usize) -> Range<usize> {
        let first = self.start;
        self.start += count;
        self.taken += count as u64;
        first..self.start
    }

    pub fn bytes(&self, taken: Range<usize>) -> &[u8] {
        &self.buffer[taken]
    }

    /// Passes over bytes, or over all that are left; in a regular file without reading them.
    pub fn skip(&mut self, count: u64) -> Result<(), Failure> {
        let mut left = count;
        while left > 0 && !(self.waiting().is_empty() && self.ended) {
            if self.waiting().is_empty() && self.length.is_some() {
                self.seek_on(left)?;
                break;
            }
            let there = self.fill(1)?.len();
            let passed = left.min(there as u64);
            self.take(passed as usize);
            left -= passed;
        }
        self.begin_here();
        Ok(())
    }

    /// What is taken so far is no part of what is to be done.
    pub fn begin_here(&mut self) {
        self.skipped = self.taken;
    }

    fn seek_on(&mut self, count: u64) -> Result<(), Failure> {
        let rest = self.length.unwrap_or(0).saturating_sub(self.taken);
        self.ended = count >= rest;
        let passed = count.min(rest);
        self.taken += passed;
        let place = SeekFrom::Current(i64::try_from(passed).unwrap_or(i64::MAX));
        self.file.seek(place).map(drop).map_err(|error| Failure::device(&self.name, &error))
    }

    /// The part of what is to be done that is taken, from 0 to 1.
    pub fn part_done(&self) -> Option<f64> {
        let whole = self.length?.checked_sub(self.skipped).filter(|&whole| whole > 0)?;
        Some((self.taken - self.skipped) as f64 / whole as f64)
    }
}

fn standard_input(awaited: &str) -> io::Result<File> {
    let input = io::stdin();
    if input.is_terminal() {
        say(&format!("jugnayap: waiting for {awaited} on standard input (Ctrl-D ends it)"));
    }
    Ok(File::from(input.as_fd().try_clone_to_owned()?))
}
