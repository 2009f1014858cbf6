//! The lines of a text that say something. A byte-order mark, blank lines, comments (from `#` to the end of
//! the line) and blanks around a line are passed over.

use std::ops::Range;

use super::source::Source;
use crate::command::errors::Failure;

/// Bytes of a line, at most. A frame, a word or a certificate needs far fewer, and a file that is no text
/// is told by it before it fills the memory.
const LONGEST: usize = 1 << 20;

pub const BYTE_ORDER_MARK: &[u8] = b"\xef\xbb\xbf";

pub struct Lines {
    source: Source,
    number: u64,
    line: Range<usize>,
}

impl Lines {
    pub fn of(source: Source) -> Lines {
        Lines { source, number: 0, line: 0..0 }
    }

    pub fn source(&self) -> &Source {
        &self.source
    }

    /// Goes on to the next line that says something; false at the end.
    pub fn advance(&mut self) -> Result<bool, Failure> {
        while let Some(length) = self.find_line()? {
            self.number += 1;
            let line = self.source.take(length);
            self.line = self.without_comment(line);
            if !self.line.is_empty() {
                return Ok(true);
            }
        }
        Ok(false)
    }

    /// The length of the next line with its end.
    fn find_line(&mut self) -> Result<Option<usize>, Failure> {
        let mut seen = 0;
        loop {
            let there = self.source.fill(seen + 1)?;
            if let Some(place) = there[seen..].iter().position(|&byte| byte == b'\n') {
                return Ok(Some(seen + place + 1));
            }
            if there.len() == seen {
                return Ok((seen > 0).then_some(seen));
            }
            seen = there.len();
            if seen > LONGEST {
                self.number += 1;
                return Err(self.refuse(&format!("a line of more than {LONGEST} bytes, a text wanted")));
            }
        }
    }

    fn without_comment(&self, line: Range<usize>) -> Range<usize> {
        let all = self.source.bytes(line.clone());
        let mark =
            if self.number == 1 && all.starts_with(BYTE_ORDER_MARK) { BYTE_ORDER_MARK.len() } else { 0 };
        let end = all.iter().position(|&byte| byte == b'#').unwrap_or(all.len());
        let text = &all[mark.min(end)..end];
        let blanks = text.len() - text.trim_ascii_start().len();
        let first = line.start + mark + blanks;
        first..first + text.trim_ascii().len()
    }

    /// The line that `advance` went to.
    pub fn text(&self) -> &[u8] {
        self.source.bytes(self.line.clone())
    }

    /// Passes over lines that say something, unread.
    pub fn skip(&mut self, count: u64) -> Result<(), Failure> {
        for _ in 0..count {
            if !self.advance()? {
                break;
            }
        }
        self.source.begin_here();
        Ok(())
    }

    /// Whether the next line has to be waited for.
    pub fn waits(&self) -> bool {
        !self.source.waiting().contains(&b'\n')
    }

    pub fn place(&self) -> String {
        format!("{}:{}", self.source.name(), self.number)
    }

    pub fn refuse(&self, message: &str) -> Failure {
        Failure::Input(format!("{}: {message}", self.place()))
    }
}
