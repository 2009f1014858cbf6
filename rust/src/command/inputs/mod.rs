//! What the commands read: codes, frames, words and certificates.

mod certificates;
mod code;
mod frames;
mod lines;
mod selection;
mod source;
mod words;

pub use certificates::{Certificates, NO_CERTIFICATE};
pub use code::read_code;
pub use frames::Frames;
pub use selection::{open_code_and_frames, Selection};
pub use source::Source;
pub use words::{Sent, Words, NONE, NO_BIT};

use lines::{Lines, BYTE_ORDER_MARK};

use super::errors::Failure;

/// What stands in a file of words or certificates for a frame: bytes, not judged yet, or nothing.
#[derive(Clone, Copy, PartialEq, Eq)]
pub enum Claim<'a> {
    Absent,
    Is(&'a [u8]),
}

/// Whether a file that begins so is text: its first byte is plain, the next three are, or are of letters
/// beyond ASCII. No code file with such a second byte has at most 2,048 bits, no word has such a first byte,
/// and no certificate with such a fourth byte has a scale of at most 1,023.
fn is_text(front: &[u8]) -> bool {
    let plain = |byte: &u8| matches!(byte, b'\t' | b'\n' | b'\r' | b' '..=b'~');
    let readable = |byte: &u8| plain(byte) || !byte.is_ascii();
    front.starts_with(BYTE_ORDER_MARK)
        || (front.first().is_some_and(plain) && front.iter().take(4).all(readable))
}

/// A file that ends before another one.
pub fn missing(shorter: &str, number: u64, longer: &str) -> Failure {
    Failure::Input(format!("{shorter}: nothing for frame {number}, which {longer} has"))
}

/// A file of one thing for each frame, a line each, or in binary form one after the other.
enum Listing {
    Text(Lines),
    Binary(Source),
}

impl Listing {
    /// Recognised by its first bytes.
    fn recognised(mut source: Source) -> Result<Listing, Failure> {
        Ok(if is_text(source.fill(4)?) { Listing::Text(Lines::of(source)) } else { Listing::Binary(source) })
    }

    fn source(&self) -> &Source {
        match self {
            Listing::Text(lines) => lines.source(),
            Listing::Binary(source) => source,
        }
    }

    /// Where frame `number`'s part stands, for messages.
    fn place(&self, number: u64) -> String {
        match self {
            Listing::Text(lines) => lines.place(),
            Listing::Binary(source) => format!("{}: frame {number}", source.name()),
        }
    }
}
