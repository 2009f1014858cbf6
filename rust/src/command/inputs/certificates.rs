//! Certificates: for each frame its text in a line or `none`; or its bytes, four zeros where there is none.

use std::ffi::OsStr;

use jugnayap::Certificate;

use super::words::NONE;
use super::{Claim, Lines, Listing, Source};
use crate::command::errors::Failure;

/// Stands where there is no certificate.
pub const NO_CERTIFICATE: [u8; 4] = [0; 4];

pub struct Certificates {
    listing: Listing,
    bytes: Vec<u8>,
    absent: bool,
}

impl Certificates {
    /// The certificates of frames, from frame `from` on.
    pub fn open(operand: &OsStr, from: u64) -> Result<Certificates, Failure> {
        let listing = Listing::recognised(Source::open(operand, "certificates")?)?;
        let mut opened = Certificates { listing, bytes: Vec::new(), absent: false };
        opened.skip(from)?;
        Ok(opened)
    }

    fn skip(&mut self, count: u64) -> Result<(), Failure> {
        match &mut self.listing {
            Listing::Text(lines) => lines.skip(count),
            Listing::Binary(source) => {
                for _ in 0..count {
                    let length = length_in_front(source)?;
                    if length == 0 {
                        break;
                    }
                    source.skip(length as u64)?;
                }
                Ok(())
            }
        }
    }

    /// Goes on to the next frame's certificate; false at the end.
    pub fn advance(&mut self) -> Result<bool, Failure> {
        self.bytes.clear();
        match &mut self.listing {
            Listing::Binary(source) => {
                let length = length_in_front(source)?;
                let there = source.fill(length)?.len();
                let certificate = source.take(there.min(length));
                self.bytes.extend_from_slice(source.bytes(certificate));
                self.absent = self.bytes == NO_CERTIFICATE;
                Ok(length > 0)
            }
            Listing::Text(lines) => {
                let found = lines.advance()?;
                self.absent = found && lines.text() == NONE.as_bytes();
                if found && !self.absent {
                    self.bytes.extend_from_slice(read_certificate(lines)?.bytes());
                }
                Ok(found)
            }
        }
    }

    /// The certificate that `advance` went to: anybody's, and in binary form perhaps cut short.
    pub fn claim(&self) -> Claim<'_> {
        if self.absent {
            Claim::Absent
        } else {
            Claim::Is(&self.bytes)
        }
    }

    pub fn is_text(&self) -> bool {
        matches!(self.listing, Listing::Text(_))
    }

    pub fn name(&self) -> &str {
        self.listing.source().name()
    }

    pub fn place(&self, number: u64) -> String {
        self.listing.place(number)
    }
}

/// The length of the certificate that comes next, by the number of its entries; with too many as well, so
/// that the next one is found. Less than four bytes, the last, are as many as there are.
fn length_in_front(source: &mut Source) -> Result<usize, Failure> {
    Ok(match source.fill(4)? {
        [low, high, _, _, ..] => Certificate::length(u16::from_le_bytes([*low, *high]).into()),
        less => less.len(),
    })
}

fn read_certificate(lines: &Lines) -> Result<Certificate, Failure> {
    let text = String::from_utf8_lossy(lines.text());
    text.parse().map_err(|error| lines.refuse(&format!("{error}, a certificate or {NONE} wanted")))
}
