//! Certificates, as bytes and as text.

use std::fmt;
use std::str::FromStr;

use crate::bytes::{u16_at, u32_at};
use crate::text::{quoted, whole_number};
use crate::{limits, Refusal};

/// A certificate: multipliers on parity inequalities, at a scale. It may be anybody's: only its length is
/// known to fit the number of its entries. The judge says what it is worth.
///
/// As text it is `scale S` and then, each after a blank, its entries `CHECK:MULTIPLIER:MASK`.
///
/// ```
/// use jugnayap::Certificate;
/// let certificate: Certificate = "scale 1 0:3333:4".parse().unwrap();
/// assert_eq!(certificate.bytes(), [1, 0, 1, 0, 0, 0, 0x05, 0x0d, 0, 0, 4, 0, 0, 0]);
/// assert_eq!(certificate.entries().next().unwrap().multiplier, 3333);
/// assert_eq!(certificate.at_scale(7).to_string(), "scale 7 0:3333:4");
/// ```
#[derive(Clone, Debug, PartialEq, Eq, Hash)]
pub struct Certificate(Vec<u8>);

/// An entry of a certificate: a multiplier on the inequality of an odd set of a check's members.
#[derive(Clone, Copy, Debug, PartialEq, Eq, Hash)]
pub struct Entry {
    /// The check's number, from 0.
    pub check: u16,
    /// The multiplier, which the judge wants from 1 to 16,777,215.
    pub multiplier: u32,
    /// The set: bit k stands for the check's k-th member, from 0.
    pub mask: u32,
}

/// Why a text is no certificate.
#[derive(Clone, Debug, PartialEq, Eq)]
pub struct NotCertificate(String);

impl fmt::Display for NotCertificate {
    fn fmt(&self, f: &mut fmt::Formatter) -> fmt::Result {
        f.write_str(&self.0)
    }
}

impl std::error::Error for NotCertificate {}

impl Certificate {
    /// The bytes of a certificate with so many entries.
    pub const fn length(entries: usize) -> usize {
        4 + 10 * entries
    }

    /// From exactly its bytes. Refusal: 10.
    pub fn from_bytes(bytes: impl Into<Vec<u8>>) -> Result<Certificate, Refusal> {
        let bytes = bytes.into();
        if Self::length_at_front(&bytes) == Some(bytes.len()) {
            Ok(Certificate(bytes))
        } else {
            Err(Refusal::CERTIFICATE_LENGTH)
        }
    }

    /// The certificate at the front of longer bytes. Refusal: 10.
    pub fn at_front(bytes: &[u8]) -> Result<Certificate, Refusal> {
        let front = Self::length_at_front(bytes).and_then(|length| bytes.get(..length));
        front.map(|front| Certificate(front.to_vec())).ok_or(Refusal::CERTIFICATE_LENGTH)
    }

    /// The length by the first two bytes; none if they are missing or tell of too many entries.
    pub fn length_at_front(bytes: &[u8]) -> Option<usize> {
        let entries = usize::from(u16_at(bytes.get(..2)?, 0));
        (entries <= limits::ENTRIES).then_some(Self::length(entries))
    }

    /// From scale and entries, in this order. Refusal: 10 for too many of them.
    pub fn from_entries(scale: u16, entries: &[Entry]) -> Result<Certificate, Refusal> {
        if entries.len() > limits::ENTRIES {
            return Err(Refusal::CERTIFICATE_LENGTH);
        }
        let mut bytes = Vec::with_capacity(Self::length(entries.len()));
        bytes.extend((entries.len() as u16).to_le_bytes());
        bytes.extend(scale.to_le_bytes());
        for entry in entries {
            bytes.extend(entry.check.to_le_bytes());
            bytes.extend(entry.multiplier.to_le_bytes());
        }
        bytes.extend(entries.iter().flat_map(|entry| entry.mask.to_le_bytes()));
        Ok(Certificate(bytes))
    }

    /// Its bytes, as many as its entries need.
    pub fn bytes(&self) -> &[u8] {
        &self.0
    }

    /// Its scale, which the judge wants from 1 to 1,023.
    pub fn scale(&self) -> u16 {
        u16_at(&self.0, 2)
    }

    /// The same multipliers at another scale.
    pub fn at_scale(&self, scale: u16) -> Certificate {
        let mut bytes = self.0.clone();
        bytes[2..4].copy_from_slice(&scale.to_le_bytes());
        Certificate(bytes)
    }

    /// The number of its entries.
    pub fn cuts(&self) -> usize {
        usize::from(u16_at(&self.0, 0))
    }

    /// Its entries, in their order.
    pub fn entries(&self) -> impl Iterator<Item = Entry> + '_ {
        let masks = 4 + 6 * self.cuts();
        (0..self.cuts()).map(move |k| Entry {
            check: u16_at(&self.0, 4 + 6 * k),
            multiplier: u32_at(&self.0, 6 + 6 * k),
            mask: u32_at(&self.0, masks + 4 * k),
        })
    }
}

impl fmt::Display for Certificate {
    fn fmt(&self, f: &mut fmt::Formatter) -> fmt::Result {
        write!(f, "scale {}", self.scale())?;
        self.entries().try_for_each(|entry| write!(f, " {entry}"))
    }
}

impl fmt::Display for Entry {
    fn fmt(&self, f: &mut fmt::Formatter) -> fmt::Result {
        write!(f, "{}:{}:{}", self.check, self.multiplier, self.mask)
    }
}

fn misplaced(text: &str, wanted: &str) -> NotCertificate {
    NotCertificate(format!("{} where {wanted} should stand", quoted(text)))
}

/// A number within the width of its place.
fn number<T: FromStr>(text: &str, wanted: &str) -> Result<T, NotCertificate> {
    whole_number(text).ok_or_else(|| misplaced(text, wanted))
}

impl FromStr for Entry {
    type Err = NotCertificate;

    fn from_str(text: &str) -> Result<Entry, NotCertificate> {
        let parts: Vec<&str> = text.split(':').collect();
        let &[check, multiplier, mask] = parts.as_slice() else {
            return Err(misplaced(text, "CHECK:MULTIPLIER:MASK"));
        };
        Ok(Entry {
            check: number(check, "a check's number")?,
            multiplier: number(multiplier, "a multiplier")?,
            mask: number(mask, "a mask")?,
        })
    }
}

impl FromStr for Certificate {
    type Err = NotCertificate;

    fn from_str(text: &str) -> Result<Certificate, NotCertificate> {
        let mut words = text.split_ascii_whitespace();
        let first = words.next().unwrap_or_default();
        if first != "scale" {
            return Err(misplaced(first, "\"scale\""));
        }
        let scale = number(words.next().unwrap_or_default(), "the scale")?;
        let entries = words.map(str::parse).collect::<Result<Vec<Entry>, _>>()?;
        let too_many =
            |_| NotCertificate(format!("{} entries, at most {} wanted", entries.len(), limits::ENTRIES));
        Certificate::from_entries(scale, &entries).map_err(too_many)
    }
}
