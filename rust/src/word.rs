//! Words.

use std::fmt;
use std::str::FromStr;

use crate::Refusal;

/// A word: a bit for each place. As text it is a row of the characters 0 and 1.
///
/// ```
/// use jugnayap::{Refusal, Word};
/// let word: Word = "0110".parse()?;
/// assert_eq!(word.bytes(), [0, 1, 1, 0]);
/// assert_eq!(word.to_string(), "0110");
/// assert_eq!("012".parse::<Word>(), Err(Refusal::WORD));
/// # Ok::<(), Refusal>(())
/// ```
#[derive(Clone, Debug, PartialEq, Eq, Hash)]
pub struct Word(Vec<u8>);

impl Word {
    /// From bytes, each 0 or 1. Refusal: 15.
    pub fn from_bytes(bytes: impl Into<Vec<u8>>) -> Result<Word, Refusal> {
        let bytes = bytes.into();
        if bytes.iter().all(|&bit| bit <= 1) {
            Ok(Word(bytes))
        } else {
            Err(Refusal::WORD)
        }
    }

    /// A byte for each bit, 0 or 1.
    pub fn bytes(&self) -> &[u8] {
        &self.0
    }
}

impl FromStr for Word {
    type Err = Refusal;

    fn from_str(text: &str) -> Result<Word, Refusal> {
        Word::from_bytes(text.bytes().map(|digit| digit.wrapping_sub(b'0')).collect::<Vec<u8>>())
    }
}

impl fmt::Display for Word {
    fn fmt(&self, f: &mut fmt::Formatter) -> fmt::Result {
        let digits: String = self.0.iter().map(|&bit| char::from(b'0' + bit)).collect();
        f.write_str(&digits)
    }
}
