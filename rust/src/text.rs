//! Whole numbers in text, and words in messages.

use std::str::FromStr;

/// Characters of a word that a message shows.
const LONGEST_QUOTE: usize = 20;

/// A whole number, of digits alone, if it fits the type.
pub fn whole_number<T: FromStr>(word: &str) -> Option<T> {
    let plain = word.bytes().all(|digit| digit.is_ascii_digit());
    if plain {
        word.parse().ok()
    } else {
        None
    }
}

/// A word for a message, cut if it is long.
pub fn quoted(word: &str) -> String {
    match word.char_indices().nth(LONGEST_QUOTE) {
        None => format!("{word:?}"),
        Some((end, _)) => format!("{:?}", format!("{}...", &word[..end])),
    }
}

/// A count with its noun.
pub fn counted(count: usize, noun: &str) -> String {
    format!("{count} {noun}{}", if count == 1 { "" } else { "s" })
}
