//! Frame, word and point (refusals 8, 9, 15, 16).

use super::limits::{FRAME_LIMIT, UNIT};
use super::table::Table;
use crate::decoder::Refusal;

pub fn test_frame(table: &Table, frame: &[i16]) -> Result<(), Refusal> {
    if frame.len() != table.bits {
        return Err(Refusal::FRAME_LENGTH);
    }
    let range = -FRAME_LIMIT..=FRAME_LIMIT;
    frame.iter().all(|l| range.contains(l)).then_some(()).ok_or(Refusal::FRAME_NUMBER)
}

pub fn test_word(table: &Table, word: &[u8]) -> Result<(), Refusal> {
    let fits = word.len() == table.bits && word.iter().all(|&bit| bit <= 1);
    fits.then_some(()).ok_or(Refusal::WORD)
}

pub fn test_point(table: &Table, spins: &[i32]) -> Result<(), Refusal> {
    let range = -UNIT..=UNIT;
    let fits = spins.len() == table.bits && spins.iter().all(|spin| range.contains(spin));
    fits.then_some(()).ok_or(Refusal::POINT)
}

/// The sum of the frame's numbers, added where the bit is 0 and subtracted where it is 1.
pub fn agreement(frame: &[i16], word: &[u8]) -> i64 {
    let signed = |(&l, &bit): (&i16, &u8)| i32::from(l) * (1 - 2 * i32::from(bit));
    i64::from(frame.iter().zip(word).map(signed).sum::<i32>())
}

pub fn agreement_of(code: &[u8], frame: &[i16], word: &[u8]) -> Result<i64, Refusal> {
    let table = Table::parse(code)?;
    test_frame(&table, frame)?;
    test_word(&table, word)?;
    Ok(agreement(frame, word))
}
