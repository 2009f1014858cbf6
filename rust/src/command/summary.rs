//! What the frames came to, counted, and the summary on standard error.

use std::collections::BTreeMap;
use std::fmt;

use jugnayap::{limits, Refusal};

use super::decoder::Decoded;
use super::errors::{say, Status};

/// A frame whose numbers are all smaller uses less than a tenth of the range.
const TENTH: u16 = limits::FRAME.unsigned_abs() / 10 + 1;

#[derive(Default)]
pub struct Tally {
    pub frames: u64,
    pub certified: u64,
    pub spent: u64,
    refused: BTreeMap<u32, u64>,
    /// Frames that use less than a tenth of the range.
    small: u64,
    wrong: Ranges,
}

impl Tally {
    pub fn count(&mut self, number: u64, frame: &[i16], decoded: &Decoded, wrong: bool) {
        self.frames += 1;
        match decoded {
            Decoded::Certified { .. } => self.certified += 1,
            Decoded::Spent { .. } => self.spent += 1,
            Decoded::Refused(refusal) => *self.refused.entry(refusal.0).or_default() += 1,
        }
        let refused = matches!(decoded, Decoded::Refused(_));
        if !refused && frame.iter().all(|number| number.unsigned_abs() < TENTH) {
            self.small += 1;
        }
        if wrong {
            self.wrong.push(number);
        }
    }

    pub fn status(&self) -> Status {
        if self.refused.is_empty() {
            Status::Done
        } else {
            Status::Refused
        }
    }

    /// Says it all. Whether the scale was chosen tells if a warning of small numbers is news.
    pub fn say(&self, seconds: f64, sent_known: bool, scale_chosen: bool) {
        say(&format!("frames     {:>8} in {seconds:.2} s", self.frames));
        self.say_share("certified", self.certified);
        self.say_share("spent", self.spent);
        self.say_share("refused", self.refused.values().sum());
        for (&number, count) in &self.refused {
            say(&format!("           {count:>8} {}", Refusal(number)));
        }
        if sent_known {
            say(&format!(
                "wrong      {:>8} certified, but not what was sent{}",
                self.wrong.count, self.wrong
            ));
        }
        if self.small > 0 && !scale_chosen {
            say(&format!(
                "warning: {} of the frames use less than a tenth of the range (no number beyond {} either way): \
                 take a larger --gain, or --scale auto",
                self.small,
                TENTH - 1
            ));
        }
    }

    fn say_share(&self, name: &str, count: u64) {
        let percent = 100.0 * count as f64 / self.frames.max(1) as f64;
        say(&format!("{name:<10} {count:>8} ({percent:.1} %)"));
    }
}

/// Ascending numbers, as ranges. The first ones are kept, so that no input fills the memory.
#[derive(Default)]
struct Ranges {
    count: u64,
    kept: Vec<(u64, u64)>,
    /// How many numbers are not kept.
    more: u64,
}

impl Ranges {
    const MOST: usize = 100;

    fn push(&mut self, number: u64) {
        self.count += 1;
        let room = self.kept.len() < Self::MOST;
        match self.kept.last_mut() {
            Some((_, last)) if self.more == 0 && *last + 1 == number => *last = number,
            _ if room => self.kept.push((number, number)),
            _ => self.more += 1,
        }
    }
}

impl fmt::Display for Ranges {
    fn fmt(&self, f: &mut fmt::Formatter) -> fmt::Result {
        for (place, (first, last)) in self.kept.iter().enumerate() {
            f.write_str(if place == 0 { ": " } else { ", " })?;
            match first == last {
                true => write!(f, "{first}")?,
                false => write!(f, "{first}-{last}")?,
            }
        }
        match self.more {
            0 => Ok(()),
            more => write!(f, " and {more} more (--wrong FILE has all)"),
        }
    }
}

#[cfg(test)]
mod tests {
    use super::Ranges;

    fn shown(numbers: impl IntoIterator<Item = u64>) -> String {
        let mut ranges = Ranges::default();
        numbers.into_iter().for_each(|number| ranges.push(number));
        ranges.to_string()
    }

    #[test]
    fn neighbours_are_a_range() {
        assert_eq!(shown([]), "");
        assert_eq!(shown([3, 7, 8, 9, 11]), ": 3, 7-9, 11");
    }

    #[test]
    fn what_is_too_much_is_counted() {
        let many = shown((0..205).map(|number| 2 * number));
        assert!(many.ends_with(", 198 and 105 more (--wrong FILE has all)"), "{many}");
        assert!(shown((0..201).filter(|number| number % 2 == 0))
            .ends_with("198 and 1 more (--wrong FILE has all)"));
    }
}
