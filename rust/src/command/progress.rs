//! The bar on standard error, where that is a terminal.

use std::io::{self, IsTerminal, Write};
use std::time::{Duration, Instant};

/// The bar is drawn again at most this often.
const PAUSE: Duration = Duration::from_millis(100);
/// Back to the line's begin, and all behind it wiped.
const WIPE: &str = "\r\x1b[K";

pub struct Progress {
    wanted: bool,
    drawn: bool,
    begun: Instant,
    last: Instant,
}

impl Progress {
    pub fn begin(quiet: bool) -> Progress {
        let now = Instant::now();
        let wanted = !quiet && io::stderr().is_terminal();
        Progress { wanted, drawn: false, begun: now, last: now }
    }

    pub fn seconds(&self) -> f64 {
        self.begun.elapsed().as_secs_f64()
    }

    /// Draws the bar, unless it was drawn a moment ago: the frames done, the part of all that they are if
    /// it is known, and how many came to what.
    pub fn show(&mut self, done: u64, part: Option<f64>, came_to: &[(&str, u64)]) {
        if !self.wanted || self.last.elapsed() < PAUSE {
            return;
        }
        self.last = Instant::now();
        self.drawn = true;
        draw(&format!("{WIPE}{}", bar(done, part, came_to, self.seconds())));
    }

    /// Wipes the bar.
    pub fn hide(&mut self) {
        if self.drawn {
            self.drawn = false;
            draw(WIPE);
        }
    }
}

impl Drop for Progress {
    fn drop(&mut self) {
        self.hide();
    }
}

fn draw(text: &str) {
    let mut terminal = io::stderr();
    let _ = terminal.write_all(text.as_bytes()).and_then(|()| terminal.flush());
}

fn bar(done: u64, part: Option<f64>, came_to: &[(&str, u64)], seconds: f64) -> String {
    let mut text = format!("{done} frames");
    if let Some(part) = part {
        text += &format!(" ({:.0} %)", 100.0 * part.clamp(0.0, 1.0));
    }
    for (name, count) in came_to {
        text += &format!(", {count} {name}");
    }
    text + &format!(", {:.0} frames/s", done as f64 / seconds.max(1e-3))
}

#[cfg(test)]
mod tests {
    use super::bar;

    #[test]
    fn the_bar_says_what_is_known() {
        assert_eq!(
            bar(50, Some(0.25), &[("certified", 48), ("spent", 2)], 2.0),
            "50 frames (25 %), 48 certified, 2 spent, 25 frames/s"
        );
        assert_eq!(bar(1, None, &[], 0.5), "1 frames, 2 frames/s");
    }
}
