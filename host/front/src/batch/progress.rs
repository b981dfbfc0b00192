//! How far a batch is, on standard error where that is a terminal.

use std::io::{self, IsTerminal, Write};
use std::time::{Duration, Instant};

/// The time between two lines.
const PAUSE: Duration = Duration::from_millis(200);

/// What has been done.
pub struct Progress {
    all: usize,
    done: usize,
    begun: Instant,
    last: Option<Instant>,
    /// Whether it is to be seen at all.
    terminal: bool,
    /// Whether the batch's lines go to the same screen.
    shared: bool,
    shown: bool,
}

/// Seconds as hours, minutes and seconds.
fn time(seconds: u64) -> String {
    format!("{}:{:02}:{:02}", seconds / 3600, seconds / 60 % 60, seconds % 60)
}

/// The line: done of all, logs a second, time left.
fn line(done: usize, all: usize, seconds: f64) -> String {
    let rate = done as f64 / seconds.max(0.001);
    let left = (all - done) as f64 / rate.max(0.000_001);
    format!("{done} of {all}, {rate:.1} a second, {} left", time(left.ceil() as u64))
}

impl Progress {
    /// Nothing done of so many logs.
    pub fn new(all: usize) -> Self {
        let (terminal, shared) = (io::stderr().is_terminal(), io::stdout().is_terminal());
        Self { all, done: 0, begun: Instant::now(), last: None, terminal, shared, shown: false }
    }

    /// Progress that is never shown.
    #[cfg(test)]
    pub fn none() -> Self {
        Self { terminal: false, ..Self::new(0) }
    }

    /// One more done.
    pub fn step(&mut self) {
        self.done += 1;
        let due = self.last.is_none_or(|last| last.elapsed() >= PAUSE);
        if self.terminal && (due || self.shared && !self.shown) {
            self.last = Some(Instant::now());
            self.shown = true;
            // A line that can't be written is one that nobody sees.
            let _ = write!(io::stderr(), "\r\x1b[K{}", line(self.done, self.all, self.begun.elapsed().as_secs_f64()));
        }
    }

    /// Makes room for a line of the batch's.
    pub fn give_way(&mut self) {
        if self.shared {
            self.clear();
        }
    }

    /// Takes the line away.
    pub fn clear(&mut self) {
        if self.shown {
            self.shown = false;
            let _ = write!(io::stderr(), "\r\x1b[K");
        }
    }
}

#[cfg(test)]
mod tests {
    use super::*;

    #[test]
    fn lines() {
        assert_eq!(line(50, 200, 10.0), "50 of 200, 5.0 a second, 0:00:30 left");
        assert_eq!(line(200, 200, 10.0), "200 of 200, 20.0 a second, 0:00:00 left");
        assert_eq!(line(1, 300_000, 0.5), "1 of 300000, 2.0 a second, 41:40:00 left");
    }
}
