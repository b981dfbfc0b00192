//! The lines of a batch in the order in which its logs were given.

use super::line::{Outcome, Totals};
use super::names::Log;
use super::progress::Progress;
use std::collections::BTreeMap;
use std::io::Write;

/// The lines that are written, and those that wait for one before them.
pub struct Report<'a, W: Write> {
    logs: &'a [Log],
    out: W,
    progress: Progress,
    next: usize,
    waiting: BTreeMap<usize, Outcome>,
    totals: Totals,
}

impl<'a, W: Write> Report<'a, W> {
    /// A report with no line yet.
    pub fn new(logs: &'a [Log], out: W, progress: Progress) -> Self {
        Self { logs, out, progress, next: 0, waiting: BTreeMap::new(), totals: Totals::default() }
    }

    /// Writes; where that fails the batch goes on, and its status says so.
    fn write(&mut self, bytes: &[u8]) {
        if self.out.write_all(bytes).and_then(|()| self.out.flush()).is_err() {
            self.totals.lost = true;
        }
    }

    /// What became of log k.
    pub fn add(&mut self, k: usize, outcome: Outcome) {
        self.totals.add(&outcome);
        self.waiting.insert(k, outcome);
        let mut lines = Vec::new();
        while let Some(outcome) = self.waiting.remove(&self.next) {
            lines.extend(outcome.line(&self.logs[self.next].name));
            self.next += 1;
        }
        if !lines.is_empty() {
            self.progress.give_way();
            self.write(&lines);
        }
        self.progress.step();
    }

    /// The last line. A log that nothing was heard of has failed.
    pub fn end(mut self) -> Totals {
        while self.next < self.logs.len() {
            self.add(self.next, Outcome::Failed("no thread played it".into()));
        }
        self.progress.clear();
        let line = self.totals.line();
        self.write(line.as_bytes());
        self.totals
    }
}

#[cfg(test)]
mod tests {
    use super::*;
    use std::io;

    fn logs() -> Vec<Log> {
        ["a", "b", "c"].map(|name| Log { path: name.into(), name: name.into(), fault: None }).into()
    }

    #[test]
    fn in_order() {
        let (logs, mut out) = (logs(), Vec::new());
        let mut report = Report::new(&logs, &mut out, Progress::none());
        report.add(2, Outcome::Kept);
        report.add(0, Outcome::Kept);
        let totals = report.end();
        assert_eq!((totals.kept, totals.failed), (2, 1));
        let text = "kept\ta\nfailed\tb\tno thread played it\nkept\tc\nbatch=1 played=0 refused=0 failed=1 kept=2\n";
        assert_eq!(String::from_utf8(out).unwrap(), text);
    }

    #[test]
    fn a_lost_line_is_seen() {
        let (logs, mut room) = (logs(), [0; 3]);
        let mut report = Report::new(&logs[..1], &mut room[..], Progress::none());
        report.add(0, Outcome::Kept);
        assert!(report.end().lost);
        assert!(!Report::new(&[], io::sink(), Progress::none()).end().lost);
    }
}
