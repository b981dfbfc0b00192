//! What became of a log, and its line.

use super::names::shown;
use crate::status::Status;
use perch::Fault;
use std::ffi::OsStr;

/// What became of a log.
#[derive(Clone, Debug, PartialEq, Eq)]
pub enum Outcome {
    /// Played: its clocks, the level lines of its text and the text's bytes.
    Played { clocks: u64, levels: u64, bytes: u64 },
    /// Refused.
    Refused(Fault),
    /// Not read or not written.
    Failed(String),
    /// A text was there.
    Kept,
}

impl Outcome {
    fn words(&self) -> (&'static str, String) {
        match self {
            Self::Played { clocks, levels, bytes } => ("played", format!("\t{clocks}\t{levels}\t{bytes}")),
            Self::Refused(fault) => ("refused", format!("\t{}:{}\t{}", fault.refusal.0, fault.place, fault.refusal)),
            Self::Failed(why) => ("failed", format!("\t{why}")),
            Self::Kept => ("kept", String::new()),
        }
    }

    /// The line of a log, a tab between its words.
    pub fn line(&self, name: &OsStr) -> Vec<u8> {
        let (first, rest) = self.words();
        [first.as_bytes(), b"\t", &shown(name), rest.as_bytes(), b"\n"].concat()
    }
}

/// How many logs were played, refused, failed and kept.
#[derive(Clone, Copy, Debug, Default, PartialEq, Eq)]
pub struct Totals {
    pub played: u64,
    pub refused: u64,
    pub failed: u64,
    pub kept: u64,
    /// Whether a line couldn't be written.
    pub lost: bool,
}

impl Totals {
    /// Counts an outcome.
    pub fn add(&mut self, outcome: &Outcome) {
        *match outcome {
            Outcome::Played { .. } => &mut self.played,
            Outcome::Refused(_) => &mut self.refused,
            Outcome::Failed(_) => &mut self.failed,
            Outcome::Kept => &mut self.kept,
        } += 1;
    }

    /// The last line.
    pub fn line(&self) -> String {
        let Self { played, refused, failed, kept, .. } = self;
        format!("batch=1 played={played} refused={refused} failed={failed} kept={kept}\n")
    }

    /// How the batch ends.
    pub fn status(&self) -> Status {
        match self {
            Self { failed: 1.., .. } | Self { lost: true, .. } => Status::NotWhole,
            Self { refused: 1.., .. } => Status::Refused,
            _ => Status::Done,
        }
    }
}

#[cfg(test)]
mod tests {
    use super::*;
    use perch::Refusal;

    #[test]
    fn lines() {
        let line = |outcome: Outcome| String::from_utf8(outcome.line(OsStr::new("a b"))).unwrap();
        assert_eq!(line(Outcome::Played { clocks: 10, levels: 2, bytes: 53 }), "played\ta b\t10\t2\t53\n");
        let fault = Fault { refusal: Refusal(16), place: 67 };
        assert_eq!(line(Outcome::Refused(fault)), "refused\ta b\t16:67\tvalue outside its range\n");
        assert_eq!(line(Outcome::Failed("No such file".into())), "failed\ta b\tNo such file\n");
        assert_eq!(line(Outcome::Kept), "kept\ta b\n");
    }

    #[test]
    fn totals() {
        let mut totals = Totals::default();
        assert_eq!(totals.status(), Status::Done);
        totals.add(&Outcome::Kept);
        totals.add(&Outcome::Refused(Fault { refusal: Refusal(1), place: 0 }));
        assert_eq!(totals.status(), Status::Refused);
        totals.add(&Outcome::Failed(String::new()));
        assert_eq!(totals.status(), Status::NotWhole);
        assert_eq!(totals.line(), "batch=1 played=0 refused=1 failed=1 kept=1\n");
        assert_eq!(Totals { lost: true, ..Totals::default() }.status(), Status::NotWhole);
    }
}
