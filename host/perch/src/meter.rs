//! A meter for a stretch of levels.

use crate::{Refusal, raw, value};
use std::fmt;

/// What a meter shows, each level as its fraction of 32,768.
#[derive(Clone, Copy, Debug, PartialEq)]
pub enum Meter {
    /// There are no levels.
    NoLevels,
    /// All are 0.
    Silent,
    /// All are equal, and not 0.
    Steady(f32),
    /// Anything else.
    Moving {
        /// The lowest level.
        lowest: f32,
        /// The highest.
        highest: f32,
    },
}

impl fmt::Display for Meter {
    fn fmt(&self, f: &mut fmt::Formatter) -> fmt::Result {
        match self {
            Meter::NoLevels => f.write_str("no levels"),
            Meter::Silent => f.write_str("silent"),
            Meter::Steady(level) => write!(f, "steady at {level}"),
            Meter::Moving { lowest, highest } => write!(f, "moving from {lowest} to {highest}"),
        }
    }
}

fn shown(answer: u64) -> Result<Meter, Refusal> {
    let value = value(answer)?;
    let [lowest, highest] = [value >> 8, value >> 24].map(|level| raw::level_fraction(level as u16));
    Ok(match value & 0xff {
        0 => Meter::NoLevels,
        1 => Meter::Silent,
        2 => Meter::Steady(lowest),
        _ => Meter::Moving { lowest, highest },
    })
}

/// The meter over a list of levels.
pub fn meter(levels: &[u32]) -> Result<Meter, Refusal> {
    shown(raw::meter(levels))
}

/// The meter over `count` of a run's records from record `start` on, those that are there, and the level before them if one
/// is given. A record is two words, its clock and its level.
pub fn meter_records(words: &[u32], start: u64, count: u64, before: Option<u32>) -> Result<Meter, Refusal> {
    shown(raw::meter_records(words, start, count, before.map_or(u64::MAX, u64::from)))
}
