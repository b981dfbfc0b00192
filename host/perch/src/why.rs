//! Why a channel is silent.

use crate::{Chip, Refusal, raw, value};
use std::fmt;

/// A channel that can be asked.
#[derive(Clone, Copy, Debug, PartialEq, Eq)]
pub enum Channel {
    /// Square 1.
    Square1 = 0,
    /// Square 2.
    Square2 = 1,
    /// The noise.
    Noise = 3,
}

/// The first reason why a channel is silent, or that it sounds.
#[derive(Clone, Copy, Debug, PartialEq, Eq)]
pub enum Why {
    /// Its bit of $4015 is clear.
    NotEnabled,
    /// Its length is 0.
    NoLength,
    /// A square's period is below 8.
    PeriodBelow8,
    /// A square's sweep target is above 2047.
    TargetAbove2047,
    /// A square's duty is low at this position.
    DutyLow,
    /// Bit 0 of the noise's shift register is set.
    BitSet,
    /// Its volume is 0.
    NoVolume,
    /// It sounds, with this number from 1 to 15.
    Sounds(u8),
}

impl fmt::Display for Why {
    fn fmt(&self, f: &mut fmt::Formatter) -> fmt::Result {
        f.write_str(match self {
            Why::NotEnabled => "not enabled",
            Why::NoLength => "length is 0",
            Why::PeriodBelow8 => "period below 8",
            Why::TargetAbove2047 => "sweep target above 2047",
            Why::DutyLow => "duty step low",
            Why::BitSet => "bit 0 of the noise set",
            Why::NoVolume => "volume is 0",
            Why::Sounds(number) => return write!(f, "sounds with {number}"),
        })
    }
}

impl Chip {
    /// Why a channel is silent, or that it sounds.
    pub fn why(&self, channel: Channel) -> Result<Why, Refusal> {
        Ok(match value(raw::why(self.bytes(), channel as u64))? {
            1 => Why::NotEnabled,
            2 => Why::NoLength,
            3 => Why::PeriodBelow8,
            4 => Why::TargetAbove2047,
            5 if channel == Channel::Noise => Why::BitSet,
            5 => Why::DutyLow,
            6 => Why::NoVolume,
            number => Why::Sounds(number as u8 & 15),
        })
    }
}
