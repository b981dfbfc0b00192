//! What the channels give, and the state at a clock of a log.

use crate::{Chip, Fault, Refusal, STATE, raw, value};

/// What the five channels give the mixer.
#[derive(Clone, Copy, Debug, PartialEq, Eq)]
pub struct Outputs {
    /// Square 1, 0..15.
    pub square1: u8,
    /// Square 2, 0..15.
    pub square2: u8,
    /// The triangle, 0..15.
    pub triangle: u8,
    /// The noise, 0..15.
    pub noise: u8,
    /// The DMC, 0..127.
    pub dmc: u8,
}

impl Chip {
    /// What the channels give the mixer.
    pub fn outputs(&self) -> Result<Outputs, Refusal> {
        let value = value(raw::outputs(self.bytes()))?;
        let four = |place: u32| (value >> place) as u8 & 0x0f;
        let dmc = (value >> 16) as u8;
        Ok(Outputs { square1: four(0), square2: four(4), triangle: four(8), noise: four(12), dmc })
    }

    /// The byte that a read of $4015 would give; nothing is cleared.
    pub fn status(&self) -> Result<u8, Refusal> {
        value(raw::status(self.bytes())).map(|status| status as u8)
    }

    /// The state after exactly so many clocks of a log, accesses stamped with the last done, and the clocks; both at the log's end where
    /// that comes before.
    pub fn at(log: &[u8], memory: &[u8], clock: u64) -> Result<(Self, u64), Fault> {
        let mut state = [0; STATE];
        let answer = raw::state_at(&mut state, log, memory, clock);
        match answer as u8 {
            0 => Ok((Self(state), answer >> 32)),
            number => Err(Fault { refusal: Refusal(number), place: (answer >> 8 & 0xff_ffff) as usize }),
        }
    }
}
