//! One bus access.

use crate::{Chip, Refusal, raw, value};

/// An access.
#[derive(Clone, Copy, Debug, PartialEq, Eq)]
pub enum Access {
    /// A write of a register: the register and the value.
    Write(u16, u8),
    /// A read of $4015, which clears the frame flag.
    Read,
}

/// What an access gives back beside the state.
#[derive(Clone, Copy, Debug, PartialEq, Eq)]
pub struct Accessed {
    /// The byte read, 0 for a write.
    pub byte: u8,
    /// The level after the access, 0..32767.
    pub level: u16,
    /// Whether the level differs from before.
    pub differs: bool,
}

impl Chip {
    /// Writes a register or reads $4015.
    pub fn access(&mut self, access: Access) -> Result<Accessed, Refusal> {
        let (read, register, byte) = match access {
            Access::Write(register, byte) => (0, register, byte),
            Access::Read => (1, 0x4015, 0),
        };
        let value = value(raw::access(self.bytes_mut(), read, register, byte))?;
        Ok(Accessed { byte: value as u8, level: (value >> 8) as u16, differs: value >> 24 & 1 == 1 })
    }
}
