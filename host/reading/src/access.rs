//! Request 7: one bus access, a write or a read of $4015.

use crate::chip::{Chip, is_register};
use crate::number;

/// An access.
#[derive(Clone, Copy, Debug, PartialEq, Eq)]
pub enum Access {
    /// A write of a register: the register and the value.
    Write(u16, u8),
    /// A read of $4015.
    Read,
}

/// What an access gives back beside the state.
#[derive(Clone, Copy, Debug, PartialEq, Eq)]
pub struct Accessed {
    /// The byte read, 0 for a write.
    pub byte: u8,
    /// The level after.
    pub level: u16,
    /// Whether the level differs from before.
    pub differs: bool,
}

impl Chip {
    /// An access; a write to a register for which `is_register` doesn't hold changes nothing.
    pub fn access(&mut self, access: Access) -> Accessed {
        let before = self.level();
        let byte = match access {
            Access::Write(register, value) => {
                self.write(register, value);
                0
            }
            Access::Read => self.read_status(),
        };
        let level = self.level();
        Accessed { byte, level, differs: level != before }
    }
}

/// What a caller in C is answered: 2^8 x byte + 2^16 x level + 2^32 x differs. Any `read` but 0 is a read, and then the
/// register and the value are ignored.
pub fn access(state: &mut [u8], read: u8, register: u16, value: u8) -> u64 {
    let Some(mut chip) = Chip::decode(state) else {
        return number::STATE.into();
    };
    let access = if read != 0 { Access::Read } else { Access::Write(register, value) };
    if let Access::Write(register, _) = access
        && !is_register(register)
    {
        return number::REGISTER.into();
    }
    let Accessed { byte, level, differs } = chip.access(access);
    state.copy_from_slice(&chip.encode());
    u64::from(byte) << 8 | u64::from(level) << 16 | u64::from(differs) << 32
}
