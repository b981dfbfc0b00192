//! What the five channels give, and the status with nothing cleared: what a caller in C is answered.

use crate::chip::Chip;
use crate::number;

/// What the channels give to the mixer: square 1 + 2^4 x square 2 + 2^8 x triangle + 2^12 x noise + 2^16 x DMC.
pub fn outputs(state: &[u8]) -> u64 {
    Chip::decode(state).map_or(number::STATE.into(), |chip| {
        let [first, second, triangle, noise, dmc] = chip.gives().map(u64::from);
        (first | second << 4 | triangle << 8 | noise << 12 | dmc << 16) << 8
    })
}

/// What a read of $4015 would give; nothing is cleared.
pub fn status(state: &[u8]) -> u64 {
    Chip::decode(state).map_or(number::STATE.into(), |mut chip| u64::from(chip.read_status()) << 8)
}
