//! When the interrupt line is asserted next, or one of the two flags is set: asked clock by clock, with no access between.

use crate::chip::Chip;
use crate::{MEMORY, MOST_CLOCKS, number};

/// What is asked for: 1 the frame's flag, 2 the DMC's, any other number the line.
fn holds(chip: &Chip, which: u8) -> bool {
    match which {
        1 => chip.frame.interrupt,
        2 => chip.dmc.interrupt,
        _ => chip.line(),
    }
}

/// The least k from 0 to the count such that it holds after k clocks, or none.
pub fn next(mut chip: Chip, memory: &[u8], count: u64, which: u8) -> Option<u64> {
    for k in 0..=count {
        if holds(&chip, which) {
            return Some(k);
        }
        if k < count {
            chip.clock(memory);
        }
    }
    None
}

/// What a caller in C is answered: 2^8 x whether there is such a clock + 2^32 x its number; or a refusal's number.
pub fn next_interrupt(state: &[u8], memory: &[u8], count: u64, which: u8) -> u64 {
    if memory.len() != MEMORY {
        return number::MEMORY.into();
    }
    let Some(chip) = Chip::decode(state) else {
        return number::STATE.into();
    };
    if count > MOST_CLOCKS {
        return number::CLOCKS.into();
    }
    next(chip, memory, count, which).map_or(0, |k| 1 << 8 | k << 32)
}
