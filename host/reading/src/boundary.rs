//! The operations on bytes and numbers, with their refusals: what a caller in C is answered. An access is in `access`.
//!
//! An answer is number + 256 x value, a run's number + 2^8 x clocks done + 2^32 x records. A refused call answers its
//! number alone and leaves what it was lent as it was.

use crate::bytes::SIZE;
use crate::chip::Chip;
use crate::machine::Machine;
use crate::plain::{Dwell, MOST_COUNT, plain};
use crate::{MEMORY, MOST_CLOCKS, number};

fn answer(value: u64) -> u64 {
    value << 8
}

/// Writes a machine's state at power-on.
pub fn power_on(state: &mut [u8], machine: u8) -> u64 {
    match Machine::of(machine) {
        Some(machine) if state.len() == SIZE => {
            state.copy_from_slice(&Chip::power_on(machine).encode());
            0
        }
        _ => number::STATE.into(),
    }
}

/// 1 where the bytes are a state in range, else 0: the range test refuses nothing.
pub fn in_range(state: &[u8]) -> u64 {
    answer(Chip::decode(state).is_some().into())
}

/// 1 where the interrupt line is asserted.
pub fn line(state: &[u8]) -> u64 {
    Chip::decode(state).map_or(number::STATE.into(), |chip| answer(chip.line().into()))
}

/// The level.
pub fn level(state: &[u8]) -> u64 {
    Chip::decode(state).map_or(number::STATE.into(), |chip| answer(chip.level().into()))
}

/// Works one clock.
pub fn clock(state: &mut [u8], memory: &[u8]) -> u64 {
    if memory.len() != MEMORY {
        return number::MEMORY.into();
    }
    let Some(mut chip) = Chip::decode(state) else {
        return number::STATE.into();
    };
    chip.clock(memory);
    state.copy_from_slice(&chip.encode());
    0
}

/// Runs, with two words for each record: its clock in the run from 1, and the level; and with a table of 128 counts, one for each
/// value of the DMC level.
pub fn run(state: &mut [u8], memory: &[u8], count: u64, words: &mut [u32], counts: &mut [u32]) -> u64 {
    if memory.len() != MEMORY {
        return number::MEMORY.into();
    }
    let Some(chip) = Chip::decode(state) else {
        return number::STATE.into();
    };
    if count > MOST_CLOCKS {
        return number::CLOCKS.into();
    }
    let Some(dwell) = Dwell::try_from(&*counts).ok().filter(|table| table.iter().all(|&n| n <= MOST_COUNT)) else {
        return number::COUNTS.into();
    };
    let ran = plain(chip, memory, count, words.len() as u64 / 2, dwell);
    for (pair, record) in words.chunks_exact_mut(2).zip(&ran.records) {
        pair[0] = record.clock as u32;
        pair[1] = record.level.into();
    }
    counts.copy_from_slice(&ran.dwell);
    state.copy_from_slice(&ran.chip.encode());
    ran.done << 8 | (ran.records.len() as u64) << 32
}
