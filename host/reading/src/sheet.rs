//! Request 5: the levels of a sample in memory, without playing it.

use crate::{MEMORY, number};

/// The level after a byte: eight steps of the DMC rule, bit 0 first.
fn after(level: u64, byte: u8) -> u64 {
    (0..8).fold(level, |level, place| match byte >> place & 1 {
        0 if level > 1 => level - 2,
        1 if level < 126 => level + 2,
        _ => level,
    })
}

/// What a caller in C is answered: the level after each byte goes to the buffer, 2^8 x how many they are.
pub fn sheet(memory: &[u8], mut level: u64, mut address: u64, length: u64, buffer: &mut [u8]) -> u64 {
    let refusals = [
        (memory.len() != MEMORY, number::MEMORY),
        (level > 127, number::SHEET_LEVEL),
        (!(32_768..=65_535).contains(&address), number::SHEET_ADDRESS),
        (length > 4081, number::SHEET_LENGTH),
        (buffer.len() < length as usize, number::SHEET_ROOM),
    ];
    if let Some((_, number)) = refusals.iter().find(|refusal| refusal.0) {
        return (*number).into();
    }
    for place in &mut buffer[..length as usize] {
        level = after(level, memory[address as usize - 0x8000]);
        *place = level as u8;
        address = if address == 0xffff { 0x8000 } else { address + 1 };
    }
    length << 8
}
