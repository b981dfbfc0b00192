//! A sample's levels, without playing it.

use crate::{Refusal, raw, value};

/// The most bytes of a sample.
const MOST: u64 = 4081;

/// The DMC's level after each byte of a sample in memory, from a first level, an address and a length on.
pub fn sheet(memory: &[u8], level: u64, address: u64, length: u64) -> Result<Vec<u8>, Refusal> {
    let mut levels = vec![0; length.min(MOST) as usize];
    let written = value(raw::sheet(memory, level, address, length, &mut levels))?;
    levels.truncate(written as usize);
    Ok(levels)
}
