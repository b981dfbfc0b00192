//! Logs and the player.

use crate::{MEMORY, Machine, Refusal, raw};
use std::fmt;
use std::ops::Range;

/// A refusal of a log, of a VGM stream or of a VGM file, with its place.
#[derive(Clone, Copy, Debug, PartialEq, Eq)]
pub struct Fault {
    /// The refusal.
    pub refusal: Refusal,
    /// The start of the faulty line for 4, 7 and 8, of the `stop` line for 9 and 10; the first wrong byte for 14 and 15; the
    /// value's first digit for 16; the log's length for 17 and 18; the byte behind the `stop` line for 19; else 0.
    /// In a stream the first byte at fault for 25 and 26, of a sample block for 34, its length for 27, else 0. In a VGM file the same,
    /// with 0x84 for 36.
    pub place: usize,
}

impl fmt::Display for Fault {
    fn fmt(&self, f: &mut fmt::Formatter) -> fmt::Result {
        write!(f, "{} at {}", self.refusal, self.place)
    }
}

impl std::error::Error for Fault {}

/// The value of an answer about a log, or its fault.
pub(crate) fn value(answer: u64) -> Result<u64, Fault> {
    match answer as u8 {
        0 => Ok(answer >> 32),
        number => Err(Fault { refusal: Refusal(number), place: (answer >> 8 & 0xff_ffff) as usize }),
    }
}

/// One of a log's list.
#[derive(Clone, Copy, Debug, PartialEq, Eq)]
pub enum Item {
    /// So many clocks.
    Wait(u32),
    /// A register and a value.
    Write(u16, u8),
    /// A read of $4015.
    Read,
}

/// What the check of a log gives.
#[derive(Clone, Copy, Debug, PartialEq, Eq)]
pub struct Checked {
    /// The clocks in all.
    pub clocks: u64,
    /// The machine that the log is for.
    pub machine: Machine,
}

/// Checks a log and gives its clocks in all and its machine.
pub fn check(log: &[u8]) -> Result<Checked, Fault> {
    let value = value(raw::check(log))?;
    let machine = if value >> 31 == 0 { Machine::Ntsc } else { Machine::Pal };
    Ok(Checked { clocks: value & 0x7fff_ffff, machine })
}

/// Checks a log and gives its turns in all.
pub fn turns(log: &[u8]) -> Result<u64, Fault> {
    value(raw::turns(log))
}

/// Checks a log and gives how many items it stands for.
pub fn items(log: &[u8]) -> Result<u64, Fault> {
    value(raw::items(log))
}

/// The item of an answer's value.
pub(crate) fn item_of(value: u64) -> Item {
    let held = value as u32 & 0xff_ffff;
    match value >> 24 {
        1 => Item::Wait(held),
        2 => Item::Write((held >> 8) as u16, held as u8),
        _ => Item::Read,
    }
}

/// Item k of the log's list, from 0.
pub fn item(log: &[u8], k: u64) -> Result<Item, Fault> {
    value(raw::item(log, k)).map(item_of)
}

/// The bytes between the loop line at the offset and its `done`.
pub fn body(log: &[u8], offset: u64) -> Result<&[u8], Fault> {
    let value = value(raw::body(log, offset))?;
    let start = (value & 0xffff) as usize;
    let part: Range<usize> = start..start + (value >> 16) as usize;
    Ok(&log[part])
}

/// The most bytes of a log.
pub const LOG: usize = 60_000;

/// The most bytes of a VGM file.
pub const VGM: usize = 524_288;

/// The value of an answer about a stream, or its fault.
fn stream_value(answer: u64) -> Result<usize, Fault> {
    let value = (answer >> 8) as usize;
    match answer as u8 {
        0 => Ok(value),
        number => Err(Fault { refusal: Refusal(number), place: value }),
    }
}

/// The log of a VGM command stream, without its header: the same writes at the same clocks, on an NTSC machine.
pub fn import(stream: &[u8]) -> Result<Vec<u8>, Fault> {
    let mut log = vec![0; LOG];
    let length = stream_value(raw::import(stream, &mut log))?;
    log.truncate(length);
    Ok(log)
}

/// The same, on a machine.
pub fn import_for(stream: &[u8], machine: Machine) -> Result<Vec<u8>, Fault> {
    let mut log = vec![0; LOG];
    let length = stream_value(raw::import_for(stream, machine as u8, &mut log))?;
    log.truncate(length);
    Ok(log)
}

/// The sample memory that the sample blocks in front of a VGM command stream hold, 0 elsewhere, and how many blocks they are.
pub fn samples(stream: &[u8]) -> Result<(Vec<u8>, usize), Fault> {
    let mut memory = vec![0; MEMORY];
    let blocks = stream_value(raw::samples(stream, &mut memory))?;
    Ok((memory, blocks))
}

/// A log folded: its equal lines in a row are loops; it stands for the same and isn't longer.
pub fn fold(log: &[u8]) -> Result<Vec<u8>, Fault> {
    let mut text = vec![0; log.len()];
    let length = value(raw::fold(log, &mut text))?;
    text.truncate(length as usize);
    Ok(text)
}

/// What was done to repair a log.
#[derive(Clone, Copy, Debug, PartialEq, Eq)]
pub enum Repair {
    /// A line dropped: where it began in the damaged log, and the number by which it went.
    Dropped {
        /// Its place in the damaged log.
        start: u32,
        /// The number.
        number: u8,
    },
    /// A line added.
    Added {
        /// Its place in the repaired log.
        place: u32,
    },
}

/// A damaged log repaired, with what was done, in its order. What comes out passes; a log that passes comes back as it was.
pub fn salvage(log: &[u8]) -> Result<(Vec<u8>, Vec<Repair>), Fault> {
    // An entry a line at most, one for `log=1`, eight for loops and one for the `stop`.
    let (mut text, mut list) = (vec![0; LOG], vec![0; 2 * (log.len().min(LOG) + 10)]);
    let lengths = value(raw::salvage(log, &mut text, &mut list))?;
    text.truncate(lengths as usize & 0xffff);
    list.truncate(2 * (lengths as usize >> 16));
    let repair = |entry: &[u32]| match *entry {
        [place, 0] => Repair::Added { place },
        [start, number] => Repair::Dropped { start, number: number as u8 },
        _ => unreachable!("an entry is two words"),
    };
    Ok((text, list.chunks_exact(2).map(repair).collect()))
}

/// The text that the player writes for a fault.
pub fn refusal_text(fault: Fault) -> Vec<u8> {
    let mut text = vec![0; 40];
    let answer = raw::refusal_text(fault.refusal.0, fault.place as u64, &mut text);
    text.truncate((answer >> 32) as usize);
    text
}

/// How many bytes a player is.
pub const PLAYER: usize = 198;

/// The first of the four bytes of a player that tell its time.
const TIME: usize = 5;

/// A recording being played, a log or a VGM file: an iterator of pieces of its text, each of whole lines. A copy is a bookmark, which gives the same lines
/// again; `bytes` can be stored, for a library of the same version.
#[derive(Clone, Debug)]
pub struct Player<'a> {
    bytes: [u8; PLAYER],
    log: &'a [u8],
    memory: &'a [u8],
    over: bool,
    fault: Option<Fault>,
}

impl<'a> Player<'a> {
    const PIECE: usize = 1 << 16;

    /// A player at the recording's beginning.
    pub fn new(log: &'a [u8], memory: &'a [u8]) -> Result<Self, Fault> {
        let mut bytes = [0; PLAYER];
        value(raw::begin(&mut bytes, log, memory))?;
        Ok(Self { bytes, log, memory, over: false, fault: None })
    }

    /// The player that was stored, with the log and the memory that it began with. Refused: bytes that are no player (2), memory
    /// of another length (1). Bytes that this log didn't lead to may be refused later: then the pieces end, and `fault` says why.
    pub fn from_bytes(bytes: [u8; PLAYER], log: &'a [u8], memory: &'a [u8]) -> Result<Self, Fault> {
        // With no room for a line the player stays.
        value(raw::play_on(&mut { bytes }, log, memory, &mut []))?;
        Ok(Self { bytes, log, memory, over: false, fault: None })
    }

    /// The player's bytes, to be stored between two pieces.
    pub fn bytes(&self) -> &[u8; PLAYER] {
        &self.bytes
    }

    /// The clocks up to which the player has come: those of its last line or later, and not past its next line.
    pub fn time(&self) -> u32 {
        u32::from_le_bytes(std::array::from_fn(|place| self.bytes[TIME + place]))
    }

    /// What ended the pieces early: none for a player that began with its log and memory.
    pub fn fault(&self) -> Option<Fault> {
        self.fault
    }
}

impl Iterator for Player<'_> {
    type Item = Vec<u8>;

    fn next(&mut self) -> Option<Vec<u8>> {
        if self.over {
            return None;
        }
        let mut text = vec![0; Self::PIECE];
        let answer = raw::play_on(&mut self.bytes, self.log, self.memory, &mut text);
        self.fault = value(answer).err();
        self.over = answer as u16 != 0;
        text.truncate((answer >> 32) as usize);
        (!text.is_empty()).then_some(text)
    }
}
