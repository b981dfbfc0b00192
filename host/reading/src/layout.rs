//! THE LAYOUT of the bytes that a caller keeps: a cursor's, a player's and those of a WAV file under way. It stands here and nowhere
//! else in Rust; where the library's changes, change the order of these lines. Every number is low byte first.
//!
//! It is the library's choice and no rule of document 01; crates/c_player/specs/Player.antt, crates/c_wav/specs/Wavs.antt and
//! crates/c_recording/specs/Cursors.antt define it.

/// The header's version: every change of a size, a layout or a function raises it.
pub const VERSION: u32 = 12;

/// Where a part lies in the bytes.
#[derive(Clone, Copy, Debug)]
pub struct Part {
    /// Its first byte.
    pub start: usize,
    /// How many bytes it takes.
    pub size: usize,
}

impl Part {
    const fn first(size: usize) -> Self {
        Self { start: 0, size }
    }

    /// The part of so many bytes behind this one.
    const fn then(self, size: usize) -> Self {
        Self { start: self.end(), size }
    }

    /// Behind its last byte.
    pub const fn end(self) -> usize {
        self.start + self.size
    }

    /// Its bytes.
    pub fn of(self, bytes: &[u8]) -> &[u8] {
        &bytes[self.start..self.end()]
    }

    /// Its bytes, to be changed.
    pub fn of_mut(self, bytes: &mut [u8]) -> &mut [u8] {
        &mut bytes[self.start..self.end()]
    }

    /// Number i of those that the part holds, each of so many bytes.
    pub const fn nth(self, i: usize, size: usize) -> Self {
        Self { start: self.start + i * size, size }
    }

    /// The number that it holds, of eight bytes at most.
    pub fn get(self, bytes: &[u8]) -> u64 {
        self.of(bytes).iter().rev().fold(0, |number, &byte| number << 8 | u64::from(byte))
    }

    /// Sets the number; what is too high for it is cut off.
    pub fn put(self, bytes: &mut [u8], number: u64) {
        let size = self.size;
        self.of_mut(bytes).copy_from_slice(&number.to_le_bytes()[..size]);
    }
}

/// A cursor's bytes.
pub mod cursor {
    use super::Part;
    use crate::log::MOST_DEPTH;

    /// Where it stands in the log.
    pub const PLACE: Part = Part::first(8);
    /// How many loops are open.
    pub const OPEN: Part = PLACE.then(8);
    /// Where the body of each loop starts, from the outermost on.
    pub const STARTS: Part = OPEN.then(MOST_DEPTH * 8);
    /// How many turns each has left behind this one.
    pub const LEFT: Part = STARTS.then(MOST_DEPTH);
    /// How many they are.
    pub const SIZE: usize = LEFT.end();
}

/// The bytes of a place in a recording: a cursor's, which alone move in a log, and two numbers that move in a VGM file.
pub mod place {
    use super::{Part, cursor};

    /// The cursor; its place is that in the file too.
    pub const CURSOR: Part = Part::first(cursor::SIZE);
    /// The samples before the place in the file.
    pub const SAMPLES: Part = CURSOR.then(4);
    /// The clocks that were given as waits.
    pub const CLOCK: Part = SAMPLES.then(4);
    /// How many they are.
    pub const SIZE: usize = CLOCK.end();
}

/// A player's bytes.
pub mod player {
    use super::{Part, place};
    use crate::bytes;

    /// 0: `play=1` is due; 1: the first level; 2: what the log says; above: all is over.
    pub const PHASE: Part = Part::first(1);
    /// Clocks left of a wait under way.
    pub const WAIT: Part = PHASE.then(4);
    /// The time in clocks.
    pub const TIME: Part = WAIT.then(4);
    /// The level last written.
    pub const LAST: Part = TIME.then(2);
    /// The cursor.
    pub const CURSOR: Part = LAST.then(place::SIZE);
    /// The chip's state, last, so that a state of another size moves nothing else.
    pub const STATE: Part = CURSOR.then(bytes::SIZE);
    /// How many they are.
    pub const SIZE: usize = STATE.end();
}

/// The bytes of a WAV file under way.
pub mod wav {
    use super::{Part, place};
    use crate::bytes;

    /// 1 where its head is written, else 0.
    pub const BEGUN: Part = Part::first(1);
    /// Samples a second.
    pub const RATE: Part = BEGUN.then(4);
    /// The samples in all.
    pub const COUNT: Part = RATE.then(4);
    /// Clocks left of a wait under way.
    pub const LEFT: Part = COUNT.then(4);
    /// The number of the sample under way.
    pub const SAMPLE: Part = LEFT.then(8);
    /// Its levels so far, added up.
    pub const SUM: Part = SAMPLE.then(8);
    /// The clocks done.
    pub const TIME: Part = SUM.then(8);
    /// The cursor.
    pub const CURSOR: Part = TIME.then(place::SIZE);
    /// The chip's state, last, as in a player.
    pub const STATE: Part = CURSOR.then(bytes::SIZE);
    /// How many they are.
    pub const SIZE: usize = STATE.end();
}
