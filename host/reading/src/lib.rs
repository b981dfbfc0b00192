//! Document 01, with the change requests that have landed, read in plain Rust, clock by clock, from the papers and from
//! nothing else, and of VGM files from their format; but the bytes of a cursor, of a player and of a WAV file under way, which the
//! papers leave free, are the library's (`layout`), and so is what becomes of those that no recording led to (`cursor`, `recording`,
//! `player`, `wav`).
//!
//! The library that this is compared with leaps; this reading never does. It is written to be held against the paper
//! line by line, so each rule stands in it once and in the paper's words.

pub mod access;
pub mod boundary;
pub mod bytes;
pub mod chip;
pub mod cursor;
pub mod dwell;
pub mod flags;
pub mod fold;
pub mod interrupt;
pub mod layout;
pub mod log;
pub mod machine;
pub mod meter;
pub mod mixer;
pub mod moment;
pub mod outputs;
pub mod plain;
pub mod play;
pub mod player;
pub mod recording;
pub mod salvage;
pub mod sheet;
pub mod trace;
pub mod vgm;
pub mod vgm_file;
pub mod wav;
pub mod wave;
pub mod why;
pub mod words;

pub use chip::Chip;
pub use machine::Machine;
pub use plain::{Dwell, MOST_COUNT, Plain, Record, plain};

/// The length of sample memory, $8000 to $FFFF.
pub const MEMORY: usize = 32_768;

/// The most clocks that one run may be asked for.
pub const MOST_CLOCKS: u64 = 1_000_000;

/// The numbers an answer can carry.
pub mod number {
    /// Done.
    pub const DONE: u8 = 0;
    /// Sample memory isn't 32,768 bytes.
    pub const MEMORY: u8 = 1;
    /// A state field is outside its range.
    pub const STATE: u8 = 2;
    /// A run of more than 1,000,000 clocks.
    pub const CLOCKS: u8 = 3;
    /// The register is not among $4000..$4013, $4015, $4017.
    pub const REGISTER: u8 = 4;
    /// The log is longer than 60,000 bytes, or the VGM file than 524,288.
    pub const LONG: u8 = 5;
    /// A ninth loop opened inside eight.
    pub const DEPTH: u8 = 7;
    /// `done` with no loop open, or `stop` with one open.
    pub const UNMATCHED: u8 = 8;
    /// Over 2,000,000,000 clocks or 1,000,000 turns in all.
    pub const TOTALS: u8 = 9;
    /// `stop` differs from the clocks in all.
    pub const STOP: u8 = 10;
    /// Item k asked for and the log has k or fewer.
    pub const ITEM: u8 = 11;
    /// No loop line begins at the offset asked for.
    pub const LOOP: u8 = 12;
    /// A count of the given table is over 4,000,000,000, or the counts are not 128.
    pub const COUNTS: u8 = 13;
    /// A key that is unknown, or not allowed where it stands.
    pub const KEY: u8 = 14;
    /// A value not of its shape.
    pub const SHAPE: u8 = 15;
    /// A value outside its range.
    pub const RANGE: u8 = 16;
    /// A line feed is missing.
    pub const FEED: u8 = 17;
    /// `stop` is missing.
    pub const NO_STOP: u8 = 18;
    /// Something stands behind `stop`.
    pub const BEHIND: u8 = 19;
    /// A sheet's level is above 127.
    pub const SHEET_LEVEL: u8 = 20;
    /// A sheet's address is outside 32768..65535.
    pub const SHEET_ADDRESS: u8 = 21;
    /// A sheet's length is above 4081.
    pub const SHEET_LENGTH: u8 = 22;
    /// A sheet's buffer is shorter than the length.
    pub const SHEET_ROOM: u8 = 23;
    /// The channel is no square and not the noise.
    pub const CHANNEL: u8 = 24;
    /// An unknown command in a stream.
    pub const COMMAND: u8 = 25;
    /// A stream's register is not among $00..$13, $15, $17.
    pub const STREAM_REGISTER: u8 = 26;
    /// A stream ends before $66.
    pub const STREAM_ENDS: u8 = 27;
    /// An imported log is longer than the buffer or 60,000 bytes.
    pub const ROOM: u8 = 28;
    /// A level above 32,767.
    pub const LEVEL: u8 = 29;
    /// A repaired log is longer than the buffer or 60,000 bytes.
    pub const REPAIRED: u8 = 30;
    /// The list of what was done to repair a log has no room.
    pub const LIST: u8 = 31;
    /// A buffer shorter than the log to be folded.
    pub const FOLD_ROOM: u8 = 32;
    /// A rate outside 8,000..192,000 samples a second.
    pub const RATE: u8 = 33;
    /// A sample block without an address, or with bytes outside $8000..$FFFF.
    pub const BLOCK: u8 = 34;
    /// The header of a VGM file is cut short or points out of the file.
    pub const HEADER: u8 = 35;
    /// A VGM file for two chips.
    pub const TWO_CHIPS: u8 = 36;
}
