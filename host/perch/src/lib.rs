//! Perchpulley for Rust: a safe wrapper of `include/perchpulley.h`.
//!
//! ```
//! # let memory = [0; perch::MEMORY];
//! let mut chip = perch::Chip::power_on(perch::Machine::Ntsc);
//! let accessed = chip.access(perch::Access::Write(0x4011, 0x40))?;
//! assert_eq!((accessed.level, accessed.differs), (16620, true));
//! assert_eq!(chip.access(perch::Access::Read)?.byte, 0x00);
//! let mut words = [0; 64];
//! let mut dwell = perch::EMPTY;
//! let ran = chip.run(&memory, 1_000_000, &mut words, &mut dwell)?;
//! assert_eq!(u64::from(dwell[64]), ran.done);
//! for pair in words[..2 * ran.records].chunks(2) {
//!     println!("clock {} level {}", pair[0], pair[1]);
//! }
//! # Ok::<(), perch::Refusal>(())
//! ```
//!
//! ```
//! let checked = perch::check(b"log=1\nmachine=pal\nwait=10\nstop=10\n")?;
//! assert_eq!((checked.clocks, checked.machine), (10, perch::Machine::Pal));
//! # Ok::<(), perch::Fault>(())
//! ```
//!
//! ```
//! # let memory = [0; perch::MEMORY];
//! let log = b"log=1\nwrite=4011:40\nwait=10\nread=4015\nstop=10\n";
//! let mut text = Vec::new();
//! for piece in perch::Player::new(log, &memory)? {
//!     text.extend(piece);
//! }
//! assert_eq!(text, b"play=1\nlevel=0:8074\nlevel=0:16620\nread=10:00\nstop=10\n");
//! # Ok::<(), perch::Fault>(())
//! ```
//!
//! A player that is stored goes on where it stood:
//!
//! ```
//! # let memory = [0; perch::MEMORY];
//! let log = b"log=1\nwrite=4011:40\nwait=10\nread=4015\nstop=10\n";
//! let mut player = perch::Player::new(log, &memory)?;
//! let stored: [u8; perch::PLAYER] = *player.bytes();
//! let text: Vec<u8> = player.by_ref().flatten().collect();
//! assert_eq!(player.time(), 10);
//! let again = perch::Player::from_bytes(stored, log, &memory)?;
//! assert_eq!(again.flatten().collect::<Vec<u8>>(), text);
//! # Ok::<(), perch::Fault>(())
//! ```
//!
//! ```
//! # let memory = [0; perch::MEMORY];
//! let log = b"log=1\nwrite=4011:40\nwait=1000\nstop=1000\n";
//! let (mut wav, size) = perch::Wav::begin(log, &memory, 44_100)?;
//! let (mut file, mut out) = (Vec::new(), [0; 64]);
//! loop {
//!     let piece = wav.on(&mut out)?;
//!     file.extend(&out[..piece.written]);
//!     if piece.over {
//!         break;
//!     }
//! }
//! assert_eq!((&file[..4], file.len() as u64, size), (&b"RIFF"[..], 92, 92));
//! # Ok::<(), perch::Fault>(())
//! ```
//!
//! ```
//! # use perch::{Found, Item};
//! let log = b"log=1\nloop=3\nwait=10\nread=4015\ndone=loop\nstop=30\n";
//! assert_eq!((perch::check(log)?.clocks, perch::turns(log)?, perch::items(log)?), (30, 9, 6));
//! let mut cursor = perch::Cursor::new();
//! assert_eq!(cursor.next(log)?, Found::Item(Item::Wait(10)));
//! let bookmark = cursor;
//! assert_eq!(cursor.next(log)?, Found::Item(Item::Read));
//! assert_eq!({ bookmark }.next(log)?, Found::Item(Item::Read));
//! assert_eq!(perch::all_items(log)?.count(), 6);
//! # Ok::<(), perch::Fault>(())
//! ```
//!
//! ```
//! let log = perch::import(&[0xb4, 0x11, 0x40, 0x62, 0x66])?;
//! assert_eq!(log, b"log=1\nwrite=4011:40\nwait=29829\nstop=29829\n");
//! # Ok::<(), perch::Fault>(())
//! ```
//!
//! ```
//! # use perch::Machine::Pal;
//! let stream = [0x67, 0x66, 0xc2, 3, 0, 0, 0, 0x00, 0xc0, 0x55, 0xb4, 0x11, 0x40, 0x62, 0x66];
//! let (memory, blocks) = perch::samples(&stream)?;
//! assert_eq!((blocks, memory[0x4000]), (1, 0x55));
//! let log = perch::import_for(&stream[10..], Pal)?;
//! assert_eq!(log, b"log=1\nmachine=pal\nwrite=4011:40\nwait=27710\nstop=27710\n");
//! # Ok::<(), perch::Fault>(())
//! ```
//!
//! ```
//! let folded = perch::fold(b"log=1\nwait=9\nwait=9\nwait=9\nwait=9\nwait=9\nstop=45\n")?;
//! assert_eq!(folded, b"log=1\nloop=5\nwait=9\ndone=loop\nstop=45\n");
//! # Ok::<(), perch::Fault>(())
//! ```
//!
//! ```
//! use perch::Repair::{Added, Dropped};
//! let (log, repairs) = perch::salvage(b"log=1\nloop=2\nwait=09\nwait=9\n")?;
//! assert_eq!(log, b"log=1\nloop=2\nwait=9\ndone=loop\nstop=18\n");
//! assert_eq!(repairs, [Dropped { start: 13, number: 15 }, Added { place: 20 }, Added { place: 30 }]);
//! # Ok::<(), perch::Fault>(())
//! ```
//!
//! ```
//! # use perch::Interrupt::{Dmc, Line};
//! # let memory = vec![0; perch::MEMORY];
//! let chip = perch::Chip::power_on(perch::Machine::Ntsc);
//! assert_eq!(chip.next_interrupt(&memory, 1_000_000, Line)?, Some(29829));
//! assert_eq!(chip.next_interrupt(&memory, 1_000_000, Dmc)?, None);
//! # Ok::<(), perch::Refusal>(())
//! ```
//!
//! ```
//! # use perch::Access::Write;
//! let mut chip = perch::Chip::power_on(perch::Machine::Pal);
//! assert_eq!(chip.why(perch::Channel::Square1)?.to_string(), "not enabled");
//! for (register, value) in [(0x4015, 0x01), (0x4000, 0xff), (0x4003, 0x00)] {
//!     chip.access(Write(register, value))?;
//! }
//! assert_eq!(chip.why(perch::Channel::Square1)?.to_string(), "period below 8");
//! chip.access(Write(0x4002, 0xfd))?;
//! assert_eq!(chip.why(perch::Channel::Square1)?, perch::Why::Sounds(15));
//! # Ok::<(), perch::Refusal>(())
//! ```
//!
//! ```
//! # let memory = [0; perch::MEMORY];
//! let log = b"log=1\nwrite=4011:40\nwait=29829\nread=4015\nstop=29829\n";
//! let (chip, clock) = perch::Chip::at(log, &memory, 29828)?;
//! assert_eq!((chip.outputs()?.triangle, chip.outputs()?.dmc, chip.status()?, clock), (15, 64, 0x00, 29828));
//! let mut next = chip;
//! next.clock(&memory)?;
//! assert_eq!((next.status()?, next.status()?), (0x40, 0x40));
//! assert_eq!(perch::Chip::at(log, &memory, 30000)?.0.status()?, 0x00);
//! # Ok::<(), Box<dyn std::error::Error>>(())
//! ```
//!
//! ```
//! # use perch::Meter;
//! assert_eq!(perch::meter(&[0, 16384])?, Meter::Moving { lowest: 0.0, highest: 0.5 });
//! assert_eq!(perch::meter_records(&[7, 8192, 9, 8192], 0, 2, None)?.to_string(), "steady at 0.25");
//! # Ok::<(), perch::Refusal>(())
//! ```
//!
//! ```
//! let mut memory = [0xff; perch::MEMORY];
//! memory[2] = 0x00;
//! assert_eq!(perch::sheet(&memory, 64, 0x8000, 3)?, [80, 96, 80]);
//! # Ok::<(), perch::Refusal>(())
//! ```

mod access;
mod cursor;
mod log;
mod meter;
mod outputs;
pub mod raw;
mod sheet;
mod wav;
mod why;

pub use access::{Access, Accessed};
pub use cursor::{CURSOR, Cursor, Found, all_items};
pub use log::{
    Checked, Fault, Item, LOG, PLAYER, Player, Repair, VGM, body, check, fold, import, import_for, item, items,
    refusal_text, salvage, samples, turns,
};
pub use meter::{Meter, meter, meter_records};
pub use outputs::Outputs;
pub use sheet::sheet;
pub use wav::{Piece, WAV, Wav};
pub use why::{Channel, Why};

use std::fmt;

/// The length of sample memory, $8000 to $FFFF.
pub const MEMORY: usize = 32_768;

/// How many bytes a state is.
pub const STATE: usize = 91;

/// The version of the header that this wraps; the library's is `version()`.
pub const VERSION: u32 = 12;

/// The version of the library linked. One of another version has other sizes, layouts or functions: the first call of any other
/// function here ends the program where it isn't `VERSION`.
pub fn version() -> u32 {
    raw::version()
}

/// What these functions are linked to.
pub const LINKED: &str = if ARCHIVE { "the archive" } else { "the stand-in" };

/// Whether the functions are the library's, and not the stand-in's.
pub const ARCHIVE: bool = !cfg!(feature = "standin");

/// A refusal, with its number by document 01. Its words are those of `perch`.
#[derive(Clone, Copy, Debug, PartialEq, Eq)]
pub struct Refusal(pub u8);

impl fmt::Display for Refusal {
    fn fmt(&self, f: &mut fmt::Formatter) -> fmt::Result {
        let mut text = [0; 60];
        let written = (raw::reason(self.0, &mut text) >> 32) as usize;
        f.write_str(&String::from_utf8_lossy(&text[..written]))
    }
}

impl std::error::Error for Refusal {}

/// The value of an answer, or its refusal.
fn value(answer: u64) -> Result<u64, Refusal> {
    match answer as u8 {
        0 => Ok(answer >> 8),
        number => Err(Refusal(number)),
    }
}

/// What a run did.
#[derive(Clone, Copy, Debug, PartialEq, Eq)]
pub struct Ran {
    /// The clocks done: those asked for, or fewer where a record had no room or a count would pass 4,000,000,000.
    pub done: u64,
    /// The records written, two words each: the clock in the run, from 1, and the level.
    pub records: usize,
}

fn ran(answer: u64) -> Result<Ran, Refusal> {
    let value = value(answer)?;
    Ok(Ran { done: value & 0xff_ffff, records: (value >> 24) as usize })
}

/// The dwell table: for each value of the DMC level, after how many clocks it stood there.
pub type Dwell = [u32; 128];

/// A table with no clock counted.
pub const EMPTY: Dwell = [0; 128];

/// What may rise: the line, or one of the two flags.
#[derive(Clone, Copy, Debug, PartialEq, Eq)]
pub enum Interrupt {
    /// The interrupt line.
    Line = 0,
    /// The frame's flag.
    Frame = 1,
    /// The DMC's flag.
    Dmc = 2,
}

/// A console.
#[derive(Clone, Copy, Debug, PartialEq, Eq)]
pub enum Machine {
    /// NTSC.
    Ntsc = 0,
    /// PAL.
    Pal = 1,
}

/// A chip's state.
#[derive(Clone, Copy, Debug, PartialEq, Eq)]
pub struct Chip([u8; STATE]);

impl Chip {
    /// A machine's state at power-on.
    pub fn power_on(machine: Machine) -> Self {
        let mut state = [0; STATE];
        value(raw::power_on(&mut state, machine as u8)).expect("a state's bytes and a machine aren't refused");
        Self(state)
    }

    /// The state that the bytes hold, in document 01's order.
    pub fn from_bytes(state: [u8; STATE]) -> Result<Self, Refusal> {
        match raw::in_range(&state) >> 8 {
            0 => Err(Refusal(2)),
            _ => Ok(Self(state)),
        }
    }

    /// The state's machine, which no access changes.
    pub fn machine(&self) -> Machine {
        if self.0[STATE - 1] == 0 { Machine::Ntsc } else { Machine::Pal }
    }

    /// The state's bytes.
    pub fn bytes(&self) -> &[u8; STATE] {
        &self.0
    }

    fn bytes_mut(&mut self) -> &mut [u8; STATE] {
        &mut self.0
    }

    /// Whether the interrupt line is asserted.
    pub fn interrupt_line(&self) -> Result<bool, Refusal> {
        value(raw::interrupt_line(&self.0)).map(|line| line != 0)
    }

    /// The mixed level, 0..32767.
    pub fn level(&self) -> Result<u16, Refusal> {
        value(raw::level(&self.0)).map(|level| level as u16)
    }

    /// The mixed level over 32,768.
    pub fn level_f32(&self) -> Result<f32, Refusal> {
        self.level().map(raw::level_fraction)
    }

    /// Works one clock.
    pub fn clock(&mut self, memory: &[u8]) -> Result<(), Refusal> {
        value(raw::clock(&mut self.0, memory)).map(|_| ())
    }

    /// The least number of clocks, from 0 to `count`, after which the interrupt line is asserted, or the flag asked for is set; none
    /// where it isn't within the count. No clock is worked.
    pub fn next_interrupt(&self, memory: &[u8], count: u64, asked: Interrupt) -> Result<Option<u64>, Refusal> {
        let answer = raw::next_interrupt(&self.0, memory, count, asked as u8);
        value(answer).map(|value| (value & 1 == 1).then_some(value >> 24))
    }

    /// Runs up to `count` clocks, leaping where nothing changes, and counts each in the table.
    pub fn run(&mut self, memory: &[u8], count: u64, words: &mut [u32], dwell: &mut Dwell) -> Result<Ran, Refusal> {
        ran(raw::run(&mut self.0, memory, count, words, dwell))
    }

    /// The same, clock by clock.
    pub fn run_plain(
        &mut self,
        memory: &[u8],
        count: u64,
        words: &mut [u32],
        dwell: &mut Dwell,
    ) -> Result<Ran, Refusal> {
        ran(raw::run_plain(&mut self.0, memory, count, words, dwell))
    }
}
