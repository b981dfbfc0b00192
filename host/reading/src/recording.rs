//! A recording: a log, or a VGM file, which begins with `Vgm `. What it stands for, and a place in it.
//!
//! What a place does that its recording didn't lead to is the library's choice, as crates/recording_cursor/specs/Stepping.antt and
//! crates/vgm_cursor/specs/Walking.antt define it.

use crate::cursor::{Cursor, Step};
use crate::layout::place::{CLOCK, CURSOR, SAMPLES, SIZE};
use crate::log::{self, Fault, Item, Totals};
use crate::machine::Machine;
use crate::vgm::{self, Command, LONGEST_WAIT};
use crate::vgm_file::{self, is_file};
use crate::{number, words};
use std::borrow::Cow;

/// What a recording comes to, or its fault.
pub fn check(bytes: &[u8]) -> Result<Totals, Fault> {
    if is_file(bytes) { vgm_file::check(bytes) } else { log::check(bytes) }
}

/// The list that a recording stands for.
pub fn items(bytes: &[u8]) -> Result<Vec<Item>, Fault> {
    if is_file(bytes) { vgm_file::items(bytes) } else { log::items(bytes) }
}

/// The machine of a recording that passes.
pub fn machine(bytes: &[u8]) -> Result<Machine, Fault> {
    if is_file(bytes) { check(bytes).map(|_| vgm_file::machine(bytes)) } else { log::machine(bytes) }
}

/// The sample memory that a verb plays a recording with: that of its sample blocks where it has some, else the one that is given.
pub fn memory<'a>(bytes: &[u8], sample: &'a [u8]) -> Cow<'a, [u8]> {
    let own = if is_file(bytes) { vgm_file::own_memory(bytes) } else { None };
    own.map_or(Cow::Borrowed(sample), Cow::Owned)
}

/// What `perch check` writes for a VGM file.
pub fn file_text(file: &[u8]) -> String {
    match vgm_file::check(file) {
        Ok(Totals { clocks, turns, items }) => {
            let machine = if vgm_file::machine(file) == Machine::Pal { "machine=pal\n" } else { "" };
            format!("check=1\n{machine}clocks={clocks}\nturns={turns}\nitems={items}\n")
        }
        Err(Fault { number, place }) => {
            format!("check=1\nrefused={number}:{place}\nbyte {place}: {}\n", words::words(number))
        }
    }
}

/// More samples than this have over 2,000,000,000 clocks on either machine.
const MOST_SAMPLES: u32 = 100_000_000;

/// A place in a recording: that of a cursor; in a VGM file also the samples before it, and the clocks that were given as waits.
#[derive(Clone, Copy, Debug, Default, PartialEq, Eq)]
pub struct Place {
    /// The cursor, of which a file moves the place alone.
    pub cursor: Cursor,
    /// The samples so far.
    pub samples: u32,
    /// The clocks that were given.
    pub clock: u32,
}

impl Place {
    /// The place as bytes.
    pub fn encode(&self) -> [u8; SIZE] {
        let mut bytes = [0; SIZE];
        CURSOR.of_mut(&mut bytes).copy_from_slice(&self.cursor.encode());
        SAMPLES.put(&mut bytes, self.samples.into());
        CLOCK.put(&mut bytes, self.clock.into());
        bytes
    }

    /// The place that so many bytes are; any are one.
    pub fn decode(bytes: &[u8]) -> Self {
        Self {
            cursor: Cursor::decode(CURSOR.of(bytes)),
            samples: SAMPLES.get(bytes) as u32,
            clock: CLOCK.get(bytes) as u32,
        }
    }

    /// One step, over one line or one command; refused it stays.
    pub fn step(&mut self, bytes: &[u8]) -> Result<Step, Fault> {
        match self.cursor.at {
            _ if !is_file(bytes) => self.cursor.step(bytes),
            0 => self.enter(bytes),
            at => self.follow(bytes, usize::try_from(at).unwrap_or(usize::MAX)),
        }
    }

    /// From the header to the first command.
    fn enter(&mut self, file: &[u8]) -> Result<Step, Fault> {
        let first = vgm_file::first_command(file).map_err(|_| Fault { number: number::HEADER, place: 0 })?;
        self.cursor.at = first as u64;
        (self.samples, self.clock) = (0, 0);
        Ok(Step::Moved)
    }

    /// Over a command, or a wait up to it.
    fn follow(&mut self, file: &[u8], at: usize) -> Result<Step, Fault> {
        let (command, bytes) = vgm::command(file, at)?;
        if let Command::Wait(samples) = command {
            self.samples = few(self.samples.saturating_add(samples.into()))?;
            self.cursor.at += bytes as u64;
            return Ok(Step::Moved);
        }
        let gap = vgm::clocks(vgm_file::machine(file), self.samples.into()).saturating_sub(self.clock.into());
        if gap > 0 {
            few(self.samples)?;
            let wait = gap.min(LONGEST_WAIT) as u32;
            self.clock += wait;
            return Ok(Step::Item(Item::Wait(wait)));
        }
        let Command::Write(register, value) = command else {
            return Ok(Step::End);
        };
        self.cursor.at += bytes as u64;
        Ok(Step::Item(Item::Write(register, value)))
    }
}

/// Samples that aren't too many.
fn few(samples: u32) -> Result<u32, Fault> {
    if samples > MOST_SAMPLES { Err(Fault { number: number::TOTALS, place: 0 }) } else { Ok(samples) }
}
