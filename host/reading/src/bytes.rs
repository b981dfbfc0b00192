//! A state as bytes: the fields in the order in which document 01 names them, numbers low byte first, flags 0 or 1.

use crate::chip::{Chip, Envelope, Length};
use crate::machine;
use std::ops::RangeInclusive;

/// How many bytes a state is.
pub const SIZE: usize = 91;

/// How many fields a state has.
pub const FIELDS: usize = 79;

/// One field of a state, where it lies and what it may hold.
pub enum Slot<'a> {
    /// One byte, 0 or 1.
    Flag(&'a mut bool),
    /// One byte.
    Byte(&'a mut u16, RangeInclusive<u16>),
    /// Two bytes, low first.
    Word(&'a mut u16, RangeInclusive<u16>),
    /// One byte, the machine's number.
    Machine(&'a mut machine::Machine),
}

impl Slot<'_> {
    /// How many bytes the field takes.
    pub fn width(&self) -> usize {
        if matches!(self, Slot::Word(..)) { 2 } else { 1 }
    }

    /// Whether the field is 0 or 1.
    pub fn is_flag(&self) -> bool {
        matches!(self, Slot::Flag(_) | Slot::Machine(_))
    }

    /// What the field holds.
    pub fn get(&self) -> u16 {
        match self {
            Slot::Flag(flag) => u16::from(**flag),
            Slot::Byte(number, _) | Slot::Word(number, _) => **number,
            Slot::Machine(machine) => **machine as u16,
        }
    }

    /// Sets the field; a flag is set, and the machine PAL, by any number but 0.
    pub fn set(&mut self, value: u16) {
        match self {
            Slot::Flag(flag) => **flag = value != 0,
            Slot::Byte(number, _) | Slot::Word(number, _) => **number = value,
            Slot::Machine(machine) => **machine = machine::Machine::ALL[usize::from(value != 0)],
        }
    }

    /// What the field may hold.
    pub fn range(&self) -> RangeInclusive<u16> {
        match self {
            Slot::Flag(_) | Slot::Machine(_) => 0..=1,
            Slot::Byte(_, range) | Slot::Word(_, range) => range.clone(),
        }
    }
}

use Slot::{Byte, Flag, Word};

/// What a timer with these periods may hold.
fn timer(periods: &[u16]) -> RangeInclusive<u16> {
    1..=periods.iter().copied().max().unwrap_or(1)
}

fn envelope_flags(e: &mut Envelope, visit: &mut impl FnMut(&'static str, Slot)) {
    visit("loop", Flag(&mut e.looped));
    visit("constant", Flag(&mut e.constant));
    visit("n", Byte(&mut e.n, 0..=15));
}

fn envelope_counters(e: &mut Envelope, visit: &mut impl FnMut(&'static str, Slot)) {
    visit("envelope start", Flag(&mut e.start));
    visit("envelope divider", Byte(&mut e.divider, 1..=16));
    visit("envelope counter", Byte(&mut e.counter, 0..=15));
}

fn length(l: &mut Length, visit: &mut impl FnMut(&'static str, Slot)) {
    visit("length", Byte(&mut l.count, 0..=254));
    visit("enabled", Flag(&mut l.enabled));
}

impl Chip {
    /// Shows every field in order, with its name and its range; the timers' and the clock number's are the machine's, the
    /// latter in the mode.
    pub fn fields(&mut self, mut visit: impl FnMut(&'static str, Slot)) {
        let visit = &mut visit;
        let machine = self.machine;
        for square in &mut self.squares {
            visit("duty", Byte(&mut square.duty, 0..=3));
            envelope_flags(&mut square.envelope, visit);
            let sweep = &mut square.sweep;
            visit("sweep enable", Flag(&mut sweep.enabled));
            visit("negate", Flag(&mut sweep.negate));
            visit("P", Byte(&mut sweep.p, 0..=7));
            visit("S", Byte(&mut sweep.s, 0..=7));
            visit("sweep-written", Flag(&mut sweep.written));
            visit("sweep divider", Byte(&mut sweep.divider, 1..=8));
            visit("period", Word(&mut square.period, 0..=2047));
            visit("timer", Word(&mut square.timer, 1..=2048));
            visit("half", Flag(&mut square.half));
            visit("position", Byte(&mut square.position, 0..=7));
            envelope_counters(&mut square.envelope, visit);
            length(&mut square.length, visit);
        }

        let triangle = &mut self.triangle;
        visit("control", Flag(&mut triangle.control));
        visit("reload", Byte(&mut triangle.reload, 0..=127));
        visit("linear", Byte(&mut triangle.linear, 0..=127));
        visit("linear-halt", Flag(&mut triangle.linear_halt));
        visit("period", Word(&mut triangle.period, 0..=2047));
        visit("timer", Word(&mut triangle.timer, 1..=2048));
        visit("position", Byte(&mut triangle.position, 0..=31));
        length(&mut triangle.length, visit);

        let noise = &mut self.noise;
        envelope_flags(&mut noise.envelope, visit);
        envelope_counters(&mut noise.envelope, visit);
        length(&mut noise.length, visit);
        visit("mode", Flag(&mut noise.mode));
        visit("index", Byte(&mut noise.index, 0..=15));
        visit("timer", Word(&mut noise.timer, timer(machine.noise_periods())));
        visit("shift register", Word(&mut noise.register, 1..=32767));

        let dmc = &mut self.dmc;
        visit("interrupt enable", Flag(&mut dmc.interrupt_enable));
        visit("loop", Flag(&mut dmc.looped));
        visit("index", Byte(&mut dmc.index, 0..=15));
        visit("timer", Word(&mut dmc.timer, timer(machine.dmc_periods())));
        visit("level", Byte(&mut dmc.level, 0..=127));
        visit("address byte", Byte(&mut dmc.address_byte, 0..=255));
        visit("length byte", Byte(&mut dmc.length_byte, 0..=255));
        visit("address", Word(&mut dmc.address, 32768..=65535));
        visit("remaining", Word(&mut dmc.remaining, 0..=4081));
        visit("buffer", Byte(&mut dmc.buffer, 0..=255));
        visit("full", Flag(&mut dmc.full));
        visit("shift byte", Byte(&mut dmc.shift, 0..=255));
        visit("bits", Byte(&mut dmc.bits, 1..=8));
        visit("silence", Flag(&mut dmc.silence));
        visit("interrupt", Flag(&mut dmc.interrupt));

        let frame = &mut self.frame;
        visit("mode", Flag(&mut frame.mode));
        visit("disable", Flag(&mut frame.disable));
        let last = machine.times(frame.mode).again - 1;
        visit("clock number", Word(&mut frame.clock, 0..=last));
        visit("interrupt", Flag(&mut frame.interrupt));
        visit("machine", Slot::Machine(&mut self.machine));
    }

    /// The state as bytes.
    pub fn encode(mut self) -> [u8; SIZE] {
        let mut bytes = [0; SIZE];
        let mut at = 0;
        self.fields(|_, slot| {
            let [low, high] = slot.get().to_le_bytes();
            bytes[at] = low;
            if slot.width() == 2 {
                bytes[at + 1] = high;
            }
            at += slot.width();
        });
        bytes
    }

    /// The state in range that the bytes hold; none if they are of another length, have a flag above 1, no machine or a
    /// field outside its range.
    pub fn decode(bytes: &[u8]) -> Option<Self> {
        if bytes.len() != SIZE {
            return None;
        }
        let mut chip = Self::power_on(machine::Machine::of(bytes[SIZE - 1])?);
        let mut flags = true;
        let mut at = 0;
        chip.fields(|_, mut slot| {
            let high = if slot.width() == 2 { bytes[at + 1] } else { 0 };
            let value = u16::from_le_bytes([bytes[at], high]);
            flags &= !slot.is_flag() || value <= 1;
            slot.set(value);
            at += slot.width();
        });
        (flags && chip.in_range()).then_some(chip)
    }

    /// Whether every field is in its range, disable and the frame flag aren't both set, and a channel that isn't enabled has
    /// length 0.
    pub fn in_range(mut self) -> bool {
        let mut good = !(self.frame.disable && self.frame.interrupt);
        let [first, second] = &self.squares;
        for length in [first.length, second.length, self.triangle.length, self.noise.length] {
            good &= length.enabled || length.count == 0;
        }
        self.fields(|_, slot| good &= slot.range().contains(&slot.get()));
        good
    }
}
