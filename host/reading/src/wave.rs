//! A log as a WAV file (RIFF, PCM, 16 bits, one channel): its levels, added clock by clock.

use crate::chip::Chip;
use crate::log::{Fault, Item};
use crate::machine::Machine;
use crate::{play, recording};
use std::ops::RangeInclusive;

/// The rates that may be asked for, in samples a second.
pub const RATES: RangeInclusive<u64> = 8_000..=192_000;

/// The rate where none is asked for.
pub const RATE: u64 = 44_100;

/// The bytes of a file before its samples.
pub const HEAD: usize = 44;

/// The clocks before sample n, from 0: floor(n x f / rate), f clocks a second. A number past 64 bits is far behind any log's end.
pub fn clocks_before(machine: Machine, rate: u64, sample: u64) -> u64 {
    sample.saturating_mul(machine.clocks_a_second()) / rate
}

/// The sample under way: the clocks done, its number from 0, and its levels so far, added up.
#[derive(Clone, Copy, Debug, Default, PartialEq, Eq)]
pub struct Sampler {
    /// The clocks done.
    pub clock: u64,
    /// The sample's number.
    pub sample: u64,
    /// Its levels so far.
    pub sum: u64,
}

impl Sampler {
    /// The clocks before the sample under way, and before the next.
    pub fn bounds(&self, machine: Machine, rate: u64) -> (u64, u64) {
        let before = |sample| clocks_before(machine, rate, sample);
        (before(self.sample), before(self.sample.saturating_add(1)))
    }

    /// The level after the next clock. Where that is the sample's last, the sample: the floor of the mean of its levels.
    pub fn hear(&mut self, machine: Machine, rate: u64, level: u16) -> Option<u16> {
        self.clock += 1;
        self.sum += u64::from(level);
        let (before, last) = self.bounds(machine, rate);
        if self.clock < last {
            return None;
        }
        let mean = self.sum / (last - before);
        (self.sample, self.sum) = (self.sample + 1, 0);
        Some(mean as u16)
    }
}

/// The samples of a log at a rate: sample n, from 0, is the floor of the mean of the levels after the clocks floor(n x f / rate) + 1 to
/// floor((n + 1) x f / rate), f clocks a second. One whose last clock the log doesn't have is none.
pub fn samples(log: &[u8], memory: &[u8], rate: u64) -> Result<Vec<u16>, Fault> {
    play::check(log, memory)?;
    let machine = recording::machine(log)?;
    let (mut chip, mut sampler) = (Chip::power_on(machine), Sampler::default());
    let mut samples = Vec::new();
    for item in recording::items(log)? {
        match item {
            Item::Wait(count) => {
                for _ in 0..count {
                    chip.clock(memory);
                    samples.extend(sampler.hear(machine, rate, chip.level()));
                }
            }
            Item::Write(register, value) => chip.write(register, value),
            Item::Read => drop(chip.read_status()),
        }
    }
    Ok(samples)
}

/// How many samples so many clocks have: those n with floor((n + 1) x f / rate) at most the clocks, which are those with (n + 1) x f
/// below (clocks + 1) x rate.
pub fn count(machine: Machine, rate: u64, clocks: u64) -> u64 {
    ((clocks + 1) * rate).div_ceil(machine.clocks_a_second()) - 1
}

/// The bytes before so many samples. Of a size past 32 bits the low 32 stand there.
pub fn head(rate: u32, count: u32) -> Vec<u8> {
    let low = |number: u64| (number as u32).to_le_bytes();
    let (rate, size) = (u64::from(rate), 2 * u64::from(count));
    let mut head = Vec::with_capacity(HEAD);
    head.extend(b"RIFF");
    head.extend(low(36 + size));
    head.extend(b"WAVEfmt ");
    head.extend(low(16));
    // PCM, one channel.
    head.extend([1u16, 1].map(u16::to_le_bytes).concat());
    head.extend([rate, 2 * rate].map(low).concat());
    // Two bytes a sample of all channels, 16 bits of each.
    head.extend([2u16, 16].map(u16::to_le_bytes).concat());
    head.extend(b"data");
    head.extend(low(size));
    head
}

/// All that `perch wav` writes for a log.
pub fn file(log: &[u8], memory: &[u8], rate: u64) -> Vec<u8> {
    let samples = match samples(log, memory, rate) {
        Ok(samples) => samples,
        Err(fault) => return format!("refused={}:{}\n", fault.number, fault.place).into_bytes(),
    };
    let mut file = head(rate as u32, samples.len() as u32);
    file.extend(samples.iter().flat_map(|sample| sample.to_le_bytes()));
    file
}
