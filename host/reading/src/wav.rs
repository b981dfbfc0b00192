//! A recording as a WAV file in pieces, on bytes and numbers: what a caller in C is answered.
//!
//! A file under way is bytes, which the caller keeps between two pieces. What becomes of one that its log didn't lead to is the
//! library's choice, as crates/play_samples/specs/Stepping.antt and crates/wav_rules/specs/Turns.antt define it.

use crate::chip::Chip;
use crate::cursor::Step;
pub use crate::layout::wav::SIZE;
use crate::layout::wav::{BEGUN, COUNT, CURSOR, LEFT, RATE, SAMPLE, STATE, SUM, TIME};
use crate::log::{Fault, Item};
use crate::machine::Machine;
use crate::player::{LATEST, MOST_SILENT, refused};
use crate::recording::{self, Place};
use crate::wave::{self, HEAD, RATES, Sampler};
use crate::{MEMORY, MOST_CLOCKS, number};

/// The most that a clock is taken to have added to a sum.
const MOST_LEVEL: u64 = 65_535;

/// A file under way.
#[derive(Clone, Copy, Debug, PartialEq, Eq)]
pub struct Wav {
    /// Whether its head is written.
    pub begun: bool,
    /// Samples a second.
    pub rate: u32,
    /// The samples in all.
    pub count: u32,
    /// Clocks left of a wait under way.
    pub left: u32,
    /// The clocks done and the sample under way.
    pub sampler: Sampler,
    /// Where it stands in the recording.
    pub place: Place,
    /// The chip's state.
    pub chip: Chip,
}

/// What a turn says.
#[derive(Clone, Copy, Debug, PartialEq, Eq)]
pub enum Said {
    /// Nothing.
    Nothing,
    /// A sample.
    Sample(u16),
    /// That all is over; the file stays.
    Over,
    /// A refusal; the file stays.
    Refused(Fault),
}

impl Wav {
    fn first(machine: Machine, rate: u32, count: u32) -> Self {
        Self {
            begun: false,
            rate,
            count,
            left: 0,
            sampler: Sampler::default(),
            place: Place::default(),
            chip: Chip::power_on(machine),
        }
    }

    /// The file under way as bytes.
    pub fn encode(&self) -> [u8; SIZE] {
        let mut bytes = [0; SIZE];
        BEGUN.put(&mut bytes, self.begun.into());
        RATE.put(&mut bytes, self.rate.into());
        COUNT.put(&mut bytes, self.count.into());
        LEFT.put(&mut bytes, self.left.into());
        SAMPLE.put(&mut bytes, self.sampler.sample);
        SUM.put(&mut bytes, self.sampler.sum);
        TIME.put(&mut bytes, self.sampler.clock);
        CURSOR.of_mut(&mut bytes).copy_from_slice(&self.place.encode());
        STATE.of_mut(&mut bytes).copy_from_slice(&self.chip.encode());
        bytes
    }

    /// The file under way that the bytes are; none where they are of another length, their flag is above 1 or their state isn't in range.
    pub fn decode(bytes: &[u8]) -> Option<Self> {
        if bytes.len() != SIZE || BEGUN.get(bytes) > 1 {
            return None;
        }
        Some(Self {
            begun: BEGUN.get(bytes) == 1,
            rate: RATE.get(bytes) as u32,
            count: COUNT.get(bytes) as u32,
            left: LEFT.get(bytes) as u32,
            sampler: Sampler { clock: TIME.get(bytes), sample: SAMPLE.get(bytes), sum: SUM.get(bytes) },
            place: Place::decode(CURSOR.of(bytes)),
            chip: Chip::decode(STATE.of(bytes))?,
        })
    }

    /// The most that its sum may be; none where the clock isn't the sample's.
    pub fn most_sum(&self) -> Option<u64> {
        let (before, last) = self.sampler.bounds(self.chip.machine, self.rate.into());
        (before..last).contains(&self.sampler.clock).then(|| MOST_LEVEL * (self.sampler.clock - before))
    }

    /// What refuses it whatever its log is: its wait, its time, its rate, then its sample and its sum.
    pub fn refusal(&self) -> Option<Fault> {
        let Sampler { clock, sum, .. } = self.sampler;
        let number = if u64::from(self.left) > MOST_CLOCKS {
            number::CLOCKS
        } else if clock.saturating_add(self.left.into()) > LATEST {
            number::TOTALS
        } else if !RATES.contains(&self.rate.into()) {
            number::RATE
        } else if self.most_sum().is_none_or(|most| sum > most) {
            number::STATE
        } else {
            return None;
        };
        Some(Fault { number, place: 0 })
    }

    /// One turn behind the head: a line of the log, or one clock of a wait.
    pub fn turn(&mut self, log: &[u8], memory: &[u8]) -> Said {
        if let Some(fault) = self.refusal() {
            return Said::Refused(fault);
        }
        if self.left == 0 {
            return self.follow(log);
        }
        self.left -= 1;
        self.chip.clock(memory);
        let sample = self.sampler.hear(self.chip.machine, self.rate.into(), self.chip.level());
        sample.map_or(Said::Nothing, Said::Sample)
    }

    /// The line or the command that it comes to.
    fn follow(&mut self, log: &[u8]) -> Said {
        match self.place.step(log) {
            Err(fault) => return Said::Refused(fault),
            Ok(Step::End) => return Said::Over,
            Ok(Step::Moved) => {}
            Ok(Step::Item(Item::Wait(clocks))) => self.left = clocks,
            Ok(Step::Item(Item::Write(register, value))) => self.chip.write(register, value),
            Ok(Step::Item(Item::Read)) => drop(self.chip.read_status()),
        }
        Said::Nothing
    }
}

/// Makes the bytes a file at its beginning: 2^32 x its size in bytes. Refused: 1, 2 (bytes of another length), the log's, then 33.
pub fn begin(wav: &mut [u8], log: &[u8], memory: &[u8], rate: u32) -> u64 {
    if memory.len() != MEMORY {
        return number::MEMORY.into();
    }
    if wav.len() != SIZE {
        return number::STATE.into();
    }
    let (machine, totals) = match recording::check(log).and_then(|totals| Ok((recording::machine(log)?, totals))) {
        Ok(checked) => checked,
        Err(fault) => return refused(fault),
    };
    if !RATES.contains(&rate.into()) {
        return number::RATE.into();
    }
    let count = wave::count(machine, rate.into(), totals.clocks as u64);
    wav.copy_from_slice(&Wav::first(machine, rate, count as u32).encode());
    (HEAD as u64 + 2 * count) << 32
}

/// Writes the head, or as many samples as fit. The answer is 2^8 x over + 2^32 x bytes written; refused, that about a log.
pub fn wav_on(wav: &mut [u8], log: &[u8], memory: &[u8], out: &mut [u8]) -> u64 {
    if memory.len() != MEMORY {
        return number::MEMORY.into();
    }
    let Some(mut now) = Wav::decode(wav) else {
        return number::STATE.into();
    };
    if let Some(fault) = now.refusal() {
        return refused(fault);
    }
    let piece = if now.begun { sound(&mut now, log, memory, out) } else { Ok(headed(&mut now, out)) };
    piece.map_or_else(refused, |(written, over)| {
        wav.copy_from_slice(&now.encode());
        u64::from(over) << 8 | (written as u64) << 32
    })
}

/// The head, where it has room: how many bytes are written, and that it isn't over.
fn headed(now: &mut Wav, out: &mut [u8]) -> (usize, bool) {
    let Some(front) = out.get_mut(..HEAD) else {
        return (0, false);
    };
    front.copy_from_slice(&wave::head(now.rate, now.count));
    now.begun = true;
    (HEAD, false)
}

/// Samples, as many as fit: how many bytes are written, and whether it is over. A refusal before any sample refuses all.
fn sound(now: &mut Wav, log: &[u8], memory: &[u8], out: &mut [u8]) -> Result<(usize, bool), Fault> {
    let (mut written, mut silent) = (0, 0);
    while let Some(room) = out.get_mut(written..written + 2) {
        match now.turn(log, memory) {
            Said::Nothing => silent += 1,
            Said::Sample(sample) => {
                room.copy_from_slice(&sample.to_le_bytes());
                (written, silent) = (written + 2, 0);
            }
            Said::Over => return Ok((written, true)),
            Said::Refused(fault) if written == 0 => return Err(fault),
            Said::Refused(_) => break,
        }
        if silent == MOST_SILENT {
            break;
        }
    }
    Ok((written, false))
}
