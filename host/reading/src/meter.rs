//! Request 11: a meter for a stretch of levels.

use crate::chip::Chip;
use crate::log::{Fault, Item};
use crate::{number, play, recording};
use std::fmt::Write;

/// The highest level there is.
pub const MOST: u32 = 32_767;

/// What a caller in C is answered: 2^8 x case + 2^16 x lowest + 2^32 x highest. The case is 0 for no levels, 1 where all
/// are 0, 2 where all are equal and not 0, and 3 for anything else.
pub fn meter(levels: &[u32]) -> u64 {
    if levels.iter().any(|level| *level > MOST) {
        return number::LEVEL.into();
    }
    let (Some(&lowest), Some(&highest)) = (levels.iter().min(), levels.iter().max()) else {
        return 0;
    };
    let case = match (lowest, highest) {
        (0, 0) => 1,
        _ if lowest == highest => 2,
        _ => 3,
    };
    case << 8 | u64::from(lowest) << 16 | u64::from(highest) << 32
}

/// The same over the levels of `count` records from record `start` on, those that are there; the level before comes first,
/// if it is below 2^32. A record is two words, its clock and its level.
pub fn meter_records(words: &[u32], start: u64, count: u64, before: u64) -> u64 {
    let records = words.chunks_exact(2).map(|record| record[1]).zip(0u64..);
    let asked = records.filter(|(_, k)| *k >= start && k - start < count).map(|(level, _)| level);
    let levels: Vec<u32> = u32::try_from(before).into_iter().chain(asked).collect();
    meter(&levels)
}

/// The lowest and the highest of some levels, one at least.
#[derive(Clone, Copy)]
struct Range {
    lowest: u16,
    highest: u16,
}

impl Range {
    fn of(level: u16) -> Self {
        Self { lowest: level, highest: level }
    }

    fn add(&mut self, level: u16) {
        *self = Self { lowest: self.lowest.min(level), highest: self.highest.max(level) };
    }

    /// Its words: the case, the lowest and the highest.
    fn words(self) -> String {
        match self {
            Self { highest: 0, .. } => "silent".into(),
            Self { lowest, highest } if lowest == highest => format!("steady:{lowest}"),
            Self { lowest, highest } => format!("moving:{lowest}:{highest}"),
        }
    }
}

/// The levels of a recording, and a line for each of its waits. Of one with more clocks only so many, and what is left of the last wait,
/// are worked.
fn metered(log: &[u8], memory: &[u8], most: u64) -> Result<(Range, String), Fault> {
    play::check(log, memory)?;
    let mut chip = Chip::power_on(recording::machine(log)?);
    let (mut time, mut waits, mut all) = (0, String::new(), Range::of(chip.level()));
    for item in recording::items(log)? {
        match item {
            Item::Wait(clocks) => {
                let mut here = Range::of(chip.level());
                for _ in 0..clocks {
                    chip.clock(memory);
                    here.add(chip.level());
                }
                let _ = writeln!(waits, "wait={time}:{clocks}:{}", here.words());
                time += u64::from(clocks);
                all.add(here.lowest);
                all.add(here.highest);
            }
            Item::Write(register, value) => chip.write(register, value),
            Item::Read => drop(chip.read_status()),
        }
        all.add(chip.level());
        if time >= most {
            break;
        }
    }
    Ok((all, waits))
}

/// All that `perch meter` writes for a recording, of so many clocks at most, with a line for each wait where they are asked for.
pub fn text(log: &[u8], memory: &[u8], each: bool, most: u64) -> String {
    match metered(log, memory, most) {
        Ok((all, waits)) => format!("meter=1\nall={}\n{}", all.words(), if each { &waits } else { "" }),
        Err(fault) => play::refusal(fault).replace("play=1", "meter=1"),
    }
}
