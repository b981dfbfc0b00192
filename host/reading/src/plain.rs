//! The plain reading: every clock worked in order, a record for each clock that changes the level.

use crate::chip::Chip;

/// A clock that left the level other than it was.
#[derive(Clone, Copy, Debug, PartialEq, Eq)]
pub struct Record {
    /// The clock's number, from 1.
    pub clock: u64,
    /// The level after it.
    pub level: u16,
}

/// After how many clocks the DMC level stood at each of its values.
pub type Dwell = [u32; 128];

/// The most that a count may be.
pub const MOST_COUNT: u32 = 4_000_000_000;

/// What a plain reading comes to.
#[derive(Clone, Debug, PartialEq, Eq)]
pub struct Plain {
    /// The state after the clocks done.
    pub chip: Chip,
    /// The clocks done: the count, or fewer where a record had no room or a count was full.
    pub done: u64,
    /// The records in order.
    pub records: Vec<Record>,
    /// The counts after the clocks done.
    pub dwell: Dwell,
}

/// Works `count` clocks, or those before the first that needs a record with `room` records made or whose count would pass
/// the most.
pub fn plain(chip: Chip, memory: &[u8], count: u64, room: u64, dwell: Dwell) -> Plain {
    let mut now = Plain { chip, done: 0, records: Vec::new(), dwell };
    let mut outputs = chip.outputs();
    let mut level = outputs.level();
    while now.done < count {
        // The clock is taken back where it needs a record and there is no room, and where its count is full.
        let state = now.chip;
        let before = (now.records.len() as u64 == room).then_some(state);
        now.chip.clock(memory);
        let place = usize::from(now.chip.dmc.level);
        if now.dwell[place] == MOST_COUNT {
            now.chip = state;
            break;
        }
        // Equal outputs mix to an equal level.
        if now.chip.outputs() != outputs {
            outputs = now.chip.outputs();
            if outputs.level() != level {
                if let Some(chip) = before {
                    now.chip = chip;
                    break;
                }
                level = outputs.level();
                now.records.push(Record { clock: now.done + 1, level });
            }
        }
        now.dwell[place] += 1;
        now.done += 1;
    }
    now
}
