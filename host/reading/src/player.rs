//! The log's operations and the player in pieces, on bytes and numbers: what a caller in C is answered.
//!
//! An answer about a log is number + 2^8 x place + 2^32 x value. A player is bytes, which the caller keeps between two
//! pieces; how full a piece gets is free, and here it takes as many lines as fit.

use crate::chip::Chip;
use crate::cursor::Step;
pub use crate::layout::player::SIZE;
use crate::layout::player::{CURSOR, LAST, PHASE, STATE, TIME, WAIT};
use crate::log::{self, Fault, Item};
use crate::machine::Machine;
use crate::plain::plain;
use crate::recording::{self, Place};
use crate::{MEMORY, MOST_CLOCKS, number, play};

/// A refusal; of a place the low 24 bits.
pub(crate) fn refused(fault: Fault) -> u64 {
    u64::from(fault.number) | (fault.place as u64 & 0xff_ffff) << 8
}

fn answer<T>(result: Result<T, Fault>, value: impl FnOnce(T) -> u64) -> u64 {
    result.map_or_else(refused, |done| value(done) << 32)
}

/// The clocks in all, and 2^31 x the machine.
pub fn check(log: &[u8]) -> u64 {
    let checked = log::check(log).and_then(|totals| Ok((totals.clocks as u64, log::machine(log)?)));
    answer(checked, |(clocks, machine)| clocks | (machine as u64) << 31)
}

/// The turns in all.
pub fn turns(log: &[u8]) -> u64 {
    answer(log::check(log), |totals| totals.turns as u64)
}

/// How many items the log stands for.
pub fn items(log: &[u8]) -> u64 {
    answer(log::check(log), |totals| totals.items as u64)
}

/// An item as a number: 2^24 and the clocks of a wait; 2 x 2^24, 256 x register and the value of a write; 3 x 2^24 for a
/// read.
pub fn held(item: Item) -> u64 {
    match item {
        Item::Wait(clocks) => 1 << 24 | u64::from(clocks),
        Item::Write(register, value) => 2 << 24 | u64::from(register) << 8 | u64::from(value),
        Item::Read => 3 << 24,
    }
}

/// Item k.
pub fn item(log: &[u8], k: u64) -> u64 {
    answer(log::item(log, k), held)
}

/// The body of a loop: where it starts, and 2^16 x its length.
pub fn body(log: &[u8], offset: u64) -> u64 {
    answer(log::body(log, offset), |part| part.start as u64 | (part.len() as u64) << 16)
}

/// A player, one small turn at a time. One that its log didn't lead to turns as crates/play_rules/specs/Turns.antt defines it.
#[derive(Clone, Copy, Debug, PartialEq, Eq)]
pub struct Player {
    /// Where it stands in the recording.
    pub place: Place,
    /// 0: `play=1` is due; 1: the first level; 2: what the log says; above: all is over.
    pub phase: u8,
    /// Clocks left of a wait under way.
    pub wait: u32,
    /// The time in clocks.
    pub time: u32,
    /// The level last written.
    pub last: u16,
    /// The chip's state.
    pub chip: Chip,
}

/// What a turn says.
#[derive(Clone, Debug, PartialEq, Eq)]
pub enum Said {
    /// Nothing.
    Nothing,
    /// A line, with its line feed.
    Line(String),
    /// That all is over; the player stays.
    Over,
    /// A refusal; the player stays.
    Refused(Fault),
}

/// The latest time to which a wait may lead.
pub(crate) const LATEST: u64 = 2_000_000_000;

impl Player {
    fn first(machine: Machine) -> Self {
        Self { place: Place::default(), phase: 0, wait: 0, time: 0, last: 0, chip: Chip::power_on(machine) }
    }

    /// The player as bytes.
    pub fn encode(&self) -> [u8; SIZE] {
        let mut bytes = [0; SIZE];
        PHASE.put(&mut bytes, self.phase.into());
        WAIT.put(&mut bytes, self.wait.into());
        TIME.put(&mut bytes, self.time.into());
        LAST.put(&mut bytes, self.last.into());
        STATE.of_mut(&mut bytes).copy_from_slice(&self.chip.encode());
        CURSOR.of_mut(&mut bytes).copy_from_slice(&self.place.encode());
        bytes
    }

    /// The player that the bytes are; none where they are of another length or their state isn't in range.
    pub fn decode(bytes: &[u8]) -> Option<Self> {
        if bytes.len() != SIZE {
            return None;
        }
        Some(Self {
            place: Place::decode(CURSOR.of(bytes)),
            phase: PHASE.get(bytes) as u8,
            wait: WAIT.get(bytes) as u32,
            time: TIME.get(bytes) as u32,
            last: LAST.get(bytes) as u16,
            chip: Chip::decode(STATE.of(bytes))?,
        })
    }

    /// The level's line, which is the last written from now on.
    fn level(&mut self, level: u16) -> Said {
        self.last = level;
        Said::Line(format!("level={}:{level}\n", self.time))
    }

    /// One turn.
    pub fn turn(&mut self, log: &[u8], memory: &[u8]) -> Said {
        match self.phase {
            0 => {
                self.phase = 1;
                Said::Line("play=1\n".into())
            }
            1 => {
                self.phase = 2;
                self.level(self.chip.level())
            }
            2 if self.wait == 0 => self.follow(log),
            2 => self.go_on(memory),
            _ => Said::Over,
        }
    }

    /// The line or the command that it comes to.
    fn follow(&mut self, log: &[u8]) -> Said {
        match self.place.step(log) {
            Err(fault) => return Said::Refused(fault),
            Ok(Step::Moved) => {}
            Ok(Step::End) => {
                self.phase = 3;
                return Said::Line(format!("stop={}\n", self.time));
            }
            Ok(Step::Item(Item::Wait(clocks))) => self.wait = clocks,
            Ok(Step::Item(Item::Write(register, value))) => {
                self.chip.write(register, value);
                let level = self.chip.level();
                if level != self.last {
                    return self.level(level);
                }
            }
            // It leaves the level.
            Ok(Step::Item(Item::Read)) => {
                return Said::Line(format!("read={}:{:02x}\n", self.time, self.chip.read_status()));
            }
        }
        Said::Nothing
    }

    /// The wait up to its next line but one, or its end: a run with room for one record.
    fn go_on(&mut self, memory: &[u8]) -> Said {
        let refused = |number| Said::Refused(Fault { number, place: 0 });
        if u64::from(self.wait) > MOST_CLOCKS {
            return refused(number::CLOCKS);
        }
        if u64::from(self.time) + u64::from(self.wait) > LATEST {
            return refused(number::TOTALS);
        }
        let (ran, begun) = (plain(self.chip, memory, self.wait.into(), 1, [0; 128]), self.time);
        self.chip = ran.chip;
        self.wait -= ran.done as u32;
        self.time += ran.done as u32;
        let Some(record) = ran.records.first() else {
            return Said::Nothing;
        };
        self.last = record.level;
        Said::Line(format!("level={}:{}\n", u64::from(begun) + record.clock, record.level))
    }
}

/// Makes the bytes a player of the recording's machine that has written nothing. Refused: 1, 2 (a player of another length), then the log's.
pub fn begin(player: &mut [u8], log: &[u8], memory: &[u8]) -> u64 {
    if memory.len() != MEMORY {
        return number::MEMORY.into();
    }
    if player.len() != SIZE {
        return number::STATE.into();
    }
    answer(recording::machine(log), |machine| {
        player.copy_from_slice(&Player::first(machine).encode());
        0
    })
}

/// So many turns in a row that say nothing end a piece; a log that passes has fewer.
pub const MOST_SILENT: u64 = 4_000_010;

/// The bytes of the shortest line.
const SHORTEST: usize = 7;

/// Writes the next lines to the text, as many as fit. The answer is 2^8 x over + 2^32 x bytes written; refused, that about a log.
pub fn play_on(player: &mut [u8], log: &[u8], memory: &[u8], text: &mut [u8]) -> u64 {
    if memory.len() != MEMORY {
        return number::MEMORY.into();
    }
    let Some(mut now) = Player::decode(player) else {
        return number::STATE.into();
    };
    let (mut written, mut silent) = (0, 0);
    // Behind the last line that was written.
    let mut behind = now;
    let over = loop {
        // Where the shortest line has no room the next one needn't be looked for.
        if now.phase < 3 && text.len() - written < SHORTEST {
            break false;
        }
        match now.turn(log, memory) {
            Said::Nothing => {
                silent += 1;
                if silent == MOST_SILENT {
                    behind = now;
                    break false;
                }
            }
            Said::Line(line) => {
                let Some(place) = text.get_mut(written..written + line.len()) else {
                    break false;
                };
                place.copy_from_slice(line.as_bytes());
                written += line.len();
                (behind, silent) = (now, 0);
            }
            Said::Over => break true,
            Said::Refused(fault) if written == 0 => return refused(fault),
            Said::Refused(_) => break false,
        }
    };
    player.copy_from_slice(&behind.encode());
    u64::from(over) << 8 | (written as u64) << 32
}

/// Writes the text of a refusal, of a place of more than ten digits the last ten; nothing where it doesn't fit. The answer is
/// 2^32 x bytes written.
pub fn refusal_text(number: u8, place: u64, text: &mut [u8]) -> u64 {
    let digits = place.to_string();
    let whole = play::refusal_line(number, &digits[digits.len().saturating_sub(10)..]);
    let Some(start) = text.get_mut(..whole.len()) else {
        return 0;
    };
    start.copy_from_slice(whole.as_bytes());
    (whole.len() as u64) << 32
}
