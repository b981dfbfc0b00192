//! A cursor: it goes through a log line by line and through a loop turn by turn, and the caller keeps it as bytes.
//!
//! What a line says, and which refusal it is, is document 01's. What a cursor does that its log didn't lead to is the
//! library's choice, as crates/log_cursor/specs/Stepping.antt defines it.

use crate::layout::cursor::{LEFT, OPEN, PLACE, SIZE, STARTS};
use crate::log::{Fault, Item, Line, MOST_BYTES, MOST_DEPTH, line_at};
use crate::number;
use crate::player::{held, refused};

/// Where a cursor stands.
#[derive(Clone, Copy, Debug, Default, PartialEq, Eq)]
pub struct Cursor {
    /// The place of the line that comes next.
    pub at: u64,
    /// How many loops it says are open.
    pub open: u64,
    /// Where their bodies start.
    pub starts: [u64; MOST_DEPTH],
    /// The turns that they have left behind this one.
    pub left: [u8; MOST_DEPTH],
}

/// What one step comes to.
#[derive(Clone, Copy, Debug, PartialEq, Eq)]
pub enum Step {
    /// A line that is no item.
    Moved,
    /// An item.
    Item(Item),
    /// The `stop` line, at which it stays.
    End,
}

impl Cursor {
    /// The cursor as bytes.
    pub fn encode(&self) -> [u8; SIZE] {
        let mut bytes = [0; SIZE];
        PLACE.put(&mut bytes, self.at);
        OPEN.put(&mut bytes, self.open);
        for i in 0..MOST_DEPTH {
            STARTS.nth(i, 8).put(&mut bytes, self.starts[i]);
            LEFT.nth(i, 1).put(&mut bytes, self.left[i].into());
        }
        bytes
    }

    /// The cursor that so many bytes are; any are one.
    pub fn decode(bytes: &[u8]) -> Self {
        Self {
            at: PLACE.get(bytes),
            open: OPEN.get(bytes),
            starts: std::array::from_fn(|i| STARTS.nth(i, 8).get(bytes)),
            left: std::array::from_fn(|i| LEFT.nth(i, 1).get(bytes) as u8),
        }
    }

    /// The loops that are open: none where it says more than eight.
    fn loops(&self) -> usize {
        if self.open <= MOST_DEPTH as u64 { self.open as usize } else { 0 }
    }

    /// One step, over one line; refused it stays.
    pub fn step(&mut self, log: &[u8]) -> Result<Step, Fault> {
        let open = self.loops();
        let (line, place) = line_at(log, self.at as usize, open)?;
        if let Line::Stop(_) = line {
            return Ok(Step::End);
        }
        self.open = open as u64;
        self.at = place.end as u64;
        match line {
            Line::Item(item) => return Ok(Step::Item(item)),
            Line::Loop(turns) => {
                self.starts[open] = self.at;
                self.left[open] = turns as u8 - 1;
                self.open += 1;
            }
            Line::Done if self.left[open - 1] == 0 => self.open -= 1,
            Line::Done => {
                self.at = self.starts[open - 1];
                self.left[open - 1] -= 1;
            }
            Line::Log | Line::Machine | Line::Stop(_) => {}
        }
        Ok(Step::Moved)
    }
}

/// So many steps in a row that come to no item end a call; a log that passes has fewer.
pub const MOST_STEPS: u64 = 2_000_002;

/// The kind that says so.
const MOVED: u64 = 4;

/// Makes the bytes a cursor at a log's beginning. Refused: 2 (they are of another length).
pub fn start(cursor: &mut [u8]) -> u64 {
    if cursor.len() != SIZE {
        return number::STATE.into();
    }
    cursor.copy_from_slice(&Cursor::default().encode());
    0
}

/// The next item, as a number; 0 at the log's end. Refused: 2, 5, then as the line that the cursor comes to.
pub fn next(cursor: &mut [u8], log: &[u8]) -> u64 {
    if cursor.len() != SIZE {
        return number::STATE.into();
    }
    if log.len() > MOST_BYTES {
        return number::LONG.into();
    }
    let mut now = Cursor::decode(cursor);
    let mut value = MOVED << 24;
    for _ in 0..MOST_STEPS {
        match now.step(log) {
            Ok(Step::Moved) => continue,
            Ok(Step::Item(item)) => value = held(item),
            Ok(Step::End) => value = 0,
            Err(fault) => return refused(fault),
        }
        break;
    }
    cursor.copy_from_slice(&now.encode());
    value << 32
}
