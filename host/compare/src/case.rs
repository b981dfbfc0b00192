//! A case: a first state, sample memory, lent words and what is done with them; and its text, with the answers that the
//! reading gives. README.md of this folder describes the text.

use reading::MEMORY;
use std::fmt::Write;

/// Sample memory by a rule: x starts as `start`; for each byte x becomes x * `times` + `plus` modulo 65,536, and the
/// byte is x / 256.
#[derive(Clone, Copy, Debug, PartialEq, Eq)]
pub struct Memory {
    /// x before the first byte.
    pub start: u16,
    /// The factor.
    pub times: u16,
    /// The term.
    pub plus: u16,
}

/// The most bytes that a case lends as sample memory.
pub const MOST_MEMORY: usize = MEMORY + 1;

impl Memory {
    /// The first `MOST_MEMORY` bytes.
    pub fn bytes(&self) -> Vec<u8> {
        let mut x = self.start;
        let byte = |_| {
            x = x.wrapping_mul(self.times).wrapping_add(self.plus);
            (x >> 8) as u8
        };
        (0..MOST_MEMORY).map(byte).collect()
    }
}

/// The sample memory that logs are played with.
pub fn sample(seed: u64) -> Vec<u8> {
    let mut memory = Memory { start: seed as u16, times: 25173, plus: 13849 }.bytes();
    memory.truncate(MEMORY);
    memory
}

/// One operation of a case.
#[derive(Clone, Copy, Debug, PartialEq, Eq)]
pub enum Op {
    /// A run of `count` clocks with the first `memory` bytes.
    Run {
        /// Bytes of sample memory.
        memory: usize,
        /// Clocks.
        count: u64,
    },
    /// One clock with the first `memory` bytes.
    Clock {
        /// Bytes of sample memory.
        memory: usize,
    },
    /// A write of a register.
    Write {
        /// The register.
        register: u16,
        /// The value.
        value: u8,
    },
    /// A read of $4015.
    Read,
    /// The interrupt line.
    Line,
    /// The level, and the level as a float.
    Level,
    /// When the line is asserted next, or a flag set, within `count` clocks with the first `memory` bytes.
    Next {
        /// Bytes of sample memory.
        memory: usize,
        /// Clocks.
        count: u64,
        /// What is asked for: 1 the frame's flag, 2 the DMC's, any other number the line.
        which: u8,
    },
}

/// The most bytes that a case lends as a state.
pub const MOST_STATE: usize = reading::bytes::SIZE + 1;

/// What every lent word holds at first.
pub const FILL: u32 = 0xa5a5_a5a5;

/// A case.
#[derive(Clone, Debug, PartialEq, Eq)]
pub struct Case {
    /// Sample memory.
    pub memory: Memory,
    /// The first state's bytes, at most `MOST_STATE`.
    pub state: Vec<u8>,
    /// How many words are lent; a run gets those behind the records so far.
    pub words: usize,
    /// What is done, in order.
    pub ops: Vec<Op>,
}

/// What a case comes to: the answer of each operation, and what was lent as it is at the end.
#[derive(Clone, Debug, PartialEq, Eq)]
pub struct Outcome {
    /// Number + 256 x value; of a run number + 2^8 x clocks done + 2^32 x records; of an access number + 2^8 x byte + 2^16 x
    /// level + 2^32 x differs; of the next interrupt number + 2^8 x found + 2^32 x clocks.
    pub answers: Vec<u64>,
    /// The state's bytes.
    pub state: Vec<u8>,
    /// The sum of all lent words, see `sum`.
    pub sum: u32,
}

/// The sum of words: from 0, for each word, 31 times what was plus the word, modulo 2^32.
pub fn sum(words: &[u32]) -> u32 {
    words.iter().fold(0, |sum: u32, word| sum.wrapping_mul(31).wrapping_add(*word))
}

fn hex(bytes: &[u8]) -> String {
    let digits = bytes.iter().fold(String::new(), |text, byte| text + &format!("{byte:02x}"));
    format!("{digits:0<width$}", width = 2 * MOST_STATE)
}

/// A case's text.
pub fn text(case: &Case, outcome: &Outcome) -> String {
    let Memory { start, times, plus } = case.memory;
    let length = case.state.len();
    let mut text =
        format!("B {start:04x} {times:04x} {plus:04x} {:06x} {length:02x} {}\n", case.words, hex(&case.state));
    for (op, answer) in case.ops.iter().zip(&outcome.answers) {
        let (number, value) = (answer & 0xff, answer >> 8);
        // Of an access.
        let (byte, level, differs) = (value & 0xff, value >> 8 & 0xffff, value >> 24);
        let _ = match op {
            Op::Run { memory, count } => {
                let (done, records) = (value & 0xff_ffff, value >> 24);
                writeln!(text, "N {memory:04x} {count:016x} {number:02x} {done:06x} {records:06x}")
            }
            Op::Clock { memory } => writeln!(text, "C {memory:04x} {number:02x}"),
            Op::Write { register, value } => {
                writeln!(text, "W {register:04x} {value:02x} {number:02x} {level:04x} {differs:02x}")
            }
            Op::Read => writeln!(text, "R {number:02x} {byte:02x} {level:04x} {differs:02x}"),
            Op::Line => writeln!(text, "I {number:02x} {value:02x}"),
            Op::Level => writeln!(text, "V {number:02x} {value:04x}"),
            Op::Next { memory, count, which } => {
                let (found, clocks) = (value & 0xff_ffff, value >> 24);
                writeln!(text, "Q {memory:04x} {count:016x} {which:02x} {number:02x} {found:02x} {clocks:08x}")
            }
        };
    }
    let _ = writeln!(text, "E {:08x} {}", outcome.sum, hex(&outcome.state));
    text
}

/// The cases of a text.
pub fn parse(text: &str) -> Option<Vec<(Case, Outcome)>> {
    let mut cases: Vec<(Case, Outcome)> = Vec::new();
    for line in text.lines() {
        let mut fields = line.split(' ');
        let key = fields.next()?;
        let fields: Vec<&str> = fields.collect();
        let number = |place: usize| u64::from_str_radix(fields.get(place)?, 16).ok();
        let short = |place: usize| number(place)?.try_into().ok();
        let bytes = |place: usize, length: usize| -> Option<Vec<u8>> {
            let digits = fields.get(place)?;
            (0..length).map(|i| u8::from_str_radix(digits.get(2 * i..2 * i + 2)?, 16).ok()).collect()
        };
        if key == "B" {
            let memory = Memory { start: short(0)?, times: short(1)?, plus: short(2)? };
            let state = bytes(5, number(4)? as usize)?;
            let case = Case { memory, state, words: number(3)? as usize, ops: Vec::new() };
            cases.push((case, Outcome { answers: Vec::new(), state: Vec::new(), sum: 0 }));
            continue;
        }
        let (case, outcome) = cases.last_mut()?;
        let simple = |place: usize| Some(number(place)? | number(place + 1)? << 8);
        let (op, answer) = match key {
            "N" => {
                let answer = number(2)? | number(3)? << 8 | number(4)? << 32;
                (Op::Run { memory: number(0)? as usize, count: number(1)? }, answer)
            }
            "C" => (Op::Clock { memory: number(0)? as usize }, number(1)?),
            "W" => {
                let answer = number(2)? | number(3)? << 16 | number(4)? << 32;
                (Op::Write { register: short(0)?, value: number(1)? as u8 }, answer)
            }
            "R" => (Op::Read, simple(0)? | number(2)? << 16 | number(3)? << 32),
            "I" => (Op::Line, simple(0)?),
            "V" => (Op::Level, simple(0)?),
            "Q" => {
                let answer = simple(3)? | number(5)? << 32;
                (Op::Next { memory: number(0)? as usize, count: number(1)?, which: number(2)? as u8 }, answer)
            }
            "E" => {
                outcome.sum = number(0)? as u32;
                outcome.state = bytes(1, case.state.len())?;
                continue;
            }
            _ => return None,
        };
        case.ops.push(op);
        outcome.answers.push(answer);
    }
    Some(cases)
}
