//! Works a case by the reading and by the library, and says where they differ.

use crate::case::{Case, FILL, MOST_MEMORY, Op, Outcome, sum};
use perch::raw;
use reading::bytes::SIZE;
use reading::{Chip, Dwell, MEMORY, MOST_CLOCKS, MOST_COUNT, Plain, boundary, plain};

/// The operations, by the reading or by the library.
struct Engine {
    name: &'static str,
    clock: fn(&mut [u8], &[u8]) -> u64,
    access: fn(&mut [u8], u8, u16, u8) -> u64,
    line: fn(&[u8]) -> u64,
    level: fn(&[u8]) -> u64,
    next: fn(&[u8], &[u8], u64, u8) -> u64,
    fraction: fn(u16) -> f32,
    run: fn(&mut [u8], &[u8], u64, &mut [u32], &mut [u32]) -> u64,
}

const READING: Engine = Engine {
    name: "the reading",
    clock: boundary::clock,
    access: reading::access::access,
    line: boundary::line,
    level: boundary::level,
    next: reading::interrupt::next_interrupt,
    fraction: reading::mixer::level_f32,
    run: boundary::run,
};

const LEAPING: Engine = Engine {
    name: "perch_run",
    clock: raw::clock,
    access: raw::access,
    line: raw::interrupt_line,
    level: raw::level,
    next: raw::next_interrupt,
    fraction: raw::level_fraction,
    run: raw::run,
};

const PLAIN: Engine = Engine { name: "perch_run_plain", run: raw::run_plain, ..LEAPING };

/// One engine at work on a case.
struct Side {
    engine: Engine,
    state: Vec<u8>,
    words: Vec<u32>,
    used: usize,
    counts: Vec<u32>,
}

/// The table that a case begins with: empty, near its limit, beyond it, or of another length.
fn table(case: &Case) -> Vec<u32> {
    let seed = u32::from(case.memory.start);
    let near = |place: u32| MOST_COUNT - (seed.wrapping_mul(40_503).wrapping_add(place * 7919) >> 3) % 60_000;
    let mut counts: Vec<u32> = (0..128).map(|place| if seed % 4 == 0 { near(place) } else { 0 }).collect();
    match seed % 64 {
        5 => counts[(seed / 64 % 128) as usize] = MOST_COUNT + 1,
        6 => counts[(seed / 64 % 128) as usize] = MOST_COUNT,
        7 => counts.truncate(127),
        9 => counts.push(0),
        _ => {}
    }
    counts
}

impl Side {
    fn new(engine: Engine, case: &Case, counts: &[u32]) -> Self {
        Self { engine, state: case.state.clone(), words: vec![FILL; case.words], used: 0, counts: counts.to_vec() }
    }

    fn act(&mut self, op: Op, memory: &[u8]) -> Result<u64, String> {
        let state = &mut self.state;
        Ok(match op {
            Op::Run { memory: length, count } => {
                let answer =
                    (self.engine.run)(state, &memory[..length], count, &mut self.words[self.used..], &mut self.counts);
                self.used += 2 * (answer >> 32) as usize;
                if self.used > self.words.len() {
                    return Err(format!("{} counts more records than there is room for", self.engine.name));
                }
                answer
            }
            Op::Clock { memory: length } => (self.engine.clock)(state, &memory[..length]),
            Op::Write { register, value } => (self.engine.access)(state, 0, register, value),
            Op::Read => (self.engine.access)(state, 1, 0x4015, 0),
            Op::Line => (self.engine.line)(state),
            Op::Level => {
                let level = (self.engine.level)(state);
                let float = (self.engine.fraction)((level >> 8) as u16);
                if float * 32768.0 != (level >> 8) as f32 || float.is_sign_negative() {
                    return Err(format!("{}: level {level:x}, as a float {float}", self.engine.name));
                }
                level
            }
            Op::Next { memory: length, count, which } => (self.engine.next)(state, &memory[..length], count, which),
        })
    }
}

/// The runs since the last access: demand 3's list, and what it came to so far.
struct List {
    first: Vec<u8>,
    /// The first table; none where 13 refuses it.
    table: Option<Dwell>,
    used: usize,
    asked: u64,
    done: u64,
    /// For each run the records before it and the clocks done before it.
    runs: Vec<(usize, u64)>,
}

impl List {
    fn new(side: &Side) -> Self {
        let table = Dwell::try_from(&side.counts[..]).ok().filter(|table| table.iter().all(|&n| n <= MOST_COUNT));
        Self { first: side.state.clone(), table, used: side.used, asked: 0, done: 0, runs: Vec::new() }
    }

    fn ran(&mut self, used: usize, length: usize, count: u64, answer: u64) {
        if length == MEMORY && count <= MOST_CLOCKS && self.table.is_some() {
            self.asked += count;
        }
        self.runs.push(((used - self.used) / 2, self.done));
        self.done += answer >> 8 & 0xff_ffff;
    }

    /// Holds what the runs came to against one plain reading of the clocks asked for in all.
    fn check_all(&self, sides: &[Side], memory: &[u8]) -> Result<(), String> {
        let Some(chip) = Chip::decode(&self.first).filter(|_| !self.runs.is_empty()) else {
            return Ok(());
        };
        let room = (sides[0].words.len() - self.used) as u64 / 2;
        let expected = plain(chip, &memory[..MEMORY], self.asked, room, self.table.unwrap_or([0; 128]));
        sides.iter().try_for_each(|side| self.check(side, &expected))
    }

    fn check(&self, side: &Side, expected: &Plain) -> Result<(), String> {
        let lent = &side.words[self.used..];
        let name = side.engine.name;
        if side.state != expected.chip.encode() {
            return Err(format!("{name}: the list's state isn't the plain reading's"));
        }
        if self.done != expected.done {
            return Err(format!("{name}: the list did {} clocks, the plain reading {}", self.done, expected.done));
        }
        if self.table.is_some() && side.counts != expected.dwell {
            return Err(format!("{name}: the list's counts aren't the plain reading's"));
        }
        let records = (side.used - self.used) / 2;
        if records != expected.records.len() {
            let plain = expected.records.len();
            return Err(format!("{name}: the list has {records} records, the plain reading {plain}"));
        }
        let mut runs = self.runs.iter().peekable();
        let mut before = 0;
        for (i, (pair, record)) in lent.chunks_exact(2).zip(&expected.records).enumerate() {
            while let Some((_, done)) = runs.next_if(|(first, _)| *first <= i) {
                before = *done;
            }
            let clock = before + u64::from(pair[0]);
            if (clock, pair[1]) != (record.clock, record.level.into()) {
                return Err(format!("{name}: record {i} is {clock}:{}, in the plain reading {record:?}", pair[1]));
            }
        }
        Ok(())
    }
}

/// The fields in which two states differ.
fn differing(ours: &[u8], theirs: &[u8]) -> String {
    if ours.len() != SIZE || theirs.len() != SIZE {
        return format!("{ours:02x?}, {theirs:02x?}");
    }
    let mut text = String::new();
    let mut at = 0;
    let mut named = Chip::POWER_ON;
    named.fields(|name, slot| {
        let place = at..at + slot.width();
        if ours[place.clone()] != theirs[place.clone()] {
            let value = |bytes: &[u8]| bytes.iter().rev().fold(0u32, |sum, byte| sum << 8 | u32::from(*byte));
            let (ours, theirs) = (value(&ours[place.clone()]), value(&theirs[place.clone()]));
            text += &format!(" byte {at} ({name}) {ours}, {theirs};");
        }
        at = place.end;
    });
    text
}

/// What a case was made of.
#[derive(Default)]
pub struct Tally {
    /// Cases worked, and those of a PAL machine among them.
    pub cases: u64,
    /// Cases of a PAL machine.
    pub pal: u64,
    /// Runs, and refused ones among them.
    pub runs: u64,
    /// Runs that were refused.
    pub refused: u64,
    /// Runs that ended early.
    pub early: u64,
    /// Clocks done.
    pub clocks: u64,
    /// Records written.
    pub records: u64,
}

impl Tally {
    fn add(&mut self, count: u64, answer: u64) {
        self.runs += 1;
        let done = answer >> 8 & 0xff_ffff;
        if answer & 0xff != 0 {
            self.refused += 1;
        } else if done < count {
            self.early += 1;
        }
        self.clocks += done;
        self.records += answer >> 32;
    }
}

/// What the reading makes of a case.
pub fn expected(case: &Case) -> Outcome {
    let memory = case.memory.bytes();
    let mut side = Side::new(READING, case, &[0; 128]);
    let answers = case.ops.iter().map(|op| side.act(*op, &memory).expect("the reading agrees with itself")).collect();
    Outcome { answers, state: side.state, sum: sum(&side.words) }
}

/// Works a case by the reading, by the leaping run and by the plain run; says where they differ.
pub fn judge(case: &Case, tally: &mut Tally) -> Result<(), String> {
    let memory = case.memory.bytes();
    debug_assert_eq!(memory.len(), MOST_MEMORY);
    let counts = table(case);
    let mut reading = Side::new(READING, case, &counts);
    let mut library = [Side::new(LEAPING, case, &counts), Side::new(PLAIN, case, &counts)];
    let mut list = List::new(&reading);
    tally.cases += 1;
    tally.pal += u64::from(case.state.get(SIZE - 1) == Some(&1));
    for (i, op) in case.ops.iter().copied().enumerate() {
        if matches!(op, Op::Clock { .. } | Op::Write { .. } | Op::Read) {
            list.check_all(&library, &memory)?;
        }
        let before = reading.used;
        let ours = reading.act(op, &memory)?;
        for side in &mut library {
            let name = side.engine.name;
            let theirs = side.act(op, &memory)?;
            if ours != theirs {
                return Err(format!("operation {i}, {op:?}: the reading answers {ours:#x}, {name} {theirs:#x}"));
            }
            if reading.state != side.state {
                let fields = differing(&reading.state, &side.state);
                return Err(format!("operation {i}, {op:?}: after the reading, after {name}:{fields}"));
            }
            if reading.counts != side.counts {
                let at = (0..128).find(|&j| reading.counts.get(j) != side.counts.get(j)).unwrap_or(0);
                return Err(format!("operation {i}, {op:?}: count {at} is another by {name} than by the reading"));
            }
            let written = before..reading.used;
            if reading.words[written.clone()] != side.words[written.clone()] {
                let at = written.clone().find(|&j| reading.words[j] != side.words[j]).unwrap_or(0);
                let (ours, theirs) = (reading.words[at], side.words[at]);
                return Err(format!("operation {i}, {op:?}: word {at} is {ours} by the reading, {theirs} by {name}"));
            }
        }
        match op {
            Op::Run { memory: length, count } => {
                tally.add(count, ours);
                list.ran(before, length, count, ours);
            }
            Op::Line | Op::Level | Op::Next { .. } => {}
            Op::Clock { .. } | Op::Write { .. } | Op::Read => list = List::new(&reading),
        }
    }
    list.check_all(&library, &memory)?;
    for side in &library {
        if reading.words != side.words {
            let at = (0..case.words).find(|&j| reading.words[j] != side.words[j]).unwrap_or(0);
            let (ours, theirs) = (reading.words[at], side.words[at]);
            let name = side.engine.name;
            return Err(format!("at the end word {at} is {ours:#x} by the reading, {theirs:#x} by {name}"));
        }
    }
    Ok(())
}

/// Works a case by the library alone and holds it to a stored outcome.
pub fn holds(case: &Case, outcome: &Outcome) -> Result<(), String> {
    let memory = case.memory.bytes();
    for engine in [LEAPING, PLAIN] {
        let mut side = Side::new(engine, case, &[0; 128]);
        for (op, expected) in case.ops.iter().zip(&outcome.answers) {
            let answer = side.act(*op, &memory)?;
            if answer != *expected {
                return Err(format!("{op:?}: {expected:#x} is stored, {} answers {answer:#x}", side.engine.name));
            }
        }
        if side.state != outcome.state {
            let fields = differing(&outcome.state, &side.state);
            return Err(format!("as stored, after {}:{fields}", side.engine.name));
        }
        if sum(&side.words) != outcome.sum {
            return Err(format!("the words after {} have another sum than is stored", side.engine.name));
        }
    }
    Ok(())
}
