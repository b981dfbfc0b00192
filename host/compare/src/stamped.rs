//! Logs with many accesses at one clock, and clocks at the edges of logs.

use crate::logs::{damage, sounding};
use crate::machines::either;
use crate::random::Random;
use reading::log::Item;
use reading::{Machine, recording};

/// How many accesses stand at a clock of a drawn log.
const MANY: [u64; 16] = [0, 1, 1, 2, 2, 3, 3, 5, 8, 30, 200, 499, 500, 500, 501, 700];

/// Writes behind which every channel sounds: $4017 takes the triangle's counter along.
pub const SOUND: [&str; 13] = [
    "write=4015:1f",
    "write=4000:bf",
    "write=4002:1d",
    "write=4003:f8",
    "write=4004:7a",
    "write=4006:0c",
    "write=4007:f8",
    "write=4008:ff",
    "write=400b:f8",
    "write=400c:3b",
    "write=400e:01",
    "write=400f:f8",
    "write=4017:80",
];

/// Writes that are heard, or that move a flag; the status read among them.
fn access(random: &mut Random) -> String {
    let any = random.byte();
    let (register, value) = match random.within(0..=11) {
        0 | 1 => return "read=4015".into(),
        2 => (0x4011, any & 0x7f),
        3 => (0x4015, random.pick(&[0x1f, 0x0f, 0x00, 0x10, any & 0x1f])),
        4 => (0x4017, random.pick(&[0x00, 0x40, 0x80, 0xc0])),
        5 => (0x4010, random.pick(&[0x8f, 0xcf, 0x0f, any])),
        6 => (0x4013, random.pick(&[0, 1, any])),
        7 => (random.pick(&[0x4000, 0x4004, 0x400c]), 0x10 | any),
        8 => (random.pick(&[0x4003, 0x4007, 0x400b, 0x400f]), any & 0xf8),
        9 => (random.pick(&[0x4002, 0x4006, 0x400a]), any),
        10 => (0x4008, any | 0x40),
        _ => (random.within16(0x4000..=0x4013), any),
    };
    format!("write={register:04x}:{value:02x}")
}

/// So many accesses: some lines, again and again by a loop where they are many.
fn accesses(random: &mut Random, many: u64) -> Vec<String> {
    let body = if many < 30 { many.max(1) } else { random.within(3..=6) };
    let mut lines: Vec<String> = (0..body).map(|_| access(random)).collect();
    let (turns, rest) = (many / body, many % body);
    if turns > 1 {
        lines = [vec![format!("loop={turns}")], lines, vec!["done=loop".into()]].concat();
    }
    lines.extend((0..rest).map(|_| access(random)));
    if many == 0 { Vec::new() } else { lines }
}

/// Waits with accesses between them, many at one clock.
fn bursts(random: &mut Random) -> Vec<u8> {
    let (mut lines, mut clocks) = (vec!["log=1".to_string()], 0);
    if !random.one_in(3) {
        lines.extend(SOUND.map(String::from));
    }
    for _ in 0..random.within(0..=8) {
        let many = random.pick(&MANY);
        lines.extend(accesses(random, many));
        let wait = match random.within(0..=9) {
            0 => random.within(29_000..=34_000),
            1 | 2 => random.within(400..=8_000),
            3 => 1,
            _ => random.within(1..=60),
        };
        if random.one_in(8) {
            lines.extend(["loop=2".into(), format!("wait={wait}"), "done=loop".into()]);
            clocks += 2 * wait;
        } else {
            lines.push(format!("wait={wait}"));
            clocks += wait;
        }
    }
    let many = random.pick(&MANY);
    lines.extend(accesses(random, many));
    lines.push(format!("stop={clocks}\n"));
    lines.join("\n").into_bytes()
}

/// A log: with many accesses at one clock, with loops, and now and then damaged; of either machine.
pub fn log(random: &mut Random) -> Vec<u8> {
    let log = if random.one_in(3) { sounding(random) } else { bursts(random) };
    let mut log = either(random, log);
    if random.one_in(12) {
        damage(random, &mut log);
    }
    log
}

/// Where the accesses of a log stand.
pub struct Stamps {
    /// The log's machine.
    pub machine: Machine,
    /// The clocks in all.
    pub clocks: u64,
    /// The waits, unrolled: where each begins.
    pub waits: Vec<u64>,
    /// The clocks that have accesses, and how many.
    pub stamps: Vec<(u64, u64)>,
}

impl Stamps {
    /// Those of a recording that passes.
    pub fn of(log: &[u8]) -> Option<Self> {
        let mut all = Self { machine: recording::machine(log).ok()?, clocks: 0, waits: Vec::new(), stamps: Vec::new() };
        for item in recording::items(log).ok()? {
            if let Item::Wait(clocks) = item {
                all.waits.push(all.clocks);
                all.clocks += u64::from(clocks);
            } else if let Some(last) = all.stamps.last_mut().filter(|last| last.0 == all.clocks) {
                last.1 += 1;
            } else {
                all.stamps.push((all.clocks, 1));
            }
        }
        Some(all)
    }

    /// How many accesses stand at a clock.
    pub fn at(&self, clock: u64) -> u64 {
        self.stamps.iter().find(|stamp| stamp.0 == clock).map_or(0, |stamp| stamp.1)
    }

    /// A clock: 0, one that has accesses or is beside it, any, the last, one past it, the highest that may be asked for.
    pub fn clock(&self, random: &mut Random) -> u64 {
        let any = random.within(0..=self.clocks);
        let beside =
            |random: &mut Random| (random.pick(&self.stamps).0 + random.pick(&[0, 0, 0, 1, 2])).saturating_sub(1);
        match random.within(0..=9) {
            0 | 1 => 0,
            2..=5 if !self.stamps.is_empty() => beside(random),
            6 => random.pick(&[self.clocks, self.clocks.saturating_sub(1), any]),
            7 if random.one_in(2) => random.pick(&[self.clocks + 1, self.clocks + 1000, 2_000_000_000]),
            _ => any,
        }
    }
}
