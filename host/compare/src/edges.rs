//! `perch interrupts` on logs drawn near the edges of the frame's flag and of the DMC's: waits that end a clock before, at and
//! behind a rise, accesses that clear there, samples of 1 and 17 bytes, looping or not.

use crate::case::sample;
use crate::counts::Counts;
use crate::program::{Program, same_text};
use crate::random::Random;
use reading::interrupt::next;
use reading::log::Item;
use reading::{Chip, Machine, flags};

/// The clocks that a log has at least, before its last lines.
const FEWEST_CLOCKS: u64 = 100_000;

/// What is counted, with the fewest in 300 logs.
const THINGS: [(&str, u64); 18] = [
    ("pal", 50),
    ("frame rises", 300),
    ("dmc rises", 300),
    ("both rise at one clock", 10),
    ("line rises", 300),
    ("line stays as one falls", 50),
    ("frame falls by a read", 50),
    ("frame falls by $4017", 10),
    ("dmc falls by $4010", 20),
    ("dmc falls by $4015", 50),
    ("falls at its rise", 50),
    ("falls a clock behind its rise", 10),
    ("read a clock before a rise", 10),
    ("sample starts again", 10),
    ("in a loop's later turn", 50),
    ("stops at a rise", 10),
    ("stops a clock before a rise", 10),
    ("refused", 2),
];

/// A log on its way: its lines, and the state that they lead to.
struct Draft<'a> {
    memory: &'a [u8],
    chip: Chip,
    last: u16,
    lines: Vec<String>,
    clocks: u64,
    /// When each flag rose last.
    rose: [u64; 2],
    later_turn: bool,
}

/// The frame's flag and the DMC's.
fn both(chip: &Chip) -> [bool; 2] {
    [chip.frame.interrupt, chip.dmc.interrupt]
}

impl Draft<'_> {
    /// One clock or one access, and what comes of it.
    fn one(&mut self, item: Item, counts: &mut Counts) {
        let (before, remaining) = (both(&self.chip), self.chip.dmc.remaining);
        match item {
            Item::Wait(_) => {
                self.chip.clock(self.memory);
                self.clocks += 1;
            }
            Item::Write(register, value) => self.chip.write(register, value),
            Item::Read => drop(self.chip.read_status()),
        }
        let after = both(&self.chip);
        let again = matches!(item, Item::Wait(_)) && remaining == 1 && self.chip.dmc.remaining > 1;
        counts.add_if(again && self.chip.dmc.interrupt_enable, "sample starts again");
        let clocks = self.clocks;
        for (i, name) in ["frame", "dmc"].into_iter().enumerate() {
            if before[i] == after[i] {
                continue;
            }
            counts.add_if(self.later_turn, "in a loop's later turn");
            if after[i] {
                self.rose[i] = clocks;
                counts.add(&format!("{name} rises"));
            } else {
                let by = match item {
                    Item::Write(register, _) => format!("${register:04x}"),
                    _ => "a read".into(),
                };
                counts.add(&format!("{name} falls by {by}"));
                counts.add_if(self.rose[i] == clocks, "falls at its rise");
                counts.add_if(self.rose[i] + 1 == clocks, "falls a clock behind its rise");
                counts.add_if(after[1 - i], "line stays as one falls");
            }
        }
        counts.add_if(before == [false; 2] && after == [true; 2], "both rise at one clock");
        counts.add_if(before == [false; 2] && after != [false; 2], "line rises");
        if matches!(item, Item::Read) && next(self.chip, self.memory, 1, 0) == Some(1) {
            counts.add("read a clock before a rise");
        }
    }

    fn work(&mut self, item: Item, counts: &mut Counts) {
        let times = if let Item::Wait(clocks) = item { clocks } else { 1 };
        for _ in 0..times {
            self.one(item, counts);
        }
    }

    /// A line, worked.
    fn line(&mut self, item: Item, counts: &mut Counts) {
        self.lines.push(match item {
            Item::Wait(clocks) => format!("wait={clocks}"),
            Item::Write(register, value) => format!("write={register:04x}:{value:02x}"),
            Item::Read => "read=4015".into(),
        });
        self.work(item, counts);
    }

    /// A wait to about the next rise of a flag, to a multiple of the frame's clocks, or a short one.
    fn wait(&self, random: &mut Random) -> Item {
        let rise = next(self.chip, self.memory, 70_000, random.pick(&[1, 2, 2])).filter(|k| *k > 0);
        let clocks = match (random.within(0..=5), rise) {
            (0..=3, Some(k)) => k + random.pick(&[0, 0, 0, 1, 1, 2]) - 1,
            (0..=4, _) => random.within(1..=2) * u64::from(self.last + 1) + random.within(0..=3) - 2,
            _ => random.within(1..=600),
        };
        Item::Wait(clocks.max(1) as u32)
    }

    fn access(&self, random: &mut Random) -> Item {
        let value = random.byte();
        match random.within(0..=9) {
            0..=2 => Item::Read,
            3 | 4 => Item::Write(0x4017, random.pick(&[0x00, 0x40, 0xc0, 0x80])),
            5 => Item::Write(
                0x4010,
                random.pick(&[0x80, 0x80, 0x80, 0xc0, 0x00]) | random.pick(&[0x0f, 0x0f, value & 0x0f]),
            ),
            6 => Item::Write(0x4013, random.pick(&[0, 0, 1])),
            7 => Item::Write(0x4015, 0),
            _ => Item::Write(0x4015, 0x10 | value & 0x0f),
        }
    }

    fn item(&self, random: &mut Random) -> Item {
        if random.one_in(2) { self.wait(random) } else { self.access(random) }
    }
}

/// A sample of 1 byte that is fetched at the frame's own clock: begun a clock before it with the buffer empty.
fn at_one_clock(random: &mut Random, draft: &mut Draft, counts: &mut Counts) {
    for item in
        [Item::Read, Item::Write(0x4017, 0), Item::Write(0x4015, 0), Item::Write(0x4010, 0x8f), Item::Write(0x4013, 0)]
    {
        draft.line(item, counts);
    }
    let before = draft.last - random.pick(&[1, 1, 1, 2]);
    draft.line(Item::Wait(before.into()), counts);
    draft.line(Item::Write(0x4015, 0x10), counts);
    let behind = random.pick(&[1, 1, 2]);
    draft.line(Item::Wait(behind), counts);
}

/// A sample from its start to about its end, and an access there.
fn to_its_end(random: &mut Random, draft: &mut Draft, counts: &mut Counts) {
    let rate = random.pick(&[15, 15, 14, 7, 0]);
    let flags = random.pick(&[0x80, 0x80, 0x80, 0xc0, 0x00]);
    draft.line(Item::Write(0x4010, flags | rate), counts);
    draft.line(Item::Write(0x4013, random.pick(&[0, 0, 1])), counts);
    draft.line(Item::Write(0x4015, 0x10), counts);
    let clocks = match next(draft.chip, draft.memory, 70_000, 2) {
        Some(k) => k + random.pick(&[0, 1, 1, 1, 2]) - 1,
        None => random.within(1..=8_000),
    };
    if clocks > 0 {
        draft.line(Item::Wait(clocks as u32), counts);
    }
    let ends = [Item::Read, Item::Write(0x4010, rate), Item::Write(0x4010, rate), Item::Write(0x4015, 0)];
    draft.line(random.pick(&ends), counts);
}

/// A drawn log, and what came up in it.
fn log(random: &mut Random, memory: &[u8], counts: &mut Counts) -> Vec<u8> {
    let (machine, last) = random.pick(&[(Machine::Ntsc, 29_829), (Machine::Pal, 33_253)]);
    let chip = Chip::power_on(machine);
    let rose = [u64::MAX - 1; 2];
    let mut draft = Draft { memory, chip, last, lines: Vec::new(), clocks: 0, rose, later_turn: false };
    draft.lines.push("log=1".into());
    if machine == Machine::Pal {
        draft.lines.push("machine=pal".into());
        counts.add("pal");
    }
    while draft.clocks < FEWEST_CLOCKS {
        match random.within(0..=15) {
            0 => at_one_clock(random, &mut draft, counts),
            1..=5 => to_its_end(random, &mut draft, counts),
            6 | 7 => {
                let turns = random.within(2..=4);
                draft.lines.push(format!("loop={turns}"));
                let mut body = Vec::new();
                for _ in 0..random.within(1..=6) {
                    let item = draft.item(random);
                    draft.line(item, counts);
                    body.push(item);
                }
                draft.lines.push("done=loop".into());
                draft.later_turn = true;
                for _ in 1..turns {
                    body.iter().for_each(|item| draft.work(*item, counts));
                }
                draft.later_turn = false;
            }
            _ => {
                let item = draft.item(random);
                draft.line(item, counts);
            }
        }
    }
    // The end at a rise or a clock before it, more often than it comes up.
    if random.one_in(2) {
        draft.line(Item::Write(0x4015, 0), counts);
        draft.line(Item::Read, counts);
        if let Some(k) = next(draft.chip, memory, 70_000, 0).filter(|k| *k > 1) {
            draft.line(Item::Wait(k as u32 - random.pick(&[0, 1])), counts);
        }
    }
    counts.add_if((0..2).any(|i| draft.rose[i] == draft.clocks && both(&draft.chip)[i]), "stops at a rise");
    counts.add_if(next(draft.chip, memory, 1, 0) == Some(1), "stops a clock before a rise");
    let wrong = random.one_in(20);
    counts.add_if(wrong, "refused");
    draft.lines.push(format!("stop={}\n", draft.clocks + u64::from(wrong)));
    draft.lines.join("\n").into_bytes()
}

/// Draws logs and holds what a program `perch` writes for them to the reading's texts; a failing log is told whole.
pub fn compare(seed: u64, logs: u64, program: &str) -> Result<String, String> {
    let memory = sample(seed);
    let program = Program::new(program, &memory)?;
    let mut counts = Counts::new(logs, THINGS.map(|(name, fewest)| (name, fewest * 10_000 / 300)));
    let mut lines = 0;
    for number in 0..logs {
        let log = log(&mut Random::new(seed, "edges", number), &memory, &mut counts);
        let ours = flags::text(&log, &memory);
        let theirs = program.writes(&["interrupts".into()], &log)?;
        let log = String::from_utf8_lossy(&log);
        same_text(&ours, &theirs).map_err(|what| format!("seed {seed}, log {number}: {what}\n{log}"))?;
        lines += ours.lines().count();
    }
    Ok(format!("{logs} logs, {lines} lines ({})\n", counts.told()?))
}
