//! Draws states and cases. Half the states lean to where rules meet: the last clocks of a timer or a counter, the clocks
//! around a frame step, the edges of what is quiet.

use crate::case::{Case, MOST_STATE, Memory, Op};
use crate::interrupts;
use crate::random::Random;
use reading::bytes::{SIZE, Slot};
use reading::machine::{Machine, Times};
use reading::{Chip, MEMORY, MOST_CLOCKS, interrupt};

fn lengths(chip: &mut Chip, mut each: impl FnMut(&mut reading::chip::Length)) {
    let [first, second] = &mut chip.squares;
    for length in [&mut first.length, &mut second.length, &mut chip.triangle.length, &mut chip.noise.length] {
        each(length);
    }
}

/// Makes the state quiet: no length, nothing remaining, an empty buffer and silence.
pub fn hush(chip: &mut Chip) {
    lengths(chip, |length| length.count = 0);
    chip.dmc.remaining = 0;
    chip.dmc.full = false;
    chip.dmc.silence = true;
}

/// Enables every channel and sets its length going.
fn sound(chip: &mut Chip, random: &mut Random) {
    lengths(chip, |length| {
        length.enabled = true;
        length.count = random.within16(1..=254);
    });
    chip.triangle.linear = random.within16(1..=127);
    chip.dmc.remaining = random.within16(1..=4081);
    for square in &mut chip.squares {
        square.period = random.within16(8..=1023);
        square.envelope.constant = random.one_in(2);
        square.envelope.n = random.within16(1..=15);
    }
}

type Lean = fn(&mut Chip, &mut Random);

const LEANS: [Lean; 17] = [
    |chip, random| chip.frame.clock = random.pick(chip.times().steps) - random.within16(0..=8),
    |chip, random| {
        let [first, second] = &mut chip.squares;
        let timers = [&mut first.timer, &mut second.timer, &mut chip.triangle.timer, &mut chip.noise.timer];
        for timer in timers.into_iter().chain([&mut chip.dmc.timer]) {
            if !random.one_in(3) {
                *timer = random.within16(1..=3);
            }
        }
    },
    |chip, _| hush(chip),
    |chip, random| {
        hush(chip);
        match random.within(0..=5) {
            0 => chip.dmc.remaining = random.within16(1..=2),
            1 => chip.dmc.full = true,
            2 => chip.dmc.silence = false,
            channel => {
                let mut at = 3;
                lengths(chip, |length| {
                    if at == channel {
                        (length.count, length.enabled) = (1, true);
                    }
                    at += 1;
                });
            }
        }
    },
    |chip, random| chip.dmc.remaining = random.within16(0..=2),
    |chip, _| chip.dmc.full = false,
    |chip, _| (chip.dmc.full, chip.dmc.silence) = (true, true),
    |chip, _| chip.dmc.bits = 1,
    |chip, random| {
        lengths(chip, |length| length.count = if length.enabled { random.within16(0..=1) } else { 0 });
        chip.triangle.linear = random.within16(0..=1);
    },
    |chip, random| {
        let [first, second] = &mut chip.squares;
        for envelope in [&mut first.envelope, &mut second.envelope, &mut chip.noise.envelope] {
            envelope.divider = 1;
            envelope.counter = random.within16(0..=1);
        }
    },
    |chip, random| {
        for square in &mut chip.squares {
            square.sweep.enabled = true;
            square.sweep.s = random.within16(0..=2);
            square.sweep.p = random.within16(0..=1);
            square.sweep.divider = 1;
        }
    },
    |chip, random| {
        for square in &mut chip.squares {
            square.period = random.pick(&[0, 1, 6, 7, 8, 9, 1022, 1023, 1024, 1365, 1366, 2046, 2047]);
        }
        chip.triangle.period = random.within16(0..=3);
    },
    |chip, random| chip.dmc.level = random.pick(&[0, 1, 2, 125, 126, 127]),
    |chip, random| {
        chip.noise.index = random.within16(0..=2);
        chip.noise.register = random.pick(&[1, 2, 3, 64, 65, 16384, 32767]);
    },
    |chip, random| {
        chip.dmc.index = random.within16(14..=15);
        chip.dmc.address = random.pick(&[32768, 65534, 65535]);
    },
    |chip, random| {
        // About the last step, and where the sequence begins again.
        let again = chip.times().again;
        chip.frame.clock = (again - 4 + random.within16(0..=6)) % again;
    },
    sound,
];

/// A state in range of either machine.
pub fn state(random: &mut Random) -> Chip {
    let mut chip = Chip::power_on(random.pick(&Machine::ALL));
    chip.fields(|_, mut slot| {
        if !matches!(slot, Slot::Machine(_)) {
            slot.set(random.within16(slot.range()));
        }
    });
    if random.one_in(3) {
        sound(&mut chip, random);
    }
    if random.one_in(2) {
        for _ in 0..random.within(1..=5) {
            random.pick(&LEANS)(&mut chip, random);
        }
    }
    lengths(&mut chip, |length| length.count = if length.enabled { length.count } else { 0 });
    chip.frame.interrupt &= !chip.frame.disable;
    chip
}

/// Bytes that are no state in range: of another length, or any, or with one field outside its range or against another.
pub fn no_state(random: &mut Random) -> Vec<u8> {
    let mut chip = state(random);
    let mut bytes = chip.encode().to_vec();
    match random.within(0..=7) {
        0 => bytes.resize(random.pick(&[0, 1, SIZE - 1, SIZE + 1]).min(MOST_STATE), 0),
        1 => bytes.iter_mut().for_each(|byte| *byte = random.byte()),
        2 => {
            // What is in range in the other mode or on the other machine.
            match random.within(0..=5) {
                0 => (chip.frame.mode, chip.frame.clock) = (false, chip.machine.times(true).again - 1),
                1 => (chip.frame.mode, chip.frame.clock) = (false, random.within16(33_254..=41_565)),
                2 => (chip.machine, chip.frame.mode, chip.frame.clock) = (Machine::Ntsc, false, 33_253),
                3 => (chip.machine, chip.frame.mode, chip.frame.clock) = (Machine::Ntsc, true, 41_565),
                4 => (chip.machine, chip.noise.timer) = (Machine::Pal, random.within16(3_779..=4_068)),
                _ => (chip.machine, chip.dmc.timer) = (Machine::Pal, random.within16(399..=428)),
            }
            bytes = chip.encode().to_vec();
        }
        3 => {
            let (channel, mut at) = (random.within(0..=3), 0);
            lengths(&mut chip, |length| {
                if at == channel {
                    (length.count, length.enabled) = (1, false);
                }
                at += 1;
            });
            bytes = chip.encode().to_vec();
        }
        4 => {
            (chip.frame.disable, chip.frame.interrupt) = (true, true);
            bytes = chip.encode().to_vec();
        }
        5 => bytes[SIZE - 1] = random.pick(&[2, 3, 128, 129, 255]),
        _ => {
            let field = random.within(0..=reading::bytes::FIELDS as u64 - 1);
            let (mut at, mut number) = (0, 0);
            chip.fields(|_, slot| {
                if number == field {
                    let range = slot.range();
                    let most = if slot.width() == 2 { 0xffff } else { 0xff };
                    let outside =
                        random.pick(&[range.end().saturating_add(1).min(most), most, range.start().saturating_sub(1)]);
                    bytes[at..at + slot.width()].copy_from_slice(&outside.to_le_bytes()[..slot.width()]);
                }
                (at, number) = (at + slot.width(), number + 1);
            });
        }
    }
    bytes
}

fn memory(random: &mut Random) -> Memory {
    let start = random.bits() as u16;
    match random.within(0..=7) {
        0 => Memory { start, times: 1, plus: 0 },
        1 => Memory { start: random.pick(&[0, 0xffff]), times: 1, plus: 0 },
        2 => Memory { start, times: random.bits() as u16 | 1, plus: random.bits() as u16 },
        _ => Memory { start, times: 25173, plus: 13849 },
    }
}

fn write(random: &mut Random) -> Op {
    let register = match random.within(0..=15) {
        0 => random.pick(&[0x3fff, 0x4014, 0x4016, 0x4018, 0, 0xffff, 0x4115]),
        1 => random.bits() as u16,
        2 | 3 => 0x4015,
        4 => 0x4017,
        _ => random.within16(0x4000..=0x4013),
    };
    let value = if random.one_in(8) { random.pick(&[0, 0x0f, 0x10, 0x1f, 0x80, 0xff]) } else { random.byte() };
    Op::Write { register, value }
}

fn refused_run(random: &mut Random) -> Op {
    let other = random.pick(&[0, 1, MEMORY - 1, MEMORY + 1]);
    let many = random.pick(&[MOST_CLOCKS + 1, 1 << 63, u64::MAX, 1 << 32, (1 << 32) + 5]);
    match random.within(0..=2) {
        0 => Op::Run { memory: other, count: random.within(0..=1000) },
        1 => Op::Run { memory: MEMORY, count: many },
        _ => Op::Run { memory: other, count: many },
    }
}

/// Sometimes a refused run, and where accesses are wanted sometimes one or some of these.
fn between(random: &mut Random, accesses: bool, ops: &mut Vec<Op>) {
    if random.one_in(6) {
        ops.push(refused_run(random));
    }
    if random.one_in(6) {
        ops.push(random.pick(&[Op::Line, Op::Level]));
    }
    if accesses && random.one_in(2) {
        for _ in 0..random.within(1..=4) {
            ops.push(match random.within(0..=7) {
                0 => Op::Read,
                1 => Op::Clock { memory: if random.one_in(8) { MEMORY - 1 } else { MEMORY } },
                2 => Op::Level,
                _ => write(random),
            });
        }
    }
}

fn finish(random: &mut Random, ops: &mut Vec<Op>) {
    if random.one_in(4) {
        ops.extend([Op::Line, Op::Level, Op::Read]);
    }
}

/// Clocks up to a frame step of a state, to its eve or past it; sometimes a whole sequence more.
fn to_step(random: &mut Random, chip: &Chip) -> u64 {
    let Times { steps, again } = chip.times();
    let [again, clock] = [again, chip.frame.clock].map(u64::from);
    let to = |step: &u16| (u64::from(*step) + again - clock - 1) % again + 1;
    let next = steps.iter().map(to).min().unwrap_or(1);
    let first = if random.one_in(2) { next } else { to(&random.pick(steps)) };
    first - random.within(0..=1) + random.within(0..=1) + random.pick(&[0, 0, 0, 0, 0, 0, 0, again])
}

/// A list of short runs.
pub fn short(random: &mut Random) -> Case {
    let chip = state(random);
    let state = if random.one_in(20) { no_state(random) } else { chip.encode().to_vec() };
    let words = if random.one_in(3) { random.within(0..=7) } else { random.within(0..=600) };
    let accesses = random.one_in(2);
    let mut ops = Vec::new();
    if random.one_in(8) {
        ops.push(Op::Run { memory: MEMORY, count: to_step(random, &chip) });
    }
    for _ in 0..random.within(1..=8) {
        let count = match random.within(0..=99) {
            0..15 => 0,
            15..30 => 1,
            30..60 => random.within(2..=40),
            60..99 => random.within(2..=1500),
            _ if random.one_in(8) => MOST_CLOCKS,
            _ => random.within(7_000..=16_000),
        };
        ops.push(Op::Run { memory: MEMORY, count });
        between(random, accesses, &mut ops);
    }
    finish(random, &mut ops);
    Case { memory: memory(random), state, words: words as usize, ops }
}

/// A list of runs of `clocks` clocks in all, mostly with room for all their records.
pub fn long(random: &mut Random, clocks: u64) -> Case {
    let chip = state(random);
    let state = chip.encode().to_vec();
    let words = if random.one_in(8) { random.within(0..=4000) } else { 2 * clocks + random.within(0..=1) };
    let accesses = random.one_in(2);
    let mut ops = Vec::new();
    let mut left = clocks;
    while left > 0 {
        let count = match random.within(0..=3) {
            0 => left,
            1 if left == clocks => to_step(random, &chip).clamp(1, left),
            _ => random.within(1..=left),
        };
        ops.push(Op::Run { memory: MEMORY, count });
        left -= count;
        between(random, accesses, &mut ops);
    }
    finish(random, &mut ops);
    Case { memory: memory(random), state, words: words as usize, ops }
}

/// Single clocks with a status read after each, or with the line and the level looked at; the repairer's use.
pub fn single(random: &mut Random) -> Case {
    let state = state(random).encode().to_vec();
    let look = random.pick(&[Op::Read, Op::Line, Op::Level]);
    let mut ops = Vec::new();
    for _ in 0..random.within(1..=400) {
        ops.extend([Op::Clock { memory: MEMORY }, look]);
        if random.one_in(50) {
            ops.push(write(random));
        }
    }
    Case { memory: memory(random), state, words: 0, ops }
}

/// A list of runs of up to 1,000,000 clocks from a state that sounds slowly, so that they need few records.
fn slow(random: &mut Random) -> Case {
    let mut chip = state(random);
    sound(&mut chip, random);
    for square in &mut chip.squares {
        (square.period, square.sweep.enabled) = (random.within16(512..=2047), false);
    }
    chip.triangle.period = random.within16(1536..=2047);
    chip.noise.index = 15;
    chip.dmc.remaining = random.within16(0..=2);
    chip.dmc.looped = false;
    let accesses = random.one_in(2);
    let mut ops = Vec::new();
    for _ in 0..random.within(1..=3) {
        ops.push(Op::Run { memory: MEMORY, count: random.within(1..=4) * MOST_CLOCKS / 4 });
        between(random, accesses, &mut ops);
    }
    finish(random, &mut ops);
    Case { memory: memory(random), state: chip.encode().to_vec(), words: 1024, ops }
}

/// A run up to where a timer or the frame divider gives an output, and what is seen there.
fn edge(random: &mut Random) -> Case {
    let mut chip = state(random);
    sound(&mut chip, random);
    random.pick(&LEANS)(&mut chip, random);
    for square in &mut chip.squares {
        let (period, s) =
            random.pick(&[(1023, 0), (1024, 0), (1365, 1), (1366, 1), (1638, 2), (1639, 2), (7, 3), (8, 3)]);
        (square.period, square.sweep.s, square.sweep.negate) = (period, s, random.one_in(4));
        (square.sweep.enabled, square.sweep.divider) = (true, 1);
    }
    (chip.dmc.bits, chip.dmc.full) = (random.within16(1..=2), true);
    let [first, second] = &chip.squares;
    let timers = [first.timer, second.timer, chip.triangle.timer, chip.noise.timer, chip.dmc.timer, chip.dmc.timer];
    let count = if random.one_in(3) { to_step(random, &chip) } else { random.pick(&timers).into() };
    let mut ops = vec![Op::Run { memory: MEMORY, count }];
    finish(random, &mut ops);
    Case { memory: memory(random), state: chip.encode().to_vec(), words: 1024, ops }
}

/// Writes of every register; then with every channel enabled those of the lengths, so that cases together load every length.
fn registers(random: &mut Random, number: u64) -> Case {
    let chip = state(random);
    let write = |register, value| Op::Write { register, value };
    let mut ops: Vec<Op> = (0..=0x14).map(|i| write(0x4000 + i, random.byte())).collect();
    ops.extend([Op::Line, write(0x4015, random.byte() | 0x0f)]);
    for (i, register) in [0x4003, 0x4007, 0x400b, 0x400f].into_iter().enumerate() {
        ops.push(write(register, ((4 * number + i as u64) % 32 * 8) as u8 | random.byte() % 8));
    }
    ops.push(write(0x4017, random.byte()));
    Case { memory: memory(random), state: chip.encode().to_vec(), words: 0, ops }
}

/// When the interrupt comes next, asked of a state near an edge and with a count beside the answer; then a run to that clock or
/// beside it, and asked again there, before an access that may clear and after it.
fn asking(random: &mut Random) -> Case {
    let memory = memory(random);
    let bytes = &memory.bytes()[..MEMORY];
    let (chip, which, found) = loop {
        let (chip, which) = (interrupts::state(random), random.pick(&[0, 0, 1, 2, 2, 3]));
        let found = interrupt::next(chip, bytes, 40_000, which);
        // Most of the states aren't there yet, and come there.
        if found.is_some_and(|k| k > 0) || random.one_in(20) {
            break (chip, which, found);
        }
    };
    let far = random.within(0..=40_000);
    let count = match (random.within(0..=7), found) {
        (0..=2, Some(k)) => k,
        (3 | 4, Some(k)) => k.saturating_sub(1),
        (5, _) => 0,
        _ => far,
    };
    let clocks = found.unwrap_or(far % 200) + random.within(0..=2);
    let most = random.pick(&[far, MOST_CLOCKS, MOST_CLOCKS, MOST_CLOCKS + 1, (1 << 32) + 5]);
    let length = if random.one_in(8) { random.pick(&[0, MEMORY - 1, MEMORY + 1]) } else { MEMORY };
    let value = random.byte();
    let access = [
        Op::Read,
        Op::Write { register: 0x4010, value: value & 0x4f },
        Op::Write { register: 0x4015, value },
        Op::Write { register: 0x4017, value },
    ];
    let ops = vec![
        Op::Next { memory: MEMORY, count, which },
        Op::Next { memory: length, count: most, which: (which + 1) % 3 },
        Op::Run { memory: MEMORY, count: clocks.saturating_sub(1) },
        Op::Next { memory: MEMORY, count: random.within(0..=3), which },
        Op::Line,
        random.pick(&access),
        Op::Next { memory: MEMORY, count: MOST_CLOCKS - random.within(0..=1), which: random.pick(&[0, 1, 2, 255]) },
        Op::Line,
    ];
    Case { memory, state: chip.encode().to_vec(), words: 1024, ops }
}

/// A case to be stored: some of each kind, with few words.
pub fn stored(random: &mut Random, number: u64) -> Case {
    let mut case = match number % 24 {
        2 => slow(random),
        6 | 14 | 18 => edge(random),
        10 | 22 => registers(random, number / 12),
        11 => asking(random),
        kind if kind % 4 == 0 => single(random),
        kind if kind % 4 == 1 => {
            let clocks = random.within(7_500..=40_000);
            long(random, clocks)
        }
        _ => short(random),
    };
    match number % 24 {
        3 => case.state.resize(random.pick(&[0, 1, SIZE - 1, SIZE + 1]), 0),
        7 | 15 | 19 => case.state = no_state(random),
        _ => {}
    }
    case.words = case.words.min(random.within(900..=1024) as usize);
    case.ops.truncate(if Chip::decode(&case.state).is_some() { 30 } else { 6 });
    if number % 48 == 7 {
        // Of what is no state.
        let (other, many) = random.pick(&[(0, 0), (0, 0), (1, 0), (0, 1), (1, 1)]);
        case.ops.push(Op::Next { memory: MEMORY - other, count: 999_999 + 2 * many, which: random.byte() % 4 });
    }
    case
}
