//! Sheets of samples: every level with every byte, and drawn ones with each number at its edges.

use crate::counts::Counts;
use crate::logs::same;
use crate::random::Random;
use perch::raw;
use reading::MEMORY;
use reading::sheet::sheet;

/// What a sheet is asked for, and how long the memory and the buffer are.
#[derive(Debug)]
struct Asked {
    memory: usize,
    level: u64,
    address: u64,
    length: u64,
    buffer: usize,
}

const LEVELS: [u64; 17] = [0, 1, 2, 3, 14, 15, 16, 17, 109, 110, 111, 112, 113, 124, 125, 126, 127];

/// No levels, also where they are cut to fewer bits.
const NO_LEVELS: [u64; 6] = [128, 129, 255, 256, 1 << 16, u64::MAX];

const NO_ADDRESSES: [u64; 7] = [0, 1, 0x7fff, 0x1_0000, 0x1_8000, 0x8000_8000, u64::MAX];

const NO_LENGTHS: [u64; 5] = [4082, 4083, 0x1_0000, 0x1_0001, u64::MAX];

/// A number that is right, or once in some times one that isn't.
fn ask(random: &mut Random) -> Asked {
    let level = random.within(0..=127);
    let level = if random.one_in(3) { level } else { random.pick(&LEVELS) };
    let address = match random.within(0..=3) {
        0 => random.pick(&[0x8000, 0x8001, 0xfffe, 0xffff]),
        1 => random.within(0xf000..=0xffff),
        _ => random.within(0x8000..=0xffff),
    };
    let length = match random.within(0..=5) {
        0 => 0,
        1 => 1,
        2 => random.pick(&[4080, 4081, 4081]),
        3 => random.within(2..=4081),
        _ => random.within(2..=60),
    };
    let mut asked = Asked { memory: MEMORY, level, address, length, buffer: 0 };
    if random.one_in(10) {
        asked.memory = random.pick(&[0, 1, 4081, MEMORY - 1, MEMORY + 1]);
    }
    if random.one_in(8) {
        asked.level = random.pick(&NO_LEVELS);
    }
    if random.one_in(8) {
        asked.address = random.pick(&NO_ADDRESSES);
    }
    if random.one_in(8) {
        asked.length = random.pick(&NO_LENGTHS);
    }
    let length = asked.length.min(5000) as usize;
    asked.buffer = match random.within(0..=4) {
        0 => length.max(1) - 1,
        1 => random.within(0..=length as u64) as usize,
        2 => length + random.within(1..=40) as usize,
        _ => length,
    };
    asked
}

/// Bytes of one kind: any, few or many ones, or all alike.
fn fill(random: &mut Random, memory: &mut [u8]) {
    let (kind, alike) = (random.within(0..=4), random.pick(&[0x00, 0xff, 0x01, 0x80, 0x55, 0xaa, 0x0f, 0xf0]));
    memory.fill_with(|| match kind {
        0 => random.byte() & random.byte(),
        1 => random.byte() | random.byte(),
        2 => alike,
        _ => random.byte(),
    });
}

/// What is counted, with the fewest times in 10,000 sheets.
const THINGS: [(&str, u64); 26] = [
    ("0", 1000),
    ("1", 300),
    ("20", 300),
    ("21", 300),
    ("22", 300),
    ("23", 300),
    ("length 0", 300),
    ("length 1", 300),
    ("length 4081", 200),
    ("length 4082", 50),
    ("refused with length 0", 100),
    ("level 15", 50),
    ("level 16", 50),
    ("level 111", 50),
    ("level 112", 50),
    ("level 127", 50),
    ("level 128", 50),
    ("address 32767", 50),
    ("address 32768", 50),
    ("address 65535", 50),
    ("address 65536", 50),
    ("wraps", 300),
    ("exact buffers", 500),
    ("one byte less", 300),
    ("longer buffers", 300),
    ("two refusals", 300),
];

/// Every level with every byte, then drawn sheets; of a failing one its numbers are told, its memory is drawn by the seed.
pub fn compare(seed: u64, sheets: u64) -> Result<String, String> {
    every()?;
    let mut counts = Counts::new(sheets, THINGS);
    let mut memory = vec![0; MEMORY + 1];
    for number in 0..sheets {
        let random = &mut Random::new(seed, "sheets", number);
        if number.is_multiple_of(20) {
            fill(random, &mut memory);
        }
        let asked = ask(random);
        judge(&asked, &memory, &mut counts)
            .map_err(|difference| format!("seed {seed}, sheets {number}: {difference}\n{asked:?}"))?;
    }
    Ok(format!("32768 levels with bytes, {sheets} sheets ({})", counts.told()?))
}

/// Every level with every byte.
fn every() -> Result<(), String> {
    let memory: Vec<u8> = (0..MEMORY).map(|i| i as u8).collect();
    for level in 0..128 {
        for byte in 0..256 {
            let (mut ours, mut theirs) = ([0], [0]);
            let what = || format!("level {level}, byte {byte:02x}");
            let answer = sheet(&memory, level, 0x8000 + byte, 1, &mut ours);
            same(what, answer, raw::sheet(&memory, level, 0x8000 + byte, 1, &mut theirs))?;
            same(what, ours[0].into(), theirs[0].into())?;
        }
    }
    Ok(())
}

fn judge(asked: &Asked, memory: &[u8], counts: &mut Counts) -> Result<(), String> {
    let &Asked { level, address, length, .. } = asked;
    let memory = &memory[..asked.memory];
    let (mut ours, mut theirs) = (vec![0xa5; asked.buffer], vec![0xa5; asked.buffer]);
    let answer = sheet(memory, level, address, length, &mut ours);
    same(|| "the answer".into(), answer, raw::sheet(memory, level, address, length, &mut theirs))?;
    if let Some(at) = (0..asked.buffer).find(|&i| ours[i] != theirs[i]) {
        return Err(format!("byte {at} is {} by the reading, {} by the library", ours[at], theirs[at]));
    }
    count(asked, answer as u8, counts);
    Ok(())
}

/// Counts what was asked for; an edge within its range only where the sheet is done, one past it where it is refused for that.
fn count(asked: &Asked, number: u8, counts: &mut Counts) {
    let &Asked { memory, level, address, length, buffer } = asked;
    let done = number == 0;
    counts.add(&number.to_string());
    for edge in [0, 1, 4081, 4082] {
        counts.add_if(length == edge && number == if edge > 4081 { 22 } else { 0 }, &format!("length {edge}"));
    }
    for edge in [15, 16, 111, 112, 127, 128] {
        counts.add_if(level == edge && number == if edge > 127 { 20 } else { 0 }, &format!("level {edge}"));
    }
    for edge in [32_767, 32_768, 65_535, 65_536] {
        let expected = if (32_768..65_536).contains(&edge) { 0 } else { 21 };
        counts.add_if(address == edge && number == expected, &format!("address {edge}"));
    }
    counts.add_if(!done && length == 0, "refused with length 0");
    counts.add_if(done && address + length > 0x1_0000, "wraps");
    counts.add_if(done && length > 0 && buffer == length as usize, "exact buffers");
    counts.add_if(done && buffer > length as usize, "longer buffers");
    counts.add_if(number == 23 && buffer + 1 == length as usize, "one byte less");
    let right = [memory == MEMORY, level < 128, (0x8000..=0xffff).contains(&address), length <= 4081];
    counts.add_if(right.iter().filter(|right| !**right).count() > 1, "two refusals");
}
