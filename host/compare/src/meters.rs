//! Meters: lists of levels and records, with levels out of range at any place, and every fraction.

use crate::counts::Counts;
use crate::logs::same;
use crate::random::Random;
use perch::raw;
use reading::meter::{MOST, meter, meter_records};
use reading::mixer::level_f32;

/// Levels at the edges.
const LEVELS: [u32; 6] = [0, 1, 2, MOST / 2, MOST - 1, MOST];

/// No levels, also where they are cut to fewer bits.
const NO_LEVELS: [u32; 8] = [MOST + 1, 0xffff, 0x1_0000, 0x1_0001, 0x8000_0000, 0x8000_0001, u32::MAX - 1, u32::MAX];

fn level(random: &mut Random) -> u32 {
    if random.one_in(2) { random.pick(&LEVELS) } else { random.within(0..=MOST.into()) as u32 }
}

/// A place of a list that isn't empty, often its first or last.
fn place(random: &mut Random, length: usize) -> usize {
    match random.within(0..=3) {
        0 => 0,
        1 => length - 1,
        _ => random.within(0..=length as u64 - 1) as usize,
    }
}

/// A list of levels: one level, but for one place or for two, or any; at times with one that is out of range.
fn levels(random: &mut Random) -> Vec<u32> {
    let length = match random.within(0..=9) {
        0 => 0,
        1 => 1,
        2 => random.within(2..=4),
        9 => random.within(0..=3000),
        _ => random.within(0..=70),
    } as usize;
    let most = if random.one_in(3) { 0 } else { level(random) };
    let mut levels = vec![most; length];
    if length == 0 {
        return levels;
    }
    let others = random.pick(&[0, 0, 0, 1, 1, 2, 3000]);
    if others == 3000 {
        levels.fill_with(|| level(random));
    } else {
        for _ in 0..others {
            levels[place(random, length)] = level(random);
        }
    }
    if random.one_in(6) {
        levels[place(random, length)] = random.pick(&NO_LEVELS);
    }
    levels
}

/// Levels as records with any clocks, at times with half a record behind them.
fn records(random: &mut Random, levels: &[u32]) -> Vec<u32> {
    let mut words: Vec<u32> = levels.iter().flat_map(|level| [random.bits() as u32, *level]).collect();
    if random.one_in(2) {
        words.push(random.bits() as u32);
    }
    words
}

/// A number of records: about so many, or far more.
fn number(random: &mut Random, records: u64) -> u64 {
    match random.within(0..=5) {
        0 => 0,
        1 => records + random.within(0..=2),
        2 => records.max(1) - 1,
        3 => random.pick(&[u64::MAX, u64::MAX - 1, 1 << 63, 1 << 32, (1 << 32) + 1]),
        _ => random.within(0..=records),
    }
}

/// A level before the records, one that is out of range, or nothing.
fn before(random: &mut Random) -> u64 {
    match random.within(0..=7) {
        0..=2 => level(random).into(),
        3 => random.pick(&NO_LEVELS).into(),
        4 => random.pick(&[1 << 32, (1 << 32) + 5, 1 << 63]),
        _ => u64::MAX,
    }
}

/// What is counted, with the fewest times in 10,000 lists.
const THINGS: [(&str, u64); 17] = [
    ("no levels", 500),
    ("silent", 500),
    ("steady", 500),
    ("moving", 500),
    ("refused 29", 500),
    ("one level steady", 100),
    ("29 at the first alone", 50),
    ("29 at the last alone", 50),
    ("records: none", 500),
    ("records: silent", 500),
    ("records: steady", 500),
    ("records: moving", 500),
    ("records: refused 29", 500),
    ("29 by the level before", 300),
    ("29 outside the records asked for", 100),
    ("moving by the level before", 100),
    ("half a record", 1000),
];

/// Every fraction, then drawn lists; a failing one is told whole.
pub fn compare(seed: u64, lists: u64) -> Result<String, String> {
    for level in 0..=u16::MAX {
        let (ours, theirs) = (level_f32(level), raw::level_fraction(level));
        same(|| format!("the fraction of {level}"), ours.to_bits().into(), theirs.to_bits().into())?;
    }
    let mut counts = Counts::new(lists, THINGS);
    for number in 0..lists {
        let random = &mut Random::new(seed, "meters", number);
        let levels = levels(random);
        judge(&levels, &mut counts)
            .and_then(|()| judge_records(random, &levels, &mut counts))
            .map_err(|difference| format!("seed {seed}, meters {number}: {difference}\n{levels:?}"))?;
    }
    Ok(format!("65536 fractions, {lists} lists ({})", counts.told()?))
}

/// The case of an answer, by these words.
fn case(answer: u64, words: [&'static str; 5]) -> &'static str {
    if answer as u8 == 0 { words[(answer >> 8 & 3) as usize] } else { words[4] }
}

fn judge(levels: &[u32], counts: &mut Counts) -> Result<(), String> {
    let answer = meter(levels);
    same(|| "the levels".into(), answer, raw::meter(levels))?;
    counts.add(case(answer, ["no levels", "silent", "steady", "moving", "refused 29"]));
    let over: Vec<usize> = (0..levels.len()).filter(|&i| levels[i] > MOST).collect();
    counts.add_if(levels.len() == 1 && answer >> 8 & 3 == 2, "one level steady");
    counts.add_if(levels.len() > 1 && over == [0], "29 at the first alone");
    counts.add_if(levels.len() > 1 && over == [levels.len() - 1], "29 at the last alone");
    Ok(())
}

fn judge_records(random: &mut Random, levels: &[u32], counts: &mut Counts) -> Result<(), String> {
    let words = records(random, levels);
    let whole = levels.len() as u64;
    for _ in 0..3 {
        let (start, count, before) = match random.within(0..=3) {
            0 => (0, whole, before(random)),
            _ => (number(random, whole), number(random, whole), before(random)),
        };
        let answer = meter_records(&words, start, count, before);
        let what = || format!("{count} records from {start} of {} words, {before} before", words.len());
        same(what, answer, raw::meter_records(&words, start, count, before))?;
        let none = ["records: none", "records: silent", "records: steady", "records: moving", "records: refused 29"];
        counts.add(case(answer, none));
        let alone = meter_records(&words, start, count, u64::MAX);
        counts.add_if(answer == 29 && alone as u8 == 0, "29 by the level before");
        counts.add_if(answer >> 8 & 3 == 3 && matches!(alone >> 8 & 3, 1 | 2), "moving by the level before");
        counts.add_if(alone > 0 && alone as u8 == 0 && meter(levels) == 29, "29 outside the records asked for");
        counts.add_if(!words.len().is_multiple_of(2), "half a record");
    }
    Ok(())
}
