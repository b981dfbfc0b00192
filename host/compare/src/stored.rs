//! What the programs of the crates `test_logs` and `test_plays` print about their stored logs, by the reading.

use crate::lanes::{self, Held};
use crate::{spectra, vcd};
use perch::raw;
use reading::log::{self, Fault, Item, Line};
use reading::{MEMORY, dwell, flags, fold, moment, number, play, recording, salvage, trace, wave};
use std::io::Write;
use std::path::{Path, PathBuf};

/// The most steps that a cursor takes in a log that is refused.
const MOST_STEPS: u64 = 5_000;

fn read(path: &str) -> Result<Vec<u8>, String> {
    std::fs::read(path).map_err(|error| format!("{path}: {error}"))
}

/// The logs of a folder with their names, in the names' order.
fn logs(folder: &str) -> Result<Vec<(String, Vec<u8>)>, String> {
    let read = |path: &Path| std::fs::read(path).map_err(|error| format!("{}: {error}", path.display()));
    let entries = std::fs::read_dir(folder).map_err(|error| format!("{folder}: {error}"))?;
    let mut paths: Vec<PathBuf> = entries.flatten().map(|entry| entry.path()).collect();
    paths.retain(|path| path.extension().is_some_and(|end| end == "log"));
    paths.sort();
    let name = |path: &Path| path.file_stem().unwrap_or_default().to_string_lossy().into_owned();
    paths.iter().map(|path| Ok((name(path), read(path)?))).collect()
}

/// A log with more clocks is held to the reading's first lines, those of so many clocks.
const MOST_CLOCKS: u128 = 20_000_000;
const FIRST_CLOCKS: u64 = 3_000_000;

/// Plays the logs of a folder with its sample.bin in the library, and holds their texts to the reading's.
pub fn examples(folder: &str) -> Result<String, String> {
    let path = format!("{folder}/sample.bin");
    let memory = read(&path)?;
    let (mut bytes, mut told) = (0, Vec::new());
    for (name, log) in logs(folder)? {
        let long = log::check(&log).is_ok_and(|all| all.clocks > MOST_CLOCKS);
        let ours = if long {
            play::beginning(&log, &memory, FIRST_CLOCKS).map_err(|fault| format!("{name}: {fault:?}"))?
        } else {
            play::text(&log, &memory)
        };
        let theirs = if long { first_lines(&log, &memory, ours.len()) } else { whole_text(&log, &memory) };
        if theirs != ours.as_bytes() {
            let at = theirs.iter().zip(ours.as_bytes()).take_while(|(a, b)| a == b).count();
            let shown = |text: &[u8]| text[at..text.len().min(at + 100)].escape_ascii().to_string();
            return Err(format!(
                "{name}: at byte {at} the reading {}, the library {}",
                shown(ours.as_bytes()),
                shown(&theirs)
            ));
        }
        bytes += ours.len();
        told.push(if long { format!("{name}, its first {FIRST_CLOCKS} clocks") } else { name });
    }
    Ok(format!("{} examples as the reading has them, {bytes} bytes: {}\n", told.len(), told.join("; ")))
}

/// The text of a log in the library.
fn whole_text(log: &[u8], memory: &[u8]) -> Vec<u8> {
    match perch::Player::new(log, memory) {
        Err(fault) => perch::refusal_text(fault),
        Ok(player) => player.flatten().collect(),
    }
}

/// The first bytes of it.
fn first_lines(log: &[u8], memory: &[u8], bytes: usize) -> Vec<u8> {
    let mut player = vec![0; raw::player_size()];
    raw::begin(&mut player, log, memory);
    let mut text = Vec::new();
    while text.len() < bytes {
        // A piece gets a line for sure from 23 bytes on.
        let mut piece = vec![0; (bytes - text.len()).max(23)];
        let written = (raw::play_on(&mut player, log, memory, &mut piece) >> 32) as usize;
        if written == 0 {
            break;
        }
        text.extend(&piece[..written]);
    }
    text.truncate(bytes);
    text
}

/// A recording of these paths, with the sample memory that it is played with.
fn lent(log: &str, sample: &str) -> Result<(Vec<u8>, Vec<u8>), String> {
    let log = read(log)?;
    let memory = recording::memory(&log, &read(sample)?).into_owned();
    Ok((log, memory))
}

/// What the player writes for a log, by the reading.
pub fn text(log: &str, sample: &str) -> Result<String, String> {
    let (log, memory) = lent(log, sample)?;
    Ok(play::text(&log, &memory))
}

/// Plays a recording through in the library, and holds each line to the reading's.
pub fn through(log: &str, sample: &str) -> Result<String, String> {
    let (log, memory) = lent(log, sample)?;
    let totals = recording::check(&log).map_err(|fault| format!("{fault:?}"))?;
    let ours = play::text(&log, &memory);
    let (mut at, mut player) = (0, perch::Player::new(&log, &memory).map_err(|fault| fault.to_string())?);
    for piece in player.by_ref() {
        if !ours.as_bytes()[at..].starts_with(&piece) {
            return Err(format!("the piece behind byte {at} isn't the reading's"));
        }
        at += piece.len();
    }
    match player.fault() {
        None if at == ours.len() => {
            Ok(format!("{} clocks, {at} bytes of text as the reading has them\n", totals.clocks))
        }
        fault => Err(format!("{at} bytes of text, by the reading {}; {fault:?}", ours.len())),
    }
}

/// What `perch dwell` writes for a log, by the reading.
pub fn dwell(log: &str, sample: &str) -> Result<String, String> {
    let (log, memory) = lent(log, sample)?;
    Ok(dwell::text(&log, &memory))
}

/// What `perch interrupts` writes for a log, by the reading.
pub fn flags(log: &str, sample: &str) -> Result<String, String> {
    let (log, memory) = lent(log, sample)?;
    Ok(flags::text(&log, &memory))
}

/// A number on the command line.
fn decimal(word: &str) -> Result<u64, String> {
    word.parse().map_err(|_| format!("{word} is no number"))
}

/// What `perch at` writes for a log, by the reading.
pub fn at(log: &str, sample: &str, clock: &str) -> Result<String, String> {
    let (log, memory) = lent(log, sample)?;
    Ok(moment::text(&log, &memory, decimal(clock)?))
}

/// What `perch vcd` writes for a log, by the reading.
pub fn vcd(log: &str, sample: &str, from: &str, clocks: &str) -> Result<String, String> {
    let (log, memory) = lent(log, sample)?;
    Ok(trace::text(&log, &memory, decimal(from)?, decimal(clocks)?))
}

/// Writes what `perch wav` writes for a log, by the reading.
pub fn wav(log: &str, sample: &str, rate: &str) -> Result<(), String> {
    let (log, memory) = lent(log, sample)?;
    let file = wave::file(&log, &memory, decimal(rate)?);
    std::io::stdout().write_all(&file).map_err(|error| error.to_string())
}

/// Holds each lane of a VCD to the reading of a window of a log.
pub fn lanes(vcd: &str, log: &str, sample: &str, from: &str, clocks: &str) -> Result<String, String> {
    let text = String::from_utf8_lossy(&read(vcd)?).into_owned();
    let (log, memory) = lent(log, sample)?;
    let held = lanes::hold(&text, &log, &memory, decimal(from)?, decimal(clocks)?)?;
    Ok(match held {
        None => "the log is refused, and nothing else is told\n".into(),
        Some(Held { clocks, accesses, .. }) => {
            format!("{clocks} clocks and {accesses} accesses, each lane as the reading has it\n")
        }
    })
}

/// Holds a dump that another program wrote of a dump to it: each variable that it has, of which there are so many at least.
pub fn carried(vcd: &str, other: &str, fewest: &str) -> Result<String, String> {
    let dump = |path: &str| {
        let text = String::from_utf8_lossy(&read(path)?).into_owned();
        vcd::read(&text).map_err(|what| format!("{path}: {what}"))
    };
    match vcd::carried(&dump(vcd)?, &dump(other)?)? {
        both if both as u64 >= decimal(fewest)? => Ok(format!("{both} lanes as they were\n")),
        both => Err(format!("{both} lanes only")),
    }
}

/// Holds the spectrum of a WAV file to that of another.
pub fn spectra(sound: &str, other: &str, least: &str) -> Result<String, String> {
    let least = least.parse().map_err(|_| format!("{least}: no cosine"))?;
    spectra::compare(&read(sound)?, &read(other)?, least)
}

/// What `crates/test_logs/stdout` holds: of each log the check, some items, some bodies, a cursor's way, the log folded, and the
/// log repaired.
pub fn judged(folder: &str) -> Result<String, String> {
    let lines = |log: &[u8]| judged_log(log) + &fold_lines(log) + &salvage_lines(log);
    Ok(logs(folder)?.iter().map(|(name, log)| format!("log={name}\n{}", lines(log))).collect())
}

fn judged_log(log: &[u8]) -> String {
    match (log::check(log), log::items(log)) {
        (Ok(all), Ok(items)) => {
            let count = items.len() as u64;
            let mut text = format!("check=0:0 clocks={} turns={} items={count}\n", all.clocks, all.turns);
            for k in [0, 1, 2, 3, count / 2, count.wrapping_sub(1), count, u64::MAX] {
                let item = items.get(k.min(count) as usize).copied();
                text += &item_line(k, item.ok_or(Fault { number: number::ITEM, place: 0 }));
            }
            for offset in [0, 6, 13, 20, 27, 41, log.len() as u64, u64::MAX] {
                text += &body_line(log, offset);
            }
            text + &cursor_line(log, u64::MAX)
        }
        (Err(fault), _) | (_, Err(fault)) => {
            let check = format!("check={}:{} clocks=0 turns=0 items=0\n", fault.number, fault.place);
            check + &item_line(0, Err(fault)) + &body_line(log, 6) + &cursor_line(log, MOST_STEPS)
        }
    }
}

/// A log folded into a buffer that holds every log, and into one that holds none: the answer, and a sum of the buffer.
fn fold_lines(log: &[u8]) -> String {
    let line = |room: usize| {
        let mut text = vec![0; room];
        let answer = fold::fold(log, &mut text);
        let sum = ordered(text.into_iter().map(u32::from));
        format!("fold={}:{} length={} sum={sum}\n", answer as u8, answer >> 8 & 0xff_ffff, answer >> 32)
    };
    line(log::MOST_BYTES) + &line(9)
}

/// One number for numbers and their order.
fn ordered(numbers: impl Iterator<Item = u32>) -> u32 {
    numbers.fold(0, |sum, number| sum.wrapping_mul(31).wrapping_add(number))
}

/// A log repaired into a buffer and a list that hold what comes of most, into a list of one word, and into a buffer of 12 bytes: the
/// answer, and sums of both.
fn salvage_lines(log: &[u8]) -> String {
    let line = |room: usize, words: usize| {
        let (mut text, mut list) = (vec![0; room], vec![0; words]);
        let answer = salvage::salvage(log, &mut text, &mut list);
        let (length, entries) = (answer >> 32 & 0xffff, answer >> 48);
        let (sum, words) = (ordered(text.into_iter().map(u32::from)), ordered(list.into_iter()));
        let (number, place) = (answer as u8, answer >> 8 & 0xff_ffff);
        format!("salvage={number}:{place} length={length} entries={entries} sum={sum} words={words}\n")
    };
    line(log::MOST_BYTES, 20_000) + &line(log::MOST_BYTES, 1) + &line(12, 1)
}

fn item_line(k: u64, item: Result<Item, Fault>) -> String {
    match item {
        Ok(Item::Wait(clocks)) => format!("item={k} wait:{clocks}\n"),
        Ok(Item::Write(register, value)) => format!("item={k} write:{register}:{value}\n"),
        Ok(Item::Read) => format!("item={k} read\n"),
        Err(Fault { number, place }) => format!("item={k} refused={number}:{place}\n"),
    }
}

fn body_line(log: &[u8], offset: u64) -> String {
    let (fault, part) = match log::body(log, offset) {
        Ok(part) => (Fault { number: number::DONE, place: 0 }, part),
        Err(fault) => (fault, 0..0),
    };
    let sum: u64 = log[part.clone()].iter().map(|&byte| u64::from(byte)).sum();
    format!("body={offset} check={}:{} bytes={} sum={sum}\n", fault.number, fault.place, part.len())
}

/// The items that a cursor comes by and the steps that it takes, a line each, through every turn of a loop.
fn cursor_line(log: &[u8], most: u64) -> String {
    let (mut items, mut steps, mut at) = (0, 0, 0);
    // Where the body of each open loop begins, and its turns left.
    let mut open: Vec<(usize, u32)> = Vec::new();
    let end = loop {
        if steps == most {
            break "more".into();
        }
        steps += 1;
        let (line, place) = match log::line_at(log, at, open.len()) {
            Ok(placed) => placed,
            Err(fault) => break format!("refused={}:{}", fault.number, fault.place),
        };
        at = place.end;
        match line {
            Line::Log | Line::Machine => {}
            Line::Item(_) => items += 1,
            Line::Loop(turns) => open.push((at, turns)),
            Line::Done => match open.pop() {
                Some((body, turns)) if turns > 1 => {
                    open.push((body, turns - 1));
                    at = body;
                }
                _ => {}
            },
            Line::Stop(_) => break "end".into(),
        }
    };
    format!("cursor={items}:{steps} {end}\n")
}

/// What `crates/test_plays/stdout` holds: each log played with the folder's `sample.bin`, then the first with other memory.
pub fn played(folder: &str) -> Result<String, String> {
    let path = format!("{folder}/sample.bin");
    let memory = read(&path)?;
    let logs = logs(folder)?;
    let case = |(name, log): &(String, Vec<u8>), memory: &[u8]| format!("case={name}\n{}", play::text(log, memory));
    let mut text: String = logs.iter().map(|log| case(log, &memory)).collect();
    for size in [0, MEMORY - 1, MEMORY + 1] {
        text += &format!("memory={size}\n");
        text += &logs.first().map_or(String::new(), |log| case(log, &vec![0; size]));
    }
    Ok(text)
}
