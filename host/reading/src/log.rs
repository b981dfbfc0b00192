//! The log: its lines, what is at fault in it, what it stands for.

use crate::chip::is_register;
use crate::machine::Machine;
use crate::number;
use std::ops::{Range, RangeInclusive};

/// The most bytes of a log.
pub const MOST_BYTES: usize = 60_000;
/// The most loops open at once.
pub const MOST_DEPTH: usize = 8;
/// The most clocks in all.
pub const MOST_CLOCKS: u128 = 2_000_000_000;
/// The most turns in all.
pub const MOST_TURNS: u128 = 1_000_000;

/// A refusal of a log, with its place.
#[derive(Clone, Copy, Debug, PartialEq, Eq)]
pub struct Fault {
    /// The number.
    pub number: u8,
    /// The place.
    pub place: usize,
}

/// What a log's list is made of.
#[derive(Clone, Copy, Debug, PartialEq, Eq)]
pub enum Item {
    /// So many clocks, 1..1000000.
    Wait(u32),
    /// A register and a value.
    Write(u16, u8),
    /// A read of $4015.
    Read,
}

/// A right line.
#[derive(Clone, Copy, Debug, PartialEq, Eq)]
pub enum Line {
    /// `log=1`
    Log,
    /// `machine=pal`
    Machine,
    /// A wait, a write or a read. The register of a write may be any.
    Item(Item),
    /// `loop=N`
    Loop(u32),
    /// `done=loop`
    Done,
    /// `stop=N`
    Stop(u32),
}

/// The clocks of a wait, the turns of a loop and the clocks of a `stop`.
const WAITS: RangeInclusive<u64> = 1..=1_000_000;
const TURNS: RangeInclusive<u64> = 2..=255;
const STOPS: RangeInclusive<u64> = 0..=2_000_000_000;

/// A decimal of right shape: digits with no leading zero. One past 64 bits is the highest, which no range has.
fn decimal(text: &[u8]) -> Option<u64> {
    if text.is_empty() || !text.iter().all(u8::is_ascii_digit) || text.len() > 1 && text[0] == b'0' {
        return None;
    }
    Some(text.iter().fold(0, |value: u64, digit| value.saturating_mul(10).saturating_add(u64::from(digit - b'0'))))
}

/// A decimal of right shape, in its range.
fn ranged(text: &[u8], range: RangeInclusive<u64>) -> Option<u32> {
    decimal(text).filter(|value| range.contains(value)).map(|value| value as u32)
}

/// So many lower-case hex digits.
fn hex(text: &[u8], digits: usize) -> Option<u16> {
    if text.len() != digits {
        return None;
    }
    text.iter().try_fold(0, |value, digit| match digit {
        b'0'..=b'9' => Some(16 * value + u16::from(digit - b'0')),
        b'a'..=b'f' => Some(16 * value + u16::from(digit - b'a') + 10),
        _ => None,
    })
}

/// Reads a line, given without its line feed.
fn line(text: &[u8]) -> Option<Line> {
    let equals = text.iter().position(|byte| *byte == b'=')?;
    let (key, value) = (&text[..equals], &text[equals + 1..]);
    Some(match (key, value) {
        (b"log", b"1") => Line::Log,
        (b"machine", b"pal") => Line::Machine,
        (b"read", b"4015") => Line::Item(Item::Read),
        (b"done", b"loop") => Line::Done,
        (b"wait", _) => Line::Item(Item::Wait(ranged(value, WAITS)?)),
        (b"loop", _) => Line::Loop(ranged(value, TURNS)?),
        (b"stop", _) => Line::Stop(ranged(value, STOPS)?),
        (b"write", [register @ .., b':', high, low]) => {
            Line::Item(Item::Write(hex(register, 4)?, hex(&[*high, *low], 2)? as u8))
        }
        _ => return None,
    })
}

/// What stands behind a key's `=`.
enum Value {
    /// These bytes, where an x is any lower-case hex digit.
    Fixed(&'static [u8]),
    /// A decimal of a range.
    Decimal(RangeInclusive<u64>),
}

/// The keys, and what stands behind each.
const KEYS: [(&[u8], Value); 8] = [
    (b"log", Value::Fixed(b"1")),
    (b"machine", Value::Fixed(b"pal")),
    (b"wait", Value::Decimal(WAITS)),
    (b"write", Value::Fixed(b"xxxx:xx")),
    (b"read", Value::Fixed(b"4015")),
    (b"loop", Value::Decimal(TURNS)),
    (b"done", Value::Fixed(b"loop")),
    (b"stop", Value::Decimal(STOPS)),
];

/// The first line.
const HEAD: &[u8] = b"log=1\n";

/// Where a line stands in a log.
#[derive(Clone, Copy)]
struct Stand {
    at: usize,
    /// It is the second line: only `log=1` and its line feed are before it.
    second: bool,
    /// The loops open there.
    open: usize,
}

/// Whether a key may stand there.
fn allowed(key: &[u8], Stand { at, second, open }: Stand) -> bool {
    match key {
        b"log" => at == 0,
        _ if at == 0 => false,
        b"machine" => second,
        b"loop" => open < MOST_DEPTH,
        b"done" => open > 0,
        b"stop" => open == 0,
        _ => true,
    }
}

/// Whether the bytes are of the form, or its beginning.
fn begins_fixed(text: &[u8], form: &[u8]) -> bool {
    let fits = |(byte, of): (&u8, &u8)| if *of == b'x' { hex(&[*byte], 1).is_some() } else { byte == of };
    text.len() <= form.len() && text.iter().zip(form).all(fits)
}

/// Whether some decimal of the range, or one with its line feed, begins with the bytes.
fn begins_decimal(text: &[u8], range: RangeInclusive<u64>) -> bool {
    if let Some(whole) = text.strip_suffix(b"\n") {
        return ranged(whole, range).is_some();
    }
    match decimal(text) {
        None => text.is_empty(),
        // Nothing comes behind a leading zero.
        Some(0) => range.contains(&0),
        // With some digits more it is one of ten, of a hundred, and so on.
        Some(value) => (0..10).map(|digits| 10u64.pow(digits)).any(|tens| {
            let lowest = value.saturating_mul(tens);
            lowest <= *range.end() && *range.start() <= lowest + (tens - 1)
        }),
    }
}

/// Whether some right line of the key begins with the bytes.
fn begins(text: &[u8], key: &[u8], value: &Value) -> bool {
    let head = [key, b"="].concat();
    match text.strip_prefix(&head[..]) {
        None => head.starts_with(text),
        Some(text) => match value {
            Value::Fixed(form) => begins_fixed(text, &[form, &b"\n"[..]].concat()),
            Value::Decimal(range) => begins_decimal(text, range.clone()),
        },
    }
}

/// The fault of a line that isn't right, or not allowed where it stands: its bytes up to its line feed or the log's end.
fn fault(text: &[u8], stand: Stand) -> Fault {
    let fault = |number, place| Fault { number, place: stand.at + place };
    let right = |text: &[u8]| KEYS.iter().any(|(key, value)| allowed(key, stand) && begins(text, key, value));
    // The first byte that can't belong to any right line allowed here with that beginning.
    let Some(first) = (0..text.len()).find(|&i| !right(&text[..=i])) else {
        return fault(number::FEED, text.len());
    };
    let Some(equals) = text[..first].iter().position(|byte| *byte == b'=') else {
        return fault(number::KEY, first);
    };
    let (key, value) = (&text[..equals], &text[equals + 1..]);
    let number = decimal(value.strip_suffix(b"\n").unwrap_or(value));
    match KEYS.iter().find(|known| known.0 == key) {
        Some((_, Value::Decimal(_))) if number.is_some() => fault(number::RANGE, equals + 1),
        _ => fault(number::SHAPE, first),
    }
}

/// A line of a log, and where it begins and ends (behind its line feed).
pub type Placed = (Line, Range<usize>);

/// The line at a place, with so many loops open.
pub fn line_at(log: &[u8], at: usize, open: usize) -> Result<Placed, Fault> {
    if log.len() > MOST_BYTES {
        return Err(Fault { number: number::LONG, place: 0 });
    }
    if at >= log.len() {
        return Err(Fault { number: number::NO_STOP, place: log.len() });
    }
    judged(log, at, open)
}

/// The line at a place of a log of any length, with so many loops open; a line begins there.
pub(crate) fn judged(log: &[u8], at: usize, open: usize) -> Result<Placed, Fault> {
    let feed = log[at..].iter().position(|byte| *byte == b'\n').map(|length| at + length);
    let end = feed.map_or(log.len(), |feed| feed + 1);
    let text = &log[at..end];
    let key = text.split(|byte| *byte == b'=').next().unwrap_or_default();
    let stand = Stand { at, second: log[..at] == *HEAD, open };
    let whole = |number| Err(Fault { number, place: at });
    match feed.and_then(|feed| line(&log[at..feed])) {
        Some(Line::Item(Item::Write(register, _))) if at > 0 && !is_register(register) => whole(number::REGISTER),
        Some(line) if allowed(key, stand) => Ok((line, at..end)),
        Some(Line::Loop(_)) if at > 0 => whole(number::DEPTH),
        Some(Line::Done | Line::Stop(_)) if at > 0 => whole(number::UNMATCHED),
        _ => Err(fault(text, stand)),
    }
}

/// What is summed over a log.
#[derive(Clone, Copy, Debug, Default, PartialEq, Eq)]
pub struct Totals {
    /// Clocks of all waits.
    pub clocks: u128,
    /// Turns: 1 for a wait, write or read; N times (1 + body) for a loop.
    pub turns: u128,
    /// Waits, writes and reads.
    pub items: u128,
}

/// The lines of a log up to `stop`, or the first fault that isn't one of the totals.
fn lines(log: &[u8]) -> Result<Vec<Placed>, Fault> {
    let mut lines: Vec<Placed> = Vec::new();
    let (mut at, mut open) = (0, 0);
    loop {
        let (line, place) = line_at(log, at, open)?;
        at = place.end;
        lines.push((line, place));
        match line {
            Line::Log | Line::Machine | Line::Item(_) => {}
            Line::Loop(_) => open += 1,
            Line::Done => open -= 1,
            Line::Stop(_) if at < log.len() => return Err(Fault { number: number::BEHIND, place: at }),
            Line::Stop(_) => return Ok(lines),
        }
    }
}

/// What a whole line says, wherever it stands: its bytes with their line feed.
pub(crate) fn said(text: &[u8]) -> Option<Line> {
    text.strip_suffix(b"\n").and_then(line)
}

/// The totals of lines whose loops are closed.
pub(crate) fn totals(lines: &[Placed]) -> Totals {
    // The last is the innermost open loop; the first is the log itself.
    let mut open = vec![(1, Totals::default())];
    for (line, _) in lines {
        let (_, now) = open.last_mut().expect("loops are closed");
        match line {
            Line::Item(item) => {
                now.turns += 1;
                now.items += 1;
                if let Item::Wait(clocks) = item {
                    now.clocks += u128::from(*clocks);
                }
            }
            Line::Loop(times) => open.push((u128::from(*times), Totals::default())),
            Line::Done => {
                let (times, body) = open.pop().expect("loops are closed");
                let (_, now) = open.last_mut().expect("loops are closed");
                now.turns += times * (1 + body.turns);
                now.items += times * body.items;
                now.clocks += times * body.clocks;
            }
            Line::Log | Line::Machine | Line::Stop(_) => {}
        }
    }
    open[0].1
}

/// The lines of a log that passes, with its totals; or its fault.
pub fn passed(log: &[u8]) -> Result<(Vec<Placed>, Totals), Fault> {
    let lines = lines(log)?;
    let totals = totals(&lines);
    let Some((Line::Stop(stop), place)) = lines.last().cloned() else { unreachable!("stop is the last line") };
    if totals.clocks > MOST_CLOCKS || totals.turns > MOST_TURNS {
        return Err(Fault { number: number::TOTALS, place: place.start });
    }
    if totals.clocks != u128::from(stop) {
        return Err(Fault { number: number::STOP, place: place.start });
    }
    Ok((lines, totals))
}

/// The totals of a log whose lines are right, over the limits or not; or its first fault.
pub fn summed(log: &[u8]) -> Result<Totals, Fault> {
    lines(log).map(|lines| totals(&lines))
}

/// Where the line of the innermost loop begins that is open at a place.
pub fn open_at(log: &[u8], place: usize) -> Option<usize> {
    let (mut at, mut open) = (0, Vec::new());
    for text in log[..place].split_inclusive(|byte| *byte == b'\n') {
        match said(text) {
            Some(Line::Loop(_)) => open.push(at),
            Some(Line::Done) => drop(open.pop()),
            _ => {}
        }
        at += text.len();
    }
    open.pop()
}

/// What a log comes to, or its fault.
pub fn check(log: &[u8]) -> Result<Totals, Fault> {
    passed(log).map(|(_, totals)| totals)
}

/// The machine that a log is for: PAL where it says so, else NTSC.
pub fn machine(log: &[u8]) -> Result<Machine, Fault> {
    let (lines, _) = passed(log)?;
    Ok(if lines.iter().any(|(line, _)| *line == Line::Machine) { Machine::Pal } else { Machine::Ntsc })
}

/// The list that a log stands for: its loops unrolled.
pub fn items(log: &[u8]) -> Result<Vec<Item>, Fault> {
    let mut list = Vec::new();
    // The open loops: where each one's items begin in the list, and its turns.
    let mut open = Vec::new();
    for (line, _) in passed(log)?.0 {
        match line {
            Line::Item(item) => list.push(item),
            Line::Loop(times) => open.push((list.len(), times)),
            Line::Done => {
                let (first, times) = open.pop().expect("loops are closed");
                let body = list[first..].to_vec();
                (1..times).for_each(|_| list.extend(&body));
            }
            Line::Log | Line::Machine | Line::Stop(_) => {}
        }
    }
    Ok(list)
}

/// Item k of the list, from 0.
pub fn item(log: &[u8], k: u64) -> Result<Item, Fault> {
    let list = items(log)?;
    let k = usize::try_from(k).unwrap_or(usize::MAX);
    list.get(k).copied().ok_or(Fault { number: number::ITEM, place: 0 })
}

/// Where the body of the loop lies whose line begins at the offset: between that line and its `done`.
pub fn body(log: &[u8], offset: u64) -> Result<Range<usize>, Fault> {
    let (lines, _) = passed(log)?;
    let none = Fault { number: number::LOOP, place: 0 };
    let is_loop = |(line, place): &Placed| matches!(line, Line::Loop(_)) && place.start as u64 == offset;
    let first = lines.iter().position(is_loop).ok_or(none)?;
    let mut depth = 0;
    for (line, place) in &lines[first..] {
        match line {
            Line::Loop(_) => depth += 1,
            Line::Done => depth -= 1,
            _ => {}
        }
        if depth == 0 {
            return Ok(lines[first].1.end..place.start);
        }
    }
    unreachable!("loops are closed")
}
