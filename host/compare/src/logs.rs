//! Logs: drawn ones, nested and damaged, and the comparison of what the library and the reading make of them.

use crate::machines::either;
use crate::random::Random;
use perch::raw;
use reading::log::{self, MOST_BYTES};
use reading::{MEMORY, number, play, player};

/// A log as it is written: its lines, and what they sum to.
#[derive(Default)]
struct Draft {
    lines: Vec<String>,
    clocks: u64,
    turns: u64,
}

/// How a log is drawn.
struct Bounds {
    clocks: u64,
    turns: u64,
    lines: usize,
    longest_wait: u64,
}

fn write_line(random: &mut Random) -> String {
    let register = match random.within(0..=9) {
        0 => 0x4015,
        1 => 0x4017,
        _ => random.within16(0x4000..=0x4013),
    };
    let value = if register == 0x4015 { random.pick(&[0x1f, 0x0f, 0x00, 0x10]) } else { random.byte() };
    format!("write={register:04x}:{value:02x}")
}

/// Lines of a block, with blocks in it; `times` is how often it is worked in all.
fn block(random: &mut Random, draft: &mut Draft, bounds: &Bounds, depth: usize, times: u64) {
    for _ in 0..random.within(0..=12) {
        if draft.lines.len() > bounds.lines || draft.turns + times > bounds.turns {
            return;
        }
        match random.within(0..=9) {
            0 => {
                draft.lines.push("read=4015".into());
                draft.turns += times;
            }
            1..=4 => {
                draft.lines.push(write_line(random));
                draft.turns += times;
            }
            5..=7 => {
                let most = (bounds.clocks - draft.clocks) / times;
                if most > 0 {
                    let wait = random.within(1..=most.min(bounds.longest_wait));
                    draft.lines.push(format!("wait={wait}"));
                    draft.clocks += wait * times;
                    draft.turns += times;
                }
            }
            _ if depth == 8 => {}
            _ => {
                let turns = if random.one_in(8) { 255 } else { random.within(2..=5) };
                if draft.turns + times * turns > bounds.turns {
                    continue;
                }
                draft.lines.push(format!("loop={turns}"));
                draft.turns += times * turns;
                block(random, draft, bounds, depth + 1, times * turns);
                draft.lines.push("done=loop".into());
            }
        }
    }
}

fn joined(lines: &[String], stop: u64) -> Vec<u8> {
    let mut text = String::from("log=1\n");
    for line in lines {
        text += line;
        text.push('\n');
    }
    text += &format!("stop={stop}\n");
    text.into_bytes()
}

/// A log to be heard: it sounds, and has few enough clocks to go through one by one.
pub(crate) fn sounding(random: &mut Random) -> Vec<u8> {
    let clocks = random.pick(&[50, 1_000, 20_000, 60_000, 120_000]);
    let bounds = Bounds { clocks, turns: 20_000, lines: 200, longest_wait: clocks / random.within(1..=20) + 1 };
    let mut draft = Draft::default();
    if !random.one_in(4) {
        draft.lines.push("write=4015:1f".into());
        for (register, value) in [(0x4000, 0xbf), (0x4004, 0x7a), (0x4008, 0xff), (0x400c, 0x35), (0x4010, 0x4f)] {
            if random.one_in(2) {
                draft.lines.push(format!("write={register:04x}:{value:02x}"));
            }
        }
        for register in [0x4003, 0x4007, 0x400b, 0x400f, 0x4013] {
            if random.one_in(2) {
                draft.lines.push(format!("write={register:04x}:{:02x}", random.byte() & 0xf9));
            }
        }
        draft.turns = draft.lines.len() as u64;
    }
    for _ in 0..random.within(1..=4) {
        block(random, &mut draft, &bounds, 0, 1);
    }
    joined(&draft.lines, draft.clocks)
}

/// Eight loops of `base` turns in each other, with as many reads in each that the turns in all are base^8 x (2 + last).
fn nest(base: usize, last: usize) -> Vec<String> {
    let mut lines = Vec::new();
    for depth in 1..=8 {
        lines.push(format!("loop={base}"));
        let reads = match depth {
            1 => base - 1,
            8 => last,
            _ => base - 2,
        };
        lines.extend((0..reads).map(|_| "read=4015".into()));
    }
    lines.extend((0..8).map(|_| "done=loop".into()));
    lines
}

/// A log with totals or a size at their bounds or one past them, or with totals that are small if cut to 32 or 64 bits.
fn bounded(random: &mut Random) -> Vec<u8> {
    let over = random.within(0..=1);
    let mut lines: Vec<String> = Vec::new();
    match random.within(0..=8) {
        0 => {
            // 2,000,000,000 clocks, or one more.
            let (outer, inner) = random.pick(&[(200, 10), (250, 8), (20, 100), (2, 200)]);
            let wait = 1_000_000 * (2000 / (outer * inner)).min(1);
            lines.extend([format!("loop={outer}"), format!("loop={inner}"), format!("wait={wait}")]);
            lines.extend(["done=loop".into(), "done=loop".into()]);
            let left = 2_000_000_000 - outer * inner * wait + over;
            let (waits, rest) = (left / 1_000_000, left % 1_000_000);
            lines.extend((0..waits).map(|_| "wait=1000000".into()));
            lines.extend((rest > 0).then(|| format!("wait={rest}")));
            let stop = random.pick(&[2_000_000_000, 2_000_000_000 - 1, 0]);
            return joined(&lines, stop);
        }
        1 => {
            // 1,000,000 turns, or one more: 250 x (1 + 199 x (1 + 19)) = 995,250 and 4,750 reads or writes.
            lines.extend(["loop=250", "loop=199", "loop=19", "done=loop", "done=loop", "done=loop"].map(String::from));
            lines.extend((0..4750 + over).map(|_| "read=4015".into()));
        }
        2 => {
            // 60,000 bytes, or a few more.
            lines.push(if over == 0 { "wait=1".into() } else { "wait=10".into() });
            lines.extend((0..5998).map(|_| "read=4015".into()));
            return joined(&lines, if over == 0 { 1 } else { 10 });
        }
        3 => {
            // Eight loops, or nine.
            let depth = 8 + over as usize;
            let turns = random.within(2..=3);
            lines.extend((0..depth).map(|_| format!("loop={turns}")));
            let clocks = if random.one_in(2) { turns.pow(depth as u32) } else { 0 };
            lines.extend((clocks > 0).then(|| "wait=1".into()));
            lines.extend((0..depth).map(|_| "done=loop".into()));
            return joined(&lines, clocks);
        }
        4 => {
            // Totals that would pass 64 bits.
            lines.extend((0..8).map(|_| "loop=255".into()));
            lines.extend((0..random.within(0..=3000)).map(|_| random.pick(&["wait=1000000", "read=4015"]).into()));
            lines.extend((0..8).map(|_| "done=loop".into()));
        }
        5 => {
            // A multiple of 2^32 turns.
            lines = nest(16, random.within(0..=5) as usize);
        }
        6 => {
            // 2^64 turns.
            lines = nest(128, 254);
        }
        7 => {
            // 2^32 clocks and some.
            lines.extend(["loop=128", "loop=128", "wait=262144", "done=loop", "done=loop"].map(String::from));
            lines.push(format!("wait={}", over + 1));
            return joined(&lines, over + 1);
        }
        _ => {
            // Many loops beside each other.
            for _ in 0..random.within(1..=3000) {
                lines.extend(["loop=2".into(), "done=loop".into()]);
            }
        }
    }
    joined(&lines, 0)
}

/// Lines that are right, wrong, or wrong where they stand.
const LINES: [&str; 55] = [
    "wait=0",
    "wait=01",
    "wait=1000000",
    "wait=1000001",
    "wait=",
    "wait=+1",
    "wait=1 ",
    " wait=1",
    "Wait=1",
    "wait",
    "",
    "=",
    "wait==1",
    "wait=99999999999999999999",
    "wait=4294967297",
    "wait=18446744073709551617",
    "wait=1\r",
    "wait=1x",
    "write=4000:0",
    "write=4000:000",
    "write=400:00",
    "write=4000:0G",
    "write=4000:AB",
    "write=400A:00",
    "write=4000 00",
    "write=4000",
    "write=4014:00",
    "write=4016:00",
    "write=4018:ff",
    "write=3fff:00",
    "write=ffff:ff",
    "write=0000:00",
    "write=4014:0g",
    "write=:",
    "read=4016",
    "read=40150",
    "read=",
    "loop=1",
    "loop=256",
    "loop=02",
    "loop=2",
    "done=loop",
    "done=",
    "done=loops",
    "log=1",
    "log=2",
    "machine=pal",
    "machine=ntsc",
    "machine=",
    "stop=0",
    "stop=00",
    "stop=2000000000",
    "stop=2000000001",
    "stop=",
    "\0",
];

/// Damages a log in one way.
pub(crate) fn damage(random: &mut Random, log: &mut Vec<u8>) {
    let length = log.len() as u64;
    let at = |random: &mut Random| random.within(0..=length.max(1) - 1) as usize;
    let starts: Vec<usize> = [0].into_iter().chain((1..log.len()).filter(|&i| log[i - 1] == b'\n')).collect();
    let start = random.pick(&starts);
    let end = log[start..].iter().position(|&byte| byte == b'\n').map_or(log.len(), |length| start + length + 1);
    match random.within(0..=13) {
        0 => log.truncate(at(random)),
        1 if length > 0 => {
            let place = at(random);
            log[place] = if random.one_in(2) { random.byte() } else { random.pick(b"0123456789:=\nadloprstw ") };
        }
        2 if length > 0 => {
            log.remove(at(random));
        }
        3 => log.insert(at(random), if random.one_in(2) { random.byte() } else { random.pick(b"0159\n=:\r ") }),
        4 | 5 => {
            let line = random.pick(&LINES);
            log.splice(start..end, [line.as_bytes(), b"\n"].concat());
        }
        6 | 7 => {
            let line = random.pick(&LINES);
            log.splice(start..start, [line.as_bytes(), b"\n"].concat());
        }
        8 => {
            log.drain(start..end);
        }
        9 => {
            let line = log[start..end].to_vec();
            log.splice(start..start, line);
        }
        10 => {
            // Behind the end: a line, half a line, an empty line or any byte.
            let line = random.pick(&LINES);
            log.extend(line.as_bytes());
            if random.one_in(2) {
                log.push(b'\n');
            }
        }
        11 => {
            log.pop();
        }
        12 => {
            // Another `stop`.
            let last = *starts.last().unwrap_or(&0);
            log.truncate(last);
            log.extend(format!("stop={}\n", random.pick(&[0, 1, 10, 2_000_000_000])).bytes());
        }
        _ => {
            let other = random.pick(&starts);
            let line = log[start..end].to_vec();
            log.splice(other..other, line);
        }
    }
}

/// Cuts a log somewhere in its last lines.
pub(crate) fn cut_short(random: &mut Random, log: &mut Vec<u8>) {
    let cut = random.within(0..=30.min(log.len() as u64));
    log.truncate(log.len() - cut as usize);
}

/// A right log of about so many lines, with loops in each other and large numbers.
pub fn nested(random: &mut Random, lines: usize) -> Vec<u8> {
    let bounds = Bounds { clocks: 2_000_000_000, turns: 1_000_000, lines, longest_wait: 1_000_000 };
    let mut draft = Draft::default();
    for _ in 0..40 {
        block(random, &mut draft, &bounds, 0, 1);
    }
    either(random, joined(&draft.lines, draft.clocks))
}

/// A log: right, at a bound, damaged, or any bytes.
pub fn log(random: &mut Random) -> Vec<u8> {
    let mut log = match random.within(0..=19) {
        0..=1 => {
            let log = bounded(random);
            either(random, log)
        }
        2 => nested(random, 2000),
        3 => (0..random.within(0..=300)).map(|_| random.pick(b"log=1\nwait=1\nstop=1\nread=4015\n")).collect(),
        _ => {
            let log = sounding(random);
            either(random, log)
        }
    };
    if random.one_in(2) {
        for _ in 0..random.pick(&[1, 1, 1, 2, 3]) {
            damage(random, &mut log);
        }
    }
    log
}

/// A log to be stored: a short one whose text is short, every other one damaged.
pub fn stored(random: &mut Random, number: u64) -> Vec<u8> {
    loop {
        let log = if number % 5 == 4 { bounded(random) } else { sounding(random) };
        let mut log = either(random, log);
        for _ in 0..number % 2 {
            damage(random, &mut log);
        }
        // Few enough clocks to look at, and a text of some pages.
        let clocks = log::check(&log).map_or(0, |all| all.clocks);
        if log.len() < 2000 && clocks < 60_000 && play::text(&log, &vec![0; MEMORY]).len() < 20_000 {
            return log;
        }
    }
}

/// What the logs were.
#[derive(Default)]
pub struct Tally {
    /// How many answered each number.
    pub numbers: [u64; 20],
    /// How many were played.
    pub played: u64,
    /// How many of them on a PAL machine.
    pub pal: u64,
    /// Bytes of their texts.
    pub bytes: u64,
}

pub(crate) fn same(what: impl FnOnce() -> String, ours: u64, theirs: u64) -> Result<(), String> {
    if ours == theirs { Ok(()) } else { Err(format!("{}: the reading {ours:#x}, the library {theirs:#x}", what())) }
}

/// The most clocks of a log that is played: the reading goes one by one.
const PLAYED: u64 = 3_000_000;

/// Holds what the library makes of a log to what the reading makes of it.
pub fn judge(log: &[u8], memory: &[u8], random: &mut Random, tally: &mut Tally) -> Result<(), String> {
    let answer = player::check(log);
    tally.numbers[usize::from(answer as u8)] += 1;
    same(|| "check".into(), answer, raw::check(log))?;
    same(|| "turns".into(), player::turns(log), raw::turns(log))?;
    same(|| "items".into(), player::items(log), raw::items(log))?;

    let items = log::items(log);
    let count = items.as_ref().map_or(0, |items| items.len() as u64);
    let item = |k: u64| match &items {
        Err(_) => answer,
        Ok(items) => items.get(k.min(count) as usize).map_or(number::ITEM.into(), |item| player::held(*item) << 32),
    };
    let mut places = vec![0, 1, count.saturating_sub(1), count, count + 1, 1 << 32, u64::MAX];
    places.extend((0..20).map(|_| random.within(0..=count)));
    places.extend(0..count.min(100));
    for k in places {
        same(|| format!("item {k}"), item(k), raw::item(log, k))?;
    }

    let length = log.len() as u64;
    let mut offsets = vec![0, 1, length, length + 1, 1 << 32, (1 << 32) + 6, u64::MAX];
    offsets.extend((0..20).map(|_| random.within(0..=length)));
    let starts = (1..log.len()).filter(|&i| log[i - 1] == b'\n' && log[i] == b'l').take(100);
    offsets.extend(starts.map(|start| start as u64));
    for offset in offsets {
        same(|| format!("body at {offset}"), player::body(log, offset), raw::body(log, offset))?;
    }
    if let Some(bytes) = begun(log, memory, random)?
        && answer >> 32 & 0x7fff_ffff <= PLAYED
    {
        tally.played += 1;
        tally.pal += answer >> 63;
        tally.bytes += heard(log, memory, bytes, random)?;
    }
    Ok(())
}

/// Begins a player, with refusals beside; none where the log is refused.
fn begun(log: &[u8], memory: &[u8], random: &mut Random) -> Result<Option<Vec<u8>>, String> {
    let fresh: Vec<u8> = (0..raw::player_size()).map(|_| random.byte()).collect();
    let refused = |number: u64, bytes: &[u8], log: &[u8], memory: &[u8]| {
        let mut player = bytes.to_vec();
        same(|| "a refused beginning".into(), number, raw::begin(&mut player, log, memory))?;
        if player == bytes { Ok(()) } else { Err("a refused beginning changed the player".to_string()) }
    };
    let other = random.pick(&[0, 1, MEMORY - 1, MEMORY + 1]);
    refused(1, &fresh, log, &vec![0; other])?;
    refused(1, &fresh[1..], log, &vec![0; other])?;
    refused(2, &fresh[1..], log, memory)?;
    refused(2, &[], log, memory)?;

    let answer = player::check(log) & 0xffff_ffff;
    if answer == 0 {
        let mut player = fresh;
        same(|| "the beginning".into(), 0, raw::begin(&mut player, log, memory))?;
        return Ok(Some(player));
    }
    refused(answer, &fresh, log, memory)?;
    let whole = play::text(log, memory);
    for size in [whole.len(), whole.len() + 9, whole.len() - 1, 0] {
        let mut text = vec![b'?'; size];
        let written = if size < whole.len() { 0 } else { whole.len() };
        let theirs = raw::refusal_text(answer as u8, answer >> 8, &mut text);
        same(|| "a refusal's text".into(), (written as u64) << 32, theirs)?;
        if text[..written] != whole.as_bytes()[..written] || text[written..].iter().any(|&byte| byte != b'?') {
            return Err(format!("a refusal's text is {:?}", String::from_utf8_lossy(&text)));
        }
    }
    Ok(None)
}

/// Plays the pieces and joins them; they are the whole text. Gives its length.
fn heard(log: &[u8], memory: &[u8], mut bytes: Vec<u8>, random: &mut Random) -> Result<u64, String> {
    let whole = play::text(log, memory);
    let mut joined: Vec<u8> = Vec::new();
    // Small pieces for a while, then larger ones.
    let mut small = random.within(0..=300);
    loop {
        let size = match small {
            0 => random.within(23..=1 << 16),
            _ if random.one_in(4) => random.within(0..=22),
            _ => random.within(23..=120),
        };
        small = small.saturating_sub(1);
        let before = bytes.clone();
        let mut text = vec![b'?'; size as usize];
        let answer = raw::play_on(&mut bytes, log, memory, &mut text);
        let (number, over, written) = (answer as u8, answer >> 8 & 1 == 1, (answer >> 32) as usize);
        if number != 0 || written > text.len() || answer & 0xffff_fe00 & 0xffff_ffff != 0 {
            return Err(format!("a piece of {size} bytes answers {answer:#x}"));
        }
        let at = joined.len();
        joined.extend(&text[..written]);
        if !whole.as_bytes().starts_with(&joined) {
            let ours = String::from_utf8_lossy(&whole.as_bytes()[at..whole.len().min(at + 200)]);
            let theirs = String::from_utf8_lossy(&joined[at..joined.len().min(at + 200)]);
            return Err(format!("the text differs behind {at} bytes: the reading\n{ours}\nthe library\n{theirs}"));
        }
        if text[written..].iter().any(|&byte| byte != b'?') {
            return Err(format!("bytes behind the lines of a piece of {size} changed"));
        }
        if joined.last().is_some_and(|&byte| byte != b'\n') {
            return Err(format!("a piece of {size} bytes cuts a line"));
        }
        if over {
            break;
        }
        if written == 0 && size >= 23 {
            return Err(format!("a piece of {size} bytes got no line, and the player isn't over"));
        }
        if written == 0 && bytes != before {
            return Err(format!("a piece of {size} bytes got no line, and the player changed"));
        }
    }
    if joined != whole.as_bytes() {
        return Err(format!("the player is over after {} bytes of {}", joined.len(), whole.len()));
    }
    // Over, it writes no more.
    let mut text = [b'?'; 64];
    same(|| "a player that is over".into(), 1 << 8, raw::play_on(&mut bytes, log, memory, &mut text))?;

    // Refused pieces.
    let kept = bytes.clone();
    same(|| "a piece with less memory".into(), 1, raw::play_on(&mut bytes, log, &memory[1..], &mut text))?;
    let shorter = raw::play_on(&mut bytes[1..], log, memory, &mut text);
    same(|| "a piece with a shorter player".into(), 2, shorter)?;
    if bytes != kept || text != [b'?'; 64] {
        return Err("a refused piece changed something".into());
    }
    Ok(whole.len() as u64)
}

/// Draws and judges logs; a failing one is told whole.
pub fn compare(seed: u64, logs: u64, memory: &[u8]) -> Result<String, String> {
    let mut tally = Tally::default();
    for number in 0..logs {
        let random = &mut Random::new(seed, "logs", number);
        let log = log(random);
        debug_assert!(log.len() <= MOST_BYTES * 2);
        let judged = judge(&log, memory, random, &mut tally);
        if let Err(difference) = judged {
            let shown = log.escape_ascii().to_string().replace("\\n", "\n");
            return Err(format!("seed {seed}, log {number}: {difference}\n{shown}"));
        }
    }
    let numbers: Vec<String> =
        (0..20).filter(|&i| tally.numbers[i] > 0).map(|i| format!("{i}: {}", tally.numbers[i])).collect();
    let Tally { played, pal, bytes, .. } = tally;
    Ok(format!("{logs} logs ({}), {played} played ({pal} PAL), {bytes} bytes of text", numbers.join(", ")))
}
