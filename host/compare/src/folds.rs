//! Folding: logs full of lines that repeat, with loops between them, turns near the limit and buffers one byte short; and that
//! the folded log stands for the same and sounds the same.

use crate::counts::Counts;
use crate::logs::{self, same};
use crate::machines::either;
use crate::random::Random;
use perch::raw;
use reading::fold::{Fold, fold, folded_within};
use reading::log::{self, MOST_BYTES, MOST_TURNS};

/// A wait, a write or a read; few of them, so that many are equal.
fn line(random: &mut Random) -> String {
    match random.within(0..=5) {
        0 => "read=4015\n".into(),
        1 => "wait=1\n".into(),
        2 => format!("wait={}\n", random.pick(&[1, 2, 10, 12, 100, 1000])),
        3 => format!("wait={}\n", random.within(1..=300)),
        4 => format!("write=4011:{:02x}\n", random.pick(&[0, 0x40, 0x7f])),
        _ => format!("write={:04x}:{:02x}\n", random.within16(0x4000..=0x4013), random.byte()),
    }
}

/// Some lines; sometimes these repeat among themselves.
fn body(random: &mut Random, lines: u64) -> String {
    let (first, second) = (line(random), line(random));
    match random.within(0..=3) {
        0 => (0..lines).map(|i| if i % 2 == 0 { &first[..] } else { &second[..] }).collect(),
        1 => (0..lines).map(|i| if i + 1 < lines { &first[..] } else { &second[..] }).collect(),
        _ => (0..lines).map(|_| line(random)).collect(),
    }
}

/// Lines that repeat, at most so many bytes of them.
fn repeats(random: &mut Random, most: usize) -> String {
    if random.one_in(6) {
        // Two copies of 17 bytes: their loop would be just as long.
        return format!("wait={}\nread=4015\n", random.within(1..=9)).repeat(2);
    }
    let any = random.within(1..=17);
    let lines = random.pick(&[1, 1, 2, 2, 3, 16, 17, any, any, any, any]);
    let body = body(random, lines);
    let copies = match random.within(0..=7) {
        0..=3 => random.within(1..=6),
        4 => random.pick(&[9, 10, 99, 100, 101]),
        5 => random.pick(&[253, 254, 255, 256, 257, 258, 509, 510, 511]),
        _ => random.within(1..=600),
    };
    let mut text = body.repeat((copies as usize).min(most / body.len()));
    // Sometimes half a copy more.
    if random.one_in(3) {
        let half = body.split_inclusive('\n').take(random.within(0..=lines) as usize);
        text.extend(half.filter(|_| text.len() + body.len() < most).collect::<Vec<_>>());
    }
    text
}

/// Loops of so many turns in all.
fn filler(mut turns: u64) -> String {
    let mut text = String::new();
    while turns >= 65_280 {
        // 255 x (1 + 255).
        text += "loop=255\nloop=255\ndone=loop\ndone=loop\n";
        turns -= 65_280;
    }
    while turns > 0 {
        let taken = if turns == 256 { 2 } else { turns.min(255) };
        text += &if taken == 1 { "read=4015\n".to_string() } else { format!("loop={taken}\ndone=loop\n") };
        turns -= taken;
    }
    text
}

/// A right log of some repeats with loops between them, of at most so many turns less than allowed if near the limit.
fn full(random: &mut Random, near: bool) -> Vec<u8> {
    let most = random.pick(&[300, 3_000, 20_000, 45_000]);
    let mut text = String::new();
    for _ in 0..random.within(1..=8) {
        if text.len() > most {
            break;
        }
        let piece = repeats(random, most);
        match random.within(0..=9) {
            0 => text += &format!("loop={}\n{piece}done=loop\n", random.within(2..=3)),
            1 => text += &format!("loop=2\nloop=2\n{piece}done=loop\n{piece}done=loop\n"),
            2 => text += &format!("loop={}\ndone=loop\n{piece}", random.within(2..=255)),
            3 => text += &line(random),
            _ => text += &piece,
        }
        text.truncate(text.rfind('\n').map_or(0, |feed| feed + 1));
    }
    let totals = |text: &str| log::check(&stopped(text)).ok();
    if near && let Some(all) = totals(&text) {
        let spare = random.pick(&[0, 1, 2, 3, 4, 5, 9, 30, 255, 256, 600, 1000]);
        let turns = (MOST_TURNS as u64).saturating_sub(all.turns as u64 + spare);
        let (front, back) = (filler(turns / 2), filler(turns - turns / 2));
        text = if random.one_in(2) { format!("{front}{back}{text}") } else { format!("{front}{text}{back}") };
    }
    stopped(&text)
}

/// The log of these lines, with their clocks.
fn stopped(lines: &str) -> Vec<u8> {
    let log = |stop: u64| format!("log=1\n{lines}stop={stop}\n").into_bytes();
    let mut open: Vec<(u64, u64)> = vec![(1, 0)];
    for line in lines.lines() {
        let (key, value) = line.split_once('=').unwrap_or_default();
        let inner = open.last_mut().expect("loops are closed");
        match key {
            "wait" => inner.1 += value.parse().unwrap_or(0),
            "loop" => open.push((value.parse().unwrap_or(0), 0)),
            "done" => {
                let (times, clocks) = open.pop().unwrap_or_default();
                open.last_mut().expect("loops are closed").1 += times * clocks;
            }
            _ => {}
        }
    }
    log(open[0].1)
}

fn things() -> Vec<(String, u64)> {
    let mut things: Vec<(String, u64)> = (1..=16).map(|lines| (format!("of {lines}"), 30)).collect();
    let more = [
        ("logs folded", 3_000),
        ("with no fold", 500),
        ("255 copies", 500),
        ("2 copies", 300),
        ("PAL", 2_000),
        ("passed over for turns", 300),
        ("1,000,000 turns", 50),
        ("exact buffers", 1_000),
        ("one byte less", 500),
        ("room for the folded log alone", 300),
        ("longer buffers", 500),
        ("refused", 500),
        ("refused, no room", 100),
        ("played", 500),
    ];
    things.extend(more.map(|(name, fewest)| (name.into(), fewest)));
    things
}

/// A full log of short lines in one period, with few turns left or enough: where no fold may be made most is looked at.
pub fn dense(random: &mut Random) -> Vec<u8> {
    let lines = random.within(1..=16);
    let period: String = (0..lines).map(|_| format!("wait={}\n", random.within(1..=9))).collect();
    // The loops of the turns take up to 5,500 bytes.
    let text = period.repeat(54_000 / period.len());
    let spare = random.pick(&[0, 1, 2, 3, 30, 100, 250, 253, 254, 255, 256, 600]);
    let turns = (MOST_TURNS as u64).saturating_sub(text.lines().count() as u64 + spare);
    stopped(&format!("{}{text}", filler(turns)))
}

/// Draws logs and folds them; a failing one is told whole.
pub fn compare(seed: u64, logs: u64, memory: &[u8]) -> Result<String, String> {
    let mut counts = Counts::new(logs, things());
    for number in 0..logs {
        let random = &mut Random::new(seed, "folds", number);
        let log = match random.within(0..=9) {
            0 | 1 => logs::log(random),
            kind => {
                let log = full(random, kind < 5);
                either(random, log)
            }
        };
        judge(random, &log, memory, &mut counts).map_err(|difference| {
            let shown = log[..log.len().min(4000)].escape_ascii().to_string().replace("\\n", "\n");
            format!("seed {seed}, folds {number}: {difference}\n{} bytes\n{shown}", log.len())
        })?;
    }
    Ok(format!("{logs} logs ({})", counts.told()?))
}

fn judge(random: &mut Random, log: &[u8], memory: &[u8], counts: &mut Counts) -> Result<(), String> {
    let expected = folded_within(log, MOST_TURNS);
    let short = expected.as_ref().map_or(0, |(written, _)| written.len());
    let room = match random.within(0..=7) {
        0 => log.len().max(1) - 1,
        1 => short,
        2 => log.len() + random.within(1..=40) as usize,
        3 => random.within(0..=MOST_BYTES as u64) as usize,
        _ => log.len(),
    };
    let (mut ours, mut theirs) = (vec![b'?'; room], vec![b'?'; room]);
    let answer = raw::fold(log, &mut theirs);
    same(|| format!("fold to {room} bytes"), fold(log, &mut ours), answer)?;
    if ours != theirs {
        let at = (0..room).find(|&i| ours[i] != theirs[i]).unwrap_or(0);
        let shown = |text: &[u8]| text[at..room.min(at + 60)].escape_ascii().to_string();
        let (ours, theirs) = (shown(&ours), shown(&theirs));
        return Err(format!("a text of {room} bytes differs at {at}: the reading\n{ours}\nthe library\n{theirs}"));
    }
    let Ok((_, folds)) = expected else {
        counts.add("refused");
        counts.add_if(room < log.len(), "refused, no room");
        return Ok(());
    };
    counts.add_if(room == log.len(), "exact buffers");
    counts.add_if(room > log.len(), "longer buffers");
    counts.add_if(room + 1 == log.len(), "one byte less");
    counts.add_if(room == short && short < log.len(), "room for the folded log alone");
    if answer as u8 != 0 {
        return Ok(());
    }
    count(log, &folds, counts);
    let folded = &theirs[..(answer >> 32) as usize];
    stands_for(random, log, folded, memory, counts)
}

fn count(log: &[u8], folds: &[Fold], counts: &mut Counts) {
    counts.add(if folds.is_empty() { "with no fold" } else { "logs folded" });
    for fold in folds {
        counts.add(&format!("of {}", fold.lines));
        counts.add_if(fold.copies == 255, "255 copies");
        counts.add_if(fold.copies == 2, "2 copies");
    }
    counts.add_if(log[6..].starts_with(b"machine=pal\n"), "PAL");
    let without = folded_within(log, u128::MAX).map_or(Vec::new(), |(_, folds)| folds);
    counts.add_if(without != folds, "passed over for turns");
}

/// The folded log passes with the same clocks and machine, isn't longer, has the same items, and sounds the same.
fn stands_for(
    random: &mut Random,
    before: &[u8],
    after: &[u8],
    memory: &[u8],
    counts: &mut Counts,
) -> Result<(), String> {
    same(|| "check of the folded log".into(), raw::check(before), raw::check(after))?;
    if after.len() > before.len() {
        return Err(format!("{} bytes fold to {}", before.len(), after.len()));
    }
    if log::items(before) != log::items(after) {
        return Err("the folded log has other items".into());
    }
    let turns = log::check(after).map_or(0, |all| all.turns);
    counts.add_if(turns == MOST_TURNS && before != after, "1,000,000 turns");
    // Few enough to be played by the reading behind a stand-in too.
    let clocks = raw::check(before) >> 32 & 0x7fff_ffff;
    if clocks < 200_000 && turns < 20_000 && random.one_in(4) {
        if played(before, memory)? != played(after, memory)? {
            return Err("the folded log sounds other".into());
        }
        counts.add("played");
    }
    Ok(())
}

/// What the library's player writes for a log.
pub(crate) fn played(log: &[u8], memory: &[u8]) -> Result<Vec<u8>, String> {
    let mut player = vec![0; raw::player_size()];
    same(|| "the beginning".into(), 0, raw::begin(&mut player, log, memory))?;
    let mut text = Vec::new();
    let mut piece = vec![0; 1 << 20];
    loop {
        let answer = raw::play_on(&mut player, log, memory, &mut piece);
        text.extend(&piece[..(answer >> 32) as usize]);
        match answer as u16 {
            0 => {}
            0x100 => return Ok(text),
            _ => return Err(format!("a piece is answered {answer:#x}")),
        }
    }
}
