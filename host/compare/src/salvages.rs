//! Damaged logs repaired: lines cut, joined, changed, doubled and swapped, ninth loops, stops in the middle, buffers and lists one
//! short; and that what comes out passes and stays as it is when it is repaired again.

use crate::counts::Counts;
use crate::logs::{self, same};
use crate::machines::either;
use crate::random::Random;
use perch::raw;
use reading::MEMORY;
use reading::log::{self, MOST_BYTES};
use reading::salvage::{Done, salvage, salvaged};

/// Lines that fit somewhere, and lines that fit nowhere.
const LINES: &str = "log=1|log=2|machine=pal|machine=ntsc|mach|wait=1|wait=5|wait=1000000|wait=1000001|wait=0|wait=00|wait=|wait|\
    write=4000:00|write=4015:1f|write=4014:00|write=5000:00|write=400:00|write=4000:0G|read=4015|read=4016|read=4015x|\
    loop=2|loop=2|loop=255|loop=1|loop=256|loop=2x|done=loop|done=loop|done=loops|done=x|\
    stop=0|stop=1|stop=5|stop=00|stop=2000000000|stop=2000000001||\r|x|lo|loo=2|\0";

/// One of them, with its line feed.
fn line(random: &mut Random) -> String {
    let lines: Vec<&str> = LINES.split('|').collect();
    format!("{}\n", random.pick(&lines))
}

/// A byte that lines are made of, or any.
fn byte(random: &mut Random) -> u8 {
    if random.one_in(8) { random.byte() } else { random.pick(b"0123456789=\n:abcdefglopstwx") }
}

/// Some damage at a place.
fn damaged(random: &mut Random, mut log: Vec<u8>) -> Vec<u8> {
    for _ in 0..random.pick(&[1, 1, 2, 3, 8]) {
        let at = random.within(0..=log.len() as u64) as usize;
        let end = log.len().min(at + random.within(0..=30) as usize);
        match random.within(0..=9) {
            0 => drop(log.drain(at..end)),
            1 => log.insert(at, byte(random)),
            2 if at < log.len() => log[at] = byte(random),
            3 => log.truncate(at),
            4 => {
                let copy = log[at..end].to_vec();
                log.splice(at..at, copy);
            }
            5 => {
                let line = line(random);
                let at = log[..at].iter().rposition(|byte| *byte == b'\n').map_or(0, |feed| feed + 1);
                log.splice(at..at, line.into_bytes());
            }
            6 => log.extend(b"stop=0\nwait=1".iter().take(random.within(0..=13) as usize)),
            lines => log = relined(random, &log, lines),
        }
    }
    log
}

/// A whole line lost, doubled, or put in front of the one before it.
fn relined(random: &mut Random, log: &[u8], how: u64) -> Vec<u8> {
    let mut lines: Vec<&[u8]> = log.split_inclusive(|byte| *byte == b'\n').collect();
    if !lines.is_empty() {
        let at = random.within(0..=lines.len() as u64 - 1) as usize;
        match how {
            7 => drop(lines.remove(at)),
            8 => lines.insert(at, lines[at]),
            _ => lines.swap(at, at.max(1) - 1),
        }
    }
    lines.concat()
}

/// Lines of every kind, one behind the other.
fn mixed(random: &mut Random) -> Vec<u8> {
    let deep = if random.one_in(3) { random.within(6..=12) } else { 0 };
    let mut text = if random.one_in(4) { String::new() } else { "log=1\n".to_string() };
    text += &"loop=2\n".repeat(deep as usize);
    for _ in 0..random.within(0..=14) {
        text += &line(random);
    }
    text += &"done=loop\n".repeat(deep as usize);
    text.into_bytes()
}

/// A damaged log whose repaired one is near 60,000 bytes, or near the totals.
fn edge(random: &mut Random) -> Vec<u8> {
    let stop = random.pick(&["", "stop=0\n", "stop=1\n"]);
    match random.within(0..=3) {
        0 => {
            let lines = random.within(8_567..=8_571) as usize;
            format!("{}{}{stop}", random.pick(&["", "log=1\n"]), "wait=1\n".repeat(lines)).into_bytes()
        }
        // 1,000,000 turns, or one more.
        1 => {
            let (front, body) = (random.pick(&["", "read=4015\n"]), "read=4015\n".repeat(32));
            format!("{front}loop=250\nloop=3\nloop=4\nloop=2\nloop=5\n{body}{stop}").into_bytes()
        }
        2 => format!("loop=255\nloop=255\nloop={}\nread=4015\n{stop}", random.within(2..=20)).into_bytes(),
        _ => format!("log=1\nloop=250\nloop=8\n{}{stop}", "wait=1000000\n".repeat(random.within(1..=2) as usize))
            .into_bytes(),
    }
}

fn things() -> Vec<(String, u64)> {
    let mut things: Vec<(String, u64)> =
        [4, 7, 8, 10, 14, 15, 16, 17, 19].iter().map(|reason| (format!("dropped by {reason}"), 100)).collect();
    let more = [
        ("repaired", 2_000),
        ("as it was", 300),
        ("log=1 added", 500),
        ("done added", 500),
        ("stop added", 1_000),
        ("stop stayed behind others that went", 20),
        ("refused by 5", 10),
        ("refused by 9", 50),
        ("refused by 30", 300),
        ("refused by 31", 300),
        ("longer than 60,000 bytes", 5),
        ("exact buffer", 300),
        ("exact list", 300),
        ("no bytes", 40),
    ];
    things.extend(more.map(|(name, fewest)| (name.into(), fewest)));
    things
}

/// Draws damaged logs and repairs them; a failing one is told whole.
pub fn compare(seed: u64, logs: u64) -> Result<String, String> {
    let mut counts = Counts::new(logs, things());
    for number in 0..logs {
        let random = &mut Random::new(seed, "salvages", number);
        let log = match random.within(0..=19) {
            0..=3 => logs::log(random),
            4..=9 => {
                let log = logs::log(random);
                let log = either(random, log);
                damaged(random, log)
            }
            10..=13 => mixed(random),
            14..=16 => {
                let log = mixed(random);
                damaged(random, log)
            }
            17 | 18 => edge(random),
            _ if random.one_in(4) => Vec::new(),
            _ => (0..random.within(0..=40)).map(|_| byte(random)).collect(),
        };
        judge(random, &log, &mut counts).map_err(|difference| {
            let shown = log[..log.len().min(4000)].escape_ascii().to_string().replace("\\n", "\n");
            format!("seed {seed}, salvages {number}: {difference}\n{} bytes\n{shown}", log.len())
        })?;
    }
    Ok(format!("{logs} logs ({})", counts.told()?))
}

fn judge(random: &mut Random, log: &[u8], counts: &mut Counts) -> Result<(), String> {
    let expected = salvaged(log);
    let (bytes, entries) = expected.as_ref().map_or((0, 0), |(new, done)| (new.len(), done.len()));
    let room = match random.within(0..=7) {
        0 => bytes.max(1) - 1,
        1 => bytes,
        2 => random.within(0..=MOST_BYTES as u64) as usize,
        3 => bytes + random.within(1..=40) as usize,
        // One that would hold it, where it is too long for a log.
        _ => bytes.max(MOST_BYTES) + random.within(0..=1) as usize,
    };
    let words = match random.within(0..=7) {
        0 => (2 * entries).max(1) - 1,
        1 | 2 => 2 * entries,
        3 => 2 * entries + 1,
        4 => random.within(0..=20) as usize,
        _ => 2 * entries + random.within(2..=9) as usize,
    };
    let (mut text, mut theirs) = (vec![b'?'; room], vec![b'?'; room]);
    let (mut list, mut their_list) = (vec![7; words], vec![7; words]);
    let answer = raw::salvage(log, &mut theirs, &mut their_list);
    same(|| format!("salvage to {room} bytes and {words} words"), salvage(log, &mut text, &mut list), answer)?;
    if list != their_list {
        return Err(format!("the list: the reading {list:?}, the library {their_list:?}"));
    }
    if text != theirs {
        let at = (0..room).find(|&i| text[i] != theirs[i]).unwrap_or(0);
        let shown = |text: &[u8]| text[at..room.min(at + 60)].escape_ascii().to_string();
        let (ours, theirs) = (shown(&text), shown(&theirs));
        return Err(format!("a text of {room} bytes differs at {at}: the reading\n{ours}\nthe library\n{theirs}"));
    }
    counts.add_if(expected.is_ok() && bytes > MOST_BYTES, "longer than 60,000 bytes");
    if answer as u8 != 0 {
        counts.add(&format!("refused by {}", answer as u8));
        return Ok(());
    }
    let Ok((new, done)) = expected else { return Err("refused by the reading alone".into()) };
    counts.add_if(log.is_empty(), "no bytes");
    counts.add_if(room == bytes, "exact buffer");
    counts.add_if(words / 2 == entries && entries > 0, "exact list");
    count(log, &new, &done, counts);
    if let Err(fault) = log::check(&new) {
        return Err(format!("the repaired log has {fault:?}"));
    }
    same(|| "check of the repaired log".into(), 0, raw::check(&new) & 0xff)?;
    let (mut player, memory) = (vec![0; raw::player_size()], vec![0; MEMORY]);
    same(|| "the player of the repaired log".into(), 0, raw::begin(&mut player, &new, &memory) & 0xff)?;
    let mut again = vec![0; new.len()];
    same(|| "repaired again".into(), (new.len() as u64) << 32, raw::salvage(&new, &mut again, &mut []))?;
    if again != new { Err("the repaired log changes when it is repaired again".into()) } else { Ok(()) }
}

fn count(log: &[u8], new: &[u8], done: &[Done], counts: &mut Counts) {
    counts.add(if done.is_empty() { "as it was" } else { "repaired" });
    let mut gone = false;
    for entry in done {
        match *entry {
            Done::Dropped(start, reason) => {
                counts.add(&format!("dropped by {reason}"));
                gone |= log[start..].starts_with(b"stop=");
            }
            Done::Added(place) => counts.add(match &new[place..] {
                [b'l', ..] => "log=1 added",
                [b'd', ..] => "done added",
                _ => "stop added",
            }),
        }
    }
    let stayed = !matches!(done.last(), Some(Done::Added(place)) if new[*place..].starts_with(b"stop="));
    counts.add_if(gone && stayed, "stop stayed behind others that went");
}
