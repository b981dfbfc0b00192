//! VGM command streams: drawn ones, at the bounds and damaged, and the comparison of the logs that they are brought in as.

use crate::counts::Counts;
use crate::logs::same;
use crate::random::Random;
use perch::raw;
use reading::log::{self, Item, MOST_BYTES};
use reading::vgm;

/// A stream as it is written: its commands, the end among them.
type Commands = Vec<Vec<u8>>;

const END: u8 = 0x66;

/// Samples of gaps: around those of one command, of 1,000,000 clocks and of 2,000,000.
const GAPS: [u64; 22] = [
    0, 1, 2, 15, 16, 17, 734, 735, 736, 881, 882, 883, 24_639, 24_640, 24_641, 44_100, 49_279, 49_280, 49_281, 65_535,
    65_536, 100_000,
];

/// The most samples that a log has clocks for.
const MOST_SAMPLES: u64 = 49_279_992;

pub(crate) fn wait_command(samples: u64) -> Vec<u8> {
    let [low, high] = (samples as u16).to_le_bytes();
    vec![0x61, low, high]
}

/// Waits of so many samples in all.
fn wait(random: &mut Random, commands: &mut Commands, mut samples: u64) {
    while samples > 0 {
        let (command, taken) = match random.within(0..=5) {
            0 if samples >= 735 => (vec![0x62], 735),
            1 if samples >= 882 => (vec![0x63], 882),
            2 if samples <= 100_000 => {
                let taken = random.within(1..=samples.min(16));
                (vec![0x6f + taken as u8], taken)
            }
            3 if samples <= 100_000 => {
                let taken = random.within(0..=samples.min(65_535));
                (wait_command(taken), taken)
            }
            _ => {
                let taken = samples.min(65_535);
                (wait_command(taken), taken)
            }
        };
        commands.push(command);
        samples -= taken;
    }
}

pub(crate) fn write(random: &mut Random) -> Vec<u8> {
    let register = match random.within(0..=9) {
        0 => 0x15,
        1 => 0x17,
        _ => random.within(0..=0x13) as u8,
    };
    vec![0xb4, register, random.byte()]
}

/// Some writes and waits.
fn some(random: &mut Random, most: u64) -> Commands {
    let mut commands = Vec::new();
    for _ in 0..random.within(0..=most) {
        if random.one_in(2) {
            commands.push(write(random));
        } else {
            let samples = if random.one_in(2) { random.pick(&GAPS) } else { random.within(0..=2000) };
            wait(random, &mut commands, samples);
        }
    }
    commands
}

/// A stream whose log has so many bytes, some thousands at least: `stop` has seven digits from the first wait on.
pub fn of_length(random: &mut Random, bytes: usize) -> Vec<u8> {
    let mut commands = vec![wait_command(44_100)];
    let length = |commands: &Commands| vgm::log(&[&commands.concat()[..], &[END]].concat()).map_or(0, |log| log.len());
    while length(&commands) + 3000 < bytes {
        let samples = random.within(0..=1500);
        wait(random, &mut commands, samples);
        commands.extend((0..random.within(1..=80)).map(|_| write(random)));
    }
    // A write adds 14 bytes; one with a wait of three digits before it adds 23.
    let left = bytes - length(&commands);
    let both = (0..14).find(|both| (left - 23 * both).is_multiple_of(14)).expect("23 has no factor of 14");
    for _ in 0..both {
        wait(random, &mut commands, 5);
        commands.push(write(random));
    }
    commands.extend((0..(left - 23 * both) / 14).map(|_| write(random)));
    commands.push(vec![END]);
    commands.concat()
}

/// About the most clocks: no more, or one sample more.
fn most_clocks(random: &mut Random) -> Commands {
    let samples = MOST_SAMPLES + random.pick(&[0, 0, 1, 1, 5000]);
    let first = random.within(0..=samples);
    let mut commands = Vec::new();
    wait(random, &mut commands, first);
    commands.push(write(random));
    wait(random, &mut commands, samples - first);
    commands
}

/// The most turns of a log, or one more: a log too long for any buffer.
fn most_turns(random: &mut Random, over: usize) -> Vec<u8> {
    let (samples, lines) = random.pick(&[(0, 0), (1, 1), (24_640, 1), (24_641, 2), (49_280, 2), (60_000, 3)]);
    let mut commands = vec![write(random).repeat(1_000_000 - lines + over)];
    wait(random, &mut commands, samples);
    commands.push(vec![END]);
    commands.concat()
}

/// Commands that are unknown, a data block among them.
const UNKNOWN: [u8; 15] = [0x00, 0x4f, 0x50, 0x60, 0x64, 0x65, 0x67, 0x6f, 0x80, 0x90, 0xb3, 0xb5, 0xa0, 0xe0, 0xff];

/// Damages a stream in one way.
pub(crate) fn damage(random: &mut Random, commands: &mut Commands) {
    let at = random.within(0..=commands.len() as u64 - 1) as usize;
    let unknown = random.pick(&UNKNOWN);
    match random.within(0..=8) {
        0 | 1 => commands.insert(at, vec![unknown]),
        2 | 3 => {
            let register = random.pick(&[0x14, 0x16, 0x18, 0x19, 0x1f, 0x20, 0x66, 0x80, 0x95, 0xff]);
            commands.insert(at, vec![0xb4, register, random.byte()]);
        }
        4 => {
            let place = random.within(0..=commands[at].len() as u64 - 1) as usize;
            commands[at][place] = random.byte();
        }
        // The end is missing, or stands inside a command.
        5 => commands.truncate(at),
        6 => {
            commands.truncate(at);
            let command = if random.one_in(2) { write(random) } else { vec![0x61, END, END] };
            commands.push(command[..random.within(1..=2) as usize].to_vec());
        }
        7 => {
            commands.truncate(at);
            commands.push(vec![0xb4, random.pick(&[0x14, 0x16, 0x18])]);
        }
        _ => commands.insert(at, vec![END]),
    }
}

/// A stream: right, at a bound, damaged, with bytes behind its end, or any bytes. The large ones come by number.
fn stream(random: &mut Random, number: u64) -> Vec<u8> {
    let mut commands = match number % 400 {
        0 => return most_turns(random, (number / 400 % 2) as usize),
        more @ 1..=3 => return of_length(random, 59_998 + more as usize),
        4..=13 => most_clocks(random),
        14..=20 => return (0..random.within(0..=40)).map(|_| random.byte()).collect(),
        21..=30 => some(random, 2000),
        _ => some(random, 30),
    };
    commands.push(vec![END]);
    if random.one_in(2) {
        damage(random, &mut commands);
    }
    if random.one_in(4) {
        commands.push((0..random.within(1..=5)).map(|_| random.byte()).collect());
    }
    commands.concat()
}

/// What is counted, with the fewest times in 10,000 streams.
const THINGS: [(&str, u64); 15] = [
    ("0", 1000),
    ("9", 30),
    ("25", 500),
    ("26", 500),
    ("27", 500),
    ("28", 500),
    ("exact fits", 500),
    ("one byte less", 300),
    ("logs of 60,000 bytes", 2),
    ("60,001 bytes with room", 1),
    ("1,000,000 turns", 5),
    ("9 by turns", 5),
    ("9 by clocks", 20),
    ("lines of 1,000,000", 100),
    ("bytes behind the end", 300),
];

/// Draws and judges streams; a failing one is told whole, or its beginning.
pub fn compare(seed: u64, streams: u64) -> Result<String, String> {
    let mut counts = Counts::new(streams, THINGS);
    for number in 0..streams {
        let random = &mut Random::new(seed, "imports", number);
        let stream = stream(random, number);
        judge(random, &stream, &mut counts).map_err(|difference| {
            let shown = &stream[..stream.len().min(3000)];
            format!("seed {seed}, imports {number}: {difference}\n{} bytes {shown:02x?}", stream.len())
        })?;
    }
    Ok(format!("{streams} streams ({})", counts.told()?))
}

/// Holds what the library makes of a stream to what the reading makes of it, and the log to what the stream stands for.
fn judge(random: &mut Random, stream: &[u8], counts: &mut Counts) -> Result<(), String> {
    let log = vgm::log(stream);
    let fit = log.as_ref().map_or(0, |log| log.len());
    let room = match random.within(0..=5) {
        0 | 1 => fit,
        2 => fit.max(1) - 1,
        3 => fit + random.within(1..=40) as usize,
        4 => random.pick(&[0, 1, 13, MOST_BYTES - 1, MOST_BYTES]),
        _ => random.within(0..=MOST_BYTES as u64 + 1) as usize,
    };
    let room = if random.one_in(3) { MOST_BYTES + 1 } else { room.min(MOST_BYTES + 1) };
    let (mut ours, mut theirs) = (vec![b'?'; room], vec![b'?'; room]);
    let answer = vgm::import(stream, &mut ours);
    same(|| format!("import to {room} bytes"), answer, raw::import(stream, &mut theirs))?;
    if ours != theirs {
        let at = (0..room).find(|&i| ours[i] != theirs[i]).unwrap_or(0);
        let shown = |text: &[u8]| text[at..room.min(at + 60)].escape_ascii().to_string();
        let (ours, theirs) = (shown(&ours), shown(&theirs));
        return Err(format!("a text of {room} bytes differs at {at}: the reading\n{ours}\nthe library\n{theirs}"));
    }
    count(stream, answer, fit, room, counts);
    if answer as u8 == 0 { stands_for(random, &theirs[..(answer >> 8) as usize], stream, counts) } else { Ok(()) }
}

fn count(stream: &[u8], answer: u64, fit: usize, room: usize, counts: &mut Counts) {
    counts.add(&(answer as u8).to_string());
    counts.add_if(fit > 0 && fit <= MOST_BYTES && room == fit, "exact fits");
    counts.add_if(fit > 0 && fit <= MOST_BYTES && room + 1 == fit, "one byte less");
    counts.add_if(fit == MOST_BYTES && answer as u8 == 0, "logs of 60,000 bytes");
    counts.add_if(fit == MOST_BYTES + 1 && room == fit, "60,001 bytes with room");
    if let Ok(meant) = vgm::meant(stream) {
        counts.add_if(answer as u8 == 0 && meant.bytes < stream.len(), "bytes behind the end");
        counts.add_if(answer as u8 == 28 && meant.writes.len() > 999_990, "1,000,000 turns");
        counts.add_if(answer as u8 == 9 && meant.writes.len() > 999_990, "9 by turns");
        counts.add_if(answer as u8 == 9 && meant.end > 2_000_000_000, "9 by clocks");
    }
}

/// Whether a log passes the library's check and its items are the stream's writes at their clocks, with waits between them.
fn stands_for(random: &mut Random, text: &[u8], stream: &[u8], counts: &mut Counts) -> Result<(), String> {
    let meant = vgm::meant(stream).expect("the stream isn't refused");
    same(|| "check of the log".into(), (meant.end as u64) << 32, raw::check(text))?;
    let items = log::items(text).map_err(|fault| format!("the reading refuses the log: {fault:?}"))?;
    let (mut clock, mut writes) = (0, Vec::new());
    for item in &items {
        match *item {
            Item::Wait(clocks) => clock += u128::from(clocks),
            Item::Write(register, value) => writes.push((clock, register, value)),
            Item::Read => return Err("the log has a read".into()),
        }
    }
    if (&writes, clock) != (&meant.writes, meant.end) {
        return Err(format!("the log stands for {writes:?} up to {clock}, the stream for {meant:?}"));
    }
    counts.add_if(items.contains(&Item::Wait(1_000_000)), "lines of 1,000,000");
    // All items of a short log, some of a long one.
    let last = items.len() as u64;
    let asked: Vec<u64> = match last {
        0..=60 => (0..=last).collect(),
        _ => (0..10).map(|_| random.within(0..=last - 1)).chain([last - 1, last]).collect(),
    };
    for k in asked {
        let held = items.get(k as usize).map_or(11, |item| reading::player::held(*item) << 32);
        same(|| format!("item {k} of the log"), held, raw::item(text, k))?;
    }
    Ok(())
}
