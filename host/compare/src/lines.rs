//! Lines at fault: logs drawn so that each refusal of a line comes up with any number of loops open, and right logs cut at
//! every byte.

use crate::logs::{nested, same};
use crate::machines::either;
use crate::random::Random;
use perch::raw;
use reading::player;

/// Numbers at the edges of ranges and of words, and what is nearly a number.
const NUMBERS: [&str; 36] = [
    "0",
    "1",
    "2",
    "9",
    "10",
    "25",
    "26",
    "100",
    "254",
    "255",
    "256",
    "257",
    "300",
    "2550",
    "999999",
    "1000000",
    "1000001",
    "1000010",
    "9999999",
    "10000000",
    "200000000",
    "1999999999",
    "2000000000",
    "2000000001",
    "20000000000",
    "4294967296",
    "4294967298",
    "18446744073709551616",
    "18446744073709551618",
    "100000000000000000000000001",
    "",
    "00",
    "01",
    "+1",
    "-1",
    "0x1",
];

/// Bytes that are put into lines.
const BYTES: &[u8] = b"0123456789:=\nadeghiloprstwxAF \r\t\0\xff";

fn number(random: &mut Random, range: (u64, u64)) -> String {
    match random.within(0..=4) {
        0 | 1 => random.within(range.0..=range.1).to_string(),
        2 => random.within(0..=300).to_string(),
        3 => random.pick(&NUMBERS).into(),
        _ => (0..random.within(1..=12)).map(|_| char::from(b'0' + random.within(0..=9) as u8)).collect(),
    }
}

/// A line without its line feed: right, with a value out of range, or with bytes changed.
fn line(random: &mut Random) -> Vec<u8> {
    let key = random.pick(&[
        "wait", "wait", "write", "write", "read", "loop", "loop", "done", "done", "stop", "stop", "log", "machine",
    ]);
    let value = match key {
        _ if random.one_in(16) => random.pick(&["", "1", "4015", "loop", "4000:00", "x", "pal"]).into(),
        "wait" => number(random, (1, 1_000_000)),
        "loop" => number(random, (2, 255)),
        "stop" => number(random, (0, 2_000_000_000)),
        "write" => {
            let (any, right) = (random.bits() as u16, random.within16(0x4000..=0x4013));
            let register = random.pick(&[right, right, 0x4014, 0x4015, 0x4016, 0x4017, 0x4018, any]);
            format!("{register:04x}:{:02x}", random.byte())
        }
        "read" => "4015".into(),
        "done" => "loop".into(),
        "machine" => "pal".into(),
        _ => "1".into(),
    };
    let mut line = format!("{key}={value}").into_bytes();
    if random.one_in(3) {
        let at = random.within(0..=line.len() as u64 - 1) as usize;
        let byte = if random.one_in(4) { random.byte() } else { random.pick(BYTES) };
        match random.within(0..=4) {
            0 => line[at] = byte,
            1 => line.insert(at, byte),
            2 => line.push(byte),
            3 => line.truncate(at),
            _ => drop(line.remove(at)),
        }
    }
    line
}

/// The beginning of a right log with so many loops open, of no clocks.
fn opening(random: &mut Random, open: u64) -> Vec<u8> {
    let mut log = either(random, b"log=1\n".to_vec());
    for depth in 0..=open {
        for _ in 0..random.pick(&[0, 0, 1, 2]) {
            let lines = ["read=4015\n", "write=4000:1f\n", "write=4017:c0\n", "loop=2\ndone=loop\n"];
            // Inside eight loops there is room for no other.
            log.extend(random.pick(&lines[..if depth < 8 { 4 } else { 3 }]).bytes());
        }
        if depth < open {
            log.extend(format!("loop={}\n", random.within(2..=3)).bytes());
        }
    }
    log
}

/// What closes the loops and ends a log of no clocks.
fn closing(open: u64) -> Vec<u8> {
    [b"done=loop\n".repeat(open as usize), b"stop=0\n".to_vec()].concat()
}

/// Right lines of so many bytes, 17 at least.
fn padding(mut bytes: usize) -> Vec<u8> {
    let mut lines = Vec::new();
    while bytes > 26 {
        lines.extend(b"read=4015\n");
        bytes -= 10;
    }
    for size in [bytes / 2, bytes - bytes / 2] {
        lines.extend(format!("wait=1{}\n", "0".repeat(size - 7)).bytes());
    }
    lines
}

/// A log with a line at fault, or with one that is right after all.
pub fn log(random: &mut Random) -> Vec<u8> {
    let open = random.pick(&[0, 0, 1, 2, 3, 4, 5, 6, 7, 8, 8, 8]);
    let mut log = opening(random, open);
    match random.within(0..=31) {
        0 | 1 => return log,
        2 | 3 => log.extend([closing(open), line(random)].concat()),
        4 => log = line(random),
        5 => {
            // Any bytes.
            let any = random.one_in(2);
            return (0..random.within(1..=60)).map(|_| if any { random.byte() } else { random.pick(BYTES) }).collect();
        }
        6 => {
            // Lines that end in carriage return and line feed, and a byte order mark.
            let whole = String::from_utf8_lossy(&[log, closing(open)].concat()).into_owned();
            let whole = if random.one_in(2) { whole.replace('\n', "\r\n") } else { whole };
            return if random.one_in(2) { format!("\u{feff}{whole}") } else { whole }.into_bytes();
        }
        7 if random.one_in(50) => {
            // The most bytes of a log, or one more.
            let size = random.pick(&[60_000, 60_001]);
            let end = match random.within(0..=3) {
                0 => closing(open),
                1 => line(random),
                2 => [line(random), b"\n".to_vec()].concat(),
                _ => Vec::new(),
            };
            log.extend(padding(size - log.len() - end.len()));
            return [log, end].concat();
        }
        _ => log.extend(line(random)),
    }
    if random.one_in(4) {
        return log;
    }
    [log, b"\n".to_vec(), closing(open)].concat()
}

/// The loops open at a place.
fn open_at(log: &[u8], place: usize) -> usize {
    let whole = log[..place].split_inclusive(|&byte| byte == b'\n').filter(|line| line.ends_with(b"\n"));
    whole.fold(0, |open: usize, line| match line {
        b"done=loop\n" => open.saturating_sub(1),
        _ => open + usize::from(line.starts_with(b"loop=")),
    })
}

/// The refusals of a line, each with the fewest and the most loops open where it can be.
const REFUSALS: [(usize, usize, usize); 9] =
    [(4, 0, 8), (7, 8, 8), (8, 0, 8), (14, 0, 8), (15, 0, 8), (16, 0, 8), (17, 0, 8), (18, 0, 8), (19, 0, 0)];

/// Draws and judges logs; tells how often each number came up, and it is an error where one hardly did.
pub fn compare(seed: u64, logs: u64, memory: &[u8]) -> Result<String, String> {
    let mut counts = [[0; 9]; 20];
    for number in 0..logs {
        let log = log(&mut Random::new(seed, "lines", number));
        let answer = player::check(&log);
        let open = open_at(&log, (answer >> 8 & 0xff_ffff) as usize);
        counts[usize::from(answer as u8)][open.min(8)] += 1;
        judge(&log, memory).map_err(|difference| {
            let shown = log.escape_ascii().to_string().replace("\\n", "\\n\n");
            format!("seed {seed}, lines {number}: {difference}\n{shown}")
        })?;
    }
    let sum = |number: usize| counts[number].iter().sum::<u64>();
    for (number, fewest, most) in REFUSALS {
        let rare = (fewest..=most).find(|&open| counts[number][open] < logs / 10_000);
        if sum(number) < logs / 1000 || rare.is_some() {
            return Err(format!("seed {seed}: {number} hardly comes up: {:?} by loops open", counts[number]));
        }
    }
    let drawn: Vec<String> = (0..20).filter(|&i| sum(i) > 0).map(|i| format!("{i}: {}", sum(i))).collect();
    Ok(format!("{logs} logs ({})", drawn.join(", ")))
}

/// Holds what the library answers about a log to what the reading answers.
pub(crate) fn judge(log: &[u8], memory: &[u8]) -> Result<(), String> {
    let answer = player::check(log);
    same(|| "check".into(), answer, raw::check(log))?;
    same(|| "turns".into(), player::turns(log), raw::turns(log))?;
    same(|| "items".into(), player::items(log), raw::items(log))?;
    same(|| "item 0".into(), player::item(log, 0), raw::item(log, 0))?;
    same(|| "body at 6".into(), player::body(log, 6), raw::body(log, 6))?;
    let mut player = vec![0; raw::player_size()];
    same(|| "the beginning".into(), answer & 0xffff_ffff, raw::begin(&mut player, log, memory))
}

/// Right logs cut at every byte: each cut is refused at its length, with 18 where it is empty or ends in a line feed, else
/// with 17. The library alone is asked.
pub fn cuts(seed: u64, logs: u64) -> Result<String, String> {
    let mut cuts = 0;
    for number in 0..logs {
        let log = nested(&mut Random::new(seed, "cuts", number), 60);
        if raw::check(&log) as u8 != 0 {
            return Err(format!("seed {seed}, cuts {number}: a right log is refused\n{}", log.escape_ascii()));
        }
        for length in 0..log.len() {
            let cut = &log[..length];
            let expected = if cut.last().is_none_or(|&byte| byte == b'\n') { 18 } else { 17 };
            same(
                || format!("seed {seed}, cuts {number}: {length} bytes of\n{}\n", log.escape_ascii()),
                expected | (length as u64) << 8,
                raw::check(cut),
            )?;
        }
        cuts += log.len();
    }
    Ok(format!("{logs} right logs, {cuts} cuts"))
}
