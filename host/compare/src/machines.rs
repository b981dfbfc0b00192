//! The line `machine=pal`: right or damaged at every place of right logs, and logs with it beside the same without it.

use crate::counts::Counts;
use crate::logs::{nested, same};
use crate::random::Random;
use perch::raw;
use reading::layout::cursor as layout;
use reading::{cursor, number, player};

const LINE: &[u8] = b"machine=pal\n";

/// Makes every other log that begins right a PAL machine's.
pub fn either(random: &mut Random, mut log: Vec<u8>) -> Vec<u8> {
    if random.one_in(2) && log.starts_with(b"log=1\n") {
        log.splice(6..6, LINE.iter().copied());
    }
    log
}

/// Lines that are nearly right.
const NEARLY: [&str; 24] = [
    "machine=ntsc\n",
    "machine=\n",
    "machine\n",
    "machine=PAL\n",
    "machine=Pal\n",
    "Machine=pal\n",
    "machine=pal \n",
    "machine=pal\r\n",
    "machine= pal\n",
    "machine =pal\n",
    " machine=pal\n",
    "machine=pals\n",
    "machine=pa\n",
    "machine=1\n",
    "machine==pal\n",
    "machine:pal\n",
    "machin=pal\n",
    "machines=pal\n",
    "mx\n",
    "m\n",
    "max\n",
    "machine=pal\0\n",
    "machine=dendy\n",
    "machine=palstop=0\n",
];

/// The line with one byte changed, put in or taken out, or nearly right.
fn damaged(random: &mut Random) -> Vec<u8> {
    let mut line = LINE.to_vec();
    let at = random.within(0..=line.len() as u64 - 1) as usize;
    let byte = if random.one_in(4) { random.byte() } else { random.pick(b"machinepl=\n0 NP") };
    match random.within(0..=5) {
        0 => line[at] = byte,
        1 => line.insert(at, byte),
        2 => drop(line.remove(at)),
        _ => line = random.pick(&NEARLY).into(),
    }
    line
}

/// What the library answers about a log is what the reading answers: the answer of the check.
fn judge(log: &[u8], memory: &[u8]) -> Result<u64, String> {
    let answer = player::check(log);
    let shown = || format!("\n{}", log.escape_ascii().to_string().replace("\\n", "\\n\n"));
    same(|| format!("check of{}", shown()), answer, raw::check(log))?;
    for k in [0, 1, 5] {
        same(|| format!("item {k} of{}", shown()), player::item(log, k), raw::item(log, k))?;
    }
    for offset in [6, 18, 20] {
        same(|| format!("body at {offset} of{}", shown()), player::body(log, offset), raw::body(log, offset))?;
    }
    let mut bytes = vec![0xa5; raw::player_size()];
    same(|| format!("beginning of{}", shown()), answer & 0xffff_ffff, raw::begin(&mut bytes, log, memory))?;
    Ok(answer)
}

/// Texts with the line at place 6, and where a cursor that stands there is refused. It passes over the line only where that is the second one: behind
/// `log=1` and its line feed.
const AT_SIX: [(&[u8], u8, u32); 5] = [
    (b"log=1\nmachine=pal\n", number::NO_STOP, 18),
    (b"log=2\nmachine=pal\n", number::KEY, 6),
    (b"ab\ncd\nmachine=pal\n", number::KEY, 6),
    (b"log=1xmachine=pal\n", number::KEY, 6),
    (b"log=1\nmachine=pal\nmachine=pal\n", number::KEY, 18),
];

/// Holds the cursor at place 6 to what it must answer, by the reading and by the library.
fn at_six() -> Result<(), String> {
    for (log, number, place) in AT_SIX {
        let mut ours = vec![0; layout::SIZE];
        cursor::start(&mut ours);
        layout::PLACE.put(&mut ours, 6);
        let mut theirs = ours.clone();
        let right = u64::from(u32::from(number) | place << 8);
        let shown = || format!("a cursor at place 6 of {}", log.escape_ascii());
        same(|| format!("{}, by the reading", shown()), right, cursor::next(&mut ours, log))?;
        same(shown, right, raw::cursor_next(&mut theirs, log))?;
    }
    Ok(())
}

/// Where a log's lines begin, and its end.
fn starts(log: &[u8]) -> Vec<usize> {
    [0].into_iter().chain((1..=log.len()).filter(|&i| log[i - 1] == b'\n')).collect()
}

/// The log with a line put in at a place.
fn with(log: &[u8], at: usize, line: &[u8]) -> Vec<u8> {
    [&log[..at], line, &log[at..]].concat()
}

/// A right log of so many bytes with the line.
fn of_size(size: usize) -> Vec<u8> {
    let mut log = [b"log=1\n", LINE].concat();
    let odd = (size - log.len()) % 2;
    let mut left = size - log.len() - 7 * odd;
    while left > 26 {
        log.extend(b"read=4015\n");
        left -= 10;
    }
    // A wait and a `stop` of as many digits take what is left, beside a wait of 1 where that is odd.
    let wait = 10usize.pow(left as u32 / 2 - 7);
    log.extend("wait=1\n".repeat(odd).bytes());
    log.extend(format!("wait={wait}\nstop={}\n", wait + odd).bytes());
    log
}

/// Draws logs and puts the line in; tells how often each thing came up.
pub fn compare(seed: u64, logs: u64, memory: &[u8]) -> Result<String, String> {
    let things = [
        ("PAL", 5_000),
        ("NTSC", 3_000),
        ("the line in another place", 50_000),
        ("the line twice", 3_000),
        ("damaged second: 14", 1_000),
        ("damaged second: 15", 500),
        ("damaged second: 17", 200),
        ("damaged elsewhere", 30_000),
        ("with it and without it", 3_000),
    ];
    let mut counts = Counts::new(logs, things);
    at_six()?;
    for number in 0..logs {
        let random = &mut Random::new(seed, "machines", number);
        judged(random, memory, &mut counts).map_err(|what| format!("seed {seed}, machines {number}: {what}"))?;
    }
    for size in 59_950..=60_010 {
        let answer = judge(&of_size(size), memory);
        let answer = answer.map_err(|what| format!("{size} bytes: {}", &what[..what.len().min(100)]))?;
        if of_size(size).len() != size || answer as u8 != if size > 60_000 { 5 } else { 0 } {
            return Err(format!("{size} bytes are answered {answer:#x}"));
        }
    }
    Ok(format!("{logs} logs ({})", counts.told()?))
}

fn judged(random: &mut Random, memory: &[u8], counts: &mut Counts) -> Result<(), String> {
    let mut log = nested(random, 12);
    let second = log[6..].starts_with(LINE);
    if second {
        counts.add("PAL");
    } else {
        counts.add("NTSC");
        // With the line all but the machine is the same.
        let pal = with(&log, 6, LINE);
        let (without, with) = (judge(&log, memory)?, judge(&pal, memory)?);
        if without | 1 << 63 != with || without as u32 != 0 {
            return Err(format!("without the line {without:#x}, with it {with:#x}\n{}", log.escape_ascii()));
        }
        let items = |log: &[u8]| (0..20).map(|k| raw::item(log, k)).collect::<Vec<_>>();
        if items(&log) != items(&pal) {
            return Err(format!("the line changes an item\n{}", log.escape_ascii()));
        }
        counts.add("with it and without it");
    }
    // Some logs end early, in a line feed or not.
    if random.one_in(4) {
        log.truncate(random.within(0..=log.len() as u64) as usize);
    }
    for at in starts(&log) {
        let answer = judge(&with(&log, at, LINE), memory)?;
        counts.add_if(at == 6 && answer as u8 == 0, "PAL");
        counts.add_if(at != 6 && answer as u32 == 14 | (at as u32) << 8, "the line in another place");
        counts.add_if(second && at == 18 && answer as u32 == 14 | 18 << 8, "the line twice");

        let mut line = damaged(random);
        let cut = random.one_in(3);
        if cut {
            line.truncate(random.within(0..=line.len() as u64) as usize);
        }
        let whole = if cut { [&log[..at], &line].concat() } else { with(&log, at, &line) };
        let number = judge(&whole, memory)? as u8;
        match at {
            6 if !second => {
                for (of, name) in [14, 15, 17].into_iter().zip(["14", "15", "17"]) {
                    counts.add_if(number == of, &format!("damaged second: {name}"));
                }
            }
            _ => counts.add("damaged elsewhere"),
        }
    }
    Ok(())
}
