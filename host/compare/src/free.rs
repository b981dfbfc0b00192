//! Whole logs of other kinds: free bytes; right logs with carriage returns, behind a byte order mark, or of exactly the most
//! bytes and one more; and the texts of any refusals.

use crate::counts::Counts;
use crate::lines::judge;
use crate::logs::{damage, nested, same};
use crate::players::looped;
use crate::random::Random;
use perch::raw;
use reading::log::MOST_BYTES;
use reading::{player, words};

/// A log of free bytes, a byte of any value or one of those that logs are made of.
pub fn log(random: &mut Random) -> Vec<u8> {
    let any = random.one_in(2);
    let head: &[u8] = if random.one_in(2) { b"log=1\n" } else { b"" };
    let length = random.pick(&[0, 5, 60, 2000]);
    let rest = (0..random.within(0..=length))
        .map(|_| if any { random.byte() } else { random.pick(b"0123456789:=\n\nadeghiloprstw") });
    head.iter().copied().chain(rest.collect::<Vec<u8>>()).collect()
}

/// A right log of exactly so many bytes, 100 at least.
fn sized(random: &mut Random, bytes: usize) -> Vec<u8> {
    let (first, last) = (b"log=1\nwait=1\n", b"stop=1\n");
    let mut body = Vec::new();
    let mut left = bytes - first.len() - last.len();
    if left % 2 == 1 {
        // The one line of an odd length.
        body.push("loop=2\ndone=loop\n".to_string());
        left -= 17;
    }
    // Writes of 14 bytes until tens are left, and then writes or reads.
    while !left.is_multiple_of(10) {
        body.push(format!("write=4011:{:02x}\n", random.byte()));
        left -= 14;
    }
    while left > 0 {
        if left >= 70 && random.one_in(4) {
            body.extend((0..5).map(|_| format!("write=4011:{:02x}\n", random.byte())));
            left -= 70;
        } else {
            body.push("read=4015\n".into());
            left -= 10;
        }
    }
    let at = random.within(0..=body.len() as u64 - 1) as usize;
    body.rotate_left(at);
    [&first[..], body.concat().as_bytes(), last].concat()
}

fn with_returns(log: &[u8]) -> Vec<u8> {
    log.iter().flat_map(|&byte| [b'\r', byte].into_iter().skip(usize::from(byte != b'\n'))).collect()
}

const MARK: &[u8] = b"\xef\xbb\xbf";

/// What must come up, and how often in 10,000 logs.
const SEEN: [(&str, u64); 12] = [
    ("free bytes", 1000),
    ("free bytes behind log=1", 1000),
    ("carriage returns", 500),
    ("a byte order mark", 500),
    ("both", 500),
    ("returns in one line alone", 200),
    ("60,000 bytes, right", 50),
    ("60,001 bytes, right but for that", 30),
    ("60,000 bytes, a byte changed", 30),
    ("60,001 bytes, a byte changed", 10),
    ("59,999 bytes, right", 10),
    ("60,002 bytes", 10),
];

/// A log, what it is, and what is to be answered by the rules where they say it outright.
fn drawn(random: &mut Random) -> (&'static str, Vec<u8>, Option<u64>) {
    let right = if random.one_in(4) { nested(random, 60) } else { looped(random) };
    match random.within(0..=19) {
        // A carriage return can't stand behind `log=1`, and nothing before it.
        0..=2 => ("carriage returns", with_returns(&right), Some(15 | 5 << 8)),
        3..=5 => ("a byte order mark", [MARK, &right].concat(), Some(14)),
        6 | 7 => ("both", [MARK, &with_returns(&right)].concat(), Some(14)),
        8 => {
            // In the first line of some length behind the first.
            let feed = 6 + right[6..].iter().position(|&byte| byte == b'\n').unwrap_or(0);
            let mut log = right;
            log.insert(feed, b'\r');
            ("returns in one line alone", log, None)
        }
        9 => match random.within(0..=9) {
            0 => ("59,999 bytes, right", sized(random, MOST_BYTES - 1), Some(1 << 32)),
            1 => ("60,002 bytes", sized(random, MOST_BYTES + 2), Some(5)),
            2..=4 => ("60,000 bytes, right", sized(random, MOST_BYTES), Some(1 << 32)),
            5 | 6 => ("60,001 bytes, right but for that", sized(random, MOST_BYTES + 1), Some(5)),
            kind => {
                let size = MOST_BYTES + usize::from(kind == 9);
                let mut log = sized(random, size);
                // Another byte, or other bytes and as many.
                if random.one_in(2) {
                    let at = random.within(0..=size as u64 - 1) as usize;
                    log[at] = random.pick(b"0123456789:=\nadeghiloprstw\r ");
                } else {
                    damage(random, &mut log);
                    log.resize(size, b'\n');
                }
                if size > MOST_BYTES {
                    ("60,001 bytes, a byte changed", log, Some(5))
                } else {
                    ("60,000 bytes, a byte changed", log, None)
                }
            }
        },
        _ => {
            let log = log(random);
            (if log.starts_with(b"log=1\n") { "free bytes behind log=1" } else { "free bytes" }, log, None)
        }
    }
}

/// Draws and judges logs; tells what came up, and it is an error where something hardly did.
pub fn compare(seed: u64, logs: u64, memory: &[u8]) -> Result<String, String> {
    let mut counts = Counts::new(logs, SEEN);
    for number in 0..logs {
        let (what, log, expected) = drawn(&mut Random::new(seed, "whole", number));
        counts.add(what);
        let by_rule =
            expected.map_or(Ok(()), |expected| same(|| format!("{what}, by the rule"), expected, raw::check(&log)));
        by_rule.and_then(|()| judge(&log, memory)).map_err(|difference| {
            let shown = log.escape_ascii().to_string();
            format!("seed {seed}, whole {number} ({what}): {difference}\n{}", &shown[..shown.len().min(4000)])
        })?;
    }
    Ok(format!("{logs} logs ({})", counts.told()?))
}

/// Every number in words, in texts of every length up to one more than any words have.
fn in_words() -> Result<(), String> {
    for (number, size) in (0..=u8::MAX).flat_map(|number| (0..=61).map(move |size| (number, size))) {
        let (mut ours, mut theirs) = (vec![b'?'; size], vec![b'?'; size]);
        let asked = || format!("{number} in words, in {size} bytes");
        same(asked, words::reason(number, &mut ours), raw::reason(number, &mut theirs))?;
        if ours != theirs {
            return Err(format!("{}: {}", asked(), theirs.escape_ascii()));
        }
    }
    Ok(())
}

/// The texts of any refusals: every number, places of any number of digits, texts of any length.
pub fn texts(seed: u64, texts: u64) -> Result<String, String> {
    let things =
        [("places of ten digits", 200), ("of more", 2000), ("too short by one", 500), ("just long enough", 500)];
    let mut counts = Counts::new(texts, things);
    in_words()?;
    for number in 0..texts {
        let random = &mut Random::new(seed, "texts", number);
        let tens = 10u64.pow(random.within(0..=19) as u32);
        let few = random.within(0..=3);
        let any = random.bits() >> random.within(0..=63);
        let place =
            random.pick(&[tens, tens.wrapping_sub(1 + few), tens.saturating_add(few), u64::MAX - few, any, any]);
        let (refusal, digits) = (random.byte(), place.to_string().len());
        let whole = "play=1\nrefused=:\n".len() + refusal.to_string().len() + digits.min(10);
        let size = match random.within(0..=4) {
            0 => whole,
            1 => whole - 1,
            2 => whole + random.within(0..=20) as usize,
            3 => random.within(0..=whole as u64) as usize,
            _ => 40,
        };
        let (mut ours, mut theirs) = (vec![b'?'; size], vec![b'?'; size]);
        let asked = || format!("seed {seed}, texts {number}: {refusal} at {place} in {size} bytes");
        let answer = player::refusal_text(refusal, place, &mut ours);
        same(asked, answer, raw::refusal_text(refusal, place, &mut theirs))?;
        if ours != theirs {
            let [ours, theirs] = [&ours, &theirs].map(|text| text.escape_ascii().to_string());
            return Err(format!("{}: the reading {ours}, the library {theirs}", asked()));
        }
        let written = if size < whole { 0 } else { whole as u64 };
        same(|| format!("{}, by its length", asked()), written << 32, answer)?;
        counts.add_if(digits == 10, "places of ten digits");
        counts.add_if(digits > 10, "of more");
        counts.add_if(size + 1 == whole, "too short by one");
        counts.add_if(size == whole, "just long enough");
    }
    Ok(format!("{texts} texts ({})", counts.told()?))
}
