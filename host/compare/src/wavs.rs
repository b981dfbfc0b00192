//! A log as a WAV file through the boundary: drawn logs, right and refused, at right rates and wrong ones; the size, and the pieces
//! joined, in buffers of any size.

use crate::counts::Counts;
use crate::logs::{self, damage, same};
use crate::random::Random;
use crate::stamped::{self, Stamps};
use crate::{under_way, waves};
use perch::raw;
use reading::layout::wav as layout;
use reading::wave::HEAD;
use reading::{MEMORY, number, player, wav, wave};

/// What is counted, with the fewest in 10,000 files.
const THINGS: [(&str, u64); 24] = [
    ("pal", 600),
    ("8000", 100),
    ("44100", 200),
    ("48000", 100),
    ("192000", 100),
    ("another rate", 600),
    ("no samples", 100),
    ("a thousand samples", 80),
    ("the log ends with a sample", 100),
    ("the log ends a clock before one", 400),
    ("a clock before one that ends with a clock", 10),
    ("accesses at a sample's last clock", 700),
    ("a log too long to be heard whole", 5),
    ("no room for the head", 300),
    ("no room for a sample", 300),
    ("an odd byte left", 700),
    ("filled by the last sample", 80),
    ("over with samples", 900),
    ("over alone", 200),
    ("refused 1", 150),
    ("refused 2", 150),
    ("refused 33", 200),
    ("refused as the log", 1500),
    ("refused as the log, at a wrong rate", 250),
];

/// The most clocks of a log that is heard whole: the reading goes one by one.
const HEARD: u64 = 300_000;

/// A log, every other one damaged.
fn log(random: &mut Random, rate: u64) -> Vec<u8> {
    let mut log = match random.within(0..=5) {
        0..=2 => waves::at_samples(random, rate),
        3 => stamped::log(random),
        _ => logs::log(random),
    };
    if random.one_in(2) {
        damage(random, &mut log);
    }
    log
}

/// A wrong rate.
fn wrong_rate(random: &mut Random) -> u32 {
    let any = random.bits() as u32;
    random.pick(&[0, 1, 7_999, 192_001, 44_100 << 16, u32::MAX, any.max(192_001)])
}

/// A buffer's size: small ones for a while, then larger ones; now and then what is left of the file, or nearly so.
fn room(random: &mut Random, small: &mut u64, left: usize) -> usize {
    if left < 4_000 && random.one_in(8) {
        return (left + random.within(0..=4) as usize).saturating_sub(2);
    }
    let sizes = match (*small, random.within(0..=4)) {
        (0, _) => HEAD as u64..=8_000,
        (_, 0) => 0..=1,
        (_, 1) => 2..=43,
        (_, 2 | 3) => 44..=200,
        _ => 0..=3_000,
    };
    *small = small.saturating_sub(1);
    random.within(sizes) as usize
}

/// A file that is written piece by piece.
struct Pieces<'a> {
    log: &'a [u8],
    memory: &'a [u8],
    /// The file by the reading.
    whole: Vec<u8>,
    /// The file under way, and the bytes written so far.
    bytes: Vec<u8>,
    at: usize,
}

impl Pieces<'_> {
    /// Holds the next piece to the file, and moves behind it; whether it said over, and how many bytes it wrote.
    fn next(&mut self, size: usize) -> Result<(bool, usize), String> {
        let mut out = vec![b'?'; size];
        let before = self.bytes.clone();
        let answer = raw::wav_on(&mut self.bytes, self.log, self.memory, &mut out);
        let (over, written) = (answer >> 8 & 1 == 1, (answer >> 32) as usize);
        let wrong = |what: String| Err(format!("a piece of {size} bytes answers {answer:#x}: {what}"));
        if answer & 0xffff_feff != 0 {
            return wrong("it is refused".into());
        }
        let left = self.whole.len() - self.at;
        let fits = match self.at {
            0 if size < HEAD => 0,
            0 => HEAD,
            _ => left.min(size & !1),
        };
        if written != fits {
            return wrong(format!("behind {} bytes of {} there fit {fits}", self.at, self.whole.len()));
        }
        let right = &self.whole[self.at..][..written];
        if let Some(place) = (0..written).find(|&place| out[place] != right[place]) {
            return wrong(format!("byte {} is {}, by the reading {}", self.at + place, out[place], right[place]));
        }
        if out[written..].iter().any(|&byte| byte != b'?') {
            return wrong("it wrote behind its bytes".into());
        }
        if self.at == 0 && written == 0 && self.bytes != before {
            return wrong("there is no room for the head, and the file under way changed".into());
        }
        if over && written < left {
            return wrong(format!("it is over, and {} bytes are left", left - written));
        }
        if !over && left == 0 && size >= 2 {
            return wrong("nothing is left, and it isn't over".into());
        }
        self.at += written;
        Ok((over, written))
    }

    /// Writes the file to its end; counts what came up. Gives a bookmark on the way: a copy of the bytes, and where it was.
    fn all(&mut self, random: &mut Random, counts: &mut Counts) -> Result<(Vec<u8>, usize), String> {
        let mut small = random.pick(&[0, 5, 40]);
        let mut mark = (self.bytes.clone(), self.at);
        loop {
            if random.one_in(4) {
                mark = (self.bytes.clone(), self.at);
            }
            let (headless, left) = (self.at == 0, self.whole.len() - self.at);
            let size = room(random, &mut small, left);
            let (over, written) = self.next(size)?;
            counts.add_if(headless && written == 0, "no room for the head");
            counts.add_if(!headless && size < 2, "no room for a sample");
            counts.add_if(!headless && size % 2 == 1 && written + 1 == size, "an odd byte left");
            counts.add_if(!headless && left > 0 && written == left && size - written < 2, "filled by the last sample");
            if over {
                counts.add(if written > 0 { "over with samples" } else { "over alone" });
                return Ok(mark);
            }
        }
    }

    /// A file that is over stays so. Refused pieces change nothing.
    fn end(&mut self) -> Result<(), String> {
        self.next(2)?;
        self.next(64)?;
        let kept = self.bytes.clone();
        let mut out = [b'?'; 64];
        let less = raw::wav_on(&mut self.bytes, self.log, &self.memory[1..], &mut out);
        same(|| "a piece with less memory".into(), number::MEMORY.into(), less)?;
        let shorter = raw::wav_on(&mut self.bytes[1..], self.log, self.memory, &mut out);
        same(|| "a piece with fewer bytes of a file".into(), number::STATE.into(), shorter)?;
        if self.bytes != kept || out != [b'?'; 64] {
            return Err("a refused piece changed something".into());
        }
        Ok(())
    }
}

/// Holds a beginning to the reading: the answer and every byte; counts a refusal. Gives the file's bytes and its size.
fn begun(
    random: &mut Random,
    log: &[u8],
    memory: &[u8],
    rate: u32,
    counts: &mut Counts,
) -> Result<Option<(Vec<u8>, u64)>, String> {
    let sizes = [0, 1, layout::SIZE - 1, layout::SIZE + 1, player::SIZE];
    let size = if random.one_in(20) { random.pick(&sizes) } else { layout::SIZE };
    let lent = if random.one_in(20) { random.pick(&[0, MEMORY - 1]) } else { MEMORY };
    let fresh: Vec<u8> = (0..size).map(|_| random.byte()).collect();
    let (mut ours, mut theirs) = (fresh.clone(), fresh.clone());
    let answer = raw::wav_begin(&mut theirs, log, &memory[..lent], rate);
    same(|| format!("the beginning at {rate}"), wav::begin(&mut ours, log, &memory[..lent], rate), answer)?;
    if ours != theirs {
        return Err(format!("the beginning at {rate} is\n{ours:02x?} by the reading,\n{theirs:02x?} by the library"));
    }
    let wrong_rate = !wave::RATES.contains(&rate.into());
    match answer as u8 {
        0 => return Ok(Some((theirs, answer >> 32))),
        number @ (1 | 2 | 33) => counts.add(&format!("refused {number}")),
        _ if wrong_rate => counts.add("refused as the log, at a wrong rate"),
        _ => counts.add("refused as the log"),
    }
    if theirs != fresh { Err("a refused beginning changed the bytes".into()) } else { Ok(None) }
}

fn judge(
    random: &mut Random,
    log: &[u8],
    memory: &[u8],
    rate: u32,
    counts: &mut Counts,
) -> Result<Option<u64>, String> {
    let Some((mut bytes, size)) = begun(random, log, memory, rate, counts)? else { return Ok(None) };
    if raw::check(log) >> 32 & 0x7fff_ffff > HEARD {
        counts.add("a log too long to be heard whole");
        for _ in 0..4 {
            under_way::piece(&mut bytes, log, memory, random.within(0..=1_000) as usize)?;
        }
        return Ok(None);
    }
    let whole = wave::file(log, memory, rate.into());
    same(|| "the size, by the file".into(), whole.len() as u64, size)?;
    let samples = (whole.len() - HEAD) / 2;
    let stamps = Stamps::of(log).ok_or("the log is refused, and begun")?;
    waves::count(counts, &stamps, Some(rate.into()), samples);
    let exact = (stamps.clocks + 1) * u64::from(rate) % stamps.machine.clocks_a_second() == 0;
    counts.add_if(exact, "a clock before one that ends with a clock");
    let mut pieces = Pieces { log, memory, whole, bytes, at: 0 };
    let mark = pieces.all(random, counts)?;
    pieces.end()?;
    (pieces.bytes, pieces.at) = mark;
    while !pieces.next(16_384)?.0 {}
    Ok(Some(samples as u64))
}

/// Draws and judges logs and rates; a failing log is told whole.
pub fn compare(seed: u64, files: u64, memory: &[u8]) -> Result<String, String> {
    if raw::wav_size() != layout::SIZE {
        return Err(format!("a WAV file under way is {} bytes, and in the layout {}", raw::wav_size(), layout::SIZE));
    }
    let mut counts = Counts::new(files, THINGS);
    let (mut heard, mut all) = (0, 0);
    for number in 0..files {
        let random = &mut Random::new(seed, "wavs", number);
        let right = waves::rate(random).unwrap_or(wave::RATE) as u32;
        let log = log(random, right.into());
        let rate = if random.one_in(6) { wrong_rate(random) } else { right };
        let judged = judge(random, &log, memory, rate, &mut counts).map_err(|difference| {
            let shown = log.escape_ascii().to_string().replace("\\n", "\n");
            format!("seed {seed}, wavs {number}, at {rate}: {difference}\n{shown}")
        })?;
        heard += u64::from(judged.is_some());
        all += judged.unwrap_or(0);
    }
    Ok(format!("{files} logs, {heard} files, {all} samples ({})", counts.told()?))
}
