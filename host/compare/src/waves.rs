//! `perch wav` on drawn logs and rates: each byte, and the file by a reader of its own.

use crate::case::sample;
use crate::counts::Counts;
use crate::program::Program;
use crate::random::Random;
use crate::riff::{self, Sound};
use crate::stamped::{self, SOUND, Stamps};
use reading::{Machine, wave};

/// What is counted, with the fewest in 300 files.
const THINGS: [(&str, u64); 13] = [
    ("pal", 60),
    ("8000", 8),
    ("44100", 8),
    ("48000", 8),
    ("192000", 8),
    ("no rate", 8),
    ("another rate", 60),
    ("no samples", 5),
    ("a thousand samples", 8),
    ("the log ends with a sample", 8),
    ("the log ends a clock before one", 15),
    ("accesses at a sample's last clock", 60),
    ("refused", 2),
];

/// The last clock of a sample, from 0.
fn last(machine: Machine, rate: u64, sample: u64) -> u64 {
    wave::clocks_before(machine, rate, sample + 1)
}

/// A log with accesses at and beside the last clocks of samples, that ends at such a clock too.
pub(crate) fn at_samples(random: &mut Random, rate: u64) -> Vec<u8> {
    let machine = random.pick(&Machine::ALL);
    let mut lines = vec!["log=1".to_string()];
    lines.extend((machine == Machine::Pal).then(|| "machine=pal".into()));
    if !random.one_in(4) {
        lines.extend(SOUND.map(String::from));
    }
    let (mut clock, mut sample) = (0, 0);
    for _ in 0..random.within(0..=20) {
        sample += random.pick(&[0, 1, 1, 1, 2, 10, 100]);
        let to = last(machine, rate, sample) + random.pick(&[0, 0, 0, 1, 2]) - 1;
        if to > clock {
            lines.push(format!("wait={}", to - clock));
            clock = to;
        }
        lines.push(format!("write=4011:{:02x}", random.byte() & 0x7f));
    }
    lines.push(format!("stop={clock}\n"));
    lines.join("\n").into_bytes()
}

/// Rates at which samples have whole clocks, 123 and 41 on an NTSC machine, 71 on a PAL machine, or end with one again and again.
const WHOLE: [u64; 5] = [14_551, 43_653, 29_102, 23_417, 46_834];

/// A rate, or none.
pub(crate) fn rate(random: &mut Random) -> Option<u64> {
    let any = random.within(8_000..=192_000);
    match random.within(0..=9) {
        0 => None,
        1 => Some(8_000),
        2 => Some(44_100),
        3 => Some(48_000),
        4 => Some(192_000),
        5 => Some(random.pick(&WHOLE)),
        _ => Some(random.pick(&[any, any, any, 8_001, 191_999, 11_025, 22_050, 65_536, 65_537, 96_000])),
    }
}

/// Holds a file to what the reading says of it: each field of its head, then each sample.
fn hold(file: &[u8], samples: &[u16], rate: u64) -> Result<(), String> {
    let Sound { data, .. } = &riff::read(file)?;
    let rate = rate as u32;
    let right = Sound {
        format: 1,
        channels: 1,
        rate,
        bytes_a_second: 2 * rate,
        block: 2,
        bits: 16,
        data: samples.iter().flat_map(|sample| sample.to_le_bytes()).collect(),
    };
    if data.len() != right.data.len() {
        return Err(format!("{} bytes of samples, by the reading {}", data.len(), right.data.len()));
    }
    let theirs = data.chunks(2).map(|pair| u16::from_le_bytes([pair[0], pair[1]]));
    if let Some((n, (theirs, ours))) = theirs.zip(samples).enumerate().find(|(_, (theirs, ours))| theirs != *ours) {
        return Err(format!("sample {n} is {theirs}, by the reading {ours}"));
    }
    match riff::read(file)? {
        sound if sound == right => Ok(()),
        sound => Err(format!("the head is {:?}", Sound { data: Vec::new(), ..sound })),
    }
}

/// Holds what was written for a log to the reading; how many samples it has, none where it is refused.
pub fn judge(file: &[u8], log: &[u8], memory: &[u8], rate: u64) -> Result<Option<usize>, String> {
    let samples = wave::samples(log, memory, rate);
    if let Ok(samples) = &samples {
        hold(file, samples, rate)?;
    }
    let right = wave::file(log, memory, rate);
    if file != right {
        let at = file.iter().zip(&right).take_while(|(theirs, ours)| theirs == ours).count();
        return Err(format!("byte {at} is {:?}, by the reading {:?}", file.get(at), right.get(at)));
    }
    Ok(samples.ok().map(|samples| samples.len()))
}

/// Counts what a file of so many samples brings up.
pub(crate) fn count(counts: &mut Counts, stamps: &Stamps, rate: Option<u64>, samples: usize) {
    counts.add_if(stamps.machine == Machine::Pal, "pal");
    counts.add(&match rate {
        None => "no rate".into(),
        Some(rate @ (8_000 | 44_100 | 48_000 | 192_000)) => rate.to_string(),
        Some(_) => "another rate".into(),
    });
    let rate = rate.unwrap_or(wave::RATE);
    let last = |sample: u64| last(stamps.machine, rate, sample);
    counts.add_if(samples == 0, "no samples");
    counts.add_if(samples >= 1000, "a thousand samples");
    counts.add_if(samples > 0 && last(samples as u64 - 1) == stamps.clocks, "the log ends with a sample");
    counts.add_if(last(samples as u64) == stamps.clocks + 1, "the log ends a clock before one");
    let ends = |clock: u64| wave::count(stamps.machine, rate, clock).checked_sub(1).is_some_and(|n| last(n) == clock);
    counts.add_if(stamps.stamps.iter().any(|stamp| ends(stamp.0)), "accesses at a sample's last clock");
}

/// Draws logs and rates and holds what a program `perch` writes for them to the reading; a failing log is told whole.
pub fn compare(seed: u64, files: u64, program: &str) -> Result<String, String> {
    let memory = sample(seed);
    let program = Program::new(program, &memory)?;
    let mut counts = Counts::new(files, THINGS.map(|(name, fewest)| (name, fewest * 10_000 / 300)));
    let mut all = 0;
    for number in 0..files {
        let random = &mut Random::new(seed, "waves", number);
        let asked = rate(random);
        let log = if random.one_in(2) { at_samples(random, asked.unwrap_or(wave::RATE)) } else { stamped::log(random) };
        let words: Vec<String> = ["wav".to_string()].into_iter().chain(asked.map(|rate| rate.to_string())).collect();
        let theirs = program.writes(&words, &log)?;
        let judged = judge(&theirs, &log, &memory, asked.unwrap_or(wave::RATE));
        let shown = || format!("seed {seed}, log {number}, {}", words.join(" "));
        let samples = judged.map_err(|what| format!("{}: {what}\n{}", shown(), String::from_utf8_lossy(&log)))?;
        match (samples, Stamps::of(&log)) {
            (Some(samples), Some(stamps)) => {
                count(&mut counts, &stamps, asked, samples);
                all += samples;
            }
            _ => counts.add("refused"),
        }
    }
    Ok(format!("{files} files, {all} samples ({})\n", counts.told()?))
}
