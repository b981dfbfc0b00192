//! WAV files under way that no log led to: one is begun and goes some way, a field of it is damaged, or the log is another, and its
//! next pieces are held to the reading's machine, which turns by the library's definitions, clock by clock.

use crate::counts::Counts;
use crate::logs::sounding;
use crate::machines::either;
use crate::players::{another, damage_cursor, looped, spinning};
use crate::random::Random;
use crate::waves;
use perch::raw;
use reading::layout::{cursor, wav as layout};
use reading::log::Fault;
use reading::player::MOST_SILENT;
use reading::wav::{Said, Wav};
use reading::wave::{self, HEAD, RATES};
use reading::{MEMORY, MOST_CLOCKS};

/// The latest time.
const LATEST: u64 = 2_000_000_000;

/// More turns than any piece goes behind its last sample.
const MOST_TURNS: u64 = 3 * MOST_SILENT;

/// What can be damaged, and how often it must come up in 10,000 files.
const DAMAGE: [(&str, u64); 23] = [
    ("nothing", 200),
    ("whether the head is written", 200),
    ("a flag above 1", 200),
    ("the samples in all", 200),
    ("the rate", 200),
    ("a rate, with its sample", 200),
    ("a rate outside", 200),
    ("the wait", 200),
    ("a wait too long", 200),
    ("a wait up to the latest time", 200),
    ("the time", 200),
    ("a time too late", 200),
    ("a time, with its sample", 200),
    ("the sample off by one", 200),
    ("any sample", 200),
    ("the sum", 200),
    ("the highest sum", 200),
    ("a sum too large", 200),
    ("the place in the log", 400),
    ("the line that comes next", 400),
    ("the state", 200),
    ("another length", 200),
    ("the log", 400),
];

/// What a piece can come to, and how often it must come up in 10,000 files.
const SEEN: [(&str, u64); 21] = [
    ("the head", 400),
    ("no room for the head", 150),
    ("samples", 1000),
    ("samples before a refusal", 30),
    ("no room for a sample", 300),
    ("over", 1000),
    ("turns of nothing", 1),
    ("1", 15),
    ("2", 2000),
    ("3", 300),
    ("4", 10),
    ("5", 5),
    ("7", 15),
    ("8", 15),
    ("9", 500),
    ("14", 200),
    ("15", 10),
    ("16", 10),
    ("17", 5),
    ("18", 15),
    ("33", 300),
];

/// Makes the sample the one that has the clock, with a sum that it may have; nothing where no sample has it.
fn settle(random: &mut Random, bytes: &mut [u8]) {
    let Some(mut now) = Wav::decode(bytes).filter(|now| RATES.contains(&now.rate.into())) else { return };
    if now.sampler.clock <= LATEST {
        now.sampler.sample = wave::count(now.chip.machine, now.rate.into(), now.sampler.clock);
        let most = now.most_sum().unwrap_or(0);
        now.sampler.sum = random.pick(&[0, most / 2, most / 3, most]);
        bytes.copy_from_slice(&now.encode());
    }
}

/// The most that the sum may be.
fn most_sum(bytes: &[u8]) -> u64 {
    let right = Wav::decode(bytes).filter(|now| RATES.contains(&now.rate.into()));
    right.and_then(|now| now.most_sum()).unwrap_or(0)
}

/// Damages the rate, the wait or the time; tells what.
fn damage_pace(random: &mut Random, bytes: &mut [u8]) -> &'static str {
    let any = random.bits();
    let (few, right) = (random.within(0..=2000), waves::rate(random).unwrap_or(wave::RATE));
    match random.within(0..=8) {
        0 => {
            layout::RATE.put(bytes, right);
            "the rate"
        }
        1 => {
            layout::RATE.put(bytes, right);
            settle(random, bytes);
            "a rate, with its sample"
        }
        2 => {
            layout::RATE.put(bytes, random.pick(&[0, 1, 7_999, 192_001, 1 << 31, u64::MAX]));
            "a rate outside"
        }
        3 => {
            layout::LEFT.put(bytes, random.pick(&[0, 1, few, few, MOST_CLOCKS]));
            "the wait"
        }
        4 => {
            layout::LEFT.put(bytes, random.pick(&[MOST_CLOCKS + 1, 1 << 31, u64::MAX]));
            "a wait too long"
        }
        5 => {
            // It ends at the latest time, or one clock behind it.
            layout::LEFT.put(bytes, few);
            layout::TIME.put(bytes, LATEST - few + random.within(0..=1));
            settle(random, bytes);
            "a wait up to the latest time"
        }
        6 => {
            let time = layout::TIME.get(bytes);
            let near = time.wrapping_add(random.within(0..=300)).wrapping_sub(150);
            layout::TIME.put(bytes, random.pick(&[0, time.wrapping_add(1), time.wrapping_sub(1), near]));
            "the time"
        }
        7 => {
            layout::TIME.put(bytes, random.pick(&[LATEST + 1, 1 << 32, 1 << 63, u64::MAX, any | 1 << 40]));
            "a time too late"
        }
        _ => {
            layout::TIME.put(bytes, random.pick(&[few, any % LATEST, any % LATEST, LATEST]));
            settle(random, bytes);
            "a time, with its sample"
        }
    }
}

/// Damages the sample under way; tells what.
fn damage_sample(random: &mut Random, bytes: &mut [u8]) -> &'static str {
    let (any, most, sample) = (random.bits(), most_sum(bytes), layout::SAMPLE.get(bytes));
    let part = random.within(0..=most);
    match random.within(0..=4) {
        0 => {
            layout::SAMPLE.put(bytes, random.pick(&[sample.wrapping_add(1), sample.wrapping_sub(1)]));
            "the sample off by one"
        }
        1 => {
            layout::SAMPLE.put(bytes, random.pick(&[0, sample | 1 << 32, 1 << 44, u64::MAX, any]));
            "any sample"
        }
        2 => {
            layout::SUM.put(bytes, part);
            "the sum"
        }
        3 => {
            layout::SUM.put(bytes, most);
            "the highest sum"
        }
        _ => {
            layout::SUM.put(bytes, random.pick(&[most + 1, most + 65_535, most | 1 << 32, u64::MAX]));
            "a sum too large"
        }
    }
}

/// Lines, right or wrong where they come.
const LINES: [&str; 9] = [
    "write=4011:7f\n",
    "read=4015\n",
    "write=4014:00\n",
    "wait=1000001\n",
    "wait=05\n",
    "nothing\n",
    "done=loop\n",
    "stop=9\n",
    "loop=2\nloop=2\nloop=2\nloop=2\nloop=2\nloop=2\nloop=2\nloop=2\nloop=2\n",
];

/// Damages one thing in a file's bytes or in its log; tells what.
fn damaged(random: &mut Random, bytes: &mut Vec<u8>, log: &mut Vec<u8>) -> &'static str {
    let any = random.bits();
    if bytes.len() != layout::SIZE {
        return "nothing";
    }
    match random.within(0..=25) {
        0 => "nothing",
        1 => {
            let other = 1 - (layout::BEGUN.get(bytes) & 1);
            layout::BEGUN.put(bytes, other);
            "whether the head is written"
        }
        2 => {
            layout::BEGUN.put(bytes, random.pick(&[2, 3, 128, 255]));
            "a flag above 1"
        }
        3 => {
            // It is seen in the head alone.
            layout::COUNT.put(bytes, random.pick(&[0, 1, 1 << 31, u64::MAX, any]));
            layout::BEGUN.put(bytes, 0);
            "the samples in all"
        }
        4..=12 => damage_pace(random, bytes),
        13..=17 => damage_sample(random, bytes),
        18 | 19 => {
            damage_cursor(random, layout::CURSOR.of_mut(bytes), log);
            "the place in the log"
        }
        20 => {
            // One byte of it, or its machine: the last.
            let place = random.within(0..=2 * layout::STATE.size as u64).min(layout::STATE.size as u64 - 1);
            let value = random.byte();
            layout::STATE.of_mut(bytes)[place as usize] = random.pick(&[0, 1, value]);
            if random.one_in(2) {
                settle(random, bytes);
            }
            "the state"
        }
        21 => {
            bytes.resize(random.pick(&[0, 1, layout::SIZE - 1, layout::SIZE + 1]), 0);
            "another length"
        }
        22 | 23 => {
            let place = cursor::PLACE.get(layout::CURSOR.of(bytes)).min(log.len() as u64) as usize;
            log.splice(place..place, random.pick(&LINES).bytes());
            if random.one_in(2) {
                layout::LEFT.put(bytes, 0);
            }
            "the line that comes next"
        }
        _ => {
            *log = another(random, log);
            "the log"
        }
    }
}

/// The refusal that the machine comes to before any sample, with the turns on the way; none where a sample or the end comes first.
fn refused_first(mut now: Wav, log: &[u8], memory: &[u8]) -> Option<(Fault, u64)> {
    for turns in 0..MOST_TURNS {
        match now.turn(log, memory) {
            Said::Nothing => {}
            Said::Refused(fault) => return Some((fault, turns)),
            Said::Sample(_) | Said::Over => return None,
        }
    }
    None
}

/// How many turns the machine goes from a file to say just these samples and be at another; an error where it doesn't.
fn led(mut now: Wav, to: &Wav, mut samples: &[u8], log: &[u8], memory: &[u8]) -> Result<u64, String> {
    for turns in 0..MOST_TURNS {
        if samples.is_empty() && now == *to {
            return Ok(turns);
        }
        match now.turn(log, memory) {
            Said::Nothing => {}
            Said::Sample(sample) => match samples.strip_prefix(&sample.to_le_bytes()[..]) {
                Some(rest) => samples = rest,
                None if samples.is_empty() => return Err(format!("it isn't behind its samples; next is {sample}")),
                None => return Err(format!("the next sample is {sample}, written is {:?}", &samples[..2])),
            },
            said => return Err(format!("the machine comes to {said:?}, with {} bytes left", samples.len())),
        }
    }
    Err("it is nowhere on the machine's way".into())
}

/// What a call was given and what it came to.
struct Called<'a> {
    log: &'a [u8],
    memory: &'a [u8],
    size: usize,
    /// The file before, and what was written.
    before: Wav,
    written: &'a [u8],
    over: bool,
}

/// Holds a head to the rule, where it was due; tells what it is.
fn headed(called: &Called, now: &Wav) -> Result<&'static str, String> {
    let Called { size, before, written, over, .. } = *called;
    let room = size >= HEAD;
    let right = if room { wave::head(before.rate, before.count) } else { Vec::new() };
    if written != right || over || *now != (Wav { begun: room, ..before }) {
        return Err(format!("the head is {right:02x?}, written is {written:02x?}"));
    }
    Ok(if room { "the head" } else { "no room for the head" })
}

/// Holds samples to the machine; tells what they are.
fn sounded(called: &Called, now: &Wav) -> Result<&'static str, String> {
    let Called { log, memory, size, before, written, over } = *called;
    let turns = led(before, now, written, log, memory)?;
    let room = size - written.len() >= 2;
    if over {
        let next = { *now }.turn(log, memory);
        return if next == Said::Over { Ok("over") } else { Err(format!("it says over, and next is {next:?}")) };
    }
    if !room {
        return Ok(if size < 2 { "no room for a sample" } else { "samples" });
    }
    if turns >= MOST_SILENT {
        return Ok("turns of nothing");
    }
    // As many as fit: a refusal comes next.
    if written.is_empty() || refused_first(*now, log, memory).is_none() {
        return Err("there is room for a sample more, and it isn't over".into());
    }
    Ok("samples before a refusal")
}

/// Holds one piece to the machine, and moves the file; tells what it came to.
pub(crate) fn piece(bytes: &mut [u8], log: &[u8], memory: &[u8], size: usize) -> Result<String, String> {
    let kept = bytes.to_vec();
    let before = Wav::decode(&kept);
    // What must refuse it, with the turns before that.
    let at_once = |number| Some((Fault { number, place: 0 }, 0));
    let refused = match before {
        _ if memory.len() != MEMORY => at_once(1),
        None => at_once(2),
        Some(before) => match before.refusal() {
            None if before.begun => refused_first(before, log, memory),
            fault => fault.map(|fault| (fault, 0)),
        },
    };
    let mut out = vec![b'?'; size];
    let answer = raw::wav_on(bytes, log, memory, &mut out);
    let (number, low, written) = (answer as u8, answer >> 8 & 0xff_ffff, (answer >> 32) as usize);
    let wrong = |what: String| {
        let shown = before.map(|before| Wav { chip: reading::Chip::power_on(before.chip.machine), ..before });
        Err(format!("a piece of {size} bytes answers {answer:#x}: {what}\nfrom {shown:?}"))
    };
    if written > size || out[written..].iter().any(|&byte| byte != b'?') {
        return wrong("it wrote behind its bytes".into());
    }
    if number != 0 {
        if bytes != kept || written > 0 {
            return wrong("refused, and something changed".into());
        }
        return match refused {
            Some((fault, _)) if (fault.number, fault.place as u64 & 0xff_ffff) == (number, low) => {
                Ok(number.to_string())
            }
            _ => wrong(format!("the machine comes to {refused:?}")),
        };
    }
    // With no room for a sample the log needn't be looked at, nor behind many turns.
    let by_log = memory.len() == MEMORY && before.is_some_and(|before| before.refusal().is_none());
    if let Some((fault, turns)) = refused
        && !(by_log && (size < 2 || turns >= MOST_SILENT))
    {
        return wrong(format!("the machine comes to {fault:?} before any sample"));
    }
    let (Some(before), Some(now)) = (before, Wav::decode(bytes)) else {
        return wrong("what is handed back is no file under way".into());
    };
    if low > 1 {
        return wrong("it says more than over".into());
    }
    let called = Called { log, memory, size, before, written: &out[..written], over: low == 1 };
    let held = if before.begun { sounded(&called, &now) } else { headed(&called, &now) };
    held.map(String::from).or_else(wrong)
}

/// A buffer's size.
fn room(random: &mut Random) -> usize {
    let sizes = match random.within(0..=39) {
        0..=4 => 0..=1,
        5..=12 => 2..=50,
        13..=35 => 44..=200,
        36..=38 => 0..=600,
        _ => 0..=3_000,
    };
    random.within(sizes) as usize
}

/// Begins a file, goes some way, damages it and holds its next pieces; counts what came up.
fn judge(
    random: &mut Random,
    memory: &[u8],
    counts: &mut Counts,
    log: &mut Vec<u8>,
    spins: bool,
) -> Result<(), String> {
    *log = if random.one_in(6) { looped(random) } else { sounding(random) };
    *log = either(random, std::mem::take(log));
    let rate = waves::rate(random).unwrap_or(wave::RATE) as u32;
    let mut bytes = vec![0; raw::wav_size()];
    let answer = raw::wav_begin(&mut bytes, log, memory, rate);
    if answer as u32 != 0 {
        return Err(format!("the beginning of a right log answers {answer:#x}"));
    }
    for _ in 0..random.within(0..=5) {
        raw::wav_on(&mut bytes, log, memory, &mut vec![0; room(random)]);
    }
    if spins {
        *log = spinning();
        layout::CURSOR.of_mut(&mut bytes).fill(0);
        layout::LEFT.put(&mut bytes, 0);
        layout::BEGUN.put(&mut bytes, 1);
    }
    for _ in 0..if spins { 0 } else { random.pick(&[1, 1, 1, 2, 3]) } {
        counts.add(damaged(random, &mut bytes, log));
    }
    for _ in 0..random.within(1..=3) {
        let memory = if random.one_in(100) { &memory[..random.pick(&[0, 1, MEMORY - 1])] } else { memory };
        let size = if spins { 2 } else { room(random) };
        counts.add(&piece(&mut bytes, log, memory, size)?);
    }
    Ok(())
}

/// Draws and judges files under way; tells what came up, and it is an error where something hardly did.
pub fn compare(seed: u64, files: u64, memory: &[u8]) -> Result<String, String> {
    let mut counts = Counts::new(files, DAMAGE.into_iter().chain(SEEN));
    for number in 0..files {
        let mut log = Vec::new();
        let random = &mut Random::new(seed, "under way", number);
        judge(random, memory, &mut counts, &mut log, number % 2000 == 1000).map_err(|difference| {
            let shown = log.escape_ascii().to_string().replace("\\n", "\\n\n");
            format!("seed {seed}, under way {number}: {difference}\n{shown}")
        })?;
    }
    Ok(format!("{files} files ({})", counts.told()?))
}
