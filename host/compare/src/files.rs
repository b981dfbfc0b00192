//! VGM files through the boundary: drawn ones, right and damaged, at every byte too; played beside the log that they are brought in as;
//! and with players and WAV files that they didn't lead to.

use crate::counts::Counts;
use crate::logs::same;
use crate::players::{self, MOST_WORKED};
use crate::random::Random;
use crate::stamped::Stamps;
use crate::vgm_files::{self, drawn};
use crate::{imports, under_way, waves};
use perch::raw;
use reading::layout::{cursor, place, player as layout, wav as wav_layout};
use reading::vgm_file::{self, commands_at, first_command, is_file};
use reading::{MEMORY, Machine, bytes, moment, play, player, recording, vgm, wav, wave};

/// What is counted, with the fewest in 10,000 files.
const THINGS: [(&str, u64); 27] = [
    ("ntsc", 2_000),
    ("pal", 1_000),
    ("a clock that isn't known", 200),
    ("another flag", 100),
    ("sample blocks", 1_500),
    ("no sample blocks", 1_500),
    ("played", 3_000),
    ("too long to be played", 100),
    ("as the imported log", 2_000),
    ("a log that is too long", 0),
    ("turns", 1_000),
    ("a WAV file", 500),
    ("a place at the header of two chips", 400),
    ("a wait up to the most samples", 100),
    ("a wait past the most samples", 40),
    ("a place with one clock left", 300),
    ("one clock left behind the longest wait", 40),
    ("5", 3),
    ("9", 10),
    ("14", 1),
    ("25", 500),
    ("26", 300),
    ("27", 200),
    ("34", 150),
    ("35", 50),
    ("36", 50),
    ("1 or 2", 200),
];

/// The most clocks of a file that is played: the reading goes one by one.
const PLAYED: u64 = 250_000;

/// Two buffers of the same bytes.
fn twice(random: &mut Random, size: usize) -> (Vec<u8>, Vec<u8>) {
    let fresh: Vec<u8> = (0..size).map(|_| random.byte()).collect();
    (fresh.clone(), fresh)
}

/// An error where the reading and the library left other bytes.
fn left(what: &str, ours: &[u8], theirs: &[u8]) -> Result<(), String> {
    match ours.iter().zip(theirs).position(|(ours, theirs)| ours != theirs) {
        None => Ok(()),
        Some(at) => Err(format!("{what}: byte {at} is {} by the reading, {} by the library", ours[at], theirs[at])),
    }
}

/// A part of the file as a stream: behind the header, behind the blocks, or any.
fn stream<'a>(random: &mut Random, file: &'a [u8]) -> &'a [u8] {
    let any = random.within(0..=file.len() as u64) as usize;
    let first = first_command(file).unwrap_or(any);
    &file[random.pick(&[commands_at(file).unwrap_or(any), first, first, any])..]
}

/// What a stream is brought in as, for a machine, and its sample memory.
fn streams(random: &mut Random, file: &[u8]) -> Result<(), String> {
    let stream = stream(random, file);
    let any = random.byte();
    let machine = random.pick(&[0, 1, 1, 1, 2, any]);
    let room = random.pick(&[0, 100, 300, 1000, 4000, 60_001]);
    let (mut ours, mut theirs) = (vec![b'?'; room], vec![b'?'; room]);
    let answer = vgm::import_for(stream, machine, &mut ours);
    same(|| format!("import for {machine}"), answer, raw::import_for(stream, machine, &mut theirs))?;
    left("the log", &ours, &theirs)?;
    let size = if random.one_in(20) { random.pick(&[0, MEMORY - 1, MEMORY + 1]) } else { MEMORY };
    let (mut ours, mut theirs) = (vec![b'?'; size], vec![b'?'; size]);
    same(|| "the samples".into(), vgm_file::samples(stream, &mut ours), raw::samples(stream, &mut theirs))?;
    left("the sample memory", &ours, &theirs)
}

/// The three beginnings: a player's, whose answer is given with its bytes; a WAV file's; and the state at a clock.
fn begun(random: &mut Random, file: &[u8], memory: &[u8]) -> Result<(u64, Vec<u8>), String> {
    let rate = waves::rate(random).unwrap_or(7_999) as u32;
    let clock = Stamps::of(file).map_or(0, |stamps| stamps.clock(random)).min(PLAYED);
    let lent = if random.one_in(30) { random.pick(&[0, MEMORY - 1]) } else { MEMORY };
    let shorter = usize::from(random.one_in(30));
    let memory = &memory[..lent];
    let (mut ours, mut theirs) = twice(random, wav_layout::SIZE - shorter);
    let answer = wav::begin(&mut ours, file, memory, rate);
    same(|| format!("a WAV file's beginning at {rate}"), answer, raw::wav_begin(&mut theirs, file, memory, rate))?;
    left("a WAV file's beginning", &ours, &theirs)?;
    let (mut ours, mut theirs) = twice(random, bytes::SIZE - shorter);
    let answer = moment::state_at(&mut ours, file, memory, clock);
    same(|| format!("the state at {clock}"), answer, raw::state_at(&mut theirs, file, memory, clock))?;
    left("the state", &ours, &theirs)?;
    let (mut ours, mut theirs) = twice(random, layout::SIZE - shorter);
    let answer = player::begin(&mut ours, file, memory);
    same(|| "a player's beginning".into(), answer, raw::begin(&mut theirs, file, memory))?;
    left("a player's beginning", &ours, &theirs)?;
    Ok((answer, theirs))
}

/// All that the library plays from a player on, in pieces of any size.
fn played(random: &mut Random, mut bytes: Vec<u8>, recording: &[u8], memory: &[u8]) -> Result<Vec<u8>, String> {
    let mut joined = Vec::new();
    loop {
        let mut text = vec![0; random.pick(&[23, 100, 5_000, 60_000])];
        let answer = raw::play_on(&mut bytes, recording, memory, &mut text);
        if answer as u8 != 0 {
            return Err(format!("a piece behind {} bytes answers {answer:#x}", joined.len()));
        }
        joined.extend(&text[..(answer >> 32) as usize]);
        if answer >> 8 & 1 == 1 {
            return Ok(joined);
        }
    }
}

/// The library's WAV file of a recording.
fn sound(recording: &[u8], memory: &[u8], rate: u32) -> Result<Vec<u8>, String> {
    let (mut bytes, mut joined) = (vec![0; wav_layout::SIZE], Vec::new());
    let begun = raw::wav_begin(&mut bytes, recording, memory, rate);
    let mut out = [0; 10_000];
    if begun as u8 != 0 {
        return Err(format!("the WAV file's beginning answers {begun:#x}"));
    }
    loop {
        let answer = raw::wav_on(&mut bytes, recording, memory, &mut out);
        if answer as u8 != 0 {
            return Err(format!("a piece of the WAV file answers {answer:#x}"));
        }
        joined.extend(&out[..(answer >> 32) as usize]);
        if answer >> 8 & 1 == 1 {
            return Ok(joined);
        }
    }
}

/// "Where the import succeeds, playing the file and playing the imported log say the same": the text, and the WAV file at a rate.
fn as_the_log(random: &mut Random, file: &[u8], memory: &[u8], text: &[u8], counts: &mut Counts) -> Result<(), String> {
    let first = first_command(file).map_err(|fault| format!("{fault:?}"))?;
    let mut log = vec![0; 60_000];
    let answer = raw::import_for(&file[first..], vgm_file::machine(file) as u8, &mut log);
    if answer as u8 != 0 {
        counts.add("a log that is too long");
        return same(|| "the import".into(), 28, answer);
    }
    log.truncate((answer >> 8) as usize);
    let mut bytes = vec![0; layout::SIZE];
    same(|| "the log's beginning".into(), 0, raw::begin(&mut bytes, &log, memory))?;
    if played(random, bytes, &log, memory)? != text {
        return Err("the imported log plays otherwise".into());
    }
    let rate = waves::rate(random).unwrap_or(wave::RATE) as u32;
    if random.one_in(4) && sound(file, memory, rate)? != sound(&log, memory, rate)? {
        return Err("the imported log has another WAV file".into());
    }
    counts.add("as the imported log");
    Ok(())
}

/// All that the library plays of a file that is begun, held to the reading's text.
fn text(random: &mut Random, file: &[u8], bytes: Vec<u8>, memory: &[u8]) -> Result<Vec<u8>, String> {
    let (ours, theirs) = (play::text(file, memory).into_bytes(), played(random, bytes, file, memory)?);
    if ours != theirs {
        let at = ours.iter().zip(&theirs).take_while(|(ours, theirs)| ours == theirs).count();
        return Err(format!("the text differs at byte {at}"));
    }
    Ok(theirs)
}

/// A file that is begun: the text, where it isn't too long.
fn heard(random: &mut Random, file: &[u8], bytes: Vec<u8>, memory: &[u8], counts: &mut Counts) -> Result<(), String> {
    let totals = recording::check(file).map_err(|fault| format!("begun, and by the reading {fault:?}"))?;
    if totals.clocks as u64 > PLAYED {
        counts.add("too long to be played");
        return Ok(());
    }
    let text = text(random, file, bytes, memory)?;
    counts.add("played");
    as_the_log(random, file, memory, &text, counts)
}

/// A place in a file: of any byte, or near its end, or of 64 bits.
fn any_place(random: &mut Random, file: &[u8]) -> u64 {
    let (length, bits) = (file.len() as u64, random.bits());
    let first = first_command(file).unwrap_or(0) as u64;
    let inside = random.within(first.min(length)..=length);
    random.pick(&[0, inside, inside, inside, first, length, length + 1, 1 << 24, (1 << 24) + 5, u64::MAX, bits])
}

/// Samples or clocks of a place: few, around the most, or any.
fn any_count(random: &mut Random) -> u64 {
    let (few, near, bits) = (random.within(0..=3_000), random.within(99_999_990..=100_000_010), random.bits());
    random.pick(&[0, few, few, few, few, near, 100_000_000, 100_000_001, u64::from(u32::MAX), bits])
}

/// Damages the place that a player or a WAV file keeps.
fn displace(random: &mut Random, bytes: &mut [u8], file: &[u8]) {
    if random.one_in(2) {
        cursor::PLACE.put(bytes, any_place(random, file));
    }
    if random.one_in(2) {
        place::SAMPLES.put(bytes, any_count(random));
    }
    if random.one_in(2) {
        place::CLOCK.put(bytes, any_count(random));
    }
    if random.one_in(8) {
        cursor::OPEN.put(bytes, random.pick(&[1, 8, 9, u64::MAX]));
    }
}

/// A player that this file didn't lead to: begun with another, played some way, its place damaged; its next pieces are held to the
/// reading's machine. So a WAV file.
fn misled(random: &mut Random, file: &[u8], memory: &[u8], counts: &mut Counts) -> Result<(), String> {
    let other = drawn(random).bytes();
    let mut bytes = vec![0; layout::SIZE];
    if raw::begin(&mut bytes, &other, memory) == 0 {
        raw::play_on(&mut bytes, &other, memory, &mut [0; 60]);
        displace(random, layout::CURSOR.of_mut(&mut bytes), file);
        for _ in 0..3 {
            let size = random.pick(&[23, 23, 60, 200]);
            players::piece(&mut bytes, file, memory, size, MOST_WORKED)?;
        }
        counts.add("turns");
    }
    let mut bytes = vec![0; wav_layout::SIZE];
    if random.one_in(3) && raw::wav_begin(&mut bytes, &other, memory, 8_000) as u8 == 0 {
        raw::wav_on(&mut bytes, &other, memory, &mut [0; 60]);
        raw::wav_on(&mut bytes, &other, memory, &mut [0; 6]);
        displace(random, wav_layout::CURSOR.of_mut(&mut bytes), file);
        for _ in 0..2 {
            under_way::piece(&mut bytes, file, memory, random.pick(&[2, 4, 30]))?;
        }
        counts.add("a WAV file");
    }
    Ok(())
}

/// The most samples before a place.
const MOST_SAMPLES: u64 = 100_000_000;

/// A file, and a place in it that it didn't lead to: its byte, the samples before it, the clocks that were given.
type Edge = (Vec<u8>, usize, u64, u64);

/// Where a file for two chips begins: refused as a header, and not by their number.
fn at_two_chips(random: &mut Random, counts: &mut Counts) -> Edge {
    counts.add("a place at the header of two chips");
    (vgm_files::for_two_chips(random), 0, any_count(random), any_count(random))
}

/// At a wait, up to the most samples or not, or at a write or the end behind it; there at most two clocks are left.
fn at_last_clocks(random: &mut Random, counts: &mut Counts) -> Edge {
    let (mut drawn, wait) = (drawn(random), random.within(0..=65_535));
    // One of the writes changes the level.
    drawn.commands = vec![imports::wait_command(wait), vec![0xb4, 0x11, 0x00], vec![0xb4, 0x11, 0x7f], vec![0x66]];
    let file = drawn.bytes();
    let few = random.within(wait + 1..=100_000);
    let samples = random.pick(&[few, MOST_SAMPLES, MOST_SAMPLES, MOST_SAMPLES + 1]);
    let left = random.pick(&[0, 1, 1, 2]);
    let clock = vgm::clocks(vgm_file::machine(&file), samples.into()) as u64 - left;
    let end = file.len() - 1;
    let (at, before) = random.pick(&[(end - 9, samples - wait), (end - 6, samples), (end, samples)]);
    let waits = at == end - 9;
    counts.add_if(waits && samples == MOST_SAMPLES, "a wait up to the most samples");
    counts.add_if(waits && samples > MOST_SAMPLES, "a wait past the most samples");
    counts.add_if(left == 1 && samples <= MOST_SAMPLES, "a place with one clock left");
    (file, at, before, clock)
}

/// A player begun with another file, then at such a place, with no wait under way: as in `misled`.
fn at_an_edge(random: &mut Random, memory: &[u8], counts: &mut Counts) -> Result<(), String> {
    let other = drawn(random).bytes();
    let mut bytes = vec![0; layout::SIZE];
    if raw::begin(&mut bytes, &other, memory) != 0 {
        return Ok(());
    }
    raw::play_on(&mut bytes, &other, memory, &mut [0; 60]);
    let edge = if random.one_in(3) { at_two_chips } else { at_last_clocks };
    let (file, at, samples, clock) = edge(random, counts);
    layout::PHASE.put(&mut bytes, 2);
    layout::WAIT.put(&mut bytes, 0);
    let now = layout::CURSOR.of_mut(&mut bytes);
    cursor::PLACE.put(now, at as u64);
    place::SAMPLES.put(now, samples);
    place::CLOCK.put(now, clock);
    for _ in 0..3 {
        let size = random.pick(&[23, 60]);
        players::piece(&mut bytes, &file, memory, size, MOST_WORKED)
            .map_err(|what| format!("at an edge: {what}\n{}", told(&file)))?;
    }
    Ok(())
}

/// A file that leads to a wait of one clock, played whole.
fn one_clock_left(random: &mut Random, memory: &[u8], counts: &mut Counts) -> Result<(), String> {
    let file = vgm_files::one_clock_left(random);
    let mut bytes = vec![0; layout::SIZE];
    same(|| "the beginning".into(), 0, raw::begin(&mut bytes, &file, memory))
        .and_then(|()| text(random, &file, bytes, memory))
        .map_err(|what| format!("one clock left: {what}\n{}", told(&file)))?;
    counts.add("one clock left behind the longest wait");
    Ok(())
}

/// Counts what a file brings up.
fn count(file: &[u8], answer: u64, counts: &mut Counts) {
    match answer as u8 {
        0 => {
            let clock = vgm_file::clock(file);
            counts.add(if vgm_file::machine(file) == Machine::Pal { "pal" } else { "ntsc" });
            counts.add_if(![0, 1_662_607, 1_789_772, 1_789_773].contains(&clock), "a clock that isn't known");
            counts.add_if(commands_at(file).is_ok_and(|at| at >= 0x88) && file[0x87] & 0x80 != 0, "another flag");
            let own = vgm_file::own_memory(file).is_some();
            counts.add(if own { "sample blocks" } else { "no sample blocks" });
        }
        1 | 2 => counts.add("1 or 2"),
        // One that begins otherwise is a log at fault.
        _ if !is_file(file) => counts.add("14"),
        number => counts.add(&number.to_string()),
    }
}

fn judge(random: &mut Random, file: &[u8], memory: &[u8], counts: &mut Counts) -> Result<(), String> {
    streams(random, file)?;
    let own = recording::memory(file, memory);
    let (answer, bytes) = begun(random, file, &own)?;
    count(file, answer, counts);
    if answer == 0 {
        heard(random, file, bytes, &own, counts)?;
    }
    if random.one_in(3) {
        misled(random, file, &own, counts)?;
    }
    if random.one_in(2) {
        at_an_edge(random, memory, counts)?;
    }
    if random.one_in(40) { one_clock_left(random, memory, counts) } else { Ok(()) }
}

fn told(file: &[u8]) -> String {
    format!("{} bytes {:02x?}", file.len(), &file[..file.len().min(3_000)])
}

/// Draws and judges files; a failing one is told whole, or its beginning.
pub fn compare(seed: u64, files: u64, memory: &[u8]) -> Result<String, String> {
    let mut counts = Counts::new(files, THINGS);
    for number in 0..files {
        let random = &mut Random::new(seed, "files", number);
        let file = match number % 500 {
            0 => vgm_files::longest(random, (number / 500 % 2) as usize),
            1 if number % 1_000 == 1 => vgm_files::longest(random, 1),
            _ => vgm_files::file(random),
        };
        judge(random, &file, memory, &mut counts)
            .map_err(|what| format!("seed {seed}, files {number}: {what}\n{}", told(&file)))?;
    }
    Ok(format!("{files} files ({})", counts.told()?))
}

/// What the library answers at a file's beginning, and about its samples, held to the reading.
fn begins_same(file: &[u8], memory: &[u8]) -> Result<(), String> {
    let (mut ours, mut theirs) = (vec![0; layout::SIZE], vec![0; layout::SIZE]);
    let answer = player::begin(&mut ours, file, memory);
    same(|| "the beginning".into(), answer, raw::begin(&mut theirs, file, memory))?;
    left("the beginning", &ours, &theirs)?;
    let Ok(start) = commands_at(file) else { return Ok(()) };
    let (mut ours, mut theirs) = (vec![b'?'; MEMORY], vec![b'?'; MEMORY]);
    let answer = vgm_file::samples(&file[start..], &mut ours);
    same(|| "the samples".into(), answer, raw::samples(&file[start..], &mut theirs))?;
    left("the sample memory", &ours, &theirs)
}

/// Small files, each byte changed in several ways, and cut at every byte.
pub fn every_byte(seed: u64, files: u64, memory: &[u8]) -> Result<String, String> {
    let mut changed = 0;
    for number in 0..files {
        let random = &mut Random::new(seed, "file bytes", number);
        let mut drawn = drawn(random);
        drawn.blocks.retain(|block| block.len() < 100);
        let file = drawn.bytes();
        for at in 0..file.len() {
            let (now, any) = (file[at], random.byte());
            for value in [now ^ 1, now ^ 0x80, now.wrapping_add(1), any] {
                let mut file = file.clone();
                file[at] = value;
                begins_same(&file, memory).map_err(|what| {
                    format!("seed {seed}, file bytes {number}, byte {at} is {value:#x}: {what}\n{}", told(&file))
                })?;
            }
            begins_same(&file[..at], memory)
                .map_err(|what| format!("seed {seed}, file bytes {number}, cut at {at}: {what}\n{}", told(&file)))?;
            changed += 5;
        }
    }
    Ok(format!("{files} files, {changed} of them damaged, at every byte"))
}
