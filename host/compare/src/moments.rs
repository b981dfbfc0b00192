//! The state at a clock, on drawn logs and clocks: `perch at`, and `perch_state_at`.

use crate::case::sample;
use crate::counts::Counts;
use crate::logs::same;
use crate::program::{Program, same_text};
use crate::random::Random;
use crate::stamped::{self, Stamps};
use perch::raw;
use reading::bytes::SIZE;
use reading::{MEMORY, Machine, moment};

/// What is counted, with the fewest in 10,000 clocks.
const THINGS: [(&str, u64); 9] = [
    ("pal", 2_000),
    ("clock 0", 1_000),
    ("at accesses", 1_500),
    ("a clock before accesses", 200),
    ("inside a wait", 1_500),
    ("the log's end", 300),
    ("past the log's end", 80),
    ("the line asserted", 50),
    ("refused", 150),
];

fn count(counts: &mut Counts, stamps: &Stamps, clock: u64, line: bool) {
    counts.add_if(stamps.machine == Machine::Pal, "pal");
    counts.add_if(clock == 0, "clock 0");
    counts.add_if(stamps.at(clock) > 0, "at accesses");
    counts.add_if(stamps.at(clock.saturating_add(1)) > 0, "a clock before accesses");
    counts.add_if(clock < stamps.clocks && !stamps.waits.contains(&clock), "inside a wait");
    counts.add_if(clock == stamps.clocks, "the log's end");
    counts.add_if(clock > stamps.clocks, "past the log's end");
    counts.add_if(line, "the line asserted");
}

/// Draws logs and clocks and holds what a program `perch` writes for them to the reading's texts; a failing log is told whole.
pub fn compare(seed: u64, moments: u64, program: &str) -> Result<String, String> {
    let memory = sample(seed);
    let program = Program::new(program, &memory)?;
    let mut counts = Counts::new(moments, THINGS);
    for number in 0..moments {
        let random = &mut Random::new(seed, "moments", number);
        let log = stamped::log(random);
        let stamps = Stamps::of(&log);
        let clock = stamps.as_ref().map_or(0, |stamps| stamps.clock(random));
        let text = moment::text(&log, &memory, clock);
        let theirs = program.writes(&["at".into(), clock.to_string()], &log)?;
        let shown = || format!("seed {seed}, log {number}, at {clock}");
        same_text(&text, &theirs).map_err(|what| format!("{}: {what}\n{}", shown(), String::from_utf8_lossy(&log)))?;
        match stamps {
            Some(stamps) => count(&mut counts, &stamps, clock, text.contains("\nline=1\n")),
            None => counts.add("refused"),
        }
    }
    Ok(format!("{moments} clocks ({})\n", counts.told()?))
}

/// Draws logs and clocks and asks the library for the states there; a failing log is told whole.
pub fn states(seed: u64, moments: u64, memory: &[u8]) -> Result<String, String> {
    let more = [("refused 1", 100), ("refused 2", 100), ("a clock of 64 bits", 30)];
    let mut counts = Counts::new(moments, THINGS.into_iter().chain(more));
    for number in 0..moments {
        let random = &mut Random::new(seed, "states", number);
        let log = stamped::log(random);
        judge(random, &log, memory, &mut counts)
            .map_err(|what| format!("seed {seed}, states {number}: {what}\n{}", String::from_utf8_lossy(&log)))?;
    }
    Ok(format!("{moments} clocks of logs ({})", counts.told()?))
}

fn judge(random: &mut Random, log: &[u8], memory: &[u8], counts: &mut Counts) -> Result<(), String> {
    let stamps = Stamps::of(log);
    let high = random.pick(&[1 << 32, (1 << 32) + 1, u64::MAX]);
    let clock = match &stamps {
        Some(_) if random.one_in(40) => high,
        Some(stamps) => stamps.clock(random),
        None => 0,
    };
    let size = if random.one_in(20) { random.pick(&[0, SIZE - 1, SIZE + 1]) } else { SIZE };
    let lent = if random.one_in(20) { random.pick(&[0, MEMORY - 1]) } else { MEMORY };
    let fresh: Vec<u8> = (0..size).map(|_| random.byte()).collect();
    let (mut ours, mut theirs) = (fresh.clone(), fresh);
    let answer = raw::state_at(&mut theirs, log, &memory[..lent], clock);
    same(|| format!("the state at {clock}"), moment::state_at(&mut ours, log, &memory[..lent], clock), answer)?;
    if ours != theirs {
        return Err(format!("the state at {clock} is\n{ours:02x?} by the reading,\n{theirs:02x?} by the library"));
    }
    match (answer as u8, stamps) {
        (0, Some(stamps)) => count(counts, &stamps, clock, raw::interrupt_line(&theirs) >> 8 == 1),
        (number @ 1..=2, _) => counts.add(&format!("refused {number}")),
        _ => counts.add("refused"),
    }
    counts.add_if(clock == high, "a clock of 64 bits");
    Ok(())
}
