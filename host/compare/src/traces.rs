//! `perch vcd` on drawn logs and windows: its text, and each lane at each clock and at each access by a reader of its own.

use crate::case::sample;
use crate::counts::Counts;
use crate::lanes::{self, Held};
use crate::program::{Program, same_text};
use crate::random::Random;
use crate::stamped::{self, Stamps};
use reading::{Machine, trace};

/// What is counted, with the fewest in 300 windows.
const THINGS: [(&str, u64); 17] = [
    ("pal", 60),
    ("from 0", 40),
    ("from accesses", 40),
    ("from the log's end", 6),
    ("from past the log's end", 4),
    ("one clock", 30),
    ("to accesses", 20),
    ("to the log's end", 10),
    ("past the log's end", 40),
    ("over three waits", 40),
    ("more than 500 accesses at one clock", 20),
    ("500 accesses at one clock", 3),
    ("accesses at the log's end", 20),
    ("nothing changes", 20),
    ("a hundred changes", 12),
    ("a flag changes", 2),
    ("refused", 2),
];

/// The clocks of a window that begins so: one, few, to a clock at an edge, to the log's end or past it.
fn clocks(random: &mut Random, stamps: &Stamps, from: u64) -> u64 {
    let to = stamps.clock(random);
    match random.within(0..=7) {
        0 | 1 => 1,
        2 => random.within(1..=100),
        3 => random.pick(&[2_000_000_000, stamps.clocks + 1]),
        4 if stamps.clocks > from => stamps.clocks - from,
        _ if to > from => to - from,
        _ => random.within(1..=50_000),
    }
}

fn count(counts: &mut Counts, stamps: &Stamps, (from, clocks): (u64, u64), held: Held) {
    let to = from + clocks;
    let shown = |clock: u64| clock >= from && clock < to && from <= stamps.clocks;
    counts.add_if(stamps.machine == Machine::Pal, "pal");
    counts.add_if(from == 0, "from 0");
    counts.add_if(stamps.at(from) > 0, "from accesses");
    counts.add_if(from == stamps.clocks, "from the log's end");
    counts.add_if(from > stamps.clocks, "from past the log's end");
    counts.add_if(clocks == 1, "one clock");
    counts.add_if(stamps.at(to) > 0, "to accesses");
    counts.add_if(to == stamps.clocks, "to the log's end");
    counts.add_if(to > stamps.clocks, "past the log's end");
    counts.add_if(stamps.waits.iter().filter(|wait| shown(**wait)).count() >= 3, "over three waits");
    counts.add_if(held.most > trace::MOST_APART, "more than 500 accesses at one clock");
    counts.add_if(held.most == trace::MOST_APART, "500 accesses at one clock");
    counts.add_if(shown(stamps.clocks) && stamps.at(stamps.clocks) > 0, "accesses at the log's end");
    counts.add_if(held.differ == 0, "nothing changes");
    counts.add_if(held.differ > 100, "a hundred changes");
    counts.add_if(held.flags > 0, "a flag changes");
}

/// Draws windows of logs and holds what a program `perch` writes for them to the reading; a failing log is told whole.
pub fn compare(seed: u64, windows: u64, program: &str) -> Result<String, String> {
    let memory = sample(seed);
    let program = Program::new(program, &memory)?;
    let mut counts = Counts::new(windows, THINGS.map(|(name, fewest)| (name, fewest * 10_000 / 300)));
    let (mut worked, mut accesses) = (0, 0);
    for number in 0..windows {
        let random = &mut Random::new(seed, "traces", number);
        let log = stamped::log(random);
        let stamps = Stamps::of(&log);
        let from = stamps.as_ref().map_or(0, |stamps| stamps.clock(random));
        let clocks = stamps.as_ref().map_or(1, |stamps| clocks(random, stamps, from));
        let theirs = program.writes(&["vcd".into(), from.to_string(), clocks.to_string()], &log)?;
        let held = same_text(&trace::text(&log, &memory, from, clocks), &theirs)
            .and_then(|()| lanes::hold(&String::from_utf8_lossy(&theirs), &log, &memory, from, clocks));
        let shown = || format!("seed {seed}, log {number}, vcd {from} {clocks}");
        let held = held.map_err(|what| format!("{}: {what}\n{}", shown(), String::from_utf8_lossy(&log)))?;
        counts.add_if(held.is_none(), "refused");
        if let (Some(stamps), Some(held)) = (stamps, held) {
            count(&mut counts, &stamps, (from, clocks), held);
            (worked, accesses) = (worked + held.clocks, accesses + held.accesses);
        }
    }
    Ok(format!("{windows} windows, {worked} clocks, {accesses} accesses, each lane ({})\n", counts.told()?))
}
