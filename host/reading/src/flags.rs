//! When the two interrupt flags and the interrupt line change in a log, clock by clock and access by access.

use crate::chip::Chip;
use crate::log::{Fault, Item};
use crate::{play, recording};
use std::fmt::Write;

/// The names of the flags and of the line, in the order of their lines at one time.
const NAMES: [&str; 3] = ["frame", "dmc", "line"];

fn flags(chip: &Chip) -> [bool; 3] {
    [chip.frame.interrupt, chip.dmc.interrupt, chip.line()]
}

/// A line for each flag that a clock or an access changed.
fn tell(text: &mut String, time: u64, before: [bool; 3], after: [bool; 3]) {
    for (name, (was, is)) in NAMES.iter().zip(before.iter().zip(after)) {
        if *was != is {
            let _ = writeln!(text, "{name}={time}:{}", u8::from(is));
        }
    }
}

/// The lines of a log from power-on, and the log's clocks.
fn changes(log: &[u8], memory: &[u8]) -> Result<(String, u64), Fault> {
    play::check(log, memory)?;
    let mut chip = Chip::power_on(recording::machine(log)?);
    let (mut text, mut time) = (String::new(), 0);
    for item in recording::items(log)? {
        let (times, each) = match item {
            Item::Wait(clocks) => (clocks, 1),
            Item::Write(..) | Item::Read => (1, 0),
        };
        for _ in 0..times {
            let before = flags(&chip);
            match item {
                Item::Wait(_) => chip.clock(memory),
                Item::Write(register, value) => chip.write(register, value),
                Item::Read => drop(chip.read_status()),
            }
            time += each;
            tell(&mut text, time, before, flags(&chip));
        }
    }
    Ok((text, time))
}

/// All that `perch interrupts` writes for a log.
pub fn text(log: &[u8], memory: &[u8]) -> String {
    match changes(log, memory) {
        Ok((lines, time)) => format!("interrupts=1\n{lines}stop={time}\n"),
        Err(fault) => format!("interrupts=1\nrefused={}:{}\n", fault.number, fault.place),
    }
}
