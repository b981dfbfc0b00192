//! Request 1 over a whole log: after how many clocks the DMC level stood at each of its values.

use crate::chip::Chip;
use crate::log::{Fault, Item};
use crate::plain::Dwell;
use crate::{play, recording};
use std::fmt::Write;

/// The table of a log from power-on, and the log's clocks.
pub fn table(log: &[u8], memory: &[u8]) -> Result<(Dwell, u64), Fault> {
    play::check(log, memory)?;
    let mut chip = Chip::power_on(recording::machine(log)?);
    let mut dwell: Dwell = [0; 128];
    let mut time = 0;
    for item in recording::items(log)? {
        match item {
            Item::Wait(clocks) => {
                for _ in 0..clocks {
                    chip.clock(memory);
                    dwell[usize::from(chip.dmc.level)] += 1;
                    time += 1;
                }
            }
            Item::Write(register, value) => chip.write(register, value),
            Item::Read => drop(chip.read_status()),
        }
    }
    Ok((dwell, time))
}

/// All that `perch dwell` writes for a log: a line for each level that the DMC stood at.
pub fn text(log: &[u8], memory: &[u8]) -> String {
    let (dwell, time) = match table(log, memory) {
        Ok(counted) => counted,
        Err(fault) => return format!("dwell=1\nrefused={}:{}\n", fault.number, fault.place),
    };
    let mut text = String::from("dwell=1\n");
    for (level, clocks) in dwell.iter().enumerate().filter(|(_, clocks)| **clocks > 0) {
        let _ = writeln!(text, "dmc={level}:{clocks}");
    }
    let _ = writeln!(text, "stop={time}");
    text
}
