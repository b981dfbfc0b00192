//! The player: what a recording, a log or a VGM file, sounds like, as lines of text.

use crate::chip::Chip;
use crate::log::{Fault, Item, Totals};
use crate::machine::Machine;
use crate::{MEMORY, number, recording};
use std::fmt::Write;

/// Whether a log plays with this sample memory: the memory first, then the log.
pub fn check(log: &[u8], memory: &[u8]) -> Result<Totals, Fault> {
    if memory.len() != MEMORY {
        return Err(Fault { number: number::MEMORY, place: 0 });
    }
    recording::check(log)
}

/// The text of a refusal.
pub fn refusal(fault: Fault) -> String {
    refusal_line(fault.number, &fault.place.to_string())
}

/// The same, with the place's digits.
pub(crate) fn refusal_line(number: u8, place: &str) -> String {
    format!("play=1\nrefused={number}:{place}\n")
}

/// All that the player writes for a log.
pub fn text(log: &[u8], memory: &[u8]) -> String {
    match check(log, memory).and_then(|_| Ok((recording::machine(log)?, recording::items(log)?))) {
        Ok((machine, items)) => sounds(machine, &items, memory),
        Err(fault) => refusal(fault),
    }
}

/// The first lines for a log that passes: those of its first items, with so many clocks at most.
pub fn beginning(log: &[u8], memory: &[u8], clocks: u64) -> Result<String, Fault> {
    check(log, memory)?;
    let mut left = clocks;
    let mut fits = |item: &Item| match item {
        Item::Wait(clocks) => left.checked_sub(u64::from(*clocks)).inspect(|rest| left = *rest).is_some(),
        _ => true,
    };
    let first: Vec<Item> = recording::items(log)?.into_iter().take_while(|item| fits(item)).collect();
    let mut text = sounds(recording::machine(log)?, &first, memory);
    // Without the line of the end.
    text.truncate(text.trim_end().rfind('\n').map_or(0, |feed| feed + 1));
    Ok(text)
}

/// The lines of a list, played by a machine.
fn sounds(machine: Machine, items: &[Item], memory: &[u8]) -> String {
    let mut chip = Chip::power_on(machine);
    let mut time = 0u64;
    let mut last = chip.level();
    let mut outputs = chip.outputs();
    let mut text = format!("play=1\nlevel=0:{last}\n");
    let mut hear = |chip: &Chip, time: u64, text: &mut String| {
        // Equal outputs mix to an equal level.
        if chip.outputs() != outputs {
            outputs = chip.outputs();
            if outputs.level() != last {
                last = outputs.level();
                let _ = writeln!(text, "level={time}:{last}");
            }
        }
    };
    for item in items {
        match *item {
            Item::Wait(clocks) => {
                for _ in 0..clocks {
                    chip.clock(memory);
                    time += 1;
                    hear(&chip, time, &mut text);
                }
            }
            Item::Write(register, value) => {
                chip.write(register, value);
                hear(&chip, time, &mut text);
            }
            Item::Read => {
                let byte = chip.read_status();
                let _ = writeln!(text, "read={time}:{byte:02x}");
                hear(&chip, time, &mut text);
            }
        }
    }
    let _ = writeln!(text, "stop={time}");
    text
}
