//! The state at a clock of a log: `perch at` and `perch_state_at`.

use crate::chip::Chip;
use crate::log::{Fault, Item};
use crate::machine::Machine;
use crate::{MEMORY, bytes, number, play, player, recording};
use std::fmt::Write;

/// The state after exactly so many clocks of a log, accesses stamped with the last done, and the clocks; or both at the log's end where
/// that comes before.
pub fn reached(log: &[u8], memory: &[u8], clock: u64) -> Result<(Chip, u64), Fault> {
    play::check(log, memory)?;
    let mut chip = Chip::power_on(recording::machine(log)?);
    let mut time = 0;
    for item in recording::items(log)? {
        match item {
            Item::Wait(clocks) => {
                for _ in 0..clocks {
                    if time == clock {
                        return Ok((chip, time));
                    }
                    chip.clock(memory);
                    time += 1;
                }
            }
            Item::Write(register, value) => chip.write(register, value),
            Item::Read => drop(chip.read_status()),
        }
    }
    Ok((chip, time))
}

const SQUARE: [&str; 19] = [
    "duty",
    "loop",
    "constant",
    "n",
    "sweep_enable",
    "negate",
    "sweep_period",
    "sweep_shift",
    "sweep_written",
    "sweep_divider",
    "period",
    "timer",
    "half",
    "position",
    "envelope_start",
    "envelope_divider",
    "envelope_counter",
    "length",
    "enabled",
];

/// The fields' names, unit by unit, in document 01's order.
const FIELDS: [(&str, &[&str]); 6] = [
    ("square1", &SQUARE),
    ("square2", &SQUARE),
    ("triangle", &["control", "reload", "linear", "linear_halt", "period", "timer", "position", "length", "enabled"]),
    (
        "noise",
        &[
            "loop",
            "constant",
            "n",
            "envelope_start",
            "envelope_divider",
            "envelope_counter",
            "length",
            "enabled",
            "mode",
            "index",
            "timer",
            "shift_register",
        ],
    ),
    (
        "dmc",
        &[
            "interrupt_enable",
            "loop",
            "index",
            "timer",
            "level",
            "address_byte",
            "length_byte",
            "address",
            "remaining",
            "buffer",
            "full",
            "shift_byte",
            "bits",
            "silence",
            "interrupt",
        ],
    ),
    ("frame", &["mode", "disable", "clock", "interrupt"]),
];

/// All that `perch at` writes for a log.
pub fn text(log: &[u8], memory: &[u8], clock: u64) -> String {
    let (mut chip, clock) = match reached(log, memory, clock) {
        Ok(reached) => reached,
        Err(fault) => return format!("at=1\nrefused={}:{}\n", fault.number, fault.place),
    };
    let machine = if chip.machine == Machine::Pal { "pal" } else { "ntsc" };
    let mut text = format!("at=1\nclock={clock}\nmachine={machine}\nlevel={}\n", chip.level());
    // The read is of a copy: nothing is cleared.
    let _ = writeln!(text, "status={:02x}\nline={}", chip.clone().read_status(), u8::from(chip.line()));
    let mut values = Vec::new();
    chip.fields(|_, slot| values.push(slot.get()));
    let names = FIELDS.iter().flat_map(|(unit, fields)| fields.iter().map(move |field| (unit, field)));
    for ((unit, field), value) in names.zip(values) {
        let _ = writeln!(text, "{unit}.{field}={value}");
    }
    text
}

/// What a caller in C is answered: 2^32 x the clock reached, with the state's bytes there; or a refusal's number + 2^8 x its place.
pub fn state_at(state: &mut [u8], log: &[u8], memory: &[u8], clock: u64) -> u64 {
    if memory.len() != MEMORY {
        return number::MEMORY.into();
    }
    if state.len() != bytes::SIZE {
        return number::STATE.into();
    }
    match reached(log, memory, clock) {
        Ok((chip, clock)) => {
            state.copy_from_slice(&chip.encode());
            clock << 32
        }
        Err(fault) => player::refused(fault),
    }
}
