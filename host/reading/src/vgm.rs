//! Request 10: the command part of a VGM stream, brought in as a log, or as what it stands for.

use crate::log::{Fault, Item, MOST_BYTES, MOST_CLOCKS, MOST_TURNS};
use crate::machine::Machine;
use crate::number;
use std::fmt::Write;

/// A command.
#[derive(Clone, Copy, Debug, PartialEq, Eq)]
pub enum Command {
    /// A register and a value.
    Write(u16, u8),
    /// So many samples.
    Wait(u16),
    /// $66.
    End,
}

/// The command at a place, and how many bytes it takes. At a place behind the stream's end it is missing there.
pub fn command(stream: &[u8], at: usize) -> Result<(Command, usize), Fault> {
    let missing = Fault { number: number::STREAM_ENDS, place: stream.len().max(at) };
    let byte = |i| at.checked_add(i).and_then(|at| stream.get(at)).copied().ok_or(missing);
    Ok(match byte(0)? {
        0xb4 => {
            let register = byte(1)?;
            if !matches!(register, 0x00..=0x13 | 0x15 | 0x17) {
                return Err(Fault { number: number::STREAM_REGISTER, place: at + 1 });
            }
            (Command::Write(0x4000 + u16::from(register), byte(2)?), 3)
        }
        0x61 => (Command::Wait(u16::from_le_bytes([byte(1)?, byte(2)?])), 3),
        0x62 => (Command::Wait(735), 1),
        0x63 => (Command::Wait(882), 1),
        wait @ 0x70..=0x7f => (Command::Wait(u16::from(wait - 0x70) + 1), 1),
        0x66 => (Command::End, 1),
        _ => return Err(Fault { number: number::COMMAND, place: at }),
    })
}

/// Where a machine stands after so many samples, at 44100 a second.
pub fn clocks(machine: Machine, samples: u128) -> u128 {
    samples * u128::from(machine.clocks_a_second()) / 44_100
}

/// What a stream stands for.
#[derive(Clone, Debug, PartialEq, Eq)]
pub struct Meant {
    /// The writes in order: after how many clocks, the register and the value.
    pub writes: Vec<(u128, u16, u8)>,
    /// The clocks in all.
    pub end: u128,
    /// The bytes read: up to $66, and this.
    pub bytes: usize,
}

/// Reads the commands up to $66, for an NTSC machine.
pub fn meant(stream: &[u8]) -> Result<Meant, Fault> {
    meant_for(Machine::Ntsc, stream)
}

/// The same for a machine.
pub fn meant_for(machine: Machine, stream: &[u8]) -> Result<Meant, Fault> {
    let clocks = |samples| clocks(machine, samples);
    let (mut at, mut samples, mut writes) = (0, 0, Vec::new());
    loop {
        let (command, bytes) = command(stream, at)?;
        at += bytes;
        match command {
            Command::Write(register, value) => writes.push((clocks(samples), register, value)),
            Command::Wait(more) => samples += u128::from(more),
            Command::End => return Ok(Meant { writes, end: clocks(samples), bytes: at }),
        }
    }
}

/// The longest wait of a log.
pub const LONGEST_WAIT: u128 = 1_000_000;

/// The waits of a gap: of 1000000 first, then the rest.
fn waits(gap: u128) -> impl Iterator<Item = Item> {
    let whole = (0..gap / LONGEST_WAIT).map(|_| LONGEST_WAIT);
    let rest = Some(gap % LONGEST_WAIT).filter(|rest| *rest > 0);
    whole.chain(rest).map(|clocks| Item::Wait(clocks as u32))
}

/// The list of a stream: each gap before a write, the write; at last the gap before the end. 9 where it is over the totals.
pub fn acts(meant: &Meant) -> Result<Vec<Item>, Fault> {
    let over = Fault { number: number::TOTALS, place: 0 };
    if meant.end > MOST_CLOCKS {
        return Err(over);
    }
    let (mut list, mut before) = (Vec::new(), 0);
    for &(clock, register, value) in &meant.writes {
        list.extend(waits(clock - std::mem::replace(&mut before, clock)));
        list.push(Item::Write(register, value));
    }
    list.extend(waits(meant.end - before));
    if list.len() as u128 > MOST_TURNS { Err(over) } else { Ok(list) }
}

/// The stream's log for an NTSC machine, of any length.
pub fn log(stream: &[u8]) -> Result<String, Fault> {
    log_for(Machine::Ntsc, stream)
}

/// The same for a machine.
pub fn log_for(machine: Machine, stream: &[u8]) -> Result<String, Fault> {
    let meant = meant_for(machine, stream)?;
    let mut text = String::from("log=1\n");
    if machine == Machine::Pal {
        text += "machine=pal\n";
    }
    for item in acts(&meant)? {
        let _ = match item {
            Item::Wait(clocks) => writeln!(text, "wait={clocks}"),
            Item::Write(register, value) => writeln!(text, "write={register:04x}:{value:02x}"),
            Item::Read => unreachable!("no command reads"),
        };
    }
    let _ = writeln!(text, "stop={}", meant.end);
    Ok(text)
}

/// Writes the stream's log to the text: its length, or its fault.
fn import_to(machine: Machine, stream: &[u8], text: &mut [u8]) -> Result<usize, Fault> {
    let log = log_for(machine, stream)?;
    if log.len() > text.len() || log.len() > MOST_BYTES {
        return Err(Fault { number: number::ROOM, place: 0 });
    }
    text[..log.len()].copy_from_slice(log.as_bytes());
    Ok(log.len())
}

/// What a caller in C is answered: 2^8 x the log's length, or number + 2^8 x place.
pub fn import(stream: &[u8], text: &mut [u8]) -> u64 {
    import_for(stream, Machine::Ntsc as u8, text)
}

/// The same for a machine's number; 2 where no machine has it.
pub fn import_for(stream: &[u8], machine: u8, text: &mut [u8]) -> u64 {
    let Some(machine) = Machine::of(machine) else {
        return number::STATE.into();
    };
    match import_to(machine, stream, text) {
        Ok(length) => (length as u64) << 8,
        Err(fault) => u64::from(fault.number) | (fault.place as u64) << 8,
    }
}
