//! A window of a log as a trace, clock by clock and access by access, and its text as a VCD (IEEE 1364).

use crate::chip::Chip;
use crate::log::{Fault, Item};
use crate::machine::Machine;
use crate::{play, recording};
use std::fmt::Write;

/// How many lanes show the chip.
pub const LANES: usize = 9;

/// What is seen of the chip: level, square 1, square 2, triangle, noise, DMC, line, the frame's flag, the DMC's flag.
pub type Seen = [u16; LANES];

fn seen(chip: &Chip) -> Seen {
    let [first, second, triangle, noise, dmc] = chip.gives();
    let [line, frame, sample] = [chip.line(), chip.frame.interrupt, chip.dmc.interrupt].map(u16::from);
    [chip.level(), first, second, triangle, noise, dmc, line, frame, sample]
}

/// What is shown of an access: the register, the value written or read, and whether it is a read.
#[derive(Clone, Copy, Debug, PartialEq, Eq)]
pub struct Bus {
    /// $4015 for a read.
    pub register: u16,
    /// The value written, or the byte that the read gives.
    pub value: u8,
    /// Whether it is a read.
    pub read: bool,
}

/// What comes one behind the other in a window.
#[derive(Clone, Copy, Debug, PartialEq, Eq)]
pub enum Event {
    /// The window begins.
    Begin,
    /// A clock was worked.
    Clock,
    /// An access was done.
    Access(Bus),
    /// The window ends.
    End,
}

/// An event, when it was, and what is seen behind it.
#[derive(Clone, Copy, Debug, PartialEq, Eq)]
pub struct Moment {
    /// What came.
    pub event: Event,
    /// The clocks done.
    pub clock: u64,
    /// Which access at this clock was the last, from 1; 0 where none of the window was.
    pub nth: u64,
    /// The time in nanoseconds.
    pub time: u64,
    /// What is seen.
    pub seen: Seen,
}

/// Accesses at one clock are shown a nanosecond apart, so many at most.
pub const MOST_APART: u64 = 500;

/// When a clock is, in nanoseconds.
pub fn time(machine: Machine, clock: u64) -> u64 {
    clock * 1_000_000_000 / machine.clocks_a_second()
}

/// Shows the moments of a log from the clock `from`, before its accesses, to `clocks` clocks later, before the accesses there; or to the
/// log's end where that comes before. Where the log ends before `from` its end is all of the window.
pub fn walk(log: &[u8], memory: &[u8], from: u64, clocks: u64, mut show: impl FnMut(Moment)) -> Result<(), Fault> {
    play::check(log, memory)?;
    let machine = recording::machine(log)?;
    let mut chip = Chip::power_on(machine);
    let (mut clock, mut nth) = (0, 0);
    let mut show = |event: Event, chip: &Chip, clock: u64, nth: u64| {
        let time = time(machine, clock) + nth.min(MOST_APART);
        show(Moment { event, clock, nth, time, seen: seen(chip) });
    };
    if from == 0 {
        show(Event::Begin, &chip, 0, 0);
    }
    'items: for item in recording::items(log)? {
        let times = if let Item::Wait(clocks) = item { clocks } else { 1 };
        for _ in 0..times {
            if clock == from + clocks {
                break 'items;
            }
            let event = match item {
                Item::Wait(_) => {
                    chip.clock(memory);
                    (clock, nth) = (clock + 1, 0);
                    if clock == from { Event::Begin } else { Event::Clock }
                }
                Item::Write(register, value) => {
                    chip.write(register, value);
                    Event::Access(Bus { register, value, read: false })
                }
                Item::Read => Event::Access(Bus { register: 0x4015, value: chip.read_status(), read: true }),
            };
            if clock >= from {
                nth += u64::from(matches!(event, Event::Access(_)));
                show(event, &chip, clock, nth);
            }
        }
    }
    if clock < from {
        show(Event::Begin, &chip, clock, 0);
    }
    show(Event::End, &chip, clock, nth);
    Ok(())
}

/// The head of every text.
const HEAD: &str = "\
$version perchpulley $end
$timescale 1 ns $end
$scope module perchpulley $end
$var wire 31 c clock $end
$var wire 15 l level $end
$scope module channels $end
$var wire 4 1 square1 $end
$var wire 4 2 square2 $end
$var wire 4 t triangle $end
$var wire 4 n noise $end
$var wire 7 d dmc $end
$upscope $end
$scope module interrupts $end
$var wire 1 i line $end
$var wire 1 f frame_flag $end
$var wire 1 g dmc_flag $end
$upscope $end
$scope module bus $end
$var wire 16 r register $end
$var wire 8 v value $end
$var wire 1 x read $end
$upscope $end
$upscope $end
$enddefinitions $end
";

/// The code of each lane that is seen, and its bits.
const SEEN: [(char, usize); LANES] =
    [('l', 15), ('1', 4), ('2', 4), ('t', 4), ('n', 4), ('d', 7), ('i', 1), ('f', 1), ('g', 1)];

/// The value of a lane, as a line.
fn value(code: char, bits: usize, value: u64) -> String {
    if bits == 1 { format!("{value}{code}\n") } else { format!("b{value:0bits$b} {code}\n") }
}

fn clock_lane(clock: u64) -> String {
    value('c', 31, clock)
}

fn bus_lanes(bus: Bus) -> String {
    value('r', 16, bus.register.into()) + &value('v', 8, bus.value.into()) + &value('x', 1, bus.read.into())
}

/// The lanes that differ, in their order; all where nothing was before.
fn lanes(before: Option<Seen>, after: Seen) -> String {
    let mut text = String::new();
    for (i, (code, bits)) in SEEN.into_iter().enumerate() {
        if before.is_none_or(|before| before[i] != after[i]) {
            text += &value(code, bits, after[i].into());
        }
    }
    text
}

/// All that `perch vcd` writes for a log.
pub fn text(log: &[u8], memory: &[u8], from: u64, clocks: u64) -> String {
    let mut text = String::from(HEAD);
    let (mut before, mut last) = (None, None);
    let told = walk(log, memory, from, clocks, |Moment { event, clock, time, seen, .. }| {
        let differ = lanes(before, seen);
        let lines = match event {
            Event::Begin => {
                let bus = bus_lanes(Bus { register: 0, value: 0, read: false });
                format!("$dumpvars\n{}{differ}{bus}$end\n", clock_lane(clock))
            }
            Event::Clock if differ.is_empty() => return,
            Event::Clock => clock_lane(clock) + &differ,
            Event::Access(bus) => clock_lane(clock) + &bus_lanes(bus) + &differ,
            Event::End => String::new(),
        };
        if last != Some(time) {
            let _ = writeln!(text, "#{time}");
        }
        text += &lines;
        (before, last) = (Some(seen), Some(time));
    });
    match told {
        Ok(()) => text,
        Err(fault) => format!("refused={}:{}\n", fault.number, fault.place),
    }
}
