//! Comparisons that go through every value: of each field's range, of the mixer, of each register, and of the units that
//! a clock or a frame step moves.

use crate::draw::{hush, state};
use crate::random::Random;
use perch::raw;
use reading::access::access;
use reading::chip::Frame;
use reading::machine::Machine;
use reading::mixer::Outputs;
use reading::{Chip, MEMORY, boundary};

fn same<T: PartialEq + std::fmt::Debug>(what: impl FnOnce() -> String, ours: T, theirs: T) -> Result<(), String> {
    if ours == theirs { Ok(()) } else { Err(format!("{}: the reading {ours:x?}, the library {theirs:x?}", what())) }
}

/// One clock and then a status read, from a state in range.
fn one_clock(chip: Chip, memory: &[u8]) -> Result<(), String> {
    let (mut ours, mut theirs) = (chip.encode(), chip.encode());
    let what = || format!("one clock of {:02x?}", chip.encode());
    same(what, boundary::clock(&mut ours, memory), raw::clock(&mut theirs, memory))?;
    same(what, ours, theirs)?;
    same(what, boundary::level(&ours), raw::level(&theirs))?;
    same(what, access(&mut ours, 1, 0, 0), raw::access(&mut theirs, 1, 0, 0))?;
    same(what, ours, theirs)
}

/// The size, and power-on over any bytes of any length with any machine.
pub fn power_on(_: &mut Random) -> Result<u64, String> {
    same(|| "the size of a state".into(), reading::bytes::SIZE, raw::state_size())?;
    for length in 0..300 {
        for machine in 0..=255 {
            let (mut ours, mut theirs) = (vec![0xa5; length], vec![0xa5; length]);
            let what = || format!("power-on of {length} bytes, machine {machine}");
            same(what, boundary::power_on(&mut ours, machine), raw::power_on(&mut theirs, machine))?;
            same(what, ours, theirs)?;
        }
    }
    Ok(300 * 256)
}

/// Every value of every field on either machine, in both frame modes, with channels enabled or not, beside the frame flag or
/// disable set, and with timers and clock number at the machine's highest.
pub fn ranges(random: &mut Random) -> Result<u64, String> {
    let mut checks = 0;
    for (machine, enabled) in Machine::ALL.into_iter().flat_map(|machine| [(machine, false), (machine, true)]) {
        let mut chip = state(random);
        chip.machine = machine;
        (chip.noise.timer, chip.dmc.timer) = (machine.noise_periods()[15], machine.dmc_periods()[0]);
        let [first, second] = &mut chip.squares;
        for length in [&mut first.length, &mut second.length, &mut chip.triangle.length, &mut chip.noise.length] {
            length.enabled = enabled;
            length.count = if enabled { 7 } else { 0 };
        }
        chip.frame.mode = enabled;
        chip.frame.clock = chip.times().again - 1;
        (chip.frame.disable, chip.frame.interrupt) = (enabled, !enabled);
        let mut at = 0;
        let mut failure = Ok(());
        chip.clone().fields(|name, slot| {
            let most: u16 = if slot.width() == 2 { 0xffff } else { 0xff };
            for value in 0..=most {
                let mut bytes = chip.encode();
                bytes[at..at + slot.width()].copy_from_slice(&value.to_le_bytes()[..slot.width()]);
                let what = || format!("range of {name} at byte {at}, {value}");
                let answer = same(what, boundary::in_range(&bytes), raw::in_range(&bytes));
                failure = failure.clone().and(answer);
                checks += 1;
            }
            at += slot.width();
        });
        failure?;
    }
    for length in 0..300 {
        let bytes = vec![0; length];
        same(|| format!("range of {length} bytes"), boundary::in_range(&bytes), raw::in_range(&bytes))?;
    }
    Ok(checks + 300)
}

/// A state whose channels give these outputs.
fn giving(outputs: Outputs) -> Chip {
    let mut chip = Chip::POWER_ON;
    for (square, n) in chip.squares.iter_mut().zip([outputs.squares.min(15), outputs.squares.saturating_sub(15)]) {
        square.length = reading::chip::Length { count: 1, enabled: true };
        (square.position, square.period) = (1, 8);
        (square.envelope.constant, square.envelope.n) = (true, n);
    }
    chip.noise.length = reading::chip::Length { count: 1, enabled: true };
    (chip.noise.envelope.constant, chip.noise.envelope.n, chip.noise.register) = (true, outputs.noise, 2);
    chip.triangle.position = outputs.triangle + 16;
    chip.dmc.level = outputs.dmc;
    chip
}

/// Every sum of the squares, triangle, noise and DMC level.
pub fn mixer(_: &mut Random) -> Result<u64, String> {
    let mut checks = 0;
    for squares in 0..=30 {
        for triangle in 0..=15 {
            for noise in 0..=15 {
                for dmc in 0..=127 {
                    let outputs = Outputs { squares, triangle, noise, dmc };
                    let state = giving(outputs).encode();
                    let level = outputs.level();
                    same(|| format!("level of {outputs:?}"), u64::from(level) << 8, raw::level(&state))?;
                    checks += 1;
                }
            }
        }
    }
    Ok(checks)
}

/// Every register with every value, and every other register.
pub fn writes(random: &mut Random) -> Result<u64, String> {
    let mut checks = 0;
    let mut write = |chip: Chip, register: u16, value: u8| {
        checks += 1;
        let (mut ours, mut theirs) = (chip.encode(), chip.encode());
        let what = || format!("write of {register:04x}:{value:02x} to {:02x?}", chip.encode());
        same(what, access(&mut ours, 0, register, value), raw::access(&mut theirs, 0, register, value))?;
        same(what, ours, theirs)
    };
    for _ in 0..30 {
        for register in 0x4000..=0x401f {
            for value in 0..=255 {
                write(state(random), register, value)?;
            }
        }
    }
    for register in 0..=0xffff {
        let value = random.byte();
        write(state(random), register, value)?;
    }
    Ok(checks)
}

/// Every period, shift and direction of a sweep that is clocked.
pub fn sweeps(_: &mut Random) -> Result<u64, String> {
    let memory = [0; MEMORY];
    let mut checks = 0;
    for period in 0..=2047 {
        for bits in 0..64 {
            let mut chip = Chip::power_on(Machine::ALL[usize::from(period % 2)]);
            chip.frame.clock = chip.times().steps[1] - 1;
            for square in &mut chip.squares {
                square.period = period;
                square.sweep.s = bits & 7;
                square.sweep.negate = bits & 8 > 0;
                square.sweep.enabled = bits & 16 > 0;
                square.sweep.written = bits & 32 > 0;
                square.sweep.p = 3;
                square.timer = 5;
                square.length = reading::chip::Length { count: 9, enabled: true };
                (square.position, square.envelope.constant, square.envelope.n) = (1, true, 15);
            }
            one_clock(chip, &memory)?;
            checks += 1;
        }
    }
    Ok(checks)
}

/// Every envelope, length and linear counter that a frame step clocks.
pub fn counters(_: &mut Random) -> Result<u64, String> {
    let memory = [0; MEMORY];
    let mut checks = 0;
    let mut base = Chip::POWER_ON;
    base.frame.clock = 29828;
    for n in 0..=15 {
        for divider in 1..=16 {
            for counter in 0..=15 {
                for bits in 0..4 {
                    let mut chip = base;
                    let [first, second] = &mut chip.squares;
                    for e in [&mut first.envelope, &mut second.envelope, &mut chip.noise.envelope] {
                        (e.n, e.divider, e.counter, e.looped, e.start) =
                            (n, divider, counter, bits & 1 > 0, bits & 2 > 0);
                    }
                    one_clock(chip, &memory)?;
                    checks += 1;
                }
            }
        }
    }
    for count in 0..=254 {
        for halted in [false, true] {
            let mut chip = base;
            let length = reading::chip::Length { count, enabled: true };
            for square in &mut chip.squares {
                (square.length, square.envelope.looped) = (length, halted);
            }
            (chip.triangle.length, chip.triangle.control) = (length, halted);
            (chip.noise.length, chip.noise.envelope.looped) = (length, halted);
            one_clock(chip, &memory)?;
            checks += 1;
        }
    }
    for linear in 0..=127 {
        for reload in 0..=127 {
            for bits in 0..4 {
                let mut chip = base;
                let t = &mut chip.triangle;
                (t.linear, t.reload, t.control, t.linear_halt) = (linear, reload, bits & 1 > 0, bits & 2 > 0);
                // Its timer gives an output in the clock of the step: the counters gate it as they stood.
                t.length = reading::chip::Length { count: 1, enabled: true };
                one_clock(chip, &memory)?;
                checks += 1;
            }
        }
    }
    Ok(checks)
}

/// Every clock number in both modes of both machines, with the frame's interrupt disabled or not.
pub fn frames(random: &mut Random) -> Result<u64, String> {
    let memory = [0; MEMORY];
    let mut checks = 0;
    for kind in 0..8 {
        let machine = Machine::ALL[kind / 4];
        let mut frame = Frame { mode: kind & 1 > 0, disable: kind & 2 > 0, ..Frame::default() };
        for clock in 0..machine.times(frame.mode).again {
            frame.clock = clock;
            let mut chip = Chip { frame, machine, ..state(random) };
            chip.noise.timer = chip.noise.timer.min(machine.noise_periods()[15]);
            chip.dmc.timer = chip.dmc.timer.min(machine.dmc_periods()[0]);
            one_clock(chip, &memory)?;
            checks += 1;
        }
    }
    Ok(checks)
}

/// Every noise register in both modes, with every index of both machines.
pub fn noises(_: &mut Random) -> Result<u64, String> {
    let memory = [0; MEMORY];
    let mut checks = 0;
    for register in 1..=32767 {
        for (mode, machine) in [false, true].into_iter().flat_map(|mode| Machine::ALL.map(|machine| (mode, machine))) {
            let mut chip = Chip::power_on(machine);
            (chip.noise.register, chip.noise.mode, chip.noise.timer) = (register, mode, 1);
            chip.noise.index = register & 15;
            chip.noise.length = reading::chip::Length { count: 1, enabled: true };
            (chip.noise.envelope.constant, chip.noise.envelope.n) = (true, 11);
            one_clock(chip, &memory)?;
            checks += 1;
        }
    }
    Ok(checks)
}

/// Every level, bit and edge of the DMC's output unit with its reader.
pub fn samples(random: &mut Random) -> Result<u64, String> {
    let memory: Vec<u8> = (0..MEMORY).map(|_| random.byte()).collect();
    let mut checks = 0;
    for level in 0..=127 {
        for flags in 0..256 {
            for remaining in 0..=2 {
                let mut chip = Chip::power_on(random.pick(&Machine::ALL));
                hush(&mut chip);
                let d = &mut chip.dmc;
                (d.level, d.remaining) = (level, remaining);
                d.shift = random.within16(0..=127) << 1 | flags & 1;
                (d.silence, d.full, d.looped) = (flags & 2 > 0, flags & 4 > 0, flags & 8 > 0);
                (d.interrupt_enable, d.interrupt) = (flags & 16 > 0, flags & 32 > 0);
                d.bits = if flags & 64 > 0 { 1 } else { random.within16(2..=8) };
                d.timer = if flags & 128 > 0 { 1 } else { 2 };
                (d.address_byte, d.length_byte) = (random.within16(0..=255), random.within16(0..=255));
                d.address = random.pick(&[32768, 40000, 65534, 65535]);
                (d.buffer, d.index) = (random.within16(0..=255), random.within16(0..=15));
                one_clock(chip, &memory)?;
                checks += 1;
            }
        }
    }
    Ok(checks)
}
