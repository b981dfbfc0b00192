//! What is played: acts, read from a log or made here.

use compare::random::Random;
use perch::{Fault, Item, Machine};

/// One act of a list.
#[derive(Clone, Copy, Debug)]
pub enum Act {
    /// So many clocks.
    Wait(u64),
    /// A write of a register.
    Write(u16, u8),
    /// A read of $4015.
    Read,
}

/// The machine and the acts of a log that passes, its loops unrolled; or its fault.
pub fn of_log(log: &[u8]) -> Result<(Machine, Vec<Act>), Fault> {
    let acts = perch::all_items(log)?.map(|item| match item {
        Item::Wait(clocks) => Act::Wait(clocks.into()),
        Item::Write(register, value) => Act::Write(register, value),
        Item::Read => Act::Read,
    });
    Ok((perch::check(log)?.machine, acts.collect()))
}

const FRAME: u64 = 29_780;

/// The period of a note, by its number of half tones.
fn period(note: u64) -> u16 {
    let hertz = 440.0 * 2f64.powf((note as f64 - 69.0) / 12.0);
    (1_789_773.0 / (16.0 * hertz) - 1.0).round().clamp(8.0, 2047.0) as u16
}

/// A tune's log: two squares and the triangle with notes, rests and sweeps, the noise with drums, as a game's music driver
/// writes its registers, frame by frame.
pub fn made(seed: u64, frames: usize, loops: u64) -> String {
    let random = &mut Random::new(seed, "tune", 0);
    let mut writes: Vec<Vec<(u16, u8)>> = vec![Vec::new(); frames];
    writes[0].extend([
        (0x15, 0x0f),
        (0x17, 0x40),
        (0x01, 0x08),
        (0x05, 0x08),
        (0x08, 0xff),
        (0x0c, 0x30),
        (0x10, 0x0f),
    ]);
    for (channel, base, step) in [(0, 60, 8), (4, 67, 16), (8, 60, 8)] {
        let triangle = channel == 8;
        let mut frame = 0;
        while frame < frames {
            let note = base + random.pick(&[0, 2, 4, 5, 7, 9, 11]) + 12 * random.within(0..=1);
            let now = &mut writes[frame];
            if random.one_in(7) {
                now.push((channel, if triangle { 0x80 } else { 0x30 }));
            } else {
                let voice = random.pick(&[0x44, 0x86, 0xbf, 0x7c, 0xb8]);
                now.push((channel, if triangle { 0xff } else { voice }));
                if channel == 0 && random.one_in(10) {
                    now.push((1, 0x9a));
                }
                let [low, high] = period(note).to_le_bytes();
                now.extend([(channel + 2, low), (channel + 3, 0x08 | high)]);
            }
            frame += step * random.pick(&[1, 1, 2]);
        }
    }
    let mut frame = 0;
    while frame < frames {
        let volume = 1 | random.within(0..=3) as u8;
        let index = random.pick(&[2, 5, 8, 0x83]);
        writes[frame].extend([(0x0c, volume), (0x0e, index), (0x0f, random.pick(&[0x18, 0x28]))]);
        frame += random.pick(&[8, 8, 16]);
    }
    let mut text = format!("log=1\nloop={loops}\n");
    let mut gap = 0;
    for now in &writes {
        if gap > 0 && !now.is_empty() {
            text += &format!("wait={gap}\n");
            gap = 0;
        }
        for (register, value) in now {
            text += &format!("write={:04x}:{value:02x}\n", 0x4000 + register);
        }
        gap += FRAME;
    }
    text + &format!("wait={gap}\ndone=loop\nstop={}\n", FRAME * frames as u64 * loops)
}
