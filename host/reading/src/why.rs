//! Request 6: why a square or the noise channel is silent.

use crate::chip::{Chip, DUTIES, Noise, Square, Which};
use crate::{moment, number, play};
use std::fmt::Write;

/// 1 to 6 by the first reason that is true; where it sounds 16 + its number.
fn first(reasons: [bool; 6], number: u16) -> u64 {
    let reason = reasons.iter().position(|reason| *reason);
    reason.map_or(16 + u64::from(number), |at| 1 + at as u64)
}

fn square(square: &Square, which: Which) -> u64 {
    let volume = square.envelope.volume();
    let reasons = [
        !square.length.enabled,
        square.length.count == 0,
        square.period < 8,
        square.target(which) > 2047,
        DUTIES[usize::from(square.duty)][usize::from(square.position)] == b'0',
        volume == 0,
    ];
    first(reasons, volume)
}

fn noise(noise: &Noise) -> u64 {
    let volume = noise.envelope.volume();
    let reasons = [!noise.length.enabled, noise.length.count == 0, false, false, noise.register & 1 == 1, volume == 0];
    first(reasons, volume)
}

/// What a caller in C is answered: 2^8 x the reason, or 2^8 x (16 + the channel's number) where it sounds.
pub fn why(state: &[u8], channel: u64) -> u64 {
    let Some(chip) = Chip::decode(state) else {
        return number::STATE.into();
    };
    let value = match channel {
        0 => square(&chip.squares[0], Which::First),
        1 => square(&chip.squares[1], Which::Second),
        3 => noise(&chip.noise),
        _ => return number::CHANNEL.into(),
    };
    value << 8
}

/// The words of the reasons by number less one.
const REASONS: [&str; 6] = ["disabled", "length", "period", "sweep", "step", "volume"];

/// All that `perch why` writes for a recording and a clock.
pub fn text(log: &[u8], memory: &[u8], clock: u64) -> String {
    let (chip, time) = match moment::reached(log, memory, clock) {
        Ok(reached) => reached,
        Err(fault) => return play::refusal(fault).replace("play=1", "why=1"),
    };
    let mut text = format!("why=1\nclock={time}\n");
    for (channel, name) in [(0, "square1"), (1, "square2"), (3, "noise")] {
        let word = match why(&chip.encode(), channel) >> 8 {
            5 if channel == 3 => "bit".into(),
            reason @ 1..=6 => REASONS[reason as usize - 1].to_string(),
            number => format!("sounds:{}", number - 16),
        };
        let _ = writeln!(text, "{name}={word}");
    }
    text
}
