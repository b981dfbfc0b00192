//! Why a channel is silent: states drawn for each reason of each channel, every channel number, and bytes that are no
//! state.

use crate::counts::Counts;
use crate::draw;
use crate::logs::same;
use crate::random::Random;
use perch::raw;
use reading::Chip;
use reading::chip::{DUTIES, Envelope, Length, Noise, Square, Which};
use reading::why::why;

/// The channels that have reasons, by number.
const CHANNELS: [(u64, &str); 3] = [(0, "square 1"), (1, "square 2"), (3, "noise")];

/// The reasons by number less one, and that it sounds.
const REASONS: [&str; 7] =
    ["not enabled", "length 0", "period below 8", "target above 2047", "low", "volume 0", "sounds"];

/// Periods and shifts with a target above 2047: 2048, but for two.
const HIGH: [(u16, u16); 6] = [(1024, 0), (1639, 2), (1821, 3), (2033, 7), (1366, 1), (2047, 0)];

/// Periods and shifts with a target of 2047, but for two.
const NOT_HIGH: [(u16, u16); 6] = [(1365, 1), (1638, 2), (1820, 3), (2032, 7), (1023, 0), (8, 0)];

fn length(random: &mut Random, length: &mut Length, reason: u64) {
    length.enabled = reason > 1;
    length.count = if reason > 2 { random.within16(1..=254) } else { 0 };
}

/// A volume of 0 or another; what doesn't count for it is any.
fn volume(random: &mut Random, envelope: &mut Envelope, reason: u64) {
    let volume = if reason == 6 { 0 } else { random.within16(1..=15) };
    if envelope.constant {
        envelope.n = volume;
    } else {
        envelope.counter = volume;
    }
}

/// Gives a square a reason, or lets it sound (7); what comes behind the reason stays.
fn square(random: &mut Random, square: &mut Square, reason: u64) {
    length(random, &mut square.length, reason);
    match reason {
        1 | 2 => {}
        3 => square.period = random.pick(&[0, 1, 6, 7, 7]),
        4 => {
            (square.period, square.sweep.s) = random.pick(&HIGH);
            square.sweep.negate = false;
        }
        _ if random.one_in(3) => (square.period, square.sweep.negate) = (random.within16(8..=2047), true),
        _ if random.one_in(2) => (square.period, square.sweep.s) = random.pick(&NOT_HIGH),
        _ => square.period = random.within16(8..=1023),
    }
    if reason >= 5 {
        let step = if reason == 5 { b'0' } else { b'1' };
        while DUTIES[usize::from(square.duty)][usize::from(square.position)] != step {
            (square.duty, square.position) = (random.within16(0..=3), random.within16(0..=7));
        }
    }
    if reason >= 6 {
        volume(random, &mut square.envelope, reason);
    }
}

/// The same for the noise, which the sweep's reasons leave as it is.
fn noise(random: &mut Random, noise: &mut Noise, reason: u64) {
    length(random, &mut noise.length, reason);
    if reason >= 5 {
        noise.register = (noise.register & 0x7ffe).max(2) | u16::from(reason == 5);
    }
    if reason >= 6 {
        volume(random, &mut noise.envelope, reason);
    }
}

/// A state in which each channel has a reason that was drawn, or any.
pub fn state(random: &mut Random) -> Chip {
    let mut chip = draw::state(random);
    for each in &mut chip.squares {
        let reason = random.within(1..=8);
        if reason <= 7 {
            square(random, each, reason);
        }
    }
    let reason = random.within(1..=8);
    if reason <= 7 {
        noise(random, &mut chip.noise, reason);
    }
    chip
}

fn things() -> Vec<(String, u64)> {
    let mut things: Vec<(String, u64)> = Vec::new();
    for (channel, name) in CHANNELS {
        for (i, reason) in REASONS.iter().enumerate() {
            if channel != 3 || !matches!(i, 2 | 3) {
                things.push((format!("{name} {reason}"), 500));
            }
        }
    }
    let more = ["period 7", "period 8", "target 2047", "target 2048", "every number", "refused 2", "refused 24"];
    things.extend(more.map(|name| (name.into(), 100)));
    things
}

/// Draws states and asks about their channels; a failing one is told whole.
pub fn compare(seed: u64, states: u64) -> Result<String, String> {
    let mut counts = Counts::new(states, things());
    for number in 0..states {
        let random = &mut Random::new(seed, "reasons", number);
        let chip = state(random);
        let bytes = if random.one_in(10) { draw::no_state(random) } else { chip.encode().to_vec() };
        judge(random, &bytes, number, &mut counts)
            .map_err(|difference| format!("seed {seed}, reasons {number}: {difference}\n{bytes:02x?}"))?;
    }
    Ok(format!("{states} states ({})", counts.told()?))
}

fn judge(random: &mut Random, bytes: &[u8], number: u64, counts: &mut Counts) -> Result<(), String> {
    let asked = |channel: u64| {
        let answer = raw::why(bytes, channel);
        same(|| format!("channel {channel}"), why(bytes, channel), answer).map(|()| answer)
    };
    let other = u64::from(random.byte()) << (8 * random.pick(&[0, 7])) | 4;
    let answer = asked(random.pick(&[2, 4, other]))?;
    counts.add_if(answer == 2, "refused 2");
    counts.add_if(answer == 24, "refused 24");
    if number.is_multiple_of(50) {
        (0..=255).try_for_each(|channel| asked(channel).map(|_| ()))?;
        counts.add("every number");
    }
    let chip = Chip::decode(bytes);
    for (channel, name) in CHANNELS {
        let answer = asked(channel)?;
        if let Some(chip) = &chip {
            sounds(chip, channel, answer >> 8)?;
            counts.add(&format!("{name} {}", REASONS[(answer >> 8).min(7) as usize - 1]));
        }
    }
    for (square, which) in chip.iter().flat_map(|chip| chip.squares.iter().zip([Which::First, Which::Second])) {
        if square.length.count > 0 {
            counts.add_if(square.period == 7, "period 7");
            counts.add_if(square.period == 8, "period 8");
            counts.add_if(square.target(which) == 2047, "target 2047");
            counts.add_if(square.target(which) == 2048, "target 2048");
        }
    }
    Ok(())
}

/// It sounds exactly where the channel gives a number that isn't 0, and with that number.
fn sounds(chip: &Chip, channel: u64, value: u64) -> Result<(), String> {
    let given = match channel {
        0 => chip.squares[0].output(Which::First),
        1 => chip.squares[1].output(Which::Second),
        _ => chip.noise.output(),
    };
    if if given == 0 { (1..=6).contains(&value) } else { value == 16 + u64::from(given) } {
        return Ok(());
    }
    Err(format!("channel {channel} gives {given} and is answered {value}"))
}
