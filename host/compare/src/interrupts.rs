//! When the interrupt line is asserted next: states near each edge of the frame's flag and of the DMC's, counts at and beside the
//! clock that is answered, and bytes that are no state.

use crate::counts::Counts;
use crate::draw;
use crate::logs::same;
use crate::random::Random;
use perch::raw;
use reading::interrupt::{next, next_interrupt};
use reading::{Chip, MEMORY};

const ASKED: [(u8, &str); 3] = [(0, "line"), (1, "frame"), (2, "dmc")];

fn things() -> Vec<(String, u64)> {
    let mut things = Vec::new();
    for (_, name) in ASKED {
        for (what, fewest) in
            [("now", 100), ("next clock", 20), ("within 100 clocks", 20), ("later", 100), ("never", 500)]
        {
            things.push((format!("{name} {what}"), fewest));
        }
    }
    let more = ["count at it", "count one short", "refused by 1", "refused by 2", "refused by 3"];
    things.extend(more.map(|name| (name.into(), 50)));
    things.push(("a million clocks".into(), 10));
    things
}

/// A state near an edge: the frame before, at or behind its fourth step; a sample with few bytes left, its buffer full or empty.
pub fn state(random: &mut Random) -> Chip {
    let mut chip = draw::state(random);
    if random.one_in(2) {
        // The flag's own step, of either machine, and the clock behind it.
        let last = if chip.encode()[reading::bytes::SIZE - 1] == 1 { 33_253 } else { 29_829 };
        chip.frame.mode = random.one_in(4);
        chip.frame.disable = random.one_in(4);
        chip.frame.clock = random.pick(&[last, last - 1, last - 2, last - 60, 0, 1]).min(last);
        chip.frame.interrupt &= !chip.frame.disable;
    }
    if random.one_in(2) {
        chip.dmc.interrupt_enable = !random.one_in(4);
        chip.dmc.looped = random.one_in(4);
        chip.dmc.remaining = random.pick(&[0, 1, 1, 2, 3, 17]);
        chip.dmc.full = random.one_in(2);
        chip.dmc.interrupt = random.one_in(8);
        chip.dmc.bits = random.pick(&[1, 1, 2, 8]);
        chip.dmc.index = random.pick(&[15, 15, 7, 0]);
        chip.dmc.timer = random.pick(&[1, 1, 2, 50]);
    }
    chip
}

/// Draws states and asks; a failing one is told whole.
pub fn compare(seed: u64, states: u64, memory: &[u8]) -> Result<String, String> {
    let mut counts = Counts::new(states, things());
    for number in 0..states {
        let random = &mut Random::new(seed, "interrupts", number);
        let bytes = if random.one_in(20) { draw::no_state(random) } else { state(random).encode().to_vec() };
        judge(random, &bytes, memory, &mut counts)
            .map_err(|difference| format!("seed {seed}, interrupts {number}: {difference}\n{bytes:02x?}"))?;
    }
    Ok(format!("{states} states ({})", counts.told()?))
}

fn judge(random: &mut Random, bytes: &[u8], memory: &[u8], counts: &mut Counts) -> Result<(), String> {
    let (which, name) = random.pick(&ASKED);
    let found = Chip::decode(bytes).and_then(|chip| next(chip, memory, 40_000, which));
    let (count, memory) = match (random.within(0..=19), found) {
        (0, _) => (1_000_001, memory),
        (1, _) => (random.within(0..=100), &memory[..random.pick(&[0, MEMORY - 1])]),
        (2, _) if random.one_in(20) => (1_000_000, memory),
        (3..=6, Some(k)) => (k, memory),
        (7..=10, Some(k)) if k > 0 => (k - 1, memory),
        (11, _) => (0, memory),
        _ => (random.within(0..=40_000), memory),
    };
    let answer = raw::next_interrupt(bytes, memory, count, which);
    same(|| format!("{name} within {count} clocks"), next_interrupt(bytes, memory, count, which), answer)?;
    counts.add_if(answer as u8 != 0, &format!("refused by {}", answer as u8));
    if answer as u8 == 0 {
        counts.add(&match (answer >> 8 & 1, answer >> 32) {
            (0, _) => format!("{name} never"),
            (_, 0) => format!("{name} now"),
            (_, 1) => format!("{name} next clock"),
            (_, 2..=100) => format!("{name} within 100 clocks"),
            _ => format!("{name} later"),
        });
        counts.add_if(found == Some(count), "count at it");
        counts.add_if(found == Some(count + 1), "count one short");
        counts.add_if(count == 1_000_000, "a million clocks");
    }
    Ok(())
}
