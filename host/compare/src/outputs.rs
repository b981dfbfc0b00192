//! What the channels give and the status, of any state, and of bytes that are none.

use crate::counts::Counts;
use crate::logs::same;
use crate::random::Random;
use crate::{draw, interrupts, reasons};
use perch::raw;
use reading::mixer::Outputs;
use reading::outputs::{outputs, status};

fn things() -> Vec<(String, u64)> {
    let mut things: Vec<(String, u64)> = vec![("refused 2".into(), 500)];
    things.extend(["square 1", "square 2", "triangle", "noise", "dmc"].map(|name| (format!("{name} gives"), 500)));
    things.extend((0..8).map(|bit| (format!("bit {bit}"), if bit == 5 { 0 } else { 500 })));
    things
}

/// Draws states and asks; a failing one is told whole.
pub fn compare(seed: u64, states: u64) -> Result<String, String> {
    let mut counts = Counts::new(states, things());
    for number in 0..states {
        let random = &mut Random::new(seed, "outputs", number);
        let state = if random.one_in(2) { reasons::state(random) } else { interrupts::state(random) };
        let bytes = if random.one_in(10) { draw::no_state(random) } else { state.encode().to_vec() };
        judge(&bytes, &mut counts)
            .map_err(|difference| format!("seed {seed}, outputs {number}: {difference}\n{bytes:02x?}"))?;
    }
    Ok(format!("{states} states ({})", counts.told()?))
}

fn judge(bytes: &[u8], counts: &mut Counts) -> Result<(), String> {
    let (given, read) = (raw::outputs(bytes), raw::status(bytes));
    same(|| "outputs".into(), outputs(bytes), given)?;
    same(|| "status".into(), status(bytes), read)?;
    counts.add_if(given == 2, "refused 2");
    if given as u8 != 0 {
        return Ok(());
    }
    // What they give mixes to the level; the status is what a read gives.
    let [first, second, triangle, noise] = [8, 12, 16, 20].map(|place| (given >> place) as u16 & 0x0f);
    let dmc = (given >> 24) as u16;
    let level = Outputs { squares: first + second, triangle, noise, dmc }.level();
    same(|| "the level of what they give".into(), level.into(), raw::level(bytes) >> 8)?;
    let byte = raw::access(&mut bytes.to_vec(), 1, 0, 0) >> 8 & 0xff;
    same(|| "the byte read".into(), read >> 8, byte)?;
    let gives = [("square 1", first), ("square 2", second), ("triangle", triangle), ("noise", noise), ("dmc", dmc)];
    for (name, number) in gives {
        counts.add_if(number > 0, &format!("{name} gives"));
    }
    for bit in 0..8 {
        counts.add_if(read >> (8 + bit) & 1 == 1, &format!("bit {bit}"));
    }
    Ok(())
}
