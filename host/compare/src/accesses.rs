//! One bus access: every register and any other, every number that makes it a read, any state, and bytes that are none.

use crate::counts::Counts;
use crate::draw;
use crate::logs::same;
use crate::random::Random;
use perch::raw;
use reading::access::access;
use reading::chip::is_register;

fn things() -> [(&'static str, u64); 9] {
    [
        ("writes that change the level", 300),
        ("writes that don't", 2_000),
        ("reads", 2_000),
        ("reads of the frame flag", 200),
        ("reads with no register", 500),
        ("refused 2", 500),
        ("refused 2 with no register", 40),
        ("refused 2, a read", 200),
        ("refused 4", 500),
    ]
}

/// Draws states and accesses; a failing one is told whole.
pub fn compare(seed: u64, accesses: u64) -> Result<String, String> {
    let mut counts = Counts::new(accesses, things());
    for number in 0..accesses {
        let random = &mut Random::new(seed, "accesses", number);
        let drawn = draw::state(random).encode().to_vec();
        let state = if random.one_in(10) { draw::no_state(random) } else { drawn };
        let any = random.byte();
        let read = if random.one_in(2) { 0 } else { random.pick(&[1, 1, 2, 128, 255, any]) };
        let register = match random.within(0..=9) {
            0 => random.pick(&[0x3fff, 0x4014, 0x4016, 0x4018, 0, 0xffff, 0x4115]),
            1 => random.bits() as u16,
            2 | 3 => 0x4015,
            4 => 0x4017,
            _ => random.within16(0x4000..=0x4013),
        };
        judge(&state, (read, register, random.byte()), &mut counts)
            .map_err(|what| format!("seed {seed}, accesses {number}: {what}\n{state:02x?}"))?;
    }
    Ok(format!("{accesses} accesses ({})", counts.told()?))
}

fn judge(state: &[u8], (read, register, value): (u8, u16, u8), counts: &mut Counts) -> Result<(), String> {
    let what = || format!("read {read}, {register:04x}:{value:02x}");
    let before = raw::level(state);
    let (mut ours, mut theirs) = (state.to_vec(), state.to_vec());
    let answer = raw::access(&mut theirs, read, register, value);
    same(what, access(&mut ours, read, register, value), answer)?;
    if ours != theirs {
        return Err(format!(
            "{}: the state is\n{ours:02x?} by the reading,\n{theirs:02x?} by the library, from",
            what()
        ));
    }
    let (byte, level, differs) = (answer >> 8 & 0xff, answer >> 16 & 0xffff, answer >> 32);
    if answer as u8 == 0 {
        // The level is the one that the state has.
        let (was, is) = (before >> 8, raw::level(&theirs) >> 8);
        if level != is || differs != u64::from(was != is) {
            return Err(format!("{}: {answer:#x}, from level {was} to {is}", what()));
        }
    }
    let (number, known) = (answer as u8, is_register(register));
    counts.add_if(number == 0 && read == 0 && differs == 1, "writes that change the level");
    counts.add_if(number == 0 && read == 0 && differs == 0, "writes that don't");
    counts.add_if(number == 0 && read != 0, "reads");
    counts.add_if(number == 0 && read != 0 && byte & 0x40 > 0, "reads of the frame flag");
    counts.add_if(number == 0 && read != 0 && !known, "reads with no register");
    counts.add_if(number == 2, "refused 2");
    counts.add_if(number == 2 && read == 0 && !known, "refused 2 with no register");
    counts.add_if(number == 2 && read != 0, "refused 2, a read");
    counts.add_if(number == 4, "refused 4");
    Ok(())
}
