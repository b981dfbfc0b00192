//! The clock by itself: no level, no range test, no record.

use super::now;
use perch::Chip;

unsafe extern "C" {
    fn pace_clocks(state: *mut u8, n: usize, memory: *const u8, m: usize, clocks: u64);
}

/// The least nanoseconds a clock over some tries, and the chip after the clocks.
fn time(first: &Chip, memory: &[u8], clocks: u64, tries: u32) -> (f64, [u8; perch::STATE]) {
    let (mut best, mut state) = (f64::INFINITY, *first.bytes());
    for _ in 0..tries {
        state = *first.bytes();
        let begun = now();
        // Both slices are lent whole, and the function keeps neither.
        unsafe { pace_clocks(state.as_mut_ptr(), state.len(), memory.as_ptr(), memory.len(), clocks) };
        best = best.min(now() - begun);
    }
    (best * 1e9 / clocks as f64, state)
}

/// Prints what a clock costs from a state on; the run must end in the same state.
pub fn line(name: &str, first: &Chip, memory: &[u8], tries: u32) -> Result<(), Box<dyn std::error::Error>> {
    const CLOCKS: u64 = 1_000_000;
    let (each, state) = time(first, memory, CLOCKS, tries);
    let mut run = *first;
    run.run(memory, CLOCKS, &mut vec![0; 2 * CLOCKS as usize], &mut perch::EMPTY.clone())?;
    if *run.bytes() != state {
        return Err("the clock by itself and the run differ".into());
    }
    println!("| {name:<34} | {each:>8.2} |");
    Ok(())
}
