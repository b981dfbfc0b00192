//! The functions of `include/perchpulley.h` on slices: any bytes and any numbers get an answer.
//!
//! An answer is number + 256 x value; a run's number + 2^8 x clocks done + 2^32 x records; one about a log number + 2^8 x
//! place + 2^32 x value; a piece's number + 2^8 x over + 2^32 x bytes written; an import's 2^8 x the log's length, or number +
//! 2^8 x place, and so that of sample blocks; a meter's number + 2^8 x case + 2^16 x lowest + 2^32 x highest; an access's number + 2^8 x byte + 2^16 x
//! level + 2^32 x differs.

use std::sync::Once;

#[cfg(feature = "standin")]
use standin::{
    perch_access, perch_begin, perch_body, perch_check, perch_clock, perch_fold, perch_import, perch_import_for,
    perch_in_range, perch_interrupt_line, perch_item, perch_level, perch_level_fraction, perch_meter,
    perch_meter_records, perch_next_interrupt, perch_outputs, perch_play_on, perch_player_size, perch_power_on,
    perch_reason, perch_refusal_text, perch_run, perch_run_plain, perch_salvage, perch_samples, perch_sheet,
    perch_state_at, perch_state_size, perch_status, perch_wav_begin, perch_wav_on, perch_wav_size, perch_why,
};
#[cfg(feature = "standin")]
use standin::{perch_cursor_next, perch_cursor_size, perch_cursor_start, perch_items, perch_turns, perch_version};

#[cfg(not(feature = "standin"))]
unsafe extern "C" {
    safe fn perch_version() -> u32;
    fn perch_turns(log: *const u8, n: usize) -> u64;
    fn perch_items(log: *const u8, n: usize) -> u64;
    safe fn perch_cursor_size() -> usize;
    fn perch_cursor_start(cursor: *mut u8, c: usize) -> u64;
    fn perch_cursor_next(cursor: *mut u8, c: usize, log: *const u8, n: usize) -> u64;
}

#[cfg(not(feature = "standin"))]
unsafe extern "C" {
    safe fn perch_state_size() -> usize;
    fn perch_power_on(state: *mut u8, n: usize, machine: u8) -> u64;
    fn perch_in_range(state: *const u8, n: usize) -> u64;
    fn perch_access(state: *mut u8, n: usize, read: u8, register: u16, value: u8) -> u64;
    fn perch_interrupt_line(state: *const u8, n: usize) -> u64;
    fn perch_level(state: *const u8, n: usize) -> u64;
    fn perch_outputs(state: *const u8, n: usize) -> u64;
    fn perch_status(state: *const u8, n: usize) -> u64;
    fn perch_clock(state: *mut u8, n: usize, memory: *const u8, m: usize) -> u64;
    fn perch_run(
        state: *mut u8,
        n: usize,
        memory: *const u8,
        m: usize,
        count: u64,
        words: *mut u32,
        w: usize,
        counts: *mut u32,
        c: usize,
    ) -> u64;
    fn perch_run_plain(
        state: *mut u8,
        n: usize,
        memory: *const u8,
        m: usize,
        count: u64,
        words: *mut u32,
        w: usize,
        counts: *mut u32,
        c: usize,
    ) -> u64;
    fn perch_check(log: *const u8, n: usize) -> u64;
    fn perch_item(log: *const u8, n: usize, k: u64) -> u64;
    fn perch_body(log: *const u8, n: usize, offset: u64) -> u64;
    safe fn perch_player_size() -> usize;
    fn perch_begin(player: *mut u8, p: usize, log: *const u8, n: usize, memory: *const u8, m: usize) -> u64;
    fn perch_play_on(
        player: *mut u8,
        p: usize,
        log: *const u8,
        n: usize,
        memory: *const u8,
        m: usize,
        text: *mut u8,
        t: usize,
    ) -> u64;
    fn perch_state_at(
        state: *mut u8,
        n: usize,
        log: *const u8,
        ln: usize,
        memory: *const u8,
        m: usize,
        clock: u64,
    ) -> u64;
    safe fn perch_wav_size() -> usize;
    fn perch_wav_begin(wav: *mut u8, w: usize, log: *const u8, n: usize, memory: *const u8, m: usize, rate: u32)
    -> u64;
    fn perch_wav_on(
        wav: *mut u8,
        w: usize,
        log: *const u8,
        n: usize,
        memory: *const u8,
        m: usize,
        out: *mut u8,
        o: usize,
    ) -> u64;
    fn perch_refusal_text(number: u8, place: u64, text: *mut u8, t: usize) -> u64;
    fn perch_reason(number: u8, text: *mut u8, t: usize) -> u64;
    fn perch_import(stream: *const u8, n: usize, text: *mut u8, t: usize) -> u64;
    fn perch_import_for(stream: *const u8, n: usize, machine: u8, text: *mut u8, t: usize) -> u64;
    fn perch_samples(stream: *const u8, n: usize, memory: *mut u8, m: usize) -> u64;
    fn perch_fold(log: *const u8, n: usize, text: *mut u8, t: usize) -> u64;
    fn perch_salvage(log: *const u8, n: usize, text: *mut u8, t: usize, list: *mut u32, w: usize) -> u64;
    fn perch_next_interrupt(state: *const u8, n: usize, memory: *const u8, m: usize, count: u64, which: u8) -> u64;
    fn perch_why(state: *const u8, n: usize, channel: u64) -> u64;
    fn perch_meter(levels: *const u32, n: usize) -> u64;
    fn perch_meter_records(words: *const u32, w: usize, start: u64, count: u64, before: u64) -> u64;
    safe fn perch_level_fraction(level: u16) -> f32;
    fn perch_sheet(
        memory: *const u8,
        m: usize,
        level: u64,
        address: u64,
        length: u64,
        buffer: *mut u8,
        b: usize,
    ) -> u64;
}

/// Ends the program where the library linked is of another version than this wrapper: it has other sizes, layouts or functions. The
/// first call asks, and no later one.
fn same_version() {
    static ASKED: Once = Once::new();
    ASKED.call_once(|| {
        let (here, there) = (crate::VERSION, perch_version());
        assert!(here == there, "the library linked is of version {there}, and its wrapper for Rust of version {here}");
    });
}

// In every call below a slice gives a pointer that is valid for its length, and two slices of which one may be written
// don't overlap.

/// How many bytes a state is.
pub fn state_size() -> usize {
    perch_state_size()
}

/// Writes a machine's state at power-on.
pub fn power_on(state: &mut [u8], machine: u8) -> u64 {
    same_version();
    unsafe { perch_power_on(state.as_mut_ptr(), state.len(), machine) }
}

/// Value 1 where the bytes are a state in range, else 0; it refuses nothing.
pub fn in_range(state: &[u8]) -> u64 {
    same_version();
    unsafe { perch_in_range(state.as_ptr(), state.len()) }
}

/// Reads $4015 where `read` isn't 0, else writes a register.
pub fn access(state: &mut [u8], read: u8, register: u16, value: u8) -> u64 {
    same_version();
    unsafe { perch_access(state.as_mut_ptr(), state.len(), read, register, value) }
}

/// 1 where the interrupt line is asserted.
pub fn interrupt_line(state: &[u8]) -> u64 {
    same_version();
    unsafe { perch_interrupt_line(state.as_ptr(), state.len()) }
}

/// The level.
pub fn level(state: &[u8]) -> u64 {
    same_version();
    unsafe { perch_level(state.as_ptr(), state.len()) }
}

/// What the channels give the mixer: square 1 + 2^4 x square 2 + 2^8 x triangle + 2^12 x noise + 2^16 x DMC.
pub fn outputs(state: &[u8]) -> u64 {
    same_version();
    unsafe { perch_outputs(state.as_ptr(), state.len()) }
}

/// What a read of $4015 would give; nothing is cleared.
pub fn status(state: &[u8]) -> u64 {
    same_version();
    unsafe { perch_status(state.as_ptr(), state.len()) }
}

/// Works one clock.
pub fn clock(state: &mut [u8], memory: &[u8]) -> u64 {
    same_version();
    unsafe { perch_clock(state.as_mut_ptr(), state.len(), memory.as_ptr(), memory.len()) }
}

/// Runs, leaping where nothing changes.
pub fn run(state: &mut [u8], memory: &[u8], count: u64, words: &mut [u32], counts: &mut [u32]) -> u64 {
    same_version();
    unsafe {
        perch_run(
            state.as_mut_ptr(),
            state.len(),
            memory.as_ptr(),
            memory.len(),
            count,
            words.as_mut_ptr(),
            words.len(),
            counts.as_mut_ptr(),
            counts.len(),
        )
    }
}

/// The same, clock by clock.
pub fn run_plain(state: &mut [u8], memory: &[u8], count: u64, words: &mut [u32], counts: &mut [u32]) -> u64 {
    same_version();
    unsafe {
        perch_run_plain(
            state.as_mut_ptr(),
            state.len(),
            memory.as_ptr(),
            memory.len(),
            count,
            words.as_mut_ptr(),
            words.len(),
            counts.as_mut_ptr(),
            counts.len(),
        )
    }
}

/// Checks a log; the value is the clocks in all + 2^31 x its machine.
pub fn check(log: &[u8]) -> u64 {
    same_version();
    unsafe { perch_check(log.as_ptr(), log.len()) }
}

/// Item k of a log: kind x 2^24 + what it holds.
pub fn item(log: &[u8], k: u64) -> u64 {
    same_version();
    unsafe { perch_item(log.as_ptr(), log.len(), k) }
}

/// The body of the loop whose line begins at the offset: start + 2^16 x length.
pub fn body(log: &[u8], offset: u64) -> u64 {
    same_version();
    unsafe { perch_body(log.as_ptr(), log.len(), offset) }
}

/// How many bytes a player is.
pub fn player_size() -> usize {
    perch_player_size()
}

/// Makes the bytes a player at the beginning of a recording: a log or a VGM file.
pub fn begin(player: &mut [u8], log: &[u8], memory: &[u8]) -> u64 {
    same_version();
    unsafe { perch_begin(player.as_mut_ptr(), player.len(), log.as_ptr(), log.len(), memory.as_ptr(), memory.len()) }
}

/// Writes the player's next lines.
pub fn play_on(player: &mut [u8], log: &[u8], memory: &[u8], text: &mut [u8]) -> u64 {
    same_version();
    unsafe {
        perch_play_on(
            player.as_mut_ptr(),
            player.len(),
            log.as_ptr(),
            log.len(),
            memory.as_ptr(),
            memory.len(),
            text.as_mut_ptr(),
            text.len(),
        )
    }
}

/// Makes the bytes the state at a clock of a recording; the value is the clock reached, or the place of a refusal.
pub fn state_at(state: &mut [u8], log: &[u8], memory: &[u8], clock: u64) -> u64 {
    same_version();
    unsafe {
        perch_state_at(state.as_mut_ptr(), state.len(), log.as_ptr(), log.len(), memory.as_ptr(), memory.len(), clock)
    }
}

/// How many bytes a WAV file under way is.
pub fn wav_size() -> usize {
    perch_wav_size()
}

/// Makes the bytes a recording's WAV file at its beginning; the value is its size in bytes, or the place of a refusal.
pub fn wav_begin(wav: &mut [u8], log: &[u8], memory: &[u8], rate: u32) -> u64 {
    same_version();
    unsafe {
        perch_wav_begin(wav.as_mut_ptr(), wav.len(), log.as_ptr(), log.len(), memory.as_ptr(), memory.len(), rate)
    }
}

/// Writes the next bytes of a WAV file.
pub fn wav_on(wav: &mut [u8], log: &[u8], memory: &[u8], out: &mut [u8]) -> u64 {
    same_version();
    unsafe {
        perch_wav_on(
            wav.as_mut_ptr(),
            wav.len(),
            log.as_ptr(),
            log.len(),
            memory.as_ptr(),
            memory.len(),
            out.as_mut_ptr(),
            out.len(),
        )
    }
}

/// Writes the text of a refusal.
pub fn refusal_text(number: u8, place: u64, text: &mut [u8]) -> u64 {
    same_version();
    unsafe { perch_refusal_text(number, place, text.as_mut_ptr(), text.len()) }
}

/// Writes a refusal's number in words.
pub fn reason(number: u8, text: &mut [u8]) -> u64 {
    same_version();
    unsafe { perch_reason(number, text.as_mut_ptr(), text.len()) }
}

/// Writes the log of a VGM command stream.
pub fn import(stream: &[u8], text: &mut [u8]) -> u64 {
    same_version();
    unsafe { perch_import(stream.as_ptr(), stream.len(), text.as_mut_ptr(), text.len()) }
}

/// The same, for a machine.
pub fn import_for(stream: &[u8], machine: u8, text: &mut [u8]) -> u64 {
    same_version();
    unsafe { perch_import_for(stream.as_ptr(), stream.len(), machine, text.as_mut_ptr(), text.len()) }
}

/// Makes the bytes the sample memory that the sample blocks in front of a VGM command stream hold; the value is how many they are, or
/// the place of a refusal.
pub fn samples(stream: &[u8], memory: &mut [u8]) -> u64 {
    same_version();
    unsafe { perch_samples(stream.as_ptr(), stream.len(), memory.as_mut_ptr(), memory.len()) }
}

/// Writes a log folded; the value is its length.
pub fn fold(log: &[u8], text: &mut [u8]) -> u64 {
    same_version();
    unsafe { perch_fold(log.as_ptr(), log.len(), text.as_mut_ptr(), text.len()) }
}

/// Writes a damaged log repaired, and the list of what was done; the value is its length + 2^16 x the list's entries.
pub fn salvage(log: &[u8], text: &mut [u8], list: &mut [u32]) -> u64 {
    same_version();
    unsafe { perch_salvage(log.as_ptr(), log.len(), text.as_mut_ptr(), text.len(), list.as_mut_ptr(), list.len()) }
}

/// The least number of clocks after which the line is asserted (which = 1: the frame's flag is set, 2: the DMC's): 2^8 x whether there
/// is one within the count + 2^32 x it.
pub fn next_interrupt(state: &[u8], memory: &[u8], count: u64, which: u8) -> u64 {
    same_version();
    unsafe { perch_next_interrupt(state.as_ptr(), state.len(), memory.as_ptr(), memory.len(), count, which) }
}

/// Why a channel is silent: the reason's number, or 16 + the channel's number where it sounds.
pub fn why(state: &[u8], channel: u64) -> u64 {
    same_version();
    unsafe { perch_why(state.as_ptr(), state.len(), channel) }
}

/// The meter over levels.
pub fn meter(levels: &[u32]) -> u64 {
    same_version();
    unsafe { perch_meter(levels.as_ptr(), levels.len()) }
}

/// The meter over the levels of records, behind the level before if that is below 2^32.
pub fn meter_records(words: &[u32], start: u64, count: u64, before: u64) -> u64 {
    same_version();
    unsafe { perch_meter_records(words.as_ptr(), words.len(), start, count, before) }
}

/// A level over 32,768.
pub fn level_fraction(level: u16) -> f32 {
    same_version();
    perch_level_fraction(level)
}

/// Writes the level after each byte of a sample; the value is how many they are.
pub fn sheet(memory: &[u8], level: u64, address: u64, length: u64, buffer: &mut [u8]) -> u64 {
    same_version();
    unsafe { perch_sheet(memory.as_ptr(), memory.len(), level, address, length, buffer.as_mut_ptr(), buffer.len()) }
}

/// The library's version.
pub fn version() -> u32 {
    perch_version()
}

/// The turns of a log in all.
pub fn turns(log: &[u8]) -> u64 {
    same_version();
    unsafe { perch_turns(log.as_ptr(), log.len()) }
}

/// How many items a log stands for.
pub fn items(log: &[u8]) -> u64 {
    same_version();
    unsafe { perch_items(log.as_ptr(), log.len()) }
}

/// How many bytes a cursor is.
pub fn cursor_size() -> usize {
    perch_cursor_size()
}

/// Makes the bytes a cursor at a log's beginning.
pub fn cursor_start(cursor: &mut [u8]) -> u64 {
    same_version();
    unsafe { perch_cursor_start(cursor.as_mut_ptr(), cursor.len()) }
}

/// The next item, as `item` has it; the value is 0 at the log's end.
pub fn cursor_next(cursor: &mut [u8], log: &[u8]) -> u64 {
    same_version();
    unsafe { perch_cursor_next(cursor.as_mut_ptr(), cursor.len(), log.as_ptr(), log.len()) }
}
