//! The functions of `include/perchpulley.h` by the plain Rust reading: every run goes clock by clock.
//!
//! It lets the tools here be built and tried where the library isn't. A comparison with it compares the reading with
//! itself. With the feature `export` the functions have their names for C too.
//!
//! # Safety
//! For every function here: each pointer is valid for as many items as the length behind it says, never null, and no
//! two of them overlap.
#![allow(clippy::missing_safety_doc, missing_docs)]

use reading::{
    access, boundary, cursor as cursors, fold, interrupt, layout, meter, mixer, moment, outputs, player as pieces,
    salvage, sheet, vgm, vgm_file, wav as wavs, why, words,
};
use std::slice::{from_raw_parts, from_raw_parts_mut};

#[cfg_attr(feature = "export", unsafe(no_mangle))]
pub extern "C" fn perch_state_size() -> usize {
    reading::bytes::SIZE
}

#[cfg_attr(feature = "export", unsafe(no_mangle))]
pub unsafe extern "C" fn perch_power_on(state: *mut u8, n: usize, machine: u8) -> u64 {
    boundary::power_on(unsafe { from_raw_parts_mut(state, n) }, machine)
}

#[cfg_attr(feature = "export", unsafe(no_mangle))]
pub unsafe extern "C" fn perch_in_range(state: *const u8, n: usize) -> u64 {
    boundary::in_range(unsafe { from_raw_parts(state, n) })
}

#[cfg_attr(feature = "export", unsafe(no_mangle))]
pub unsafe extern "C" fn perch_access(state: *mut u8, n: usize, read: u8, register: u16, value: u8) -> u64 {
    access::access(unsafe { from_raw_parts_mut(state, n) }, read, register, value)
}

#[cfg_attr(feature = "export", unsafe(no_mangle))]
pub unsafe extern "C" fn perch_interrupt_line(state: *const u8, n: usize) -> u64 {
    boundary::line(unsafe { from_raw_parts(state, n) })
}

#[cfg_attr(feature = "export", unsafe(no_mangle))]
pub unsafe extern "C" fn perch_level(state: *const u8, n: usize) -> u64 {
    boundary::level(unsafe { from_raw_parts(state, n) })
}

#[cfg_attr(feature = "export", unsafe(no_mangle))]
pub unsafe extern "C" fn perch_outputs(state: *const u8, n: usize) -> u64 {
    outputs::outputs(unsafe { from_raw_parts(state, n) })
}

#[cfg_attr(feature = "export", unsafe(no_mangle))]
pub unsafe extern "C" fn perch_status(state: *const u8, n: usize) -> u64 {
    outputs::status(unsafe { from_raw_parts(state, n) })
}

#[cfg_attr(feature = "export", unsafe(no_mangle))]
pub unsafe extern "C" fn perch_clock(state: *mut u8, n: usize, memory: *const u8, m: usize) -> u64 {
    unsafe { boundary::clock(from_raw_parts_mut(state, n), from_raw_parts(memory, m)) }
}

#[cfg_attr(feature = "export", unsafe(no_mangle))]
pub unsafe extern "C" fn perch_run(
    state: *mut u8,
    n: usize,
    memory: *const u8,
    m: usize,
    count: u64,
    words: *mut u32,
    w: usize,
    counts: *mut u32,
    c: usize,
) -> u64 {
    unsafe {
        let (words, counts) = (from_raw_parts_mut(words, w), from_raw_parts_mut(counts, c));
        boundary::run(from_raw_parts_mut(state, n), from_raw_parts(memory, m), count, words, counts)
    }
}

#[cfg_attr(feature = "export", unsafe(no_mangle))]
pub unsafe extern "C" fn perch_run_plain(
    state: *mut u8,
    n: usize,
    memory: *const u8,
    m: usize,
    count: u64,
    words: *mut u32,
    w: usize,
    counts: *mut u32,
    c: usize,
) -> u64 {
    unsafe { perch_run(state, n, memory, m, count, words, w, counts, c) }
}

#[cfg_attr(feature = "export", unsafe(no_mangle))]
pub unsafe extern "C" fn perch_check(log: *const u8, n: usize) -> u64 {
    pieces::check(unsafe { from_raw_parts(log, n) })
}

#[cfg_attr(feature = "export", unsafe(no_mangle))]
pub unsafe extern "C" fn perch_item(log: *const u8, n: usize, k: u64) -> u64 {
    pieces::item(unsafe { from_raw_parts(log, n) }, k)
}

#[cfg_attr(feature = "export", unsafe(no_mangle))]
pub unsafe extern "C" fn perch_body(log: *const u8, n: usize, offset: u64) -> u64 {
    pieces::body(unsafe { from_raw_parts(log, n) }, offset)
}

#[cfg_attr(feature = "export", unsafe(no_mangle))]
pub extern "C" fn perch_player_size() -> usize {
    pieces::SIZE
}

#[cfg_attr(feature = "export", unsafe(no_mangle))]
pub unsafe extern "C" fn perch_begin(
    player: *mut u8,
    p: usize,
    log: *const u8,
    n: usize,
    memory: *const u8,
    m: usize,
) -> u64 {
    unsafe { pieces::begin(from_raw_parts_mut(player, p), from_raw_parts(log, n), from_raw_parts(memory, m)) }
}

#[cfg_attr(feature = "export", unsafe(no_mangle))]
pub unsafe extern "C" fn perch_play_on(
    player: *mut u8,
    p: usize,
    log: *const u8,
    n: usize,
    memory: *const u8,
    m: usize,
    text: *mut u8,
    t: usize,
) -> u64 {
    unsafe {
        let (player, text) = (from_raw_parts_mut(player, p), from_raw_parts_mut(text, t));
        pieces::play_on(player, from_raw_parts(log, n), from_raw_parts(memory, m), text)
    }
}

#[cfg_attr(feature = "export", unsafe(no_mangle))]
pub unsafe extern "C" fn perch_state_at(
    state: *mut u8,
    n: usize,
    log: *const u8,
    ln: usize,
    memory: *const u8,
    m: usize,
    clock: u64,
) -> u64 {
    unsafe { moment::state_at(from_raw_parts_mut(state, n), from_raw_parts(log, ln), from_raw_parts(memory, m), clock) }
}

#[cfg_attr(feature = "export", unsafe(no_mangle))]
pub extern "C" fn perch_wav_size() -> usize {
    wavs::SIZE
}

#[cfg_attr(feature = "export", unsafe(no_mangle))]
pub unsafe extern "C" fn perch_wav_begin(
    wav: *mut u8,
    w: usize,
    log: *const u8,
    n: usize,
    memory: *const u8,
    m: usize,
    rate: u32,
) -> u64 {
    unsafe { wavs::begin(from_raw_parts_mut(wav, w), from_raw_parts(log, n), from_raw_parts(memory, m), rate) }
}

#[cfg_attr(feature = "export", unsafe(no_mangle))]
pub unsafe extern "C" fn perch_wav_on(
    wav: *mut u8,
    w: usize,
    log: *const u8,
    n: usize,
    memory: *const u8,
    m: usize,
    out: *mut u8,
    o: usize,
) -> u64 {
    unsafe {
        let (wav, out) = (from_raw_parts_mut(wav, w), from_raw_parts_mut(out, o));
        wavs::wav_on(wav, from_raw_parts(log, n), from_raw_parts(memory, m), out)
    }
}

#[cfg_attr(feature = "export", unsafe(no_mangle))]
pub unsafe extern "C" fn perch_refusal_text(number: u8, place: u64, text: *mut u8, t: usize) -> u64 {
    pieces::refusal_text(number, place, unsafe { from_raw_parts_mut(text, t) })
}

#[cfg_attr(feature = "export", unsafe(no_mangle))]
pub unsafe extern "C" fn perch_reason(number: u8, text: *mut u8, t: usize) -> u64 {
    words::reason(number, unsafe { from_raw_parts_mut(text, t) })
}

#[cfg_attr(feature = "export", unsafe(no_mangle))]
pub unsafe extern "C" fn perch_import(stream: *const u8, n: usize, text: *mut u8, t: usize) -> u64 {
    unsafe { vgm::import(from_raw_parts(stream, n), from_raw_parts_mut(text, t)) }
}

#[cfg_attr(feature = "export", unsafe(no_mangle))]
pub unsafe extern "C" fn perch_import_for(stream: *const u8, n: usize, machine: u8, text: *mut u8, t: usize) -> u64 {
    unsafe { vgm::import_for(from_raw_parts(stream, n), machine, from_raw_parts_mut(text, t)) }
}

#[cfg_attr(feature = "export", unsafe(no_mangle))]
pub unsafe extern "C" fn perch_samples(stream: *const u8, n: usize, memory: *mut u8, m: usize) -> u64 {
    unsafe { vgm_file::samples(from_raw_parts(stream, n), from_raw_parts_mut(memory, m)) }
}

#[cfg_attr(feature = "export", unsafe(no_mangle))]
pub unsafe extern "C" fn perch_fold(log: *const u8, n: usize, text: *mut u8, t: usize) -> u64 {
    unsafe { fold::fold(from_raw_parts(log, n), from_raw_parts_mut(text, t)) }
}

#[cfg_attr(feature = "export", unsafe(no_mangle))]
pub unsafe extern "C" fn perch_salvage(
    log: *const u8,
    n: usize,
    text: *mut u8,
    t: usize,
    list: *mut u32,
    w: usize,
) -> u64 {
    unsafe { salvage::salvage(from_raw_parts(log, n), from_raw_parts_mut(text, t), from_raw_parts_mut(list, w)) }
}

#[cfg_attr(feature = "export", unsafe(no_mangle))]
pub unsafe extern "C" fn perch_next_interrupt(
    state: *const u8,
    n: usize,
    memory: *const u8,
    m: usize,
    count: u64,
    which: u8,
) -> u64 {
    unsafe { interrupt::next_interrupt(from_raw_parts(state, n), from_raw_parts(memory, m), count, which) }
}

#[cfg_attr(feature = "export", unsafe(no_mangle))]
pub unsafe extern "C" fn perch_why(state: *const u8, n: usize, channel: u64) -> u64 {
    why::why(unsafe { from_raw_parts(state, n) }, channel)
}

#[cfg_attr(feature = "export", unsafe(no_mangle))]
pub unsafe extern "C" fn perch_meter(levels: *const u32, n: usize) -> u64 {
    meter::meter(unsafe { from_raw_parts(levels, n) })
}

#[cfg_attr(feature = "export", unsafe(no_mangle))]
pub unsafe extern "C" fn perch_meter_records(words: *const u32, w: usize, start: u64, count: u64, before: u64) -> u64 {
    meter::meter_records(unsafe { from_raw_parts(words, w) }, start, count, before)
}

#[cfg_attr(feature = "export", unsafe(no_mangle))]
pub extern "C" fn perch_level_fraction(level: u16) -> f32 {
    mixer::level_f32(level)
}

#[cfg_attr(feature = "export", unsafe(no_mangle))]
pub unsafe extern "C" fn perch_sheet(
    memory: *const u8,
    m: usize,
    level: u64,
    address: u64,
    length: u64,
    buffer: *mut u8,
    b: usize,
) -> u64 {
    unsafe { sheet::sheet(from_raw_parts(memory, m), level, address, length, from_raw_parts_mut(buffer, b)) }
}

#[cfg_attr(feature = "export", unsafe(no_mangle))]
pub extern "C" fn perch_version() -> u32 {
    layout::VERSION
}

#[cfg_attr(feature = "export", unsafe(no_mangle))]
pub unsafe extern "C" fn perch_turns(log: *const u8, n: usize) -> u64 {
    pieces::turns(unsafe { from_raw_parts(log, n) })
}

#[cfg_attr(feature = "export", unsafe(no_mangle))]
pub unsafe extern "C" fn perch_items(log: *const u8, n: usize) -> u64 {
    pieces::items(unsafe { from_raw_parts(log, n) })
}

#[cfg_attr(feature = "export", unsafe(no_mangle))]
pub extern "C" fn perch_cursor_size() -> usize {
    layout::cursor::SIZE
}

#[cfg_attr(feature = "export", unsafe(no_mangle))]
pub unsafe extern "C" fn perch_cursor_start(cursor: *mut u8, c: usize) -> u64 {
    cursors::start(unsafe { from_raw_parts_mut(cursor, c) })
}

#[cfg_attr(feature = "export", unsafe(no_mangle))]
pub unsafe extern "C" fn perch_cursor_next(cursor: *mut u8, c: usize, log: *const u8, n: usize) -> u64 {
    unsafe { cursors::next(from_raw_parts_mut(cursor, c), from_raw_parts(log, n)) }
}
