//! States at a clock of a log, worked out by hand.

use reading::moment::{state_at, text};
use reading::{Chip, MEMORY, Machine};

/// A sample memory whose bytes are all 0.
fn memory() -> Vec<u8> {
    vec![0; MEMORY]
}

fn lines(lines: &[&str]) -> String {
    lines.iter().map(|line| format!("{line}\n")).collect()
}

fn at(log: &[&str], clock: u64) -> String {
    text(lines(log).as_bytes(), &memory(), clock)
}

/// Power-on's lines on an NTSC machine behind its clock and machine.
const POWER_ON: &str = "level=8074 status=00 line=0 \
    square1.duty=0 square1.loop=0 square1.constant=0 square1.n=0 square1.sweep_enable=0 square1.negate=0 \
    square1.sweep_period=0 square1.sweep_shift=0 square1.sweep_written=0 square1.sweep_divider=1 square1.period=0 \
    square1.timer=1 square1.half=0 square1.position=0 square1.envelope_start=0 square1.envelope_divider=1 \
    square1.envelope_counter=0 square1.length=0 square1.enabled=0 \
    square2.duty=0 square2.loop=0 square2.constant=0 square2.n=0 square2.sweep_enable=0 square2.negate=0 \
    square2.sweep_period=0 square2.sweep_shift=0 square2.sweep_written=0 square2.sweep_divider=1 square2.period=0 \
    square2.timer=1 square2.half=0 square2.position=0 square2.envelope_start=0 square2.envelope_divider=1 \
    square2.envelope_counter=0 square2.length=0 square2.enabled=0 \
    triangle.control=0 triangle.reload=0 triangle.linear=0 triangle.linear_halt=0 triangle.period=0 triangle.timer=1 \
    triangle.position=0 triangle.length=0 triangle.enabled=0 \
    noise.loop=0 noise.constant=0 noise.n=0 noise.envelope_start=0 noise.envelope_divider=1 noise.envelope_counter=0 \
    noise.length=0 noise.enabled=0 noise.mode=0 noise.index=0 noise.timer=4 noise.shift_register=1 \
    dmc.interrupt_enable=0 dmc.loop=0 dmc.index=0 dmc.timer=428 dmc.level=0 dmc.address_byte=0 dmc.length_byte=0 \
    dmc.address=49152 dmc.remaining=0 dmc.buffer=0 dmc.full=0 dmc.shift_byte=0 dmc.bits=8 dmc.silence=1 dmc.interrupt=0 \
    frame.mode=0 frame.disable=0 frame.clock=0 frame.interrupt=0";

/// Power-on's lines, with some that are others.
fn but(clock: u64, machine: &str, others: &[&str]) -> String {
    let key = |line: &str| line.split('=').next().unwrap_or_default().to_string();
    let line = |line: &str| others.iter().find(|other| key(other) == key(line)).map_or(line.into(), |o| o.to_string());
    let rest: Vec<String> = POWER_ON.split_whitespace().map(line).collect();
    for other in others {
        assert!(rest.iter().any(|line| line == other), "{other}");
    }
    format!("at=1\nclock={clock}\nmachine={machine}\n{}\n", rest.join("\n"))
}

#[test]
fn power_on() {
    assert_eq!(at(&["log=1", "stop=0"], 0), but(0, "ntsc", &[]));
    assert_eq!(at(&["log=1", "stop=0"], 2_000_000_000), but(0, "ntsc", &[]));
    let pal = but(0, "pal", &["noise.timer=4", "dmc.timer=398"]);
    assert_eq!(at(&["log=1", "machine=pal", "wait=5", "stop=5"], 0), pal);
}

#[test]
fn accesses_at_the_clock_are_done() {
    // Square 1 enabled, its length 254, period $1FD; $4011 takes 64.
    let log = [
        "log=1",
        "write=4015:01",
        "write=4002:fd",
        "write=4003:09",
        "wait=3",
        "write=4011:40",
        "wait=2",
        "write=4011:00",
        "stop=5",
    ];
    let note =
        ["status=01", "square1.period=509", "square1.envelope_start=1", "square1.length=254", "square1.enabled=1"];
    assert_eq!(at(&log, 0), but(0, "ntsc", &note));
    // A timer of 1 takes its period + 1 at the first clock. Square 2's period is 0: its timer gives an output at each clock, the half
    // flag flips, and position goes on as it clears. The shift register becomes 16384 at the fourth clock.
    let two = [
        "square1.timer=509",
        "square1.half=1",
        "frame.clock=2",
        "noise.timer=2",
        "dmc.timer=426",
        "square2.position=1",
    ];
    assert_eq!(at(&log, 2), but(2, "ntsc", &[&note[..], &two].concat()));
    let three = [
        "square1.timer=508",
        "square1.half=1",
        "frame.clock=3",
        "noise.timer=1",
        "dmc.timer=425",
        "dmc.level=64",
        "level=16620",
        "square2.half=1",
    ];
    assert_eq!(at(&log, 3), but(3, "ntsc", &[&note[..], &three, &["square2.position=1"]].concat()));
    let five = [
        "square1.timer=506",
        "square1.half=1",
        "frame.clock=5",
        "noise.timer=3",
        "noise.shift_register=16384",
        "dmc.timer=423",
        "square2.half=1",
        "square2.position=2",
    ];
    for clock in [5, 6, 2_000_000_000] {
        assert_eq!(at(&log, clock), but(5, "ntsc", &[&note[..], &five].concat()));
    }
}

#[test]
fn status_and_line_clear_nothing() {
    let log = ["log=1", "wait=29829", "wait=1", "read=4015", "stop=29830"];
    let shown = |clock| {
        let text = at(&log, clock);
        ["status=", "line=", "frame.interrupt=", "frame.clock="]
            .map(|key| text.lines().find_map(|line| line.strip_prefix(key)).unwrap_or_default().to_string())
    };
    assert_eq!(shown(29_828), ["00", "0", "0", "29828"]);
    assert_eq!(shown(29_829), ["40", "1", "1", "29829"]);
    assert_eq!(shown(29_830), ["00", "0", "0", "0"]);
}

#[test]
fn refusals() {
    assert_eq!(text(b"log=1\nstop=0\n", &[0; 32_767], 0), "at=1\nrefused=1:0\n");
    assert_eq!(text(b"log=1\nwait=5\nstop=6\n", &memory(), 0), "at=1\nrefused=10:13\n");
}

#[test]
fn bytes_of_a_state() {
    let log = b"log=1\nmachine=pal\nwrite=4011:40\nwait=3\nwrite=4011:05\nstop=3\n";
    let mut expected = Chip::power_on(Machine::Pal);
    expected.write(0x4011, 0x40);
    // Whatever the bytes held.
    let mut state = [0xff; 91];
    assert_eq!(state_at(&mut state, log, &memory(), 0), 0);
    assert_eq!(state, expected.encode());
    for _ in 0..3 {
        expected.clock(&memory());
    }
    expected.write(0x4011, 0x05);
    for clock in [3, 4, u64::MAX] {
        state = [0xff; 91];
        assert_eq!(state_at(&mut state, log, &memory(), clock), 3 << 32);
        assert_eq!(state, expected.encode());
    }
    // Refused, the bytes stay: memory first, then the size, then the log.
    let bad = b"log=1\nwait=5\nstop=6\n";
    state = [7; 91];
    assert_eq!(state_at(&mut state[..90], bad, &memory()[1..], 0), 1);
    assert_eq!(state_at(&mut state[..90], bad, &memory(), 0), 2);
    assert_eq!(state_at(&mut state, bad, &memory(), 0), 10 | 13 << 8);
    assert_eq!(state, [7; 91]);
}
