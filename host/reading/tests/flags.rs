//! When the interrupt flags and the line change, worked out by hand.

use reading::flags::text;

/// A sample memory whose bytes are all 0.
fn memory() -> Vec<u8> {
    vec![0; 32_768]
}

fn lines(lines: &[&str]) -> String {
    lines.iter().map(|line| format!("{line}\n")).collect()
}

/// Holds a log's text to the lines behind the first.
fn tells(log: &[&str], expected: &[&str]) {
    assert_eq!(text(lines(log).as_bytes(), &memory()), lines(&[&["interrupts=1"], expected].concat()));
}

#[test]
fn the_example() {
    let log = std::fs::read(concat!(env!("CARGO_MANIFEST_DIR"), "/../../examples/irq.log")).unwrap();
    let told = [
        "interrupts=1",
        // The frame's fourth step; the read behind it clears its flag.
        "frame=29829:1",
        "line=29829:1",
        "frame=29829:0",
        "line=29829:0",
        // A round later; the write of $4017 with bit 6 at 69829 clears it.
        "frame=59659:1",
        "line=59659:1",
        "frame=69829:0",
        "line=69829:0",
        // A sample of 17 bytes at period 428: its last byte is fetched.
        "dmc=164352:1",
        "line=164352:1",
        // The fourth step behind the write at 209829; $4015 clears the DMC's flag, the read the frame's.
        "frame=239658:1",
        "dmc=239829:0",
        "frame=239829:0",
        "line=239829:0",
        // A round behind 239658, and at this clock a sample of 1 byte is fetched; $4010 clears the DMC's flag.
        "frame=269488:1",
        "dmc=269488:1",
        "line=269488:1",
        "dmc=269488:0",
        "stop=269488",
    ];
    assert_eq!(text(&log, &memory()), lines(&told));
}

#[test]
fn nothing_changes() {
    tells(&["log=1", "stop=0"], &["stop=0"]);
    tells(&["log=1", "wait=29828", "read=4015", "stop=29828"], &["stop=29828"]);
    tells(&["log=1", "write=4017:40", "wait=60000", "stop=60000"], &["stop=60000"]);
    tells(&["log=1", "write=4017:80", "wait=80000", "stop=80000"], &["stop=80000"]);
}

#[test]
fn the_frame_of_either_machine() {
    let frame = ["frame=29829:1", "line=29829:1"];
    tells(&["log=1", "wait=29829", "stop=29829"], &[frame[0], frame[1], "stop=29829"]);
    // $4017 without bit 6 leaves the flag; the next clock of the frame's step finds it set.
    tells(
        &["log=1", "wait=29830", "write=4017:00", "wait=29829", "write=4017:c0", "stop=59659"],
        &[frame[0], frame[1], "frame=59659:0", "line=59659:0", "stop=59659"],
    );
    tells(
        &["log=1", "machine=pal", "wait=33252", "read=4015", "wait=1", "read=4015", "wait=33254", "stop=66507"],
        &[
            "frame=33253:1",
            "line=33253:1",
            "frame=33253:0",
            "line=33253:0",
            "frame=66507:1",
            "line=66507:1",
            "stop=66507",
        ],
    );
}

#[test]
fn the_line_stays_while_one_flag_is_set() {
    // At $4015 the buffer is empty and 1 byte remains: the next clock fetches it.
    let log = [
        "log=1",
        "write=4010:80",
        "wait=29830",
        "write=4015:10",
        "wait=1",
        "read=4015",
        "wait=1",
        "write=4015:00",
        "stop=29832",
    ];
    tells(
        &log,
        &["frame=29829:1", "line=29829:1", "dmc=29831:1", "frame=29831:0", "dmc=29832:0", "line=29832:0", "stop=29832"],
    );
}

#[test]
fn each_turn_of_a_loop() {
    let log =
        ["log=1", "write=4010:80", "loop=2", "write=4015:00", "write=4015:10", "wait=3424", "done=loop", "stop=6848"];
    // A byte is fetched at clock 1. The output takes it at its eighth bit's end, 8 x 428, so the next one is fetched a clock later.
    tells(&log, &["dmc=1:1", "line=1:1", "dmc=3424:0", "line=3424:0", "dmc=3425:1", "line=3425:1", "stop=6848"]);
}

#[test]
fn refusals() {
    assert_eq!(text(b"log=1\nstop=0\n", &[0; 32_767]), "interrupts=1\nrefused=1:0\n");
    assert_eq!(text(b"log=1\nwait=5\nstop=6\n", &memory()), "interrupts=1\nrefused=10:13\n");
}
