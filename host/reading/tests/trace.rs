//! Traces worked out by hand.

use reading::trace::text;

/// A sample memory whose bytes are all 0.
fn memory() -> Vec<u8> {
    vec![0; 32_768]
}

fn lines(lines: &[&str]) -> String {
    lines.iter().map(|line| format!("{line}\n")).collect()
}

const HEAD: [&str; 24] = [
    "$version perchpulley $end",
    "$timescale 1 ns $end",
    "$scope module perchpulley $end",
    "$var wire 31 c clock $end",
    "$var wire 15 l level $end",
    "$scope module channels $end",
    "$var wire 4 1 square1 $end",
    "$var wire 4 2 square2 $end",
    "$var wire 4 t triangle $end",
    "$var wire 4 n noise $end",
    "$var wire 7 d dmc $end",
    "$upscope $end",
    "$scope module interrupts $end",
    "$var wire 1 i line $end",
    "$var wire 1 f frame_flag $end",
    "$var wire 1 g dmc_flag $end",
    "$upscope $end",
    "$scope module bus $end",
    "$var wire 16 r register $end",
    "$var wire 8 v value $end",
    "$var wire 1 x read $end",
    "$upscope $end",
    "$upscope $end",
    "$enddefinitions $end",
];

/// Power-on's lanes behind the clock: the triangle gives 15, which is level 8074.
const POWER_ON: [&str; 9] =
    ["b001111110001010 l", "b0000 1", "b0000 2", "b1111 t", "b0000 n", "b0000000 d", "0i", "0f", "0g"];

const NO_ACCESS: [&str; 3] = ["b0000000000000000 r", "b00000000 v", "0x"];

fn clock(clock: u32) -> String {
    format!("b{clock:031b} c")
}

/// Holds the text of a window to the lines behind the dump of power-on's lanes at a clock and a time.
fn tells(log: &[&str], (from, clocks): (u64, u64), (begins, time): (u32, &str), expected: &[&str]) {
    let begun = clock(begins);
    let dump = [&[time, "$dumpvars", &begun][..], &POWER_ON, &NO_ACCESS, &["$end"]].concat();
    let whole = lines(&[&HEAD[..], &dump, expected].concat());
    assert_eq!(text(lines(log).as_bytes(), &memory(), from, clocks), whole);
}

const FIRST: [&str; 5] = ["log=1", "write=4011:40", "wait=10", "read=4015", "stop=10"];

/// $4011 takes $40 at clock 0: level 16620.
fn raised() -> [String; 6] {
    [
        clock(0),
        "b0100000000010001 r".into(),
        "b01000000 v".into(),
        "0x".into(),
        "b100000011101100 l".into(),
        "b1000000 d".into(),
    ]
}

#[test]
fn an_access_at_each_end() {
    let raised = raised();
    let raised: Vec<&str> = raised.iter().map(String::as_str).collect();
    // 10,000,000,000 / 1,789,773 is 5587.3; the read is shown a nanosecond behind it, where the log ends.
    let ten = clock(10);
    let read = ["#5588", &ten, "b0100000000010101 r", "b00000000 v", "1x"];
    tells(&FIRST, (0, 11), (0, "#0"), &[&["#1"], &raised[..], &read].concat());
    tells(&FIRST, (0, 2_000_000_000), (0, "#0"), &[&["#1"], &raised[..], &read].concat());
    // The window's end is before the accesses there.
    tells(&FIRST, (0, 10), (0, "#0"), &[&["#1"], &raised[..], &["#5587"]].concat());
    tells(&FIRST, (0, 1), (0, "#0"), &[&["#1"], &raised[..], &["#558"]].concat());
}

#[test]
fn the_beginning_is_before_its_accesses() {
    let log = ["log=1", "wait=3", "write=4009:ff", "wait=2", "read=4015", "stop=5"];
    let (three, five) = (clock(3), clock(5));
    let write = ["#1677", &three, "b0100000000001001 r", "b11111111 v", "0x"];
    let read = ["#2794", &five, "b0100000000010101 r", "b00000000 v", "1x"];
    tells(&log, (3, 1), (3, "#1676"), &[&write[..], &["#2234"]].concat());
    tells(&log, (3, 2), (3, "#1676"), &[&write[..], &["#2793"]].concat());
    tells(&log, (3, 3), (3, "#1676"), &[&write[..], &read].concat());
    tells(&log, (2, 1), (2, "#1117"), &["#1676"]);
    tells(&log, (4, 1), (4, "#2234"), &["#2793"]);
    // At the log's last clock its accesses are still to come; past it they are done.
    tells(&log, (5, 1), (5, "#2793"), &read);
    tells(&log, (6, 1), (5, "#2793"), &[]);
    tells(&log, (2_000_000_000, 2_000_000_000), (5, "#2793"), &[]);
}

#[test]
fn logs_of_no_clocks() {
    tells(&["log=1", "stop=0"], (0, 1), (0, "#0"), &[]);
    tells(&["log=1", "stop=0"], (1, 1), (0, "#0"), &[]);
    let raised = raised();
    let raised: Vec<&str> = raised.iter().map(String::as_str).collect();
    tells(&["log=1", "write=4011:40", "stop=0"], (0, 1), (0, "#0"), &[&["#1"], &raised[..]].concat());
}

#[test]
fn a_clock_that_changes_something() {
    // The frame's fourth step sets its flag and the line; the read clears both.
    let log = ["log=1", "wait=29829", "read=4015", "wait=1", "stop=29830"];
    let at = clock(29829);
    let rises = ["#16666359", &at, "1i", "1f"];
    let read = ["#16666360", &at, "b0100000000010101 r", "b01000000 v", "1x", "0i", "0f"];
    tells(&log, (29828, 1), (29828, "#16665800"), &rises);
    tells(&log, (29828, 2), (29828, "#16665800"), &[&rises[..], &read, &["#16666918"]].concat());
    let pal = ["log=1", "machine=pal", "wait=33253", "stop=33253"];
    let at = clock(33253);
    tells(&pal, (33252, 5), (33252, "#19999915"), &["#20000517", &at, "1i", "1f"]);
}

#[test]
fn more_than_500_accesses_at_one_clock() {
    // 600 reads: the 500th and those behind it share their time.
    let log = ["log=1", "wait=1", "loop=200", "read=4015", "read=4015", "read=4015", "done=loop", "wait=1", "stop=2"];
    let one = clock(1);
    let read = [&one[..], "b0100000000010101 r", "b00000000 v", "1x"];
    let times: Vec<String> = (1..=500).map(|k| format!("#{}", 558 + k)).collect();
    let mut expected: Vec<&str> = times.iter().flat_map(|time| [&[time.as_str()], &read[..]].concat()).collect();
    (0..100).for_each(|_| expected.extend(read));
    let end = expected.len();
    expected.push("#1117");
    tells(&log, (1, 1), (1, "#558"), &expected);
    tells(&log, (1, 2), (1, "#558"), &expected);
    // The same at the log's end.
    let log = ["log=1", "wait=1", "loop=200", "read=4015", "read=4015", "read=4015", "done=loop", "stop=1"];
    tells(&log, (1, 2), (1, "#558"), &expected[..end]);
    tells(&log, (0, 1), (0, "#0"), &["#558"]);
}

#[test]
fn refusals() {
    assert_eq!(text(b"log=1\nstop=0\n", &[0; 32_767], 0, 1), "refused=1:0\n");
    assert_eq!(text(b"log=1\nwait=5\nstop=6\n", &memory(), 0, 1), "refused=10:13\n");
}
