//! A dump that isn't right in one place is found by its lanes.

use compare::lanes::{Held, hold};
use reading::trace;

const MEMORY: [u8; 32_768] = [0; 32_768];
const LOG: &[u8] = b"log=1\nwrite=4011:40\nwrite=4009:00\nwait=29830\nread=4015\nwait=2\nstop=29832\n";

/// What is found in the dump of the whole log where one text stands for another, at its first place.
fn found(old: &str, new: &str) -> String {
    let right = trace::text(LOG, &MEMORY, 0, 40_000);
    assert!(right.contains(old), "{old} isn't in\n{right}");
    hold(&right.replacen(old, new, 1), LOG, &MEMORY, 0, 40_000).expect_err("it isn't right")
}

#[test]
fn the_right_dump() {
    let held = hold(&trace::text(LOG, &MEMORY, 0, 40_000), LOG, &MEMORY, 0, 40_000);
    assert_eq!(held, Ok(Some(Held { clocks: 29_832, accesses: 3, most: 2, differ: 3, flags: 2 })));
    assert_eq!(hold("refused=10:13\n", b"log=1\nwait=5\nstop=6\n", &MEMORY, 0, 1), Ok(None));
    assert!(hold("refused=10:12\n", b"log=1\nwait=5\nstop=6\n", &MEMORY, 0, 1).is_err());
}

#[test]
fn times() {
    // An access a nanosecond early and late, a clock rounded up, the end.
    assert_eq!(
        found("#2\n", "#1\n"),
        "Access(Bus { register: 16393, value: 0, read: false }) at clock 0, access 2, time 2: clock stands at 1"
    );
    assert!(found("#2\n", "#3\n").ends_with("an access isn't told whole"));
    assert!(
        found("#16666359\n", "#16666360\n")
            .contains("Clock at clock 29829, access 0, time 16666359: line is 0, by the reading 1")
    );
    assert!(found("#16668035\n", "#16668034\n").ends_with("the last time is Some(16668034)"));
    assert!(found("#16668035\n", "").contains("End at clock 29832"));
}

#[test]
fn lanes() {
    // Two lanes crossed, in the head and at a change; a value; a change left out; one that is none.
    assert!(
        found("f frame_flag $end\n$var wire 1 g dmc_flag", "g frame_flag $end\n$var wire 1 f dmc_flag")
            .contains("not every lane is dumped once")
    );
    assert!(found("1i\n1f\n", "1i\n1g\n").contains("frame_flag is 0, by the reading 1"));
    assert!(found("b1000000 d\n#2", "b1000001 d\n#2").contains("dmc is 65, by the reading 64"));
    assert!(found("b100000011101100 l\n", "").contains("level is 8074, by the reading 16620"));
    assert!(found("1i\n1f\n", "1i\n1f\n0g\n").ends_with("dmc_flag is told and stays 0"));
    assert!(found("b01000000 v\n1x\n", "b01000001 v\n1x\n").contains("value is 65, by the reading 64"));
    assert!(
        found("b0000000000000000111010010000101 c\n", "b0000000000000000111010010000110 c\n")
            .contains("clock is 29830, by the reading 29829")
    );
    assert!(found("b1111 t\n", "b111x t\n").contains("neither 0 nor 1"));
    assert!(found("0x\n$end", "$end").contains("not every lane is dumped once"));
}

#[test]
fn heads() {
    for (old, new) in
        [("1 ns", "10 ns"), ("module bus", "module buses"), ("wire 15 l", "wire 16 l"), ("square1", "square")]
    {
        assert!(found(old, new).starts_with("the head declares"), "{old}");
    }
}
