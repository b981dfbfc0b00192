//! Dwell tables worked out by hand from request 1.

use reading::dwell::text;

/// A sample memory whose bytes are all 0.
fn memory() -> Vec<u8> {
    vec![0; 32_768]
}

fn lines(lines: &[&str]) -> String {
    lines.iter().map(|line| format!("{line}\n")).collect()
}

#[test]
fn levels_that_are_written() {
    let log = [
        "log=1",
        "wait=100",
        "write=4011:40",
        "wait=50",
        "write=4011:7f",
        "write=4011:05",
        "wait=1",
        "read=4015",
        "wait=2",
        "stop=153",
    ];
    let table = ["dwell=1", "dmc=0:100", "dmc=5:3", "dmc=64:50", "stop=153"];
    assert_eq!(text(lines(&log).as_bytes(), &memory()), lines(&table));
    assert_eq!(
        text(&lines(&["log=1", "write=4011:40", "stop=0"]).into_bytes(), &memory()),
        lines(&["dwell=1", "stop=0"])
    );
}

#[test]
fn a_loop_counts_each_turn() {
    let log = ["log=1", "loop=3", "write=4011:01", "wait=10", "write=4011:ff", "wait=20", "done=loop", "stop=90"];
    assert_eq!(text(lines(&log).as_bytes(), &memory()), lines(&["dwell=1", "dmc=1:30", "dmc=127:60", "stop=90"]));
}

#[test]
fn refusals() {
    assert_eq!(text(b"log=1\nstop=0\n", &[0; 32_767]), "dwell=1\nrefused=1:0\n");
    assert_eq!(text(b"log=1\nwait=5\nstop=6\n", &memory()), "dwell=1\nrefused=10:13\n");
}
