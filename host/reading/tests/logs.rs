//! Logs worked out by hand from document 01, its marked case (12) and its example, and from request 2.

use reading::log::{Fault, Item, body, check, item, items};
use reading::play::text;
use reading::{MEMORY, player};

static MEMORY_0: [u8; MEMORY] = [0; MEMORY];

fn fault(log: &str) -> (u8, usize) {
    check(log.as_bytes()).map_or_else(|Fault { number, place }| (number, place), |_| (0, 0))
}

#[test]
fn case_12_empty_log() {
    assert_eq!(fault(""), (18, 0));
    assert_eq!(text(b"", &MEMORY_0), "play=1\nrefused=18:0\n");
}

#[test]
fn the_example() {
    let log = b"log=1\nwrite=4011:40\nwait=10\nread=4015\nstop=10\n";
    assert_eq!(text(log, &MEMORY_0), "play=1\nlevel=0:8074\nlevel=0:16620\nread=10:00\nstop=10\n");
}

#[test]
fn right_lines() {
    for (log, place) in [
        ("log=1\nwait=1\nstop=1\n", 0),
        ("log=1\nwait=1000000\nstop=1000000\n", 0),
        ("log=1\nloop=255\ndone=loop\nstop=0\n", 0),
        ("log=1\nwrite=4017:ff\nwrite=4009:00\nwrite=400d:00\nread=4015\nstop=0\n", 0),
    ] {
        assert_eq!(fault(log), (0, place), "{log}");
    }
}

/// Lines at fault: loops open (or the first line), the line's bytes, the number, and the place from the line's start. A
/// line with no line feed is the log's end.
const FAULTS: [(Option<usize>, &str, u8, usize); 103] = [
    (None, "", 18, 0),
    (Some(0), "", 18, 0),
    (None, "lo", 17, 2),
    (None, "log=1", 17, 5),
    (None, "log=2\n", 15, 4),
    (None, "log=12\n", 15, 5),
    (None, "log=1\r\n", 15, 5),
    (None, "loop=2\n", 14, 2),
    (None, "done=loop\n", 14, 0),
    (None, "stop=0\n", 14, 0),
    (None, "\n", 14, 0),
    (Some(0), "\n", 14, 0),
    (Some(0), "wait\n", 14, 4),
    (Some(0), "waits=5\n", 14, 4),
    (Some(0), "wai=5\n", 14, 3),
    (Some(0), "w=1\n", 14, 1),
    (Some(0), "wait=\n", 15, 5),
    (Some(0), "wait=0\n", 16, 5),
    (Some(0), "wait=01\n", 15, 5),
    (Some(0), "wait=00\n", 15, 5),
    (Some(0), "wait=0x\n", 15, 5),
    (Some(0), "stop=00\n", 15, 6),
    (Some(0), "stop=01\n", 15, 6),
    (Some(0), "stop=2000000001\n", 16, 5),
    (Some(0), "wait=1000001\n", 16, 5),
    (Some(0), "wait=1234567890123456789012345\n", 16, 5),
    (Some(0), "loop=256\n", 16, 5),
    (Some(0), "loop=1\n", 16, 5),
    (Some(0), "loop=0\n", 16, 5),
    (Some(0), "loop=256x\n", 15, 7),
    (Some(0), "wait=1000001x\n", 15, 11),
    (Some(0), "wait=1000000x\n", 15, 12),
    (Some(0), "loop=1x\n", 15, 6),
    (Some(0), "loop=1", 17, 6),
    (Some(0), "loop=256", 16, 5),
    (Some(0), "wait=0", 16, 5),
    (Some(0), "wait=1000001", 16, 5),
    (Some(0), "wait=1000000", 17, 12),
    (Some(0), "log=1\n", 14, 2),
    (Some(1), "log=1\n", 14, 2),
    (Some(2), "log=1\n", 14, 2),
    (Some(3), "log=1\n", 14, 2),
    (Some(4), "log=1\n", 14, 2),
    (Some(5), "log=1\n", 14, 2),
    (Some(6), "log=1\n", 14, 2),
    (Some(7), "log=1\n", 14, 2),
    (Some(8), "log=1\n", 14, 0),
    (Some(0), "done=loop\n", 8, 0),
    (Some(0), "done=loop", 14, 0),
    (Some(0), "done=loops\n", 14, 0),
    (Some(0), "d", 14, 0),
    (Some(1), "done=loop", 17, 9),
    (Some(1), "done=loops\n", 15, 9),
    (Some(1), "stop=5\n", 8, 0),
    (Some(1), "stop=5", 14, 0),
    (Some(1), "stop=x\n", 14, 0),
    (Some(1), "stop=00\n", 14, 0),
    (Some(1), "stop=2000000001\n", 14, 0),
    (Some(1), "st", 14, 0),
    (Some(8), "loop=2\n", 7, 0),
    (Some(8), "loop=1\n", 14, 0),
    (Some(8), "loop=256\n", 14, 0),
    (Some(8), "loop=2", 14, 0),
    (Some(8), "l", 14, 0),
    (Some(0), "write=4014:00\n", 4, 0),
    (Some(0), "write=4014:00", 17, 13),
    (Some(0), "write=4014:0g\n", 15, 12),
    (Some(0), "write=400A:00\n", 15, 9),
    (Some(0), "write=4000:000\n", 15, 13),
    (Some(0), "read=4016\n", 15, 8),
    (Some(0), "read=4015x\n", 15, 9),
    // More of the kind.
    (None, "write=4014:00\n", 14, 0),
    (None, "log=\n", 15, 4),
    (None, "Log=1\n", 14, 0),
    (None, "\u{feff}log=1\n", 14, 0),
    (Some(0), "=", 14, 0),
    (Some(0), "wait==1\n", 15, 5),
    (Some(0), " wait=1\n", 14, 0),
    (Some(0), "wait=1 \n", 15, 6),
    (Some(0), "wait=1\r\n", 15, 6),
    (Some(0), "wait=+1\n", 15, 5),
    (Some(0), "wait=\u{661}\n", 15, 5),
    (Some(0), "wait=4294967297\n", 16, 5),
    (Some(0), "wait=10000000", 16, 5),
    (Some(0), "wait=9999999x", 15, 11),
    (Some(0), "stop=0", 17, 6),
    (Some(0), "stop=", 17, 5),
    (Some(0), "stop=-1\n", 15, 5),
    (Some(0), "stop=3000000000", 16, 5),
    (Some(0), "stop=20000000000x\n", 15, 15),
    (Some(0), "stop=2000000001 \n", 15, 14),
    (Some(0), "loop=26\r\n", 15, 7),
    (Some(0), "loop=260\r\n", 15, 7),
    (Some(0), "loop=02\n", 15, 5),
    (Some(0), "write=4000:0\n", 15, 12),
    (Some(0), "write=400:00\n", 15, 9),
    (Some(0), "write=04000:00\n", 15, 10),
    (Some(0), "write=ffff", 17, 10),
    (Some(0), "read=\n", 15, 5),
    (Some(8), "write=4018:00\n", 4, 0),
    (Some(8), "done=\n", 15, 5),
    (Some(8), "stop=0\n", 8, 0),
    (Some(8), "", 18, 0),
];

#[test]
fn lines_at_fault() {
    for (open, line, number, place) in FAULTS {
        let before = open.map_or(String::new(), |open| format!("log=1\n{}", "loop=2\n".repeat(open)));
        let closing = format!("{}stop=0\n", "done=loop\n".repeat(open.unwrap_or(0)));
        let behind = ["", &closing, "wait=x\n", "write=4014:00\n", "\n"];
        // What comes behind a line feed doesn't matter.
        for behind in if line.ends_with('\n') { &behind[..] } else { &behind[..1] } {
            assert_eq!(fault(&format!("{before}{line}{behind}")), (number, before.len() + place), "{open:?} {line:?}");
        }
    }
}

#[test]
fn a_number_cut_short_may_go_on() {
    for number in 0..3000 {
        let number = number.to_string();
        let goes_on = (2..256).any(|turns: u32| turns.to_string().starts_with(&number));
        let expected = if goes_on { (17, 11 + number.len()) } else { (16, 11) };
        assert_eq!(fault(&format!("log=1\nloop={number}")), expected, "{number}");
    }
}

#[test]
fn a_cut_log_wants_a_line_feed_or_stop() {
    let log = "log=1\nwait=1000000\nloop=255\nwrite=4000:ff\nloop=2\ndone=loop\nread=4015\ndone=loop\nstop=1000000\n";
    for cut in 0..log.len() {
        let number = if cut == 0 || log.as_bytes()[cut - 1] == b'\n' { 18 } else { 17 };
        assert_eq!(fault(&log[..cut]), (number, cut), "{cut}");
    }
}

#[test]
fn the_first_line_at_fault_wins() {
    for (log, number, place) in [
        ("log=1\nwait=5\n", 18, 13),
        ("log=1\nwrite=4014:00\nwait=x\nstop=0\n", 4, 6),
        ("log=1\nwait=x\nwrite=4014:00\nstop=0\n", 15, 11),
        ("log=1\nwrite=ffff:00\nstop=0\n", 4, 6),
        ("log=1\ndone=loop\nwrite=4014:00\n", 8, 6),
        ("log=1\nloop=2\nstop=7\n", 8, 13),
        ("log=1\nloop=2\nstop=7\ndone=loop\nstop=7\n", 8, 13),
        ("log=1\nstop=0\nstop=0\n", 19, 13),
        ("log=1\nstop=7\n\n", 19, 13),
        ("log=1\nstop=7\ndone=loop", 19, 13),
        ("log=1\nstop=7\nwrite=4014:00\n", 19, 13),
        ("log=1\nwait=5\nstop=4\n", 10, 13),
    ] {
        assert_eq!(fault(log), (number, place), "{log}");
    }
}

#[test]
fn a_ninth_loop() {
    let nest = |depth: usize| format!("log=1\n{}{}stop=0\n", "loop=2\n".repeat(depth), "done=loop\n".repeat(depth));
    assert_eq!(fault(&nest(8)), (0, 0));
    assert_eq!(fault(&nest(9)), (7, 6 + 8 * 7));
    // Two loops beside each other aren't one in the other.
    let beside = "loop=2\ndone=loop\n".repeat(20);
    assert_eq!(fault(&format!("log=1\n{beside}stop=0\n")), (0, 0));
}

#[test]
fn totals() {
    // 200 times (1 + 10 times (1 + 1)) turns, 200 x 10 x 1,000,000 clocks.
    let log = "log=1\nloop=200\nloop=10\nwait=1000000\ndone=loop\ndone=loop\nstop=2000000000\n";
    let all = check(log.as_bytes()).unwrap();
    assert_eq!((all.clocks, all.turns, all.items), (2_000_000_000, 4200, 2000));
    let stop = log.find("stop").unwrap();
    assert_eq!(fault(&log.replace("stop=2", "stop=1")), (10, stop));
    let more = log.replace("log=1\n", "log=1\nwait=1\n");
    assert_eq!(fault(&more), (9, stop + 7));
    // An empty loop has its turns too: 250 x (1 + 200 x (1 + 19)) is 1,000,250.
    let turns = |times: usize, reads: usize| {
        let reads = "read=4015\n".repeat(reads);
        format!("log=1\nloop=250\nloop={times}\nloop=19\ndone=loop\ndone=loop\ndone=loop\n{reads}stop=0\n")
    };
    assert_eq!(fault(&turns(200, 0)).0, 9);
    // 250 x (1 + 199 x 20) = 995,250, and 4,750 reads are 1,000,000.
    assert_eq!(fault(&turns(199, 4750)), (0, 0));
    let over = turns(199, 4751);
    assert_eq!(fault(&over), (9, over.len() - 7));
    // 2^32 clocks are many, though they are none in 32 bits.
    let wide = "log=1\nloop=128\nloop=128\nwait=262144\ndone=loop\ndone=loop\nstop=0\n";
    assert_eq!(fault(wide), (9, wide.len() - 7));
    // Any depth of the largest loops has an answer.
    let huge = format!("log=1\n{}wait=1000000\n{}stop=0\n", "loop=255\n".repeat(8), "done=loop\n".repeat(8));
    assert_eq!(fault(&huge).0, 9);
}

#[test]
fn the_longest_log() {
    let log = |wait: &str, stop: &str| format!("log=1\nwait={wait}\n{}stop={stop}\n", "read=4015\n".repeat(5998));
    assert_eq!(log("1", "1").len(), 60_000);
    assert_eq!(fault(&log("1", "1")), (0, 0));
    assert_eq!(fault(&log("10", "1")), (5, 0));
    assert_eq!(fault(&log("1", "1")[..59_999]), (17, 59_999));
    assert_eq!(fault(&"x".repeat(60_000)), (14, 0));
    assert_eq!(fault(&"x".repeat(60_001)), (5, 0));
}

#[test]
fn items_of_loops() {
    let log =
        b"log=1\nwait=3\nloop=2\nread=4015\nloop=3\nwrite=4000:1f\ndone=loop\ndone=loop\nloop=9\ndone=loop\nstop=3\n";
    let (w, r) = (Item::Write(0x4000, 0x1f), Item::Read);
    assert_eq!(items(log).unwrap(), [Item::Wait(3), r, w, w, w, r, w, w, w]);
    assert_eq!(item(log, 8), Ok(w));
    for k in [9, 10, u64::MAX] {
        assert_eq!(item(log, k), Err(Fault { number: 11, place: 0 }));
    }
    assert_eq!(player::item(log, 0), (1 << 24 | 3) << 32);
    assert_eq!(player::item(log, 2), (2 << 24 | 0x40_001f) << 32);
    assert_eq!(player::item(log, 9), 11);
}

#[test]
fn bodies() {
    let log =
        b"log=1\nwait=3\nloop=2\nread=4015\nloop=3\nwrite=4000:1f\ndone=loop\ndone=loop\nloop=9\ndone=loop\nstop=3\n";
    let part = |offset| body(log, offset).map(|range| String::from_utf8_lossy(&log[range]).into_owned());
    assert_eq!(part(13).unwrap(), "read=4015\nloop=3\nwrite=4000:1f\ndone=loop\n");
    assert_eq!(part(30).unwrap(), "write=4000:1f\n");
    assert_eq!(part(71).unwrap(), "");
    for offset in [0, 6, 12, 14, 20, 29, 31, 61, 97, 98, u64::MAX] {
        assert_eq!(part(offset), Err(Fault { number: 12, place: 0 }), "{offset}");
    }
    assert_eq!(body(b"log=1\nstop=1\n", 99), Err(Fault { number: 10, place: 6 }));
}

#[test]
fn memory_comes_before_the_log() {
    assert_eq!(text(b"", &MEMORY_0[1..]), "play=1\nrefused=1:0\n");
}

#[test]
fn accesses_with_one_stamp_are_heard_one_by_one() {
    let log = b"log=1\nwrite=4011:40\nwrite=4011:40\nwrite=4011:00\nwait=7\nwrite=4011:40\nread=4015\nstop=7\n";
    let expected = "play=1\nlevel=0:8074\nlevel=0:16620\nlevel=0:8074\nlevel=7:16620\nread=7:00\nstop=7\n";
    assert_eq!(text(log, &MEMORY_0), expected);
}

#[test]
fn the_frame_flag_is_read_once() {
    let log = b"log=1\nwait=29828\nread=4015\nwait=1\nread=4015\nread=4015\nstop=29829\n";
    let expected = "play=1\nlevel=0:8074\nread=29828:00\nread=29829:40\nread=29829:00\nstop=29829\n";
    assert_eq!(text(log, &MEMORY_0), expected);
}

#[test]
fn pieces_are_whole_lines() {
    let log = b"log=1\nwrite=4015:04\nwrite=4008:7f\nwrite=400b:08\nwait=9000\nread=4015\nstop=9000\n";
    let whole = text(log, &MEMORY_0);
    for size in [23, 24, 40, 1000] {
        let mut bytes = [0; player::SIZE];
        assert_eq!(player::begin(&mut bytes, log, &MEMORY_0), 0);
        let mut joined = String::new();
        loop {
            let mut piece = vec![b'?'; size];
            let answer = player::play_on(&mut bytes, log, &MEMORY_0, &mut piece);
            let (lines, rest) = piece.split_at((answer >> 32) as usize);
            joined += std::str::from_utf8(lines).unwrap();
            assert!(joined.ends_with('\n') && rest.iter().all(|byte| *byte == b'?'));
            if answer >> 8 & 1 == 1 {
                break;
            }
        }
        assert_eq!(joined, whole);
    }
    let mut text = [b'?'; 30];
    assert_eq!(player::refusal_text(9, 1234, &mut text) >> 32, 22);
    assert_eq!(&text[..23], b"play=1\nrefused=9:1234\n?");
}
