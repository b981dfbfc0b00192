//! Players in pieces, and players that no log led to, worked out by hand.

use reading::layout::{cursor, player as layout};
use reading::player::{begin, play_on};
use reading::{MEMORY, play};

static MEMORY_0: [u8; MEMORY] = [0; MEMORY];

const LOG: &[u8] = b"log=1\nwrite=4011:40\nloop=2\nwait=10\nread=4015\ndone=loop\nstop=20\n";

fn begun() -> Vec<u8> {
    let mut bytes = vec![7; layout::SIZE];
    assert_eq!(begin(&mut bytes, LOG, &MEMORY_0), 0);
    bytes
}

/// A piece's answer and its lines.
fn piece(bytes: &mut [u8], log: &[u8], size: usize) -> (u64, String) {
    let mut text = vec![b'?'; size];
    let answer = play_on(bytes, log, &MEMORY_0, &mut text);
    text.truncate((answer >> 32) as usize);
    (answer & 0xffff_ffff, String::from_utf8(text).expect("a text"))
}

#[test]
fn the_pieces_are_the_text() {
    let whole = play::text(LOG, &MEMORY_0);
    assert_eq!(whole, "play=1\nlevel=0:8074\nlevel=0:16620\nread=10:00\nread=20:00\nstop=20\n");
    for size in 0..=whole.len() {
        let (mut bytes, mut joined) = (begun(), String::new());
        let (over, lines) = piece(&mut bytes, LOG, size);
        joined += &lines;
        assert_eq!(over, u64::from(size == whole.len()) << 8);
        joined += &piece(&mut bytes, LOG, 200).1;
        assert_eq!(joined, whole);
        assert_eq!(piece(&mut bytes, LOG, 200), (1 << 8, String::new()));
    }
}

#[test]
fn a_copy_is_a_bookmark() {
    let mut bytes = begun();
    piece(&mut bytes, LOG, 40);
    let mut copy = bytes.clone();
    let rest = piece(&mut bytes, LOG, 200);
    assert_eq!(rest, (1 << 8, "read=10:00\nread=20:00\nstop=20\n".into()));
    assert_eq!(piece(&mut copy, LOG, 200), rest);
}

/// A player behind the first lines, with a number of its bytes changed.
fn changed(change: impl Fn(&mut [u8])) -> (u64, String) {
    let mut bytes = begun();
    piece(&mut bytes, LOG, 23);
    change(&mut bytes);
    let kept = bytes.clone();
    let (answer, lines) = piece(&mut bytes, LOG, 200);
    assert!(answer as u8 == 0 || bytes == kept);
    (answer, lines)
}

#[test]
fn what_no_log_led_to() {
    let cursor = |bytes: &mut [u8], part: reading::layout::Part, number| part.put(layout::CURSOR.of_mut(bytes), number);
    assert_eq!(changed(|_| {}).1, "level=0:16620\nread=10:00\nread=20:00\nstop=20\n");
    // The time.
    let late = changed(|bytes| layout::TIME.put(bytes, 1_999_999_980)).1;
    assert_eq!(late, "level=1999999980:16620\nread=1999999990:00\nread=2000000000:00\nstop=2000000000\n");
    let later = changed(|bytes| layout::TIME.put(bytes, 1_999_999_981));
    assert_eq!(later, (0, "level=1999999981:16620\nread=1999999991:00\n".into()));
    // The wait: over a run's clocks, and past the last time.
    assert_eq!(changed(|bytes| layout::WAIT.put(bytes, 1_000_001)), (3, String::new()));
    let waits = |bytes: &mut [u8], wait| {
        layout::TIME.put(bytes, 1_999_999_999);
        layout::WAIT.put(bytes, wait);
    };
    assert_eq!(changed(|bytes| waits(bytes, 2)), (9, String::new()));
    assert_eq!(changed(|bytes| waits(bytes, 1)), (0, "level=2000000000:16620\n".into()));
    // The phase: the first lines again, with the time; over.
    assert_eq!(changed(|bytes| layout::PHASE.put(bytes, 3)), (1 << 8, String::new()));
    assert_eq!(changed(|bytes| layout::PHASE.put(bytes, 255)), (1 << 8, String::new()));
    let again = changed(|bytes| layout::PHASE.put(bytes, 0)).1;
    assert!(again.starts_with("play=1\nlevel=0:8074\nlevel=0:16620\n"), "{again}");
    // The place: in mid-line, at the end, and far behind it.
    assert_eq!(changed(|bytes| cursor(bytes, cursor::PLACE, 7)), (14 | 8 << 8, String::new()));
    let end = LOG.len() as u64;
    for place in [end, end + 1, u64::MAX] {
        assert_eq!(changed(|bytes| cursor(bytes, cursor::PLACE, place)), (18 | end << 8, String::new()));
    }
    // The loops open: a ninth loop, and one that says more than eight and counts as having none open.
    let inside = |bytes: &mut [u8], open| {
        cursor(bytes, cursor::PLACE, 20);
        cursor(bytes, cursor::OPEN, open);
    };
    assert_eq!(changed(|bytes| inside(bytes, 8)), (7 | 20 << 8, String::new()));
    assert_eq!(changed(|bytes| inside(bytes, 9)).1, "read=10:00\nread=20:00\nstop=20\n");
    // Turns left, and a start: the loop's `done` leads there.
    let turns = |bytes: &mut [u8], left, start| {
        cursor(bytes, cursor::PLACE, 45);
        cursor(bytes, cursor::OPEN, 1);
        cursor(bytes, cursor::LEFT.nth(0, 1), left);
        cursor(bytes, cursor::STARTS.nth(0, 8), start);
    };
    assert_eq!(changed(|bytes| turns(bytes, 0, 35)).1, "stop=0\n");
    assert_eq!(changed(|bytes| turns(bytes, 3, 35)).1, "read=0:00\nread=0:00\nread=0:00\nstop=0\n");
    assert_eq!(changed(|bytes| turns(bytes, 3, 36)), (14 | 36 << 8, String::new()));
    // The level last written is asked behind an access alone.
    assert_eq!(changed(|bytes| layout::LAST.put(bytes, 16620)).1, "read=10:00\nread=20:00\nstop=20\n");
}

#[test]
fn a_log_without_end() {
    let log = ["log=1\n", &"loop=255\n".repeat(3), &"done=loop\n".repeat(3), "stop=0\n"].concat();
    let mut bytes = begun();
    piece(&mut bytes, LOG, 30);
    layout::CURSOR.of_mut(&mut bytes).fill(0);
    let kept = bytes.clone();
    assert_eq!(piece(&mut bytes, log.as_bytes(), 200), (0, String::new()));
    assert!(bytes != kept);
}
