//! Cursors by hand: through a log, and where no log led.

use reading::cursor::{MOST_STEPS, next, start};
use reading::layout::cursor::{LEFT, OPEN, PLACE, SIZE, STARTS};
use reading::player::{check, items, turns};

const LOG: &[u8] = b"log=1\nwrite=4011:40\nloop=2\nwait=10\nread=4015\ndone=loop\nstop=20\n";

fn started() -> [u8; SIZE] {
    let mut bytes = [0xff; SIZE];
    assert_eq!(start(&mut bytes), 0);
    bytes
}

const WRITE: u64 = (2 << 24 | 0x401140) << 32;
const WAIT: u64 = (1 << 24 | 10) << 32;
const READ: u64 = 3 << 56;

#[test]
fn totals() {
    assert_eq!((check(LOG), turns(LOG), items(LOG)), (20 << 32, 7 << 32, 5 << 32));
    let empty = b"log=1\nloop=255\ndone=loop\nstop=0\n";
    assert_eq!((check(empty), turns(empty), items(empty)), (0, 255 << 32, 0));
    let wrong = b"log=1\nwait=10\nstop=9\n";
    assert_eq!((check(wrong), turns(wrong), items(wrong)), (10 | 14 << 8, 10 | 14 << 8, 10 | 14 << 8));
}

#[test]
fn the_items_in_order() {
    let mut bytes = started();
    assert_eq!(bytes, [0; SIZE]);
    for item in [WRITE, WAIT, READ, WAIT, READ, 0, 0] {
        assert_eq!(next(&mut bytes, LOG), item);
    }
    assert_eq!(PLACE.get(&bytes), 55);
    assert_eq!(OPEN.get(&bytes), 0);
}

#[test]
fn inside_a_loop() {
    let mut bytes = started();
    next(&mut bytes, LOG);
    next(&mut bytes, LOG);
    let expected = [(PLACE, 35), (OPEN, 1), (STARTS.nth(0, 8), 27), (LEFT.nth(0, 1), 1)];
    for (part, number) in expected {
        assert_eq!(part.get(&bytes), number);
    }
}

#[test]
fn refused() {
    for size in [0, SIZE - 1, SIZE + 1] {
        let mut bytes = vec![9; size];
        assert_eq!((start(&mut bytes), next(&mut bytes, &[b'x'; 60_001])), (2, 2));
        assert_eq!(bytes, vec![9; size]);
    }
    let mut bytes = started();
    assert_eq!(next(&mut bytes, &[b'x'; 60_001]), 5);
    // It stays where the call began, also behind right lines.
    assert_eq!(next(&mut bytes, b"log=1\nloop=2\nwait=0\n"), 16 | 18 << 8);
    assert_eq!(bytes, [0; SIZE]);
    let from = |place, open| {
        let mut bytes = started();
        PLACE.put(&mut bytes, place);
        OPEN.put(&mut bytes, open);
        next(&mut bytes, LOG)
    };
    assert_eq!(from(20, 8), 7 | 20 << 8);
    assert_eq!(from(45, 0), 8 | 45 << 8);
    assert_eq!(from(55, 1), 8 | 55 << 8);
    assert_eq!(from(55, 9), 0);
    assert_eq!(from(27, u64::MAX), WAIT);
    assert_eq!(from(65, 0), 18 | 63 << 8);
    assert_eq!(from(u64::MAX, 3), 18 | 63 << 8);
}

#[test]
fn more_loops_than_there_are() {
    // At the end the bytes stay; over an item the loops are none.
    for (place, after) in [(55, 9), (27, 0)] {
        let mut bytes = started();
        PLACE.put(&mut bytes, place);
        OPEN.put(&mut bytes, 9);
        next(&mut bytes, LOG);
        assert_eq!(OPEN.get(&bytes), after);
    }
}

/// A loop, with loops in each other, and how many steps it takes: one over its line, and each turn's with the `done`.
fn nest(turns: &[u64]) -> (String, u64) {
    match turns {
        [] => (String::new(), 0),
        [first, rest @ ..] => {
            let (body, steps) = nest(rest);
            (format!("loop={first}\n{body}done=loop\n"), 1 + first * (steps + 1))
        }
    }
}

#[test]
fn many_steps() {
    // With `log=1` and the read: as many steps as one call takes, and one more.
    for (last, steps, answer) in [(193, MOST_STEPS, READ), (194, MOST_STEPS + 1, 4 << 56)] {
        let loops = [&[255, 255, 15][..], &[200, 255, 15], &[100, 255], &[255], &[255], &[255], &[last]].map(nest);
        assert_eq!(2 + loops.iter().map(|nest| nest.1).sum::<u64>(), steps);
        let lines: String = loops.into_iter().map(|nest| nest.0).collect();
        let mut bytes = started();
        assert_eq!(next(&mut bytes, format!("log=1\n{lines}read=4015\nstop=0\n").as_bytes()), answer);
    }
}
