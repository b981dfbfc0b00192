//! WAV files in pieces, and files under way that no log led to, worked out by hand.

use reading::layout::{cursor, wav as layout};
use reading::wav::{begin, wav_on};
use reading::{MEMORY, Machine, wave};

static MEMORY_0: [u8; MEMORY] = [0; MEMORY];

/// At 192,000 a second the samples end at clocks 9, 18, 27, 37.
const LOG: &[u8] = b"log=1\nwait=4\nwrite=4011:40\nloop=2\nwait=16\ndone=loop\nstop=36\n";
const RATE: u32 = 192_000;

/// The level behind the write; the first sample has five clocks of it and four of 8074.
const HIGH: u16 = 16620;
const MEAN: u16 = 12821;

fn begun() -> Vec<u8> {
    let mut bytes = vec![7; layout::SIZE];
    assert_eq!(begin(&mut bytes, LOG, &MEMORY_0, RATE), (44 + 2 * 3) << 32);
    bytes
}

/// A piece's answer without its length, and its bytes.
fn piece(bytes: &mut [u8], log: &[u8], size: usize) -> (u64, Vec<u8>) {
    let mut out = vec![b'?'; size];
    let answer = wav_on(bytes, log, &MEMORY_0, &mut out);
    let written = (answer >> 32) as usize;
    assert!(out[written..].iter().all(|&byte| byte == b'?'));
    out.truncate(written);
    (answer & 0xffff_ffff, out)
}

fn samples(list: &[u16]) -> Vec<u8> {
    list.iter().flat_map(|sample| sample.to_le_bytes()).collect()
}

#[test]
fn the_pieces_are_the_file() {
    let whole = wave::file(LOG, &MEMORY_0, RATE.into());
    assert_eq!(whole[44..], samples(&[MEAN, HIGH, HIGH]));
    for size in 0..=10 {
        let mut bytes = begun();
        let kept = bytes.clone();
        assert_eq!(piece(&mut bytes, LOG, 43), (0, vec![]));
        assert_eq!(bytes, kept);
        assert_eq!(piece(&mut bytes, LOG, 44 + size), (0, whole[..44].to_vec()));
        // Room for one sample more finds the end.
        let (over, first) = piece(&mut bytes, LOG, size);
        assert_eq!((over, first.len()), (u64::from(size >= 8) << 8, (size & !1).min(6)));
        let (_, rest) = piece(&mut bytes, LOG, 6);
        assert_eq!([&whole[..44], &first, &rest].concat(), whole);
        assert_eq!(piece(&mut bytes, LOG, 1), (0, vec![]));
        assert_eq!(piece(&mut bytes, LOG, 2), (1 << 8, vec![]));
        assert_eq!(piece(&mut bytes, LOG, 200), (1 << 8, vec![]));
    }
}

#[test]
fn a_copy_is_a_bookmark() {
    let mut bytes = begun();
    piece(&mut bytes, LOG, 44);
    piece(&mut bytes, LOG, 2);
    let mut copy = bytes.clone();
    let rest = piece(&mut bytes, LOG, 200);
    assert_eq!(rest, (1 << 8, samples(&[HIGH, HIGH])));
    assert_eq!(piece(&mut copy, LOG, 200), rest);
}

#[test]
fn beginnings_refused() {
    let refused = |size: usize, log: &[u8], memory: &[u8], rate| {
        let mut bytes = vec![7; size];
        let answer = begin(&mut bytes, log, memory, rate);
        assert!(bytes.iter().all(|&byte| byte == 7));
        answer
    };
    let (size, wrong) = (layout::SIZE, b"log=1\nwait=5\nstop=6\n");
    assert_eq!(size, 224);
    assert_eq!(refused(size - 1, wrong, &MEMORY_0[1..], 0), 1);
    assert_eq!(refused(size - 1, wrong, &MEMORY_0, 0), 2);
    assert_eq!(refused(size, wrong, &MEMORY_0, 0), 10 | 13 << 8);
    for rate in [0, 7_999, 192_001, u32::MAX] {
        assert_eq!(refused(size, LOG, &MEMORY_0, rate), 33);
    }
}

#[test]
fn how_many_samples() {
    // At the last two samples have 123 clocks, or 71.
    let rates = [8_000, 44_100, 192_000, 14_551, 23_417];
    for (machine, rate) in rates.into_iter().flat_map(|rate| Machine::ALL.map(|machine| (machine, rate))) {
        let mut whole = 0;
        for clocks in 0..100_000 {
            whole += u64::from(wave::clocks_before(machine, rate, whole + 1) == clocks);
            assert_eq!(wave::count(machine, rate, clocks), whole);
        }
    }
    // 214,552,348.1 and 214,552,348.9 samples.
    assert_eq!(wave::count(Machine::Ntsc, 192_000, 2_000_000_000), 214_552_348);
    assert_eq!(wave::count(Machine::Ntsc, 192_000, 2_000_000_008), 214_552_349);
}

/// A file behind its first sample, with some of its bytes changed: what a piece of so many bytes comes to.
fn changed(size: usize, change: impl Fn(&mut [u8])) -> (u64, Vec<u8>) {
    let mut bytes = begun();
    piece(&mut bytes, LOG, 44);
    piece(&mut bytes, LOG, 2);
    change(&mut bytes);
    let kept = bytes.clone();
    let (answer, out) = piece(&mut bytes, LOG, size);
    assert!(answer as u8 == 0 || bytes == kept);
    (answer, out)
}

#[test]
fn what_no_log_led_to() {
    let put = |part: reading::layout::Part, number| move |bytes: &mut [u8]| part.put(bytes, number);
    assert_eq!(changed(200, |_| {}), (1 << 8, samples(&[HIGH, HIGH])));
    // The head again, with other numbers.
    let again = |bytes: &mut [u8]| {
        layout::BEGUN.put(bytes, 0);
        layout::COUNT.put(bytes, 1 << 31);
    };
    let (_, head) = changed(200, again);
    assert_eq!((head.len(), &head[4..8], &head[40..44]), (44, &[36, 0, 0, 0][..], &[0; 4][..]));
    assert_eq!(changed(200, put(layout::BEGUN, 2)), (2, vec![]));
    assert_eq!(changed(200, put(layout::RATE, 7_999)), (33, vec![]));
    assert_eq!(changed(200, put(layout::RATE, 192_001)), (33, vec![]));
    // At 150,000 a second clock 9 lies in sample 0 still.
    assert_eq!(changed(200, put(layout::RATE, 150_000)), (2, vec![]));
    // Nine clocks are done, and the sum is 0: no clock of sample 1 is.
    assert_eq!(changed(200, put(layout::SUM, 1)), (2, vec![]));
    assert_eq!(changed(200, put(layout::SAMPLE, 0)), (2, vec![]));
    assert_eq!(changed(200, put(layout::SAMPLE, 2)), (2, vec![]));
    assert_eq!(changed(200, put(layout::SAMPLE, u64::MAX)), (2, vec![]));
    let one_clock = |sum| {
        move |bytes: &mut [u8]| {
            layout::TIME.put(bytes, 10);
            layout::SUM.put(bytes, sum);
        }
    };
    assert_eq!(changed(200, one_clock(65_536)), (2, vec![]));
    // A clock more than the log has makes sample 3 whole.
    let high = (65_535 + 8 * u32::from(HIGH)) / 9;
    assert_eq!(changed(200, one_clock(65_535)).1, samples(&[high as u16, HIGH, HIGH]));
    // The wait and the time: 3 before 9, both before 33, that before a sample.
    assert_eq!(changed(200, put(layout::LEFT, 1_000_001)), (3, vec![]));
    let late = |time: u64, left: u64, rate: u64| {
        move |bytes: &mut [u8]| {
            layout::TIME.put(bytes, time);
            layout::LEFT.put(bytes, left);
            layout::RATE.put(bytes, rate);
        }
    };
    assert_eq!(changed(200, late(u64::MAX, 1_000_001, 0)), (3, vec![]));
    assert_eq!(changed(200, late(u64::MAX, 1_000_000, 0)), (9, vec![]));
    assert_eq!(changed(200, late(2_000_000_000, 1, 0)), (9, vec![]));
    assert_eq!(changed(200, late(2_000_000_000, 0, 0)), (33, vec![]));
    assert_eq!(changed(200, late(2_000_000_000, 0, 192_000)), (2, vec![]));
    // With the sample that has the time, and the clocks of the wait: 3 are too many; behind 2 the next wait is.
    let with_its_sample = |time: u64, left: u64| {
        move |bytes: &mut [u8]| {
            late(time, left, 192_000)(bytes);
            layout::SAMPLE.put(bytes, wave::count(Machine::Ntsc, 192_000, time));
        }
    };
    assert_eq!(changed(200, with_its_sample(1_999_999_998, 3)), (9, vec![]));
    assert_eq!(changed(200, with_its_sample(1_999_999_998, 2)), (9, vec![]));
    // The place in the log: refused by the line that it comes to, or over.
    let at = |place: u64, open: u64| {
        move |bytes: &mut [u8]| {
            layout::LEFT.put(bytes, 0);
            cursor::PLACE.put(layout::CURSOR.of_mut(bytes), place);
            cursor::OPEN.put(layout::CURSOR.of_mut(bytes), open);
        }
    };
    let end = LOG.len() as u64;
    assert_eq!(changed(200, at(7, 0)), (14 | 7 << 8, vec![]));
    assert_eq!(changed(200, at(end, 0)), (18 | end << 8, vec![]));
    assert_eq!(changed(200, at(end - 8, 1)), (8 | (end - 8) << 8, vec![]));
    assert_eq!(changed(200, at(end - 8, 0)), (1 << 8, vec![]));
}

#[test]
fn a_refusal_behind_samples_comes_next() {
    let mut bytes = begun();
    piece(&mut bytes, LOG, 44);
    let cut = &LOG[..LOG.len() - 8];
    assert_eq!(piece(&mut bytes, cut, 200), (0, samples(&[MEAN, HIGH, HIGH])));
    assert_eq!(piece(&mut bytes, cut, 200), (18 | (cut.len() as u64) << 8, vec![]));
}

#[test]
fn turns_of_nothing_end_a_piece() {
    let spins = ["log=1\n", &"loop=255\n".repeat(3), &"done=loop\n".repeat(3), "stop=0\n"].concat();
    let mut bytes = begun();
    piece(&mut bytes, LOG, 44);
    assert_eq!(piece(&mut bytes, spins.as_bytes(), 2), (0, vec![]));
    assert_ne!(cursor::PLACE.get(layout::CURSOR.of(&bytes)), 0);
    for _ in 0..20 {
        if piece(&mut bytes, spins.as_bytes(), 2) == (1 << 8, vec![]) {
            return;
        }
    }
    panic!("it comes to no end");
}
