//! Streams worked out by hand from request 10. One sample is 40.58.. clocks, 735 are 29829.55, 882 are 35795.46, 24640 are
//! 1000000.15 and 49280 are 2000000.30.

use reading::log::{check, items};
use reading::vgm::import;

/// The log of a stream, or the number and the place of its refusal.
fn imported(stream: &[u8]) -> Result<String, (u8, u64)> {
    let mut text = vec![b'?'; 60_001];
    let answer = import(stream, &mut text);
    match answer as u8 {
        0 => Ok(String::from_utf8(text[..(answer >> 8) as usize].to_vec()).unwrap()),
        number => Err((number, answer >> 8)),
    }
}

/// A wait command.
fn wait(samples: u16) -> [u8; 3] {
    let [low, high] = samples.to_le_bytes();
    [0x61, low, high]
}

#[test]
fn a_stream_with_two_writes() {
    // 735 + 882 samples are 65625.01 clocks.
    let log = "log=1\nwrite=4015:0f\nwait=29829\nwrite=4000:bf\nwait=35796\nstop=65625\n";
    let stream = [0xb4, 0x15, 0x0f, 0x62, 0xb4, 0x00, 0xbf, 0x63, 0x66];
    assert_eq!(imported(&stream), Ok(log.into()));
    assert_eq!(check(imported(&stream).unwrap().as_bytes()).map(|totals| totals.clocks), Ok(65625));
}

#[test]
fn clocks_are_floors_of_the_running_sum() {
    let stream = [0x62, 0xb4, 0, 1, 0x62, 0xb4, 0, 2, 0x62, 0x66];
    let log = "log=1\nwait=29829\nwrite=4000:01\nwait=29830\nwrite=4000:02\nwait=29829\nstop=89488\n";
    assert_eq!(imported(&stream), Ok(log.into()));
    // One gap, whatever its commands.
    assert_eq!(imported(&[0x62, 0x62, 0x62, 0x66]), Ok("log=1\nwait=89488\nstop=89488\n".into()));
    assert_eq!(imported(&[0x70, 0xb4, 0, 1, 0x70, 0x66]).unwrap().lines().nth(3), Some("wait=41"));
}

#[test]
fn each_wait() {
    for (command, clocks) in [(0x62, 29829), (0x63, 35795), (0x70, 40), (0x71, 81), (0x7f, 649)] {
        assert_eq!(imported(&[command, 0x66]), Ok(format!("log=1\nwait={clocks}\nstop={clocks}\n")));
    }
    for (samples, clocks) in [(1, 40), (256, 10389), (882, 35795)] {
        let stream = [&wait(samples)[..], &[0x66]].concat();
        assert_eq!(imported(&stream), Ok(format!("log=1\nwait={clocks}\nstop={clocks}\n")));
    }
    assert_eq!(imported(&[0x61, 0, 0, 0xb4, 0, 1, 0x61, 0, 0, 0x66]), Ok("log=1\nwrite=4000:01\nstop=0\n".into()));
}

#[test]
fn waits_of_a_million_come_first() {
    for (samples, lines) in [
        (24_639, "wait=999959\nstop=999959\n"),
        (24_640, "wait=1000000\nstop=1000000\n"),
        (24_641, "wait=1000000\nwait=40\nstop=1000040\n"),
        (49_280, "wait=1000000\nwait=1000000\nstop=2000000\n"),
        (65_535, "wait=1000000\nwait=1000000\nwait=659700\nstop=2659700\n"),
    ] {
        let stream = [&wait(samples)[..], &[0x66]].concat();
        assert_eq!(imported(&stream), Ok(format!("log=1\n{lines}")));
    }
}

#[test]
fn every_register() {
    for register in 0..=255u8 {
        let log = imported(&[0xb4, register, 0xa9, 0x66]);
        match register {
            0..=0x13 | 0x15 | 0x17 => assert_eq!(log, Ok(format!("log=1\nwrite=40{register:02x}:a9\nstop=0\n"))),
            _ => assert_eq!(log, Err((26, 1))),
        }
    }
}

#[test]
fn every_command() {
    for command in 0..=255u8 {
        let number = imported(&[0x70, command, 0, 0, 0x66]).map_or_else(|refusal| refusal, |_| (0, 0));
        match command {
            0xb4 | 0x61 | 0x66 => assert_eq!(number, (0, 0)),
            // The 0 behind it is no command.
            0x62 | 0x63 | 0x70..=0x7f => assert_eq!(number, (25, 2)),
            _ => assert_eq!(number, (25, 1)),
        }
    }
}

#[test]
fn the_first_byte_at_fault() {
    let faults: [(&[u8], u8, u64); 13] = [
        (&[], 27, 0),
        (&[0xb4], 27, 1),
        (&[0xb4, 0x00], 27, 2),
        (&[0xb4, 0x14], 26, 1),
        (&[0xb4, 0x00, 0x00], 27, 3),
        (&[0x61], 27, 1),
        (&[0x61, 0x66], 27, 2),
        (&[0x61, 0x66, 0x66], 27, 3),
        (&[0x62, 0x67, 0x66], 25, 1),
        (&[0x62, 0x62, 0x00], 25, 2),
        (&[0xb4, 0x66, 0x66], 26, 1),
        (&[0x70, 0xb4, 0x18, 0x00, 0x00], 26, 2),
        (&[0x00, 0xb4, 0x14], 25, 0),
    ];
    for (stream, number, place) in faults {
        assert_eq!(imported(stream), Err((number, place)), "{stream:02x?}");
    }
}

#[test]
fn bytes_behind_the_end_are_not_read() {
    assert_eq!(imported(&[0x66, 0x00, 0xb4, 0x14]), Ok("log=1\nstop=0\n".into()));
}

#[test]
fn the_most_clocks() {
    // 751 waits of 65535 are 49216785 samples; 49279992 are 1999999980.94 clocks, one more 2000000021.53.
    let waits = wait(65_535).repeat(751);
    let log = imported(&[&waits[..], &wait(63_207), &[0x66]].concat()).unwrap();
    assert_eq!(log.len(), 6 + 1999 * 13 + 12 + 16);
    assert!(log.ends_with("wait=1000000\nwait=999980\nstop=1999999980\n"));
    let over = [&waits[..], &wait(63_208)].concat();
    assert_eq!(imported(&[&over[..], &[0x66]].concat()), Err((9, 0)));
    // A byte at fault comes first, also behind so many.
    assert_eq!(imported(&over), Err((27, over.len() as u64)));
    assert_eq!(imported(&[&over[..], &[0x67, 0x66]].concat()), Err((25, over.len() as u64)));
}

#[test]
fn the_most_turns() {
    let writes = [0xb4, 0x00, 0x00].repeat(999_998);
    let more = |more: &[u8]| imported(&[&writes[..], more, &[0x66]].concat());
    // 1,000,000 turns are too long for a log, one more is 9: a gap of 1000040 is two lines.
    assert_eq!(more(&[0xb4, 0, 0, 0xb4, 0, 0]), Err((28, 0)));
    assert_eq!(more(&wait(24_641)), Err((28, 0)));
    assert_eq!(more(&[0xb4, 0, 0, 0xb4, 0, 0, 0x70]), Err((9, 0)));
    assert_eq!(more(&[&[0xb4, 0, 0][..], &wait(24_641)].concat()), Err((9, 0)));
    assert_eq!(more(&[0xb4, 0, 0, 0xb4, 0, 0, 0xb4, 0, 0]), Err((9, 0)));
}

#[test]
fn the_buffer() {
    let stream = [0x62, 0xb4, 0, 1, 0x66];
    let log = b"log=1\nwait=29829\nwrite=4000:01\nstop=29829\n";
    for room in 0..50 {
        let mut text = vec![b'?'; room];
        let answer = import(&stream, &mut text);
        if room < log.len() {
            assert_eq!((answer, text), (28, vec![b'?'; room]));
        } else {
            assert_eq!(answer, (log.len() as u64) << 8);
            assert_eq!(text, [&log[..], &vec![b'?'; room - log.len()]].concat());
        }
    }
}

#[test]
fn the_longest_log() {
    // log=1, wait=1000000, wait=789773, 4282 writes, wait=40, stop=1789813: 6 + 13 + 12 + 14 x 4282 + 8 + 13 bytes.
    let writes = [0xb4, 0, 0].repeat(4282);
    let of = |last: u8| imported(&[&wait(44_100)[..], &writes, &[last, 0x66]].concat());
    let log = of(0x70).unwrap();
    assert_eq!(log.len(), 60_000);
    assert_eq!(items(log.as_bytes()).unwrap().len(), 4285);
    // The last wait is 649, a digit more; the buffer has room for it.
    assert_eq!(of(0x7f), Err((28, 0)));
}
