//! WAV files worked out by hand.

use reading::wave::{file, samples};

/// A sample memory whose bytes are all 0.
fn memory() -> Vec<u8> {
    vec![0; 32_768]
}

fn log(lines: &[&str]) -> Vec<u8> {
    lines.iter().flat_map(|line| [line.as_bytes(), b"\n"].concat()).collect()
}

#[test]
fn a_file() {
    // 1,789,773 / 192,000 is 9.3: the samples end at clocks 9, 18, 27, 37. Level 8074, from clock 5 on 16620.
    let log = log(&["log=1", "wait=4", "write=4011:40", "wait=32", "stop=36"]);
    let mean = (4 * 8074 + 5 * 16620) / 9;
    let expected = [
        &b"RIFF"[..],
        &[42, 0, 0, 0],
        b"WAVEfmt ",
        &[16, 0, 0, 0, 1, 0, 1, 0],
        // 192,000 is $2EE00, 384,000 is $5DC00.
        &[0x00, 0xee, 0x02, 0x00, 0x00, 0xdc, 0x05, 0x00],
        &[2, 0, 16, 0],
        b"data",
        &[6, 0, 0, 0],
        &[(mean % 256) as u8, (mean / 256) as u8],
        // 16620 is $40EC.
        &[0xec, 0x40, 0xec, 0x40],
    ]
    .concat();
    assert_eq!(mean, 12821);
    assert_eq!(file(&log, &memory(), 192_000), expected);
}

#[test]
fn the_last_sample_needs_its_last_clock() {
    // At 8000 a second the first two samples end at clocks 223 and 447: 223.7 and 447.4.
    let count = |clocks: u64, rate, machine: &str| {
        let text = log(&["log=1", machine, &format!("wait={clocks}"), &format!("stop={clocks}")]);
        let text = if machine.is_empty() { [&text[..6], &text[7..]].concat() } else { text };
        samples(&text, &memory(), rate).unwrap()
    };
    assert_eq!(count(222, 8000, ""), []);
    assert_eq!(count(223, 8000, ""), [8074]);
    assert_eq!(count(446, 8000, ""), [8074]);
    assert_eq!(count(447, 8000, ""), [8074, 8074]);
    // PAL: 207.8 and 415.6.
    assert_eq!(count(206, 8000, "machine=pal"), []);
    assert_eq!(count(207, 8000, "machine=pal"), [8074]);
    assert_eq!(count(415, 8000, "machine=pal"), [8074, 8074]);
    // 24,640 x 1,789,773 / 44,100 is 1,000,000.2.
    assert_eq!(count(1_000_000, 44_100, "").len(), 24_640);
    assert_eq!(samples(b"log=1\nstop=0\n", &memory(), 44_100), Ok(vec![]));
    assert_eq!(file(b"log=1\nstop=0\n", &memory(), 44_100).len(), 44);
}

#[test]
fn an_access_counts_for_the_clocks_behind_it() {
    // The write stands at clock 9, with which the first sample ends.
    let text = log(&["log=1", "wait=9", "write=4011:40", "wait=9", "write=4011:00", "stop=18"]);
    assert_eq!(samples(&text, &memory(), 192_000), Ok(vec![8074, 16620]));
}

#[test]
fn means_are_rounded_down() {
    // 8 clocks of 8074 and one of 16620 make 81,212, and 9 times 9023 is 81,207.
    let text = log(&["log=1", "wait=8", "write=4011:40", "wait=1", "stop=9"]);
    assert_eq!(samples(&text, &memory(), 192_000), Ok(vec![9023]));
}

#[test]
fn refusals() {
    assert_eq!(file(b"log=1\nstop=0\n", &[0; 32_767], 44_100), b"refused=1:0\n");
    assert_eq!(file(b"log=1\nwait=5\nstop=6\n", &memory(), 44_100), b"refused=10:13\n");
}
