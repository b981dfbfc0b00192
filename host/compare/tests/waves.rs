//! A WAV file that isn't right in one place is found.

use compare::waves::judge;
use reading::wave;

const MEMORY: [u8; 32_768] = [0; 32_768];
const LOG: &[u8] = b"log=1\nwait=100\nwrite=4011:40\nwait=900\nstop=1000\n";

/// What is found where a byte of the right file is another.
fn found(at: usize) -> String {
    let mut file = wave::file(LOG, &MEMORY, 44_100);
    file[at] ^= 1;
    judge(&file, LOG, &MEMORY, 44_100).expect_err("it isn't right")
}

#[test]
fn the_right_file() {
    let file = wave::file(LOG, &MEMORY, 44_100);
    assert_eq!(judge(&file, LOG, &MEMORY, 44_100), Ok(Some(24)));
    assert_eq!(file.len(), 44 + 2 * 24);
    assert_eq!(judge(b"refused=10:13\n", b"log=1\nwait=5\nstop=6\n", &MEMORY, 8000), Ok(None));
    assert!(judge(b"refused=10:12\n", b"log=1\nwait=5\nstop=6\n", &MEMORY, 8000).is_err());
}

#[test]
fn any_byte() {
    for at in 0..44 + 2 * 24 {
        found(at);
    }
    assert_eq!(found(0), "no RIFF file, or something behind it");
    assert_eq!(found(8), "no WAVE file");
    assert!(found(24).starts_with("the head is Sound { format: 1, channels: 1, rate: 44101,"));
    assert_eq!(found(44), "sample 0 is 8075, by the reading 8074");
}

#[test]
fn sizes() {
    let right = wave::file(LOG, &MEMORY, 44_100);
    let judged = |file: &[u8]| judge(file, LOG, &MEMORY, 44_100).expect_err("it isn't right");
    assert_eq!(judged(&right[..right.len() - 2]), "a chunk of 84 bytes, of which 82 are there");
    assert_eq!(judged(&[&right[..], &[0, 0]].concat()), "no RIFF file, or something behind it");
    // A sample less, with sizes that say so.
    let mut short = right[..right.len() - 2].to_vec();
    (short[4], short[40]) = (82, 46);
    assert_eq!(judged(&short), "46 bytes of samples, by the reading 48");
}
