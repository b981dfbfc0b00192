//! Repairs worked out by hand from request 12.

use reading::log::check;
use reading::salvage::{Done, salvage, salvaged};

const STOP: &str = "log=1\nstop=0\n";

/// That a log is repaired to this, with these entries, and that what comes out passes and stays.
fn repairs(log: &str, to: &str, list: &[[u32; 2]]) {
    let (new, done) = salvaged(log.as_bytes()).unwrap();
    assert_eq!(String::from_utf8(new.clone()).unwrap(), to, "{log}");
    assert_eq!(done.iter().map(|done| done.words()).collect::<Vec<_>>(), list, "{log}");
    assert!(check(&new).is_ok(), "{log}");
    assert_eq!(salvaged(&new), Ok((new.clone(), Vec::<Done>::new())));
}

#[test]
fn ends() {
    repairs("", STOP, &[[0, 0], [6, 0]]);
    repairs(STOP, STOP, &[]);
    repairs("log=1\n", STOP, &[[6, 0]]);
    repairs("log=1", STOP, &[[0, 0], [0, 14], [6, 0]]);
    repairs("lo", STOP, &[[0, 0], [0, 17], [6, 0]]);
    repairs("stop=0\n", STOP, &[[0, 0]]);
    repairs("wait=5\nstop=5\n", "log=1\nwait=5\nstop=5\n", &[[0, 0]]);
    repairs("done=loop\n", STOP, &[[0, 0], [0, 8], [6, 0]]);
    repairs("log=1\nloop=2\nwait=3\n", "log=1\nloop=2\nwait=3\ndone=loop\nstop=6\n", &[[20, 0], [30, 0]]);
}

#[test]
fn machines() {
    repairs("machine=pal\nstop=0\n", "log=1\nmachine=pal\nstop=0\n", &[[0, 0]]);
    repairs("log=1\nfoo\nmachine=pal\nstop=0\n", "log=1\nmachine=pal\nstop=0\n", &[[6, 14]]);
    repairs("log=1\nwait=5\nmachine=pal\nstop=5\n", "log=1\nwait=5\nstop=5\n", &[[13, 14]]);
}

#[test]
fn stops() {
    repairs("log=1\nstop=0\nwait=5", STOP, &[[6, 19], [13, 17], [6, 0]]);
    repairs("log=1\nstop=0\nstop=0\n", STOP, &[[6, 19]]);
    repairs("log=1\nstop=1\n", STOP, &[[6, 10], [6, 0]]);
    repairs("log=1\nwait=2\nwait=0\nstop=2\n", "log=1\nwait=2\nstop=2\n", &[[13, 16]]);
    repairs("log=1\nwait=2\nwait=03\nstop=5\n", "log=1\nwait=2\nstop=2\n", &[[13, 15], [21, 10], [13, 0]]);
    repairs(
        "log=1\nloop=2\nwait=3\nstop=3\n",
        "log=1\nloop=2\nwait=3\ndone=loop\nstop=6\n",
        &[[20, 10], [20, 0], [30, 0]],
    );
    repairs("log=1\nloop=2\nstop=0\ndone=loop\nstop=0\n", "log=1\nloop=2\ndone=loop\nstop=0\n", &[[13, 19]]);
    repairs("log=1\nstop=2000000001\n", STOP, &[[6, 16], [6, 0]]);
}

#[test]
fn ninths() {
    let eight = format!("log=1\n{}", "loop=2\n".repeat(8));
    let shut = "done=loop\n".repeat(8);
    let one = format!("{eight}wait=1\n{shut}stop=256\n");
    repairs(&format!("{eight}loop=3\nwait=1\ndone=loop\n{shut}stop=256\n"), &one, &[[62, 7], [76, 7]]);
    repairs(
        &format!("{eight}loop=3\nloop=4\nwait=1\ndone=loop\ndone=loop\n{shut}stop=256\n"),
        &one,
        &[[62, 7], [69, 7], [83, 7], [93, 7]],
    );
    repairs(
        &format!("{eight}loop=1\n{shut}done=loop\nstop=0\n"),
        &format!("{eight}{shut}stop=0\n"),
        &[[62, 14], [149, 8]],
    );
}

#[test]
fn refused() {
    let list = &mut [9; 4][..];
    assert_eq!(salvage(&[b'x'; 60_001], &mut [0; 9], list), 5);
    assert_eq!(salvage("loop=255\n".repeat(8).as_bytes(), &mut [0; 9], list), 9);
    assert_eq!(salvage(b"log=1\n", &mut [0; 12], &mut []), 30);
    assert_eq!(salvage(b"log=1\n", &mut [0; 13], &mut list[..1]), 31);
    assert_eq!(list, [9; 4]);
    assert_eq!(salvage(b"log=1\n", &mut [0; 13], &mut list[..2]), 13 << 32 | 1 << 48);
    assert_eq!(list, [6, 0, 9, 9]);
    assert_eq!(salvage(STOP.as_bytes(), &mut [0; 13], &mut []), 13 << 32);
    let full = format!("log=1\n{}", "wait=1\n".repeat(8_570));
    assert_eq!(salvage(full.as_bytes(), &mut vec![0; 70_000], list), 30);
}

#[test]
fn cut_at_every_byte() {
    let log = b"log=1\nmachine=pal\nwrite=4015:0f\nloop=3\nwait=10\nloop=2\nread=4015\nwait=1\ndone=loop\ndone=loop\nstop=36\n";
    assert!(check(log).is_ok());
    for end in 0..=log.len() {
        let (new, done) = salvaged(&log[..end]).unwrap();
        assert!(check(&new).is_ok(), "{end}");
        assert_eq!(salvaged(&new), Ok((new.clone(), Vec::<Done>::new())), "{end}");
        // All lines that were whole are there; half a line went.
        let whole = log[..end].iter().rposition(|byte| *byte == b'\n').map_or(0, |feed| feed + 1);
        assert!(whole == 0 || new.starts_with(&log[..whole]), "{end}");
        let dropped = done.iter().filter(|done| matches!(done, Done::Dropped(..))).count();
        assert_eq!(dropped, usize::from(end > whole), "{end}");
    }
}
