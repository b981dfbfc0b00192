//! How the front ends, found from what a program wrote.

use crate::ends::Ends;
use std::process::ExitCode;

/// How the front ends; the later weighs more.
#[derive(Clone, Copy, Debug, PartialEq, Eq, PartialOrd, Ord)]
pub enum Status {
    /// Done.
    Done = 0,
    /// A log, a stream or a number was refused.
    Refused = 1,
    /// Wrong words.
    Words = 2,
    /// Not read or not written whole.
    NotWhole = 3,
}

impl From<Status> for ExitCode {
    fn from(status: Status) -> Self {
        ExitCode::from(status as u8)
    }
}

/// What became of a program.
pub struct Ended {
    /// Its standard output.
    pub out: Ends,
    /// Its standard error.
    pub err: Ends,
    /// Whether it ended by itself and all of its bytes were passed on.
    pub whole: bool,
}

/// How a text ends that is whole.
#[derive(Clone, Copy, Debug, PartialEq, Eq)]
pub enum Last {
    /// With a line `stop=N`.
    Stop,
    /// With any line.
    Any,
    /// It is a RIFF file, which says its size.
    Sound,
    /// It is sample memory, 32,768 bytes; a refusal is told beside it.
    Memory,
}

/// Whether the text begins with a line `refused=`, behind its first line or not, or ends with one.
fn refused(text: &Ends) -> bool {
    let is = |line: &[u8]| line.starts_with(b"refused=");
    text.sound().is_none() && (text.first_lines().take(2).any(is) || text.last_line().is_some_and(is))
}

/// Whether a file was refused in words, as `perch import` does with one that is no VGM file.
fn refused_in_words(text: &Ends) -> bool {
    text.first_lines().next().is_some_and(|line| line.starts_with(b"perch: ") && has(line, b"VGM file"))
}

/// Whether a read or a write of the program's failed: it says so in one line, behind whatever it has said before.
fn failed(text: &Ends) -> bool {
    let is = |line: &[u8]| has(line, b"can't be read") || has(line, b"can't be written");
    text.first_lines().next().is_some_and(is) || text.last_line().is_some_and(is)
}

fn has(line: &[u8], words: &[u8]) -> bool {
    line.windows(words.len()).any(|part| part == words)
}

/// Whether a line is `stop=` and a number.
pub fn is_stop(line: &[u8]) -> bool {
    line.strip_prefix(b"stop=").is_some_and(|n| (1..=20).contains(&n.len()) && n.iter().all(u8::is_ascii_digit))
}

/// The bytes of sample memory.
const MEMORY: u64 = 32_768;

fn is_whole(text: &Ends, last: Last) -> bool {
    match last {
        Last::Stop => text.last_line().is_some_and(is_stop),
        Last::Any => text.last_line().is_some(),
        Last::Sound => text.sound().is_some_and(|(says, has)| says == has),
        Last::Memory => text.length() == MEMORY,
    }
}

/// The status of a program that ended so.
pub fn status(ended: &Ended, last: Last) -> Status {
    if !ended.whole || failed(&ended.err) {
        Status::NotWhole
    } else if refused(&ended.err) || last != Last::Memory && refused(&ended.out) && is_whole(&ended.out, Last::Any) {
        Status::Refused
    } else if ended.out.is_empty() && !ended.err.is_empty() {
        if refused_in_words(&ended.err) { Status::Refused } else { Status::Words }
    } else if is_whole(&ended.out, last) {
        Status::Done
    } else {
        Status::NotWhole
    }
}

#[cfg(test)]
mod tests {
    use super::*;

    fn ended(out: &str, err: &str) -> Ended {
        Ended { out: Ends::of(out.as_bytes()), err: Ends::of(err.as_bytes()), whole: true }
    }

    fn any(out: &str, err: &str) -> Status {
        status(&ended(out, err), Last::Any)
    }

    fn stop(out: &str, err: &str) -> Status {
        status(&ended(out, err), Last::Stop)
    }

    #[test]
    fn done() {
        assert_eq!(stop("play=1\nlevel=0:8074\nstop=10\n", ""), Status::Done);
        assert_eq!(stop("log=1\nstop=0\n", "dropped=6:14 line 2: unknown key\n"), Status::Done);
        assert_eq!(any("check=1\nclocks=10\nturns=3\nitems=3\n", ""), Status::Done);
        assert_eq!(any("usage: perch VERB\n", ""), Status::Done);
    }

    #[test]
    fn refusals() {
        assert_eq!(stop("play=1\nrefused=16:67\n", ""), Status::Refused);
        assert_eq!(any("check=1\nrefused=7:76\nline 11, column 1: a ninth loop\nloop=2\n^\n", ""), Status::Refused);
        assert_eq!(any("sheet=1\nrefused=20\n", ""), Status::Refused);
        assert_eq!(stop("", "refused=5:0\nlog longer than 60,000 bytes\n"), Status::Refused);
        assert_eq!(stop("", "perch: no VGM file: it doesn't begin with `Vgm `\n"), Status::Refused);
        assert_eq!(any("", "perch: a VGM file of more than 512 KiB is not read\n"), Status::Refused);
        assert_eq!(stop("dwell=1\nlevel=3\nrefused=13\n", ""), Status::Refused);
    }

    #[test]
    fn sounds() {
        let sound = |out: &[u8], err: &str| {
            let ends = [out, err.as_bytes()].map(Ends::of);
            let [out, err] = ends;
            status(&Ended { out, err, whole: true }, Last::Sound)
        };
        let file = [&b"RIFF\x0d\0\0\0WAVE\n"[..], b"refused="].concat();
        assert_eq!(sound(&file, ""), Status::Done);
        assert_eq!(sound(&file[..20], ""), Status::NotWhole);
        assert_eq!(sound(b"refused=16:67\n", "value outside its range\n"), Status::Refused);
        assert_eq!(sound(&file, "perch: standard output can't be written\n"), Status::NotWhole);
        assert_eq!(sound(b"", "perch: wav [RATE]\n"), Status::Words);
    }

    #[test]
    fn memories() {
        let memory = |out: &[u8], err: &str| {
            let [out, err] = [out, err.as_bytes()].map(Ends::of);
            status(&Ended { out, err, whole: true }, Last::Memory)
        };
        // It may hold any bytes.
        let bytes = [&b"refused=1\n"[..], &[b'\n'; 32_758]].concat();
        assert_eq!(memory(&bytes, ""), Status::Done);
        assert_eq!(memory(&bytes[1..], ""), Status::NotWhole);
        assert_eq!(memory(b"", "refused=34:256\na sample block outside 8000..ffff\n"), Status::Refused);
        assert_eq!(memory(b"", "perch: a VGM file for two chips\n"), Status::Refused);
        assert_eq!(memory(&bytes, "perch: standard output can't be written\n"), Status::NotWhole);
    }

    #[test]
    fn said_beside_a_log() {
        let said = "perch: the NES clock at $84 is 1000000: taken as NTSC\n";
        assert_eq!(stop("log=1\nstop=0\n", said), Status::Done);
        assert_eq!(stop("log=1\n", said), Status::NotWhole);
    }

    #[test]
    fn wrong_words() {
        assert_eq!(any("", "usage: perch VERB\n  import      a VGM file on standard input: the log\n"), Status::Words);
        assert_eq!(any("", "perch: expected meter, or meter waits\n"), Status::Words);
        assert_eq!(any("", "perch: why CLOCK: a decimal from 0 to 2000000000 with no leading zero\n"), Status::Words);
    }

    #[test]
    fn not_whole() {
        assert_eq!(stop("play=1\nlevel=0:8074\n", ""), Status::NotWhole);
        assert_eq!(stop("play=1\nlevel=0:8074\nstop=1", ""), Status::NotWhole);
        assert_eq!(stop("play=1\nlevel=0:8074\nstop=\n", ""), Status::NotWhole);
        assert_eq!(stop("play=1\nrefused=1", ""), Status::NotWhole);
        assert_eq!(any("", ""), Status::NotWhole);
        assert_eq!(any("check=1\nclocks", ""), Status::NotWhole);
        assert_eq!(any("", "perch: standard input can't be read\n"), Status::NotWhole);
        assert_eq!(stop("log=1\n", "perch: standard output can't be written\n"), Status::NotWhole);
        assert_eq!(
            stop("log=1\nstop=0\n", "added=0:0 line 1\nperch: standard output can't be written\n"),
            Status::NotWhole
        );
        assert_eq!(status(&Ended { whole: false, ..ended("play=1\nstop=0\n", "") }, Last::Stop), Status::NotWhole);
    }
}
