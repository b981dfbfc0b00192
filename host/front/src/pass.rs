//! A program's bytes passed on as they come.

use crate::ends::Ends;
use std::fs::File;
use std::io::{self, ErrorKind, Read, Write};
use std::os::fd::AsFd;

/// What was passed on: the ends of what was read, and the first failure.
pub struct Passed {
    pub ends: Ends,
    pub failure: Option<io::Error>,
}

/// A second handle of a standard stream, with no buffer before it.
pub fn unbuffered(stream: impl AsFd) -> io::Result<File> {
    stream.as_fd().try_clone_to_owned().map(File::from)
}

/// Passes all on. Behind a failed write nothing is written any more; `drain` says whether the rest is read.
pub fn on(mut from: impl Read, mut to: impl Write, drain: bool) -> Passed {
    let mut passed = Passed { ends: Ends::default(), failure: None };
    let mut buffer = vec![0; 1 << 16];
    while passed.failure.is_none() || drain {
        match from.read(&mut buffer) {
            Ok(0) => break,
            Ok(n) => {
                passed.ends.add(&buffer[..n]);
                if passed.failure.is_none() {
                    passed.failure = to.write_all(&buffer[..n]).err();
                }
            }
            Err(error) if error.kind() == ErrorKind::Interrupted => {}
            Err(error) => {
                passed.failure = Some(error);
                break;
            }
        }
    }
    passed
}

#[cfg(test)]
mod tests {
    use super::*;

    /// Takes some bytes, then fails.
    struct Full(usize);

    impl Write for Full {
        fn write(&mut self, bytes: &[u8]) -> io::Result<usize> {
            let n = bytes.len().min(self.0);
            self.0 -= n;
            if n == 0 { Err(ErrorKind::StorageFull.into()) } else { Ok(n) }
        }

        fn flush(&mut self) -> io::Result<()> {
            Ok(())
        }
    }

    #[test]
    fn all_goes_through() {
        let text: Vec<u8> = (0..200_000u32).map(|n| (n % 251) as u8).collect();
        let mut to = Vec::new();
        assert!(on(&text[..], &mut to, false).failure.is_none());
        assert_eq!(to, text);
    }

    #[test]
    fn a_failed_write_is_seen() {
        let text = vec![b'x'; 200_000];
        let mut from = &text[..];
        assert!(on(&mut from, Full(70_000), false).failure.is_some());
        assert!(!from.is_empty());
        assert!(on(&mut from, Full(0), true).failure.is_some());
        assert!(from.is_empty());
    }
}
