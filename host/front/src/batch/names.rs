//! The logs of a batch and their names.

use std::collections::HashSet;
use std::ffi::{OsStr, OsString};
use std::io::{self, BufRead};
use std::os::unix::ffi::{OsStrExt, OsStringExt};
use std::path::{Path, PathBuf};

/// A log.
#[derive(Debug, PartialEq, Eq)]
pub struct Log {
    /// Where it is.
    pub path: PathBuf,
    /// Its file's name without `.log`.
    pub name: OsString,
    /// Why it isn't played whatever it holds.
    pub fault: Option<&'static str>,
}

/// A file's name without `.log`.
fn name(path: &Path) -> Option<OsString> {
    let name = path.file_name()?.as_bytes();
    let short = name.strip_suffix(b".log").filter(|short| !short.is_empty());
    Some(OsStr::from_bytes(short.unwrap_or(name)).to_owned())
}

/// The bytes of a name as they stand in a line: a control character, which would break it, is a question mark.
pub fn shown(name: &OsStr) -> Vec<u8> {
    name.as_bytes().iter().map(|byte| if byte.is_ascii_control() { b'?' } else { *byte }).collect()
}

fn log(path: PathBuf, seen: &mut HashSet<OsString>) -> Log {
    let Some(name) = name(&path) else {
        return Log { name: path.clone().into_os_string(), path, fault: Some("no file has this name") };
    };
    let fault = if name.as_bytes().iter().any(u8::is_ascii_control) {
        Some("the name has a control character")
    } else if !seen.insert(name.clone()) {
        Some("another log has this name")
    } else {
        None
    };
    Log { path, name, fault }
}

/// The names on a stream, one a line; empty lines are none. Those before a failed read are there.
fn listed(mut stream: impl BufRead, paths: &mut Vec<PathBuf>) -> io::Result<()> {
    loop {
        let mut line = Vec::new();
        if stream.read_until(b'\n', &mut line)? == 0 {
            return Ok(());
        }
        if line.ends_with(b"\n") {
            line.pop();
        }
        if !line.is_empty() {
            paths.push(OsString::from_vec(line).into());
        }
    }
}

/// The logs in the order given, `-` replaced by the names on the stream; and whether these were read to their end.
pub fn logs(words: &[OsString], mut stream: impl BufRead) -> (Vec<Log>, io::Result<()>) {
    let (mut paths, mut read) = (Vec::new(), Ok(()));
    for word in words {
        if word != "-" {
            paths.push(word.into());
        } else if read.is_ok() {
            read = listed(&mut stream, &mut paths);
        }
    }
    let mut seen = HashSet::new();
    (paths.into_iter().map(|path| log(path, &mut seen)).collect(), read)
}

#[cfg(test)]
mod tests {
    use super::*;

    fn of(words: &str, stream: &str) -> Vec<(String, Option<&'static str>)> {
        let (logs, read) = logs(&words.split(' ').map(OsString::from).collect::<Vec<_>>(), stream.as_bytes());
        read.unwrap();
        logs.into_iter().map(|log| (log.name.into_string().unwrap(), log.fault)).collect()
    }

    #[test]
    fn names() {
        let right = |name: &str| (name.to_owned(), None);
        assert_eq!(of("a/b.log c d.log.log .log", ""), [right("b"), right("c"), right("d.log"), right(".log")]);
        assert_eq!(of("x - y", "a.log\n\nb/c.log\nd"), [right("x"), right("a"), right("c"), right("d"), right("y")]);
        assert_eq!(of("-", ""), []);
    }

    #[test]
    fn faults() {
        assert_eq!(of("a.log b/a.log", "")[1], ("a".to_owned(), Some("another log has this name")));
        assert_eq!(of("..", "")[0].1, Some("no file has this name"));
        assert_eq!(of("a\tb", "")[0].1, Some("the name has a control character"));
        assert_eq!(shown(OsStr::new("a\tb\n")), b"a?b?");
    }
}
