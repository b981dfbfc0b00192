//! The words of `perch batch`.

use crate::words::is_option;
use std::ffi::{OsStr, OsString};
use std::os::unix::ffi::OsStrExt;
use std::path::PathBuf;

/// What is said where the words are wrong.
pub const USAGE: &str = "perch: expected batch [-j N] [-s SAMPLE] [-o FOLDER] [-r] LOG.., N from 1 to 1024; LOG may be - for names on standard input";

/// What the words ask for.
#[derive(Debug, PartialEq, Eq)]
pub struct Asked {
    /// How many logs at a time.
    pub threads: usize,
    /// The sample memory's name.
    pub sample: Option<OsString>,
    /// Where the texts go.
    pub folder: PathBuf,
    /// Whether texts that are there are kept.
    pub keep: bool,
    /// The logs, `-` among them.
    pub logs: Vec<OsString>,
}

fn threads(word: &OsStr) -> Option<usize> {
    word.to_str()?.parse().ok().filter(|n| (1..=1024).contains(n))
}

/// The word behind an option of two bytes: the rest of it, or the next.
fn behind(option: &OsStr, next: Option<&OsString>) -> Option<(OsString, bool)> {
    match &option.as_bytes()[2..] {
        [] => next.map(|word| (word.clone(), true)),
        rest => Some((OsStr::from_bytes(rest).to_owned(), false)),
    }
}

/// What the words ask for; none where they are wrong. Behind `--` every word is a log.
pub fn asked(words: &[OsString]) -> Option<Asked> {
    let processors = std::thread::available_parallelism().map_or(1, usize::from);
    let mut asked = Asked { threads: processors, sample: None, folder: ".".into(), keep: false, logs: Vec::new() };
    let mut k = 0;
    while let Some(word) = words.get(k) {
        k += 1;
        if word == "--" {
            asked.logs.extend_from_slice(&words[k..]);
            break;
        } else if !is_option(word) {
            asked.logs.push(word.clone());
        } else if word == "-r" {
            asked.keep = true;
        } else {
            let (value, next) = behind(word, words.get(k))?;
            k += usize::from(next);
            match word.as_bytes()[1] {
                b'j' => asked.threads = threads(&value)?,
                b's' => asked.sample = Some(value),
                b'o' if !value.is_empty() => asked.folder = value.into(),
                _ => return None,
            }
        }
    }
    (!asked.logs.is_empty()).then_some(asked)
}

#[cfg(test)]
mod tests {
    use super::*;

    fn of(words: &str) -> Option<Asked> {
        asked(&words.split_whitespace().map(OsString::from).collect::<Vec<_>>())
    }

    #[test]
    fn right_words() {
        let all = of("-j 3 -s m.bin -o out -r a.log b.log").unwrap();
        assert_eq!((all.threads, all.keep, all.folder.as_path()), (3, true, "out".as_ref()));
        assert_eq!((all.sample, all.logs), (Some("m.bin".into()), vec!["a.log".into(), "b.log".into()]));
        assert_eq!(of("a.log -j8"), of("-j 8 -- a.log"));
        assert_eq!(of("-").unwrap().logs, ["-"]);
        assert_eq!(of("-- -r").unwrap().logs, ["-r"]);
        assert!(of("a").unwrap().threads >= 1);
    }

    #[test]
    fn wrong_words() {
        for words in
            ["", "-r", "-j 0 a", "-j x a", "-j 1025 a", "a -j", "a -s", "a -o", "-x a", "-rx a", "--all a", "-j -1 a"]
        {
            assert_eq!(of(words), None, "{words}");
        }
    }
}
