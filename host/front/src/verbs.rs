//! What the front has to know of the verbs: where a log may stand behind their words, and how their texts end. A verb that isn't here
//! is run with all of its words as they are, the log on standard input.

use crate::status::Last;
use std::ffi::OsString;
use std::os::unix::ffi::OsStrExt;

struct Verb {
    /// One word or more.
    name: &'static [&'static str],
    /// How many words it has behind its name; those of `wav` are one more where a number stands first.
    words: usize,
    /// Whether it reads a log, or a VGM file.
    log: bool,
    /// How its text ends.
    last: Last,
}

const fn verb(name: &'static [&'static str], words: usize, log: bool, last: Last) -> Verb {
    Verb { name, words, log, last }
}

/// Of two that begin alike the longer stands first.
const VERBS: [Verb; 15] = [
    verb(&["check"], 0, true, Last::Any),
    verb(&["play"], 0, true, Last::Stop),
    verb(&["fold"], 0, true, Last::Stop),
    verb(&["import"], 0, true, Last::Stop),
    verb(&["samples"], 0, true, Last::Memory),
    verb(&["salvage"], 0, true, Last::Stop),
    verb(&["why"], 1, true, Last::Any),
    verb(&["at"], 1, true, Last::Any),
    verb(&["vcd"], 2, true, Last::Any),
    verb(&["wav"], 0, true, Last::Sound),
    verb(&["meter", "waits"], 0, true, Last::Any),
    verb(&["meter"], 0, true, Last::Any),
    verb(&["interrupts"], 0, true, Last::Stop),
    verb(&["dwell"], 0, true, Last::Stop),
    verb(&["sheet"], 3, false, Last::Any),
];

fn known(words: &[OsString]) -> Option<&'static Verb> {
    VERBS.iter().find(|v| words.len() >= v.name.len() && v.name.iter().zip(words).all(|(a, b)| b == a))
}

/// Whether a rate stands behind `wav`: a word of digits alone.
fn has_rate(words: &[OsString]) -> bool {
    let is = |word: &OsString| !word.is_empty() && word.as_bytes().iter().all(u8::is_ascii_digit);
    words.first().is_some_and(|word| word == "wav") && words.get(1).is_some_and(is)
}

/// How many of the words are the program's: all, or all but a log behind them.
pub fn own(words: &[OsString]) -> usize {
    let due = |v: &Verb| v.name.len() + v.words + usize::from(has_rate(words));
    match known(words) {
        Some(v) if v.log && words.len() == due(v) + 1 => words.len() - 1,
        _ => words.len(),
    }
}

/// How the text ends.
pub fn last(words: &[OsString]) -> Last {
    known(words).map_or(Last::Any, |v| v.last)
}

#[cfg(test)]
mod tests {
    use super::*;

    fn own_of(words: &str) -> usize {
        own(&words.split_whitespace().map(OsString::from).collect::<Vec<_>>())
    }

    #[test]
    fn a_log_behind_the_words() {
        assert_eq!(own_of("check"), 1);
        assert_eq!(own_of("check a.log"), 1);
        assert_eq!(own_of("check a.log b.log"), 3);
        assert_eq!(own_of("play a.vgm"), 1);
        assert_eq!(own_of("samples a.vgm"), 1);
        assert_eq!(own_of("why 5"), 2);
        assert_eq!(own_of("why 5 a.log"), 2);
        assert_eq!(own_of("at 5 a.log"), 2);
        assert_eq!(own_of("vcd 5 a.log"), 3);
        assert_eq!(own_of("vcd 5 10 a.log"), 3);
        assert_eq!(own_of("wav"), 1);
        assert_eq!(own_of("wav 8000"), 2);
        assert_eq!(own_of("wav a.log"), 1);
        assert_eq!(own_of("wav 8000 a.log"), 2);
        assert_eq!(own_of("wav 8000 a.log b.log"), 4);
        assert_eq!(own_of("meter a.log"), 1);
        assert_eq!(own_of("meter waits"), 2);
        assert_eq!(own_of("meter waits a.log"), 2);
        assert_eq!(own_of("sheet 64 c000 20"), 4);
        assert_eq!(own_of("sheet 64 c000 20 a.log"), 5);
        assert_eq!(own_of("other a.log"), 2);
        assert_eq!(own_of(""), 0);
    }
}
