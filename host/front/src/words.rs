//! The words of the command line.

use std::ffi::{OsStr, OsString};
use std::os::unix::ffi::OsStrExt;

/// The words without `-s SAMPLE`, which may stand anywhere behind the first `fixed` words, and the sample's name; none where `-s` stands
/// twice or with no name behind it.
pub fn without_sample(words: Vec<OsString>, fixed: usize) -> Option<(Vec<OsString>, Option<OsString>)> {
    let (mut rest, mut sample) = (Vec::new(), None);
    let mut words = words.into_iter();
    while let Some(word) = words.next() {
        if rest.len() < fixed || word != "-s" {
            rest.push(word);
        } else if sample.replace(words.next()?).is_some() {
            return None;
        }
    }
    Some((rest, sample))
}

/// Whether a word has the shape of an option.
pub fn is_option(word: &OsStr) -> bool {
    word.len() > 1 && word.as_bytes()[0] == b'-'
}

#[cfg(test)]
mod tests {
    use super::*;

    fn taken(words: &str, fixed: usize) -> Option<(String, Option<String>)> {
        let (rest, sample) = without_sample(words.split_whitespace().map(OsString::from).collect(), fixed)?;
        Some((rest.join(OsStr::new(" ")).into_string().unwrap(), sample.map(|s| s.into_string().unwrap())))
    }

    #[test]
    fn samples() {
        let with = |rest: &str, sample: &str| Some((rest.into(), Some(sample.into())));
        assert_eq!(taken("check -s m.bin a.log", 1), with("check a.log", "m.bin"));
        assert_eq!(taken("check a.log -s m.bin", 1), with("check a.log", "m.bin"));
        assert_eq!(taken("-s m.bin a.log", 0), with("a.log", "m.bin"));
        assert_eq!(taken("-s m.bin", 1), Some(("-s m.bin".into(), None)));
        assert_eq!(taken("check a.log", 1), Some(("check a.log".into(), None)));
        assert_eq!(taken("check -s", 1), None);
        assert_eq!(taken("check -s a -s b", 1), None);
    }
}
