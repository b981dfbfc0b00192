//! Whether a text needn't be written again.

use crate::ends::Ends;
use crate::status::is_stop;
use std::fs::{self, File};
use std::io::{self, Read, Seek, SeekFrom};
use std::path::Path;

/// More bytes than the last two lines of a text have.
const END: u64 = 64;

/// Whether the file ends with a line `stop=N`.
fn is_whole(mut file: File) -> io::Result<bool> {
    let length = file.metadata()?.len();
    file.seek(SeekFrom::Start(length.saturating_sub(END)))?;
    let (mut bytes, mut ends) = (Vec::new(), Ends::default());
    file.take(END).read_to_end(&mut bytes)?;
    ends.add(&bytes);
    Ok(ends.last_line().is_some_and(is_stop))
}

/// Whether a whole text is there and the log is older. A text that can't be read is to be written again.
pub fn is_kept(log: &Path, text: &Path) -> bool {
    let older = || -> io::Result<bool> {
        let file = File::open(text)?;
        let (log, written) = (fs::metadata(log)?.modified()?, file.metadata()?.modified()?);
        Ok(log < written && is_whole(file)?)
    };
    older().unwrap_or(false)
}

#[cfg(test)]
mod tests {
    use super::*;
    use crate::sample::Folder;
    use std::time::{Duration, SystemTime};

    fn put(path: &Path, bytes: &[u8], seconds: u64) {
        fs::write(path, bytes).unwrap();
        let time = SystemTime::UNIX_EPOCH + Duration::from_secs(seconds);
        File::options().write(true).open(path).unwrap().set_modified(time).unwrap();
    }

    #[test]
    fn whole_and_younger() {
        let folder = Folder::with(b"").unwrap();
        let (log, text) = (folder.path().join("a.log"), folder.path().join("a.play"));
        let whole = [b"play=1\n".repeat(50), b"stop=10\n".to_vec()].concat();
        put(&log, b"", 1000);
        assert!(!is_kept(&log, &text));
        put(&text, &whole, 1001);
        assert!(is_kept(&log, &text));
        put(&text, &whole, 1000);
        assert!(!is_kept(&log, &text));
        put(&text, &whole[..whole.len() - 1], 1001);
        assert!(!is_kept(&log, &text));
        put(&text, b"play=1\nrefused=16:67\n", 1001);
        assert!(!is_kept(&log, &text));
        put(&text, b"", 1001);
        assert!(!is_kept(&log, &text));
        put(&text, &whole, 1001);
        fs::remove_file(&log).unwrap();
        assert!(!is_kept(&log, &text));
    }
}
