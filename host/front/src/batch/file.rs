//! A text's file: written under a temporary name, synced, then renamed, so that nothing half-written has the final name.

use std::ffi::{OsStr, OsString};
use std::fs::{self, File, OpenOptions, TryLockError};
use std::io::{self, ErrorKind, Write};
use std::os::unix::fs::MetadataExt;
use std::path::{Path, PathBuf};

/// The final name of a log's text.
pub fn path(folder: &Path, name: &OsStr) -> PathBuf {
    with(folder, name, ".play")
}

fn with(folder: &Path, name: &OsStr, end: &str) -> PathBuf {
    let mut name = OsString::from(name);
    name.push(end);
    folder.join(name)
}

/// A file that is being written. The temporary name is always the same, so that a batch which was killed leaves nothing behind that the
/// next one doesn't use; a lock keeps two batches from writing to it at once.
pub struct Part {
    file: File,
    part: PathBuf,
    path: PathBuf,
    done: bool,
}

/// Whether the open file still has the name, and hasn't been renamed by the one who held the lock.
fn has_name(file: &File, path: &Path) -> io::Result<bool> {
    let open = file.metadata()?;
    match fs::symlink_metadata(path) {
        Ok(named) => Ok((named.dev(), named.ino()) == (open.dev(), open.ino())),
        Err(error) if error.kind() == ErrorKind::NotFound => Ok(false),
        Err(error) => Err(error),
    }
}

/// Takes the lock; where the file's folder knows no locks it is done without.
fn lock(file: &File) -> io::Result<()> {
    match file.try_lock() {
        Ok(()) => Ok(()),
        Err(TryLockError::WouldBlock) => Err(io::Error::other("another batch is writing it")),
        Err(TryLockError::Error(error)) if error.kind() == ErrorKind::Unsupported => Ok(()),
        Err(TryLockError::Error(error)) => Err(error),
    }
}

impl Part {
    /// An empty file under the temporary name.
    pub fn new(folder: &Path, name: &OsStr) -> io::Result<Self> {
        let part = with(folder, name, ".part");
        loop {
            let file = OpenOptions::new().write(true).create(true).truncate(false).open(&part)?;
            lock(&file)?;
            if has_name(&file, &part)? {
                file.set_len(0)?;
                return Ok(Self { file, part, path: path(folder, name), done: false });
            }
        }
    }

    /// Gives the file its final name, with all of its bytes on the disk.
    pub fn finish(mut self) -> io::Result<()> {
        self.file.sync_all()?;
        fs::rename(&self.part, &self.path)?;
        self.done = true;
        Ok(())
    }
}

impl Write for Part {
    fn write(&mut self, bytes: &[u8]) -> io::Result<usize> {
        self.file.write(bytes)
    }

    fn flush(&mut self) -> io::Result<()> {
        self.file.flush()
    }
}

impl Drop for Part {
    fn drop(&mut self) {
        if !self.done {
            // The failure that led here is the one that is said.
            let _ = fs::remove_file(&self.part);
        }
    }
}

#[cfg(test)]
mod tests {
    use super::*;
    use crate::sample::Folder;

    fn names(folder: &Folder) -> Vec<OsString> {
        let mut names: Vec<_> = fs::read_dir(folder.path()).unwrap().map(|entry| entry.unwrap().file_name()).collect();
        names.sort();
        names
    }

    #[test]
    fn only_a_finished_file_has_its_name() {
        let folder = Folder::with(b"").unwrap();
        let name = OsStr::new("a");
        let mut part = Part::new(folder.path(), name).unwrap();
        part.write_all(b"half").unwrap();
        assert_eq!(names(&folder), ["a.part", "sample.bin"]);
        assert_eq!(Part::new(folder.path(), name).err().unwrap().to_string(), "another batch is writing it");
        drop(part);
        assert_eq!(names(&folder), ["sample.bin"]);
        fs::write(folder.path().join("a.part"), b"left behind by one that was killed").unwrap();
        let mut part = Part::new(folder.path(), name).unwrap();
        part.write_all(b"whole").unwrap();
        part.finish().unwrap();
        assert_eq!(names(&folder), ["a.play", "sample.bin"]);
        assert_eq!(fs::read(path(folder.path(), name)).unwrap(), b"whole");
    }

    #[test]
    fn a_name_that_cannot_be_had_is_a_failure() {
        let folder = Folder::with(b"").unwrap();
        fs::create_dir(folder.path().join("a.play")).unwrap();
        let part = Part::new(folder.path(), OsStr::new("a")).unwrap();
        assert!(part.finish().is_err());
        assert_eq!(names(&folder), ["a.play", "sample.bin"]);
        assert!(Part::new(&folder.path().join("none"), OsStr::new("a")).is_err());
    }
}
