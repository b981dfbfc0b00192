//! A sample memory by name: a folder of its own, in which it is `sample.bin`.

use std::ffi::OsStr;
use std::fs::{self, DirBuilder, File};
use std::io::{self, Read};
use std::os::unix::fs::DirBuilderExt;
use std::path::{Path, PathBuf};

/// A byte more than sample memory has, so that a longer file is seen.
const MOST: u64 = perch::MEMORY as u64 + 1;

/// The bytes of a sample memory, or one more than it may have.
pub fn read(name: &OsStr) -> io::Result<Vec<u8>> {
    let mut bytes = Vec::new();
    File::open(name)?.take(MOST).read_to_end(&mut bytes)?;
    Ok(bytes)
}

/// A folder that holds a `sample.bin`, and is removed in the end.
pub struct Folder(PathBuf);

impl Folder {
    /// A new folder with these bytes.
    pub fn with(bytes: &[u8]) -> io::Result<Self> {
        let folder = Self::new()?;
        fs::write(folder.0.join("sample.bin"), bytes)?;
        Ok(folder)
    }

    /// A folder that wasn't there before.
    fn new() -> io::Result<Self> {
        let place = std::env::temp_dir();
        let mut k = 0;
        loop {
            let path = place.join(format!("perch-{}-{k}", std::process::id()));
            match DirBuilder::new().mode(0o700).create(&path) {
                Ok(()) => return Ok(Self(path)),
                Err(error) if error.kind() == io::ErrorKind::AlreadyExists && k < 1000 => k += 1,
                Err(error) => return Err(error),
            }
        }
    }

    /// Where it is.
    pub fn path(&self) -> &Path {
        &self.0
    }
}

impl Drop for Folder {
    fn drop(&mut self) {
        // What can't be removed stays in the folder for temporary files.
        let _ = fs::remove_dir_all(&self.0);
    }
}

#[cfg(test)]
mod tests {
    use super::*;

    #[test]
    fn it_comes_and_goes() {
        let (a, b) = (Folder::with(b"abc").unwrap(), Folder::with(b"").unwrap());
        assert_ne!(a.path(), b.path());
        assert_eq!(read(a.path().join("sample.bin").as_os_str()).unwrap(), b"abc");
        let path = a.path().to_owned();
        drop(a);
        assert!(!path.exists());
    }
}
