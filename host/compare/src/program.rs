//! A built `perch`, run on drawn logs beside a sample memory.

use std::io::Write;
use std::path::PathBuf;
use std::process::{Command, Stdio};

/// The program, and a folder of its own that holds `sample.bin`; the folder goes with it.
pub struct Program {
    name: String,
    path: PathBuf,
    folder: PathBuf,
}

impl Program {
    /// The program of a path, with this sample memory.
    pub fn new(program: &str, memory: &[u8]) -> Result<Self, String> {
        let told = |error: std::io::Error| format!("{program}: {error}");
        let path = std::fs::canonicalize(program).map_err(told)?;
        let folder = std::env::temp_dir().join(format!("compare-{}", std::process::id()));
        std::fs::create_dir(&folder).map_err(told)?;
        let program = Self { name: program.into(), path, folder };
        program.lend(memory)?;
        Ok(program)
    }

    /// Makes these bytes the sample memory.
    pub fn lend(&self, memory: &[u8]) -> Result<(), String> {
        std::fs::write(self.folder.join("sample.bin"), memory).map_err(|error| format!("{}: {error}", self.name))
    }

    /// What it writes to standard output for a log, called with these words.
    pub fn writes(&self, words: &[String], log: &[u8]) -> Result<Vec<u8>, String> {
        self.tells(words, log).map(|(out, _)| out)
    }

    /// The same, with what it writes to standard error.
    pub fn tells(&self, words: &[String], log: &[u8]) -> Result<(Vec<u8>, Vec<u8>), String> {
        let written = || {
            let mut command = Command::new(&self.path);
            command.args(words).current_dir(&self.folder);
            let mut child = command.stdin(Stdio::piped()).stdout(Stdio::piped()).stderr(Stdio::piped()).spawn()?;
            // It reads all of a log before it writes; a program that doesn't is told by what it writes.
            let _ = child.stdin.take().map(|mut input| input.write_all(log));
            let output = child.wait_with_output()?;
            Ok((output.stdout, output.stderr))
        };
        written().map_err(|error: std::io::Error| format!("{}: {error}", self.name))
    }
}

impl Drop for Program {
    fn drop(&mut self) {
        let _ = std::fs::remove_dir_all(&self.folder);
    }
}

/// An error with the first line in which the program's text isn't the reading's.
pub fn same_text(ours: &str, theirs: &[u8]) -> Result<(), String> {
    if ours.as_bytes() == theirs {
        return Ok(());
    }
    let theirs = String::from_utf8_lossy(theirs);
    let at = ours.lines().zip(theirs.lines()).take_while(|(ours, theirs)| ours == theirs).count();
    let line = |text: &str| text.lines().nth(at).unwrap_or("nothing").to_string();
    Err(format!("line {} is {}, by the reading {}", at + 1, line(&theirs), line(ours)))
}
