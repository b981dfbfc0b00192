//! The proved programs: where they are, and one of them run.

use crate::pass::{self, Passed};
use crate::sample::{self, Folder};
use crate::status::{self, Ended, Last, Status};
use crate::words::{is_option, without_sample};
use crate::{signals, verbs};
use std::ffi::{OsStr, OsString};
use std::fmt::Display;
use std::fs::File;
use std::io::{self, ErrorKind, Write};
use std::os::unix::ffi::OsStrExt;
use std::path::{Path, PathBuf};
use std::process::{Child, Command, Stdio};
use std::thread;

/// A proved program.
#[derive(Clone, Copy, Debug, PartialEq, Eq)]
pub enum Program {
    Perch,
    Player,
}

impl Program {
    /// The program that the front's own name asks for.
    pub fn named(name: &OsStr) -> Self {
        if name.as_bytes().ends_with(b"player") { Self::Player } else { Self::Perch }
    }

    fn name(self) -> &'static str {
        match self {
            Self::Perch => "perch",
            Self::Player => "player",
        }
    }

    fn usage(self) -> &'static str {
        match self {
            Self::Perch => "perch: expected VERB [-s SAMPLE] [LOG]",
            Self::Player => "player: expected [-s SAMPLE] [LOG]",
        }
    }

    /// How many words stand before all others: the verb.
    fn fixed(self) -> usize {
        match self {
            Self::Perch => 1,
            Self::Player => 0,
        }
    }
}

/// A line on standard error; one that can't be written is lost, and the status stays.
pub fn say(line: impl Display) {
    let _ = writeln!(io::stderr(), "{line}");
}

/// The words of a failure, without its number.
pub fn why(error: &io::Error) -> String {
    let text = error.to_string();
    text.split(" (os error").next().unwrap_or_default().to_owned()
}

/// What the command line asks for.
struct Asked {
    words: Vec<OsString>,
    log: Option<OsString>,
    sample: Option<OsString>,
    last: Last,
}

/// What the words ask for; none where they are wrong and the program wouldn't say so itself.
fn asked(program: Program, words: Vec<OsString>) -> Option<Asked> {
    let (mut words, sample) = without_sample(words, program.fixed())?;
    let (own, last) = match program {
        Program::Perch => (verbs::own(&words), verbs::last(&words)),
        Program::Player => (0, Last::Stop),
    };
    let mut behind = words.split_off(own);
    let log = behind.pop();
    let right = behind.is_empty() && !log.as_deref().is_some_and(is_option);
    right.then_some(Asked { words, log, sample, last })
}

/// Where the programs are: `PERCH_LIBEXEC`, or beside the folder of the front.
fn place() -> io::Result<PathBuf> {
    if let Some(folder) = std::env::var_os("PERCH_LIBEXEC") {
        return std::path::absolute(folder);
    }
    let front = std::env::current_exe()?;
    Ok(front.parent().unwrap_or(Path::new("/")).join("../libexec/perchpulley"))
}

/// A failure of the front's own, with the name that it is about.
type Failure = (OsString, io::Error);

fn about<T>(name: impl AsRef<OsStr>, result: io::Result<T>) -> Result<T, Failure> {
    result.map_err(|error| (name.as_ref().to_owned(), error))
}

fn command(program: Program, words: &[OsString], log: Option<File>) -> io::Result<Command> {
    let mut command = Command::new(place()?.join(program.name()));
    command.args(words).stdout(Stdio::piped()).stderr(Stdio::piped());
    if let Some(log) = log {
        command.stdin(log);
    }
    Ok(command)
}

/// Passes on what a program writes, to its end. Where standard output fails, the program is ended.
fn passed(child: &mut Child) -> io::Result<[Passed; 2]> {
    let (Some(out), Some(err)) = (child.stdout.take(), child.stderr.take()) else {
        return Err(ErrorKind::BrokenPipe.into());
    };
    let (to_out, to_err) = (pass::unbuffered(io::stdout())?, pass::unbuffered(io::stderr())?);
    let beside = thread::Builder::new().spawn(move || pass::on(err, to_err, true))?;
    let out = pass::on(out, to_out, false);
    if out.failure.is_some() {
        child.kill()?;
    }
    let err = beside.join().map_err(|_| io::Error::from(ErrorKind::Other))?;
    Ok([out, err])
}

/// Says that standard output failed, as a program itself would; a reader that has gone is told nothing.
fn tell(program: Program, out: &Passed) {
    if out.failure.as_ref().is_some_and(|error| error.kind() != ErrorKind::BrokenPipe) {
        say(format_args!("{}: standard output can't be written", program.name()));
    }
}

/// What became of a program that runs, to its end.
fn ended(program: Program, child: &mut Child) -> io::Result<Ended> {
    signals::go_to(child.id());
    let passed = passed(child);
    if passed.is_err() {
        let _ = child.kill();
    }
    let end = child.wait();
    signals::go_to(0);
    let [out, err] = passed?;
    tell(program, &out);
    let whole = end?.success() && out.failure.is_none() && err.failure.is_none();
    Ok(Ended { out: out.ends, err: err.ends, whole })
}

/// Reads what is given by name, which a signal may break off, then runs the program, with a folder for the sample memory if one is given.
fn run(program: Program, asked: &Asked) -> Result<Status, Failure> {
    let log = asked.log.as_ref().map(|name| about(name, File::open(name))).transpose()?;
    let memory = asked.sample.as_ref().map(|name| about(name, sample::read(name))).transpose()?;
    let mut command = about(program.name(), command(program, &asked.words, log))?;
    signals::caught();
    let folder = memory.map(|bytes| about("sample.bin", Folder::with(&bytes))).transpose()?;
    if let Some(folder) = &folder {
        command.current_dir(folder.path());
    }
    let mut child = command.spawn().map_err(|error| (command.get_program().to_owned(), error))?;
    let ended = about(program.name(), ended(program, &mut child))?;
    Ok(status::status(&ended, asked.last))
}

/// Runs a proved program with these words, and says how it went.
pub fn front(program: Program, words: Vec<OsString>) -> Status {
    let Some(asked) = asked(program, words) else {
        say(program.usage());
        return Status::Words;
    };
    let result = run(program, &asked);
    signals::heed();
    result.unwrap_or_else(|(name, error)| {
        say(format_args!("{}: {}: {}", program.name(), name.display(), why(&error)));
        Status::NotWhole
    })
}

#[cfg(test)]
mod tests {
    use super::*;

    fn of(program: Program, words: &str) -> Option<(usize, Option<OsString>)> {
        asked(program, words.split_whitespace().map(OsString::from).collect()).map(|a| (a.words.len(), a.log))
    }

    #[test]
    fn names() {
        assert_eq!(Program::named(OsStr::new("/usr/bin/player")), Program::Player);
        assert_eq!(Program::named(OsStr::new("perch")), Program::Perch);
        assert_eq!(Program::named(OsStr::new("")), Program::Perch);
    }

    #[test]
    fn words() {
        assert_eq!(of(Program::Player, ""), Some((0, None)));
        assert_eq!(of(Program::Player, "-s m.bin a.log"), Some((0, Some("a.log".into()))));
        assert_eq!(of(Program::Player, "a.log b.log"), None);
        assert_eq!(of(Program::Player, "-x"), None);
        assert_eq!(of(Program::Perch, ""), Some((0, None)));
        assert_eq!(of(Program::Perch, "why 5 -s m.bin a.log"), Some((2, Some("a.log".into()))));
        assert_eq!(of(Program::Perch, "check -x"), None);
        assert_eq!(of(Program::Perch, "check -s"), None);
        assert_eq!(of(Program::Perch, "-s"), Some((1, None)));
    }

    #[test]
    fn failures_in_words() {
        assert_eq!(why(&io::Error::from_raw_os_error(2)), "No such file or directory");
    }
}
