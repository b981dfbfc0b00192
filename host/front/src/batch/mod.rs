//! `perch batch`: many logs played by the proved library, each to a file of its own.

mod file;
mod kept;
mod line;
mod names;
mod order;
mod play;
mod pool;
mod progress;
mod words;

use crate::program::{say, why};
use crate::sample;
use crate::status::Status;
use names::Log;
use order::Report;
use progress::Progress;
use std::ffi::{OsStr, OsString};
use std::fs::File;
use std::io::{self, ErrorKind};
use std::path::Path;
use words::Asked;

const NO_SYNC: [ErrorKind; 3] = [ErrorKind::InvalidInput, ErrorKind::Unsupported, ErrorKind::PermissionDenied];

/// The sample memory. Without a name it is `sample.bin`, and where there is none it is empty, as the player has it.
fn memory(asked: Option<&OsStr>) -> Option<Vec<u8>> {
    let name = asked.unwrap_or(OsStr::new("sample.bin"));
    match sample::read(name) {
        Ok(bytes) => Some(bytes),
        Err(error) if asked.is_none() && error.kind() == ErrorKind::NotFound => Some(Vec::new()),
        Err(error) => {
            say(format_args!("perch: {}: {}", name.display(), why(&error)));
            None
        }
    }
}

/// Makes the names of a folder's new files last; a folder that may not be opened, or of a kind that has no such thing, is left as it is.
fn sync(folder: &Path) -> io::Result<()> {
    match File::open(folder).and_then(|folder| folder.sync_all()) {
        Err(error) if NO_SYNC.contains(&error.kind()) => Ok(()),
        result => result,
    }
}

/// Plays the logs, with a line for each and one for all.
fn play(asked: &Asked, logs: &[Log], memory: &[u8]) -> Status {
    let mut report = Report::new(logs, io::stdout().lock(), Progress::new(logs.len()));
    pool::work(asked, logs, memory, |k, outcome| report.add(k, outcome));
    let totals = report.end();
    if totals.played > 0
        && let Err(error) = sync(&asked.folder)
    {
        say(format_args!("perch: {}: {}", asked.folder.display(), why(&error)));
        return Status::NotWhole;
    }
    totals.status()
}

/// Runs the batch that the words behind `batch` ask for.
pub fn batch(words: &[OsString]) -> Status {
    let Some(asked) = words::asked(words) else {
        say(words::USAGE);
        return Status::Words;
    };
    if !perch::ARCHIVE {
        say("perch: batch is built on the stand-in, not on the proved library");
    }
    let Some(memory) = memory(asked.sample.as_deref()) else { return Status::NotWhole };
    let (logs, read) = names::logs(&asked.logs, io::stdin().lock());
    let status = play(&asked, &logs, &memory);
    match read {
        Ok(()) => status,
        Err(error) => {
            say(format_args!("perch: names on standard input: {}", why(&error)));
            Status::NotWhole
        }
    }
}
