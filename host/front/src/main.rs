//! `perch` and `player` with an exit status: the proved programs are run, their bytes passed on as they are, and the status says what
//! became of them. `perch batch` is the front's own. See docs/BATCH.md.

mod batch;
mod ends;
mod pass;
mod program;
mod sample;
mod signals;
mod status;
mod verbs;
mod words;

use program::Program;
use std::ffi::OsString;
use std::process::ExitCode;

fn main() -> ExitCode {
    let mut words = std::env::args_os();
    let program = Program::named(&words.next().unwrap_or_default());
    let words: Vec<OsString> = words.collect();
    let status = match (program, words.first()) {
        (Program::Perch, Some(verb)) if verb == "batch" => batch::batch(&words[1..]),
        _ => program::front(program, words),
    };
    status.into()
}
