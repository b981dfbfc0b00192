//! Request 12: a damaged log repaired, with a list of what was done.

use crate::log::{Fault, Line, MOST_BYTES, MOST_CLOCKS, MOST_TURNS, Placed, judged, said, totals};
use crate::number;

/// One thing that was done.
#[derive(Clone, Copy, Debug, PartialEq, Eq)]
pub enum Done {
    /// A line dropped: where it began in the damaged log, and why.
    Dropped(usize, u8),
    /// A line added: its place in the new log.
    Added(usize),
}

impl Done {
    /// The two words of its entry.
    pub fn words(self) -> [u32; 2] {
        match self {
            Done::Dropped(start, reason) => [start as u32, reason.into()],
            Done::Added(place) => [place as u32, 0],
        }
    }
}

/// The new log so far.
#[derive(Default)]
struct Kept {
    bytes: Vec<u8>,
    lines: Vec<Placed>,
    /// The loops open in it.
    open: usize,
    /// The ninth loop lines dropped whose `done` is still to come.
    ninths: usize,
    done: Vec<Done>,
}

impl Kept {
    fn keep(&mut self, line: Line, text: &[u8]) {
        match line {
            Line::Loop(_) => self.open += 1,
            Line::Done => self.open -= 1,
            Line::Log | Line::Machine | Line::Item(_) | Line::Stop(_) => {}
        }
        let start = self.bytes.len();
        self.bytes.extend(text);
        self.lines.push((line, start..self.bytes.len()));
    }

    fn add(&mut self, line: Line, text: &str) {
        self.done.push(Done::Added(self.bytes.len()));
        self.keep(line, text.as_bytes());
    }

    /// The line as it would stand behind what has been kept.
    fn judge(&mut self, text: &[u8]) -> Result<Line, u8> {
        let at = self.bytes.len();
        self.bytes.extend(text);
        let judged = judged(&self.bytes, at, self.open);
        self.bytes.truncate(at);
        judged.map(|(line, _)| line).map_err(|fault| fault.number)
    }

    /// Takes a line, or says why it goes.
    fn take(&mut self, text: &[u8], last: bool) -> Result<(), u8> {
        if let Some(Line::Stop(stop)) = said(text) {
            let right = || totals(&self.lines).clocks == u128::from(stop);
            if last && self.open == 0 && right() {
                self.keep(Line::Stop(stop), text);
                return Ok(());
            }
            return Err(if last { number::STOP } else { number::BEHIND });
        }
        let line = self.judge(text).inspect_err(|&number| {
            // A ninth loop.
            if number == number::DEPTH {
                self.ninths += 1;
            }
        })?;
        if line == Line::Done && self.ninths > 0 {
            self.ninths -= 1;
            return Err(number::DEPTH);
        }
        self.keep(line, text);
        Ok(())
    }
}

/// A damaged log repaired, with what was done; or the number by which it is refused.
pub fn salvaged(log: &[u8]) -> Result<(Vec<u8>, Vec<Done>), u8> {
    if log.len() > MOST_BYTES {
        return Err(number::LONG);
    }
    let mut kept = Kept::default();
    if !log.starts_with(b"log=1\n") {
        kept.add(Line::Log, "log=1\n");
    }
    let mut start = 0;
    for text in log.split_inclusive(|byte| *byte == b'\n') {
        if let Err(reason) = kept.take(text, start + text.len() == log.len()) {
            kept.done.push(Done::Dropped(start, reason));
        }
        start += text.len();
    }
    while kept.open > 0 {
        kept.add(Line::Done, "done=loop\n");
    }
    let all = totals(&kept.lines);
    if all.clocks > MOST_CLOCKS || all.turns > MOST_TURNS {
        return Err(number::TOTALS);
    }
    if !matches!(kept.lines.last(), Some((Line::Stop(_), _))) {
        kept.add(Line::Stop(all.clocks as u32), &format!("stop={}\n", all.clocks));
    }
    Ok((kept.bytes, kept.done))
}

/// A damaged log repaired to a buffer of so many bytes and a list of so many words.
pub fn salvaged_to(log: &[u8], bytes: usize, words: usize) -> Result<(Vec<u8>, Vec<Done>), Fault> {
    let refused = |number| Fault { number, place: 0 };
    let (new, done) = salvaged(log).map_err(refused)?;
    if new.len() > bytes.min(MOST_BYTES) {
        return Err(refused(number::REPAIRED));
    }
    if done.len() > words / 2 {
        return Err(refused(number::LIST));
    }
    Ok((new, done))
}

/// What a caller in C is answered: 2^32 x the repaired log's length + 2^48 x the list's entries, which go to the text and the
/// list, or the number.
pub fn salvage(log: &[u8], text: &mut [u8], list: &mut [u32]) -> u64 {
    match salvaged_to(log, text.len(), list.len()) {
        Ok((new, done)) => {
            text[..new.len()].copy_from_slice(&new);
            for (entry, done) in list.chunks_exact_mut(2).zip(&done) {
                entry.copy_from_slice(&done.words());
            }
            (new.len() as u64) << 32 | (done.len() as u64) << 48
        }
        Err(Fault { number, .. }) => number.into(),
    }
}
