//! Request 14: a log's equal lines in a row, written as loops.

use crate::log::{Fault, Line, MOST_TURNS, Placed, passed};
use crate::number;

/// The most lines of a loop that is made, and the most copies.
const MOST_LINES: usize = 16;
const MOST_COPIES: usize = 255;

/// A loop that stands for copies of some lines, one after the other.
#[derive(Clone, Copy, Debug, PartialEq, Eq)]
pub struct Fold {
    /// The lines of one copy.
    pub lines: usize,
    /// The copies, the first counted.
    pub copies: usize,
}

/// The bytes of some lines.
fn bytes<'a>(log: &'a [u8], lines: &[Placed]) -> &'a [u8] {
    match lines {
        [] => &[],
        [first, .., last] => &log[first.1.start..last.1.end],
        [only] => &log[only.1.clone()],
    }
}

/// Whether these are all waits, writes and reads.
fn items(lines: &[Placed]) -> bool {
    lines.iter().all(|(line, _)| matches!(line, Line::Item(_)))
}

/// The loop of the next `count` lines and their copies: none where a line is of another kind, or no copy follows.
fn of_lines(log: &[u8], next: &[Placed], count: usize) -> Option<Fold> {
    let body = next.get(..count).filter(|body| items(body))?;
    let same = |copy: &&[Placed]| items(copy) && bytes(log, copy) == bytes(log, body);
    let copies = next.chunks_exact(count).take(MOST_COPIES).take_while(same).count();
    (copies > 1).then_some(Fold { lines: count, copies })
}

/// A fold's text.
fn text(log: &[u8], next: &[Placed], Fold { lines, copies }: Fold) -> Vec<u8> {
    [format!("loop={copies}\n").as_bytes(), bytes(log, &next[..lines]), b"done=loop\n"].concat()
}

/// A log folded, with the folds made; so many turns in all are allowed.
pub fn folded_within(log: &[u8], most_turns: u128) -> Result<(Vec<u8>, Vec<Fold>), Fault> {
    let (lines, totals) = passed(log)?;
    let (mut written, mut folds) = (Vec::new(), Vec::new());
    let (mut turns, mut open, mut at) = (totals.turns, 0, 0);
    while at < lines.len() {
        let next = &lines[at..];
        let shorter = |fold: &Fold| text(log, next, *fold).len() < bytes(log, &next[..fold.lines * fold.copies]).len();
        // A loop of so many copies has a turn more for each.
        let allowed = |fold: &Fold| turns + fold.copies as u128 <= most_turns;
        let fold = (1..=MOST_LINES)
            .filter(|_| open == 0)
            .filter_map(|count| of_lines(log, next, count))
            .find(|fold| shorter(fold) && allowed(fold));
        match fold {
            Some(fold) => {
                written.extend(text(log, next, fold));
                turns += fold.copies as u128;
                at += fold.lines * fold.copies;
                folds.push(fold);
            }
            None => {
                match next[0].0 {
                    Line::Loop(_) => open += 1,
                    Line::Done => open -= 1,
                    _ => {}
                }
                written.extend(bytes(log, &next[..1]));
                at += 1;
            }
        }
    }
    Ok((written, folds))
}

/// A log folded.
pub fn folded(log: &[u8]) -> Result<Vec<u8>, Fault> {
    folded_within(log, MOST_TURNS).map(|(written, _)| written)
}

/// What a caller in C is answered: 2^32 x the folded log's length, which goes to the text, or number + 2^8 x place.
pub fn fold(log: &[u8], text: &mut [u8]) -> u64 {
    let written = match folded(log) {
        Ok(_) if text.len() < log.len() => Err(Fault { number: number::FOLD_ROOM, place: 0 }),
        written => written,
    };
    match written {
        Ok(written) => {
            text[..written.len()].copy_from_slice(&written);
            (written.len() as u64) << 32
        }
        Err(Fault { number, place }) => u64::from(number) | (place as u64) << 8,
    }
}
