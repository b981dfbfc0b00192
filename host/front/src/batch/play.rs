//! One log of a batch, or one VGM file.

use super::file::{self, Part};
use super::kept::is_kept;
use super::line::Outcome;
use super::names::Log;
use super::words::Asked;
use crate::ends::Ends;
use crate::program::why;
use perch::Player;
use std::fs::File;
use std::io::{self, Read, Write};
use std::path::Path;

/// A byte more than a VGM file may have, so that a longer one is seen, and a longer log.
const MOST: u64 = perch::VGM as u64 + 1;

fn read(path: &Path) -> io::Result<Vec<u8>> {
    let mut log = Vec::new();
    File::open(path)?.take(MOST).read_to_end(&mut log)?;
    Ok(log)
}

/// Four bytes, low byte first; past the end there are zeros.
fn word(file: &[u8], at: usize) -> u32 {
    u32::from_le_bytes(std::array::from_fn(|i| file.get(at + i).copied().unwrap_or(0)))
}

/// The sample memory that a VGM file brings along; none where it has no sample blocks, and in a log. Where its blocks begin its header
/// says: at $40 before version 1.50 and where that is left open.
fn own_memory(file: &[u8]) -> Option<Vec<u8>> {
    let offset = word(file, 0x34) as usize;
    let start = if word(file, 0x08) < 0x150 || offset == 0 { 0x40 } else { 0x34 + offset };
    let stream = file.strip_prefix(b"Vgm ").and_then(|_| file.get(start..))?;
    let (memory, blocks) = perch::samples(stream).ok()?;
    (blocks > 0).then_some(memory)
}

/// The level lines of a piece, counted by their `v`: no other line of a text (`play=`, `read=`, `stop=`) has that letter. The sum,
/// which is far from wrapping, is one that the compiler makes of many bytes at a time.
fn levels(piece: &[u8]) -> u32 {
    piece.iter().fold(0, |sum: u32, &byte| sum.wrapping_add(u32::from(byte == b'v')))
}

/// The number of a last line `stop=N`.
fn clocks(line: &[u8]) -> Option<u64> {
    str::from_utf8(line.strip_prefix(b"stop=")?).ok()?.parse().ok()
}

/// Writes the player's text piece by piece; it is whole if it ends with its clocks.
fn write(player: Player, to: &mut impl Write) -> io::Result<Outcome> {
    let (mut all, mut bytes, mut ends) = (0, 0, Ends::default());
    for piece in player {
        to.write_all(&piece)?;
        ends.add(&piece);
        all += u64::from(levels(&piece));
        bytes += piece.len() as u64;
    }
    match ends.last_line().and_then(clocks) {
        Some(clocks) => Ok(Outcome::Played { clocks, levels: all, bytes }),
        None => Err(io::Error::other("the text isn't whole")),
    }
}

/// Plays a log to its file.
fn to_file(player: Player, folder: &Path, log: &Log) -> io::Result<Outcome> {
    let mut part = Part::new(folder, &log.name)?;
    let outcome = write(player, &mut part)?;
    part.finish()?;
    Ok(outcome)
}

/// Plays a log, unless its text is kept.
pub fn play(asked: &Asked, log: &Log, memory: &[u8]) -> Outcome {
    let failed = |error: io::Error| Outcome::Failed(why(&error));
    if let Some(fault) = log.fault {
        return Outcome::Failed(fault.into());
    }
    if asked.keep && is_kept(&log.path, &file::path(&asked.folder, &log.name)) {
        return Outcome::Kept;
    }
    let bytes = match read(&log.path) {
        Ok(bytes) => bytes,
        Err(error) => return failed(error),
    };
    let own = own_memory(&bytes);
    match Player::new(&bytes, own.as_deref().unwrap_or(memory)) {
        Ok(player) => to_file(player, &asked.folder, log).unwrap_or_else(failed),
        Err(fault) => Outcome::Refused(fault),
    }
}

#[cfg(test)]
mod tests {
    use super::*;

    #[test]
    fn counted() {
        let log = b"log=1\nwrite=4011:40\nwait=10\nread=4015\nstop=10\n";
        let mut text = Vec::new();
        let outcome = write(Player::new(log, &[0; perch::MEMORY]).unwrap(), &mut text).unwrap();
        assert_eq!(text, b"play=1\nlevel=0:8074\nlevel=0:16620\nread=10:00\nstop=10\n");
        assert_eq!(outcome, Outcome::Played { clocks: 10, levels: 2, bytes: text.len() as u64 });
    }

    #[test]
    fn samples_of_files() {
        let file = |version: u8, offset: u8, start: usize| {
            let mut file = vec![0; start];
            file[..4].copy_from_slice(b"Vgm ");
            (file[0x08], file[0x09], file[0x34]) = (version, 1, offset);
            file.extend([0x67, 0x66, 0xc2, 3, 0, 0, 0, 0x02, 0x80, 0x55, 0x66]);
            file
        };
        for file in [file(0x61, 0x54, 0x88), file(0x50, 0, 0x40), file(0x4f, 0x54, 0x40), file(0x50, 0x0c, 0x40)] {
            assert_eq!(own_memory(&file).unwrap()[..4], [0, 0, 0x55, 0]);
            assert_eq!(own_memory(&file[1..]), None);
        }
        assert_eq!(own_memory(&file(0x61, 0x54, 0x80)), None);
        assert_eq!(own_memory(&file(0x61, 0xff, 0x88)), None);
        assert_eq!(own_memory(b"Vgm "), None);
        assert_eq!(own_memory(b"log=1\nstop=0\n"), None);
    }

    #[test]
    fn level_lines() {
        assert_eq!(levels(b""), 0);
        assert_eq!(levels(b"level=0:1\nread=0:00\nlevel=1:2\nstop=1\n"), 2);
        assert_eq!(levels(b"play=1\nlevel=0:1\n"), 1);
        assert_eq!(clocks(b"stop=10"), Some(10));
        assert_eq!(clocks(b"level=10:1"), None);
    }
}
