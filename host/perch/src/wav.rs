//! A recording, a log or a VGM file, as a WAV file, in pieces.

use crate::log::{Fault, value};
use crate::raw;

/// How many bytes a WAV file under way is.
pub const WAV: usize = 224;

/// What a piece came to.
#[derive(Clone, Copy, Debug, PartialEq, Eq)]
pub struct Piece {
    /// The bytes written.
    pub written: usize,
    /// Whether they were the file's last.
    pub over: bool,
}

/// The WAV file of a recording, under way (16 bits, one channel). A copy is a bookmark, which gives the same bytes again; `bytes` can be
/// stored, for a library of the same version.
#[derive(Clone, Debug)]
pub struct Wav<'a> {
    bytes: [u8; WAV],
    log: &'a [u8],
    memory: &'a [u8],
}

impl<'a> Wav<'a> {
    /// A recording's file at its beginning, with so many samples a second, 8,000 to 192,000; and the size of the whole file in bytes.
    pub fn begin(log: &'a [u8], memory: &'a [u8], rate: u32) -> Result<(Self, u64), Fault> {
        let mut bytes = [0; WAV];
        let size = value(raw::wav_begin(&mut bytes, log, memory, rate))?;
        Ok((Self { bytes, log, memory }, size))
    }

    /// The file that was stored, with the log and the memory that it began with. Refused: bytes that are no file under way, memory of
    /// another length. Bytes that this log didn't lead to may be refused later.
    pub fn from_bytes(bytes: [u8; WAV], log: &'a [u8], memory: &'a [u8]) -> Result<Self, Fault> {
        // With no room nothing is written.
        value(raw::wav_on(&mut { bytes }, log, memory, &mut []))?;
        Ok(Self { bytes, log, memory })
    }

    /// The bytes of the file under way, to be stored between two pieces.
    pub fn bytes(&self) -> &[u8; WAV] {
        &self.bytes
    }

    /// Writes the file's next bytes to the front of `out`: first its head, 44 bytes, where `out` has as many; then whole samples of two
    /// bytes, as many as fit. The pieces joined are the file. Refused, nothing is written, and the file stays; one that began with its
    /// log and memory never is.
    pub fn on(&mut self, out: &mut [u8]) -> Result<Piece, Fault> {
        let answer = raw::wav_on(&mut self.bytes, self.log, self.memory, out);
        let written = value(answer)? as usize;
        Ok(Piece { written, over: answer >> 8 & 1 == 1 })
    }
}
