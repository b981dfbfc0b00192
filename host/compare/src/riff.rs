//! A reader of WAV files by the form of RIFF: chunks one in the other, each with its name and its size. It knows nothing of what `perch wav`
//! writes.

/// A sound: what the `fmt ` chunk says, and the bytes of the `data` chunk.
#[derive(Clone, Debug, PartialEq, Eq)]
pub struct Sound {
    /// 1 for PCM.
    pub format: u16,
    /// The channels.
    pub channels: u16,
    /// Samples a second, of each channel.
    pub rate: u32,
    /// Bytes a second.
    pub bytes_a_second: u32,
    /// Bytes of one sample of all channels.
    pub block: u16,
    /// Bits of a sample.
    pub bits: u16,
    /// The samples' bytes.
    pub data: Vec<u8>,
}

fn short(bytes: &[u8], at: usize) -> u16 {
    u16::from_le_bytes([bytes[at], bytes[at + 1]])
}

fn long(bytes: &[u8], at: usize) -> u32 {
    u32::from(short(bytes, at)) | u32::from(short(bytes, at + 2)) << 16
}

/// A chunk: its name, what it holds, and what stands behind it.
type Chunk<'a> = (&'a [u8], &'a [u8], &'a [u8]);

/// The first chunk.
fn chunk(bytes: &[u8]) -> Result<Chunk<'_>, String> {
    if bytes.len() < 8 {
        return Err(format!("{} bytes are no chunk", bytes.len()));
    }
    let (head, rest) = bytes.split_at(8);
    let size = long(head, 4) as usize;
    if size > rest.len() {
        return Err(format!("a chunk of {size} bytes, of which {} are there", rest.len()));
    }
    // A chunk of an odd size is followed by one byte more.
    let (held, behind) = rest.split_at(size);
    Ok((&head[..4], held, behind.get(size % 2..).unwrap_or_default()))
}

/// Reads a file; nothing may stand behind its sound.
pub fn read(file: &[u8]) -> Result<Sound, String> {
    let (b"RIFF", riff, []) = chunk(file)? else { return Err("no RIFF file, or something behind it".into()) };
    let Some(chunks) = riff.strip_prefix(b"WAVE") else { return Err("no WAVE file".into()) };
    let (b"fmt ", form, behind) = chunk(chunks)? else { return Err("no fmt chunk first".into()) };
    let (b"data", data, []) = chunk(behind)? else { return Err("no data chunk last".into()) };
    if form.len() != 16 {
        return Err(format!("a fmt chunk of {} bytes", form.len()));
    }
    Ok(Sound {
        format: short(form, 0),
        channels: short(form, 2),
        rate: long(form, 4),
        bytes_a_second: long(form, 8),
        block: short(form, 12),
        bits: short(form, 14),
        data: data.to_vec(),
    })
}
