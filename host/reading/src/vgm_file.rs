//! A VGM file: its header, the data blocks in front of its commands, and what it stands for.
//!
//! Of the header four words are read, each low byte first: the version at $08, where the commands begin at $34, counted from there (a
//! version below 1.50 has them at $40), and, from version 1.61 on, the NES clock at $84. A data block is $67 $66, its type, its size in
//! four bytes, then as many bytes; one of type $C2 is for the chip's memory: two bytes of an address, then what goes there.

use crate::log::{Fault, Item, Totals};
use crate::machine::Machine;
use crate::{MEMORY, number, vgm};
use std::ops::Range;

/// The most bytes of a file.
pub const MOST_BYTES: usize = 524_288;

const VERSION: usize = 0x08;
const DATA_OFFSET: usize = 0x34;
/// Where the NES clock stands.
pub const NES_CLOCK: usize = 0x84;
/// The shortest header, behind which the commands of old files begin.
const OLD_HEADER: usize = 0x40;

/// Whether bytes are a VGM file: they begin with `Vgm `.
pub fn is_file(bytes: &[u8]) -> bool {
    bytes.starts_with(b"Vgm ")
}

/// Four bytes, low byte first; past the file's end there are zeros.
fn word(file: &[u8], at: usize) -> u32 {
    u32::from_le_bytes(std::array::from_fn(|i| file.get(at + i).copied().unwrap_or(0)))
}

/// Where the header says that the commands begin, in the file or not.
fn told_start(file: &[u8]) -> usize {
    match word(file, DATA_OFFSET) {
        _ if word(file, VERSION) < 0x150 => OLD_HEADER,
        // Some files of 1.50 leave it open.
        0 => OLD_HEADER,
        offset => DATA_OFFSET + offset as usize,
    }
}

/// The word of the NES clock; 0 where the header has none.
fn clock_word(file: &[u8]) -> u32 {
    let has_one = word(file, VERSION) >= 0x161 && told_start(file) >= NES_CLOCK + 4;
    if has_one { word(file, NES_CLOCK) } else { 0 }
}

/// The clocks a second that the header says; its two high bits are flags.
pub fn clock(file: &[u8]) -> u32 {
    clock_word(file) & 0x3fff_ffff
}

fn is_dual(file: &[u8]) -> bool {
    clock_word(file) >> 30 & 1 == 1
}

/// The file's machine: PAL by its clock, else NTSC.
pub fn machine(file: &[u8]) -> Machine {
    if u64::from(clock(file)) == Machine::Pal.clocks_a_second() { Machine::Pal } else { Machine::Ntsc }
}

/// Where the bytes behind the header begin, or why there are none.
pub fn commands_at(file: &[u8]) -> Result<usize, Fault> {
    let start = told_start(file);
    // The offset itself is no command.
    if file.len() < OLD_HEADER || start < DATA_OFFSET + 4 || start > file.len() {
        return Err(Fault { number: number::HEADER, place: 0 });
    }
    if is_dual(file) {
        return Err(Fault { number: number::TWO_CHIPS, place: NES_CLOCK });
    }
    Ok(start)
}

/// A data block: where it begins, its type, and where its bytes lie.
#[derive(Clone, Debug, PartialEq, Eq)]
pub struct Block {
    /// Its first byte.
    pub place: usize,
    /// Its type.
    pub kind: u8,
    /// Its bytes.
    pub held: Range<usize>,
}

impl Block {
    /// The block at a place; none where no whole one is.
    fn at(stream: &[u8], place: usize) -> Option<Self> {
        let [0x67, 0x66, kind, a, b, c, d] = *stream.get(place..place + 7)? else {
            return None;
        };
        let held = place + 7..place + 7 + u32::from_le_bytes([a, b, c, d]) as usize;
        (held.end <= stream.len()).then_some(Self { place, kind, held })
    }

    fn is_sample(&self) -> bool {
        self.kind == 0xc2
    }

    /// Where its bytes go in sample memory, and the bytes; 34 where it has no address, or they don't go there.
    fn sample<'a>(&self, stream: &'a [u8]) -> Result<(usize, &'a [u8]), Fault> {
        let fault = Fault { number: number::BLOCK, place: self.place };
        let [low, high, ref bytes @ ..] = stream[self.held.clone()] else {
            return Err(fault);
        };
        let start = usize::from(u16::from_le_bytes([low, high])).checked_sub(0x8000).ok_or(fault)?;
        if start + bytes.len() > MEMORY { Err(fault) } else { Ok((start, bytes)) }
    }
}

/// The blocks in front of a stream, and where its commands begin.
pub fn front(stream: &[u8]) -> (Vec<Block>, usize) {
    let (mut blocks, mut at) = (Vec::new(), 0);
    while let Some(block) = Block::at(stream, at) {
        at = block.held.end;
        blocks.push(block);
    }
    (blocks, at)
}

/// The sample memory that the sample blocks in front of a stream hold, 0 elsewhere, and how many they are.
pub fn sample_memory(stream: &[u8]) -> Result<(Vec<u8>, usize), Fault> {
    let (mut memory, mut count) = (vec![0; MEMORY], 0);
    for block in front(stream).0.iter().filter(|block| block.is_sample()) {
        let (start, bytes) = block.sample(stream)?;
        memory[start..start + bytes.len()].copy_from_slice(bytes);
        count += 1;
    }
    Ok((memory, count))
}

/// What a caller in C is answered: 2^8 x the number of sample blocks, or number + 2^8 x place; refused, the memory stays.
pub fn samples(stream: &[u8], memory: &mut [u8]) -> u64 {
    if memory.len() != MEMORY {
        return number::MEMORY.into();
    }
    match sample_memory(stream) {
        Ok((held, count)) => {
            memory.copy_from_slice(&held);
            (count as u64) << 8
        }
        Err(fault) => u64::from(fault.number) | (fault.place as u64) << 8,
    }
}

/// The sample memory of a file; none where it has no sample block, or one at fault.
pub fn own_memory(file: &[u8]) -> Option<Vec<u8>> {
    let start = commands_at(file).ok()?;
    let (memory, count) = sample_memory(&file[start..]).ok()?;
    (count > 0).then_some(memory)
}

/// Where the first command stands, behind the blocks.
pub fn first_command(file: &[u8]) -> Result<usize, Fault> {
    let start = commands_at(file)?;
    Ok(start + front(&file[start..]).1)
}

/// The list that a file stands for.
pub fn items(file: &[u8]) -> Result<Vec<Item>, Fault> {
    if file.len() > MOST_BYTES {
        return Err(Fault { number: number::LONG, place: 0 });
    }
    let start = commands_at(file)?;
    let in_file = |from: usize| move |fault: Fault| Fault { place: from + fault.place, ..fault };
    sample_memory(&file[start..]).map_err(in_file(start))?;
    let first = first_command(file)?;
    let meant = vgm::meant_for(machine(file), &file[first..]).map_err(in_file(first))?;
    vgm::acts(&meant)
}

/// What a file comes to, or its fault: with no loops each turn is an item.
pub fn check(file: &[u8]) -> Result<Totals, Fault> {
    let items = items(file)?;
    let clocks = |item: &Item| if let Item::Wait(clocks) = item { u128::from(*clocks) } else { 0 };
    let count = items.len() as u128;
    Ok(Totals { clocks: items.iter().map(clocks).sum(), turns: count, items: count })
}
