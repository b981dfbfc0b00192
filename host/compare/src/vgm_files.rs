//! VGM files, drawn: of both machines and of many versions, with data blocks in front, right and damaged.

use crate::imports;
use crate::random::Random;
use reading::vgm::LONGEST_WAIT;
use reading::{Machine, vgm, vgm_file};

/// A file's parts as it is written.
pub struct Drawn {
    /// The header, with bytes up to where the commands begin.
    pub header: Vec<u8>,
    /// The data blocks.
    pub blocks: Vec<Vec<u8>>,
    /// The commands, the end among them.
    pub commands: Vec<Vec<u8>>,
}

const PAL: u32 = 1_662_607;
const TWO_CHIPS: u32 = 1 << 30;

fn put(header: &mut [u8], at: usize, word: u32) {
    if let Some(place) = header.get_mut(at..at + 4) {
        place.copy_from_slice(&word.to_le_bytes());
    }
}

/// The NES clock: of either machine, or none that is known, now and then with a flag.
fn clock(random: &mut Random) -> u32 {
    let any = random.bits() as u32;
    let clock = match random.within(0..=19) {
        0..=8 => PAL,
        9..=11 => 1_789_773,
        12 => 1_789_772,
        13..=15 => 0,
        16 => random.pick(&[PAL - 1, PAL + 1, 1_789_774, 1, 0x3fff_ffff]),
        _ => any & !TWO_CHIPS,
    };
    match random.within(0..=39) {
        0 => clock | TWO_CHIPS,
        1..=3 => clock | 1 << 31,
        _ => clock,
    }
}

/// A header, with where its commands begin: behind the old header, or anywhere behind the offset, around $88 above all.
fn header(random: &mut Random) -> Vec<u8> {
    let any = random.within(0x38..=0x180) as usize;
    let start = random.pick(&[0x40, 0x80, 0x84, 0x87, 0x88, 0x88, 0xc0, 0xc0, 0x100, 0x100, any]);
    let old = start == 0x40;
    let version = match random.within(0..=9) {
        0 if old => random.pick(&[0x100, 0x101, 0x110, 0x14f]),
        0 | 1 => random.pick(&[0x150, 0x151, 0x160]),
        2..=5 => 0x161,
        _ => random.pick(&[0x162, 0x170, 0x171, 0x172, u32::MAX]),
    };
    let any = random.byte();
    let mut header = vec![if random.one_in(4) { any } else { 0 }; start.max(0x40)];
    header[..4].copy_from_slice(b"Vgm ");
    put(&mut header, 0x84, clock(random));
    put(&mut header, 0x08, version);
    let left_open = old && random.one_in(2);
    put(&mut header, 0x34, if left_open { 0 } else { start as u32 - 0x34 });
    header.truncate(start);
    header
}

/// A sample block: some bytes for an address, now and then outside, or up to the last.
fn sample_block(random: &mut Random) -> Vec<u8> {
    let long = random.within(0..=2000) as usize;
    let length = random.pick(&[0, 1, 2, 16, 17, 64, 64, 200, long]);
    let last = (0x10000 - length).min(0xffff) as u64;
    let (any, bits) = (random.within(0x8000..=last), random.bits());
    let address = match random.within(0..=29) {
        0 => random.pick(&[0, 1, 0x7fff, bits & 0x7fff]),
        1 => (last + 1).min(0xffff),
        2..=4 => last,
        5..=12 => 0xc000,
        _ => any,
    };
    let bytes = (0..length).map(|_| random.byte());
    let mut held: Vec<u8> = (address as u16).to_le_bytes().into_iter().chain(bytes).collect();
    if random.one_in(60) {
        held.truncate(random.within(0..=1) as usize);
    }
    block(0xc2, &held)
}

fn block(kind: u8, held: &[u8]) -> Vec<u8> {
    [&[0x67, 0x66, kind][..], &(held.len() as u32).to_le_bytes(), held].concat()
}

/// Data blocks of several types.
fn blocks(random: &mut Random) -> Vec<Vec<u8>> {
    let many = random.pick(&[0, 0, 0, 1, 1, 1, 2, 3, 5]);
    let other = |random: &mut Random| {
        let any = random.byte();
        let kind = random.pick(&[0x00, 0x07, 0x40, 0x7f, 0x80, 0xc0, 0xc1, 0xc3, 0xe0, any]);
        let held: Vec<u8> = (0..random.pick(&[0, 1, 2, 7, 30])).map(|_| random.byte()).collect();
        block(if kind == 0xc2 { 0x02 } else { kind }, &held)
    };
    (0..many).map(|_| if random.one_in(3) { other(random) } else { sample_block(random) }).collect()
}

/// Writes behind which every channel sounds, the DMC with its sample at $C000.
const SOUND: [(u8, u8); 16] = [
    (0x10, 0x4f),
    (0x12, 0x00),
    (0x13, 0x04),
    (0x15, 0x1f),
    (0x00, 0xbf),
    (0x02, 0x1d),
    (0x03, 0xf8),
    (0x04, 0x7a),
    (0x06, 0x0c),
    (0x07, 0xf8),
    (0x08, 0xff),
    (0x0b, 0xf8),
    (0x0c, 0x3b),
    (0x0e, 0x01),
    (0x0f, 0xf8),
    (0x17, 0x80),
];

/// Waits by any command, most of them short, with writes between them, some at one stamp.
fn commands(random: &mut Random) -> Vec<Vec<u8>> {
    let mut commands = Vec::new();
    if !random.one_in(4) {
        commands.extend(SOUND.map(|(register, value)| vec![0xb4, register, value]));
    }
    for _ in 0..random.within(0..=12) {
        commands.extend((0..random.pick(&[0, 1, 1, 2, 5])).map(|_| imports::write(random)));
        let any = random.within(0..=300);
        commands.push(match random.within(0..=9) {
            0 => vec![0x62],
            1 => vec![0x63],
            2 => imports::wait_command(any),
            3 => imports::wait_command(random.pick(&[0, 1, 2, 735, 882, 1000])),
            _ => vec![0x70 + random.within(0..=15) as u8],
        });
    }
    if random.one_in(30) {
        // Around a gap of 1,000,000 and of 2,000,000 clocks on either machine, and the longest wait.
        let samples = random.pick(&[24_639, 24_640, 24_641, 26_524, 26_525, 53_049, 53_050, 49_280, 65_535]);
        commands.push(imports::wait_command(samples));
    }
    commands.push(vec![0x66]);
    if random.one_in(4) {
        commands.push((0..random.within(1..=5)).map(|_| random.byte()).collect());
    }
    commands
}

/// A file that is right but for what its parts may bring.
pub fn drawn(random: &mut Random) -> Drawn {
    Drawn { header: header(random), blocks: blocks(random), commands: commands(random) }
}

impl Drawn {
    /// The file's bytes.
    pub fn bytes(&self) -> Vec<u8> {
        [self.header.clone(), self.blocks.concat(), self.commands.concat()].concat()
    }
}

/// Damages a file in one way: a byte of any part, a command, or the end of it all.
fn damage(random: &mut Random, drawn: &mut Drawn) -> Vec<u8> {
    if random.one_in(2) {
        imports::damage(random, &mut drawn.commands);
        return drawn.bytes();
    }
    let blocks: usize = drawn.blocks.iter().map(Vec::len).sum();
    let mut file = drawn.bytes();
    let front = (drawn.header.len() + blocks) as u64;
    let at = |random: &mut Random, before: u64| random.within(0..=before - 1) as usize;
    match random.within(0..=5) {
        0 => file.truncate(random.within(4..=file.len() as u64) as usize),
        // In a block, or the header's last bytes.
        1 | 2 => {
            let from = drawn.header.len() as u64 - 1;
            let at = random.within(from..=(front - 1).max(from)) as usize;
            file[at] = random.byte();
        }
        // One of the words of the header that count, at its edges, or a byte of it, or of where it begins.
        3 if random.one_in(2) => {
            let behind = file.len() as u32 - 0x34;
            let offset = random.pick(&[1, 2, 3, 4, 5, behind - 1, behind, behind + 1, u32::MAX]);
            let version = random.pick(&[0x14f, 0x150, 0x160, 0x161]);
            let (at, word) = random.pick(&[(0x34, offset), (0x34, offset), (0x08, version)]);
            put(&mut file, at, word);
        }
        3 => {
            let word = random.pick(&[0x00, 0x08, 0x34, 0x34, 0x84, 0x84]);
            let at = (word + random.within(0..=3) as usize).min(file.len() - 1);
            file[at] = random.byte();
        }
        // A block behind a command.
        4 => {
            let blocks = drawn.blocks.concat();
            let place = front as usize + drawn.commands[0].len();
            file.splice(place..place, blocks);
        }
        _ => {
            let at = at(random, file.len() as u64);
            file[at] = random.byte();
        }
    }
    file
}

/// A file: right, damaged, or over the totals.
pub fn file(random: &mut Random) -> Vec<u8> {
    let mut drawn = drawn(random);
    if random.one_in(150) {
        drawn.commands.insert(0, imports::wait_command(65_535).repeat(random.pick(&[751, 752, 810, 811, 900])));
    }
    if random.one_in(3) { damage(random, &mut drawn) } else { drawn.bytes() }
}

/// The file that is longest, or one byte longer.
pub fn longest(random: &mut Random, over: usize) -> Vec<u8> {
    let mut file = drawn(random).bytes();
    file.resize(vgm_file::MOST_BYTES + over, 0);
    file
}

/// A file for two chips: its header has a NES clock, with their flag.
pub fn for_two_chips(random: &mut Random) -> Vec<u8> {
    let mut drawn = drawn(random);
    let start = drawn.header.len().max(0x88);
    drawn.header.resize(start, 0);
    put(&mut drawn.header, 0x08, random.pick(&[0x161, 0x172, u32::MAX]));
    put(&mut drawn.header, 0x34, start as u32 - 0x34);
    put(&mut drawn.header, 0x84, clock(random) | TWO_CHIPS);
    drawn.bytes()
}

/// A right file with one clock left behind a longest wait: 24,640 samples of an NTSC machine are 1,000,000.15 clocks, and they begin late
/// in a clock. A write comes behind them, or the end.
pub fn one_clock_left(random: &mut Random) -> Vec<u8> {
    let (samples, stands) = (24_640, |samples: u64| vgm::clocks(Machine::Ntsc, samples.into()));
    let is_late = |from: &u64| stands(from + samples) - stands(*from) == LONGEST_WAIT + 1;
    let from = (random.within(0..=300)..).find(is_late).expect("one sample of seven is late");
    let mut header = vec![0; 0x40];
    header[..4].copy_from_slice(b"Vgm ");
    let last: &[u8] = if random.one_in(2) { &[0xb4, 0x11, 0x7f, 0x66] } else { &[0x66] };
    let [before, gap] = [from, samples].map(imports::wait_command);
    [&header, &before[..], &[0xb4, 0x11, 0x40], &gap, last].concat()
}
