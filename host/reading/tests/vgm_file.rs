//! VGM files worked out by hand: their headers, their blocks, and what they stand for. Of an NTSC file 735 samples are 29829.55 clocks
//! and 1470 are 59659.10; of a PAL file 735 are 27710.11, 1470 are 55420.23, 26525 are 1000014.75 and 26524 are 999977.05.

use reading::layout::{place, player as layout};
use reading::log::{Fault, Item, Totals};
use reading::player::{begin, play_on};
use reading::vgm::import_for;
use reading::vgm_file::{MOST_BYTES, check, clock, items, own_memory, samples};
use reading::{MEMORY, Machine, dwell, flags, moment, play, recording, trace, wave};

static MEMORY_0: [u8; MEMORY] = [0; MEMORY];

const PAL: u32 = 1_662_607;

/// A file of a version and an NES clock, with its commands at $100.
fn file(version: u32, clock: u32, commands: &[u8]) -> Vec<u8> {
    let mut file = vec![0; 0x100];
    file[..4].copy_from_slice(b"Vgm ");
    put(&mut file, 0x08, version);
    put(&mut file, 0x34, 0x100 - 0x34);
    put(&mut file, 0x84, clock);
    file.extend(commands);
    file
}

fn put(file: &mut [u8], at: usize, word: u32) {
    file[at..at + 4].copy_from_slice(&word.to_le_bytes());
}

/// A data block.
fn block(kind: u8, held: &[u8]) -> Vec<u8> {
    [&[0x67, 0x66, kind][..], &(held.len() as u32).to_le_bytes(), held].concat()
}

/// A sample block: an address, and bytes for it.
fn sample(address: u16, bytes: &[u8]) -> Vec<u8> {
    block(0xc2, &[&address.to_le_bytes(), bytes].concat())
}

fn fault<T>(number: u8, place: usize) -> Result<T, Fault> {
    Err(Fault { number, place })
}

/// Two writes, a frame apart, and a frame behind them.
const TWO: [u8; 9] = [0xb4, 0x11, 0x40, 0x62, 0xb4, 0x11, 0x05, 0x62, 0x66];

#[test]
fn both_machines() {
    let write = |value| Item::Write(0x4011, value);
    let ntsc = vec![write(0x40), Item::Wait(29829), write(5), Item::Wait(29830)];
    let pal = vec![write(0x40), Item::Wait(27710), write(5), Item::Wait(27710)];
    for clock in [0, 1_789_772, 1_789_773, 1_789_774, 1, PAL + 1, PAL - 1, 1 << 31, 0x3fff_ffff] {
        assert_eq!(items(&file(0x161, clock, &TWO)), Ok(ntsc.clone()), "{clock}");
    }
    // Bit 31 is a flag, and none of ours.
    for clock in [PAL, PAL | 1 << 31] {
        assert_eq!(items(&file(0x161, clock, &TWO)), Ok(pal.clone()));
        assert_eq!(recording::machine(&file(0x171, clock, &TWO)), Ok(Machine::Pal));
    }
    let whole = Totals { clocks: 55420, turns: 4, items: 4 };
    assert_eq!(check(&file(0x161, PAL, &TWO)), Ok(whole));
    let text = "check=1\nmachine=pal\nclocks=55420\nturns=4\nitems=4\n";
    assert_eq!(recording::file_text(&file(0x161, PAL, &TWO)), text);
    // A version before 1.61 has no such clock, and two chips neither.
    assert_eq!(items(&file(0x160, PAL, &TWO)), Ok(ntsc.clone()));
    assert_eq!(items(&file(0x160, PAL | 1 << 30, &TWO)), Ok(ntsc));
    assert_eq!(clock(&file(0x161, 1_000_000 | 1 << 31, &TWO)), 1_000_000);
}

#[test]
fn headers() {
    let right = file(0x161, 0, &TWO);
    // Cut short: the first $40 bytes, then up to where the commands begin, then the commands.
    for length in 4..0x100 {
        assert_eq!(check(&right[..length]), fault(35, 0), "{length}");
    }
    assert_eq!(check(&right[..0x100]), fault(27, 0x100));
    assert_eq!(check(&right[..0x108]), fault(27, 0x108));
    let with = |version, offset| {
        let mut file = file(version, PAL, &TWO);
        file[0x40..0x44].copy_from_slice(&[0x62, 0x70, 0x66, 0]);
        put(&mut file, 0x34, offset);
        check(&file).map(|totals| totals.clocks)
    };
    // A version below 1.50 has its commands at $40, and so has an offset of 0: 736 samples are 29870.13 clocks.
    assert_eq!(with(0x14f, 0x100 - 0x34), Ok(29870));
    assert_eq!(with(0x150, 0), Ok(29870));
    assert_eq!(with(0x161, 0), Ok(29870));
    assert_eq!(with(0x150, 0x100 - 0x34), Ok(59659));
    // The offset's own bytes are no commands; those behind them may be.
    for offset in 1..4 {
        assert_eq!(with(0x150, offset), fault(35, 0));
    }
    assert_eq!(with(0x150, 4), fault(25, 0x38));
    let end = 0x100 + TWO.len() as u32 - 0x34;
    assert_eq!(with(0x161, end), fault(27, 0x109));
    for offset in [end + 1, 0x7fff_ffff, u32::MAX] {
        assert_eq!(with(0x161, offset), fault(35, 0));
    }
    // A header that ends before $88 has no clock: its bytes there are commands.
    let mut short = file(0x161, 0, &[]);
    put(&mut short, 0x34, 0x84 - 0x34);
    put(&mut short, 0x84, PAL | 1 << 30);
    assert_eq!(check(&short), fault(25, 0x84));
    put(&mut short, 0x34, 0x88 - 0x34);
    assert_eq!(check(&short), fault(36, 0x84));
}

#[test]
fn the_order_of_refusals() {
    let outside = sample(0x7fff, &[1]);
    let commands = |first: &[u8], rest: &[u8]| [first, rest].concat();
    // 34 before 25, 26 and 27; 36 before it; 35 and 5 before all.
    let mut bad = file(0x161, PAL, &commands(&outside, &[0x00]));
    assert_eq!(check(&bad), fault(34, 0x100));
    put(&mut bad, 0x84, PAL | 1 << 30);
    assert_eq!(check(&bad), fault(36, 0x84));
    put(&mut bad, 0x34, 0x7fff_ffff);
    assert_eq!(check(&bad), fault(35, 0));
    bad.resize(MOST_BYTES, 0);
    assert_eq!(check(&bad), fault(35, 0));
    bad.push(0);
    assert_eq!(check(&bad), fault(5, 0));
    // In the commands the first byte at fault, then 9.
    assert_eq!(check(&file(0x161, 0, &[0xb4, 0x14, 0])), fault(26, 0x101));
    assert_eq!(check(&file(0x161, 0, &[0xb4, 0x84, 0, 0x66])), fault(26, 0x101));
    let waits = [0x61, 0xff, 0xff].repeat(760);
    assert_eq!(check(&file(0x161, 0, &commands(&waits, &[0x66]))), fault(9, 0));
    assert_eq!(check(&file(0x161, 0, &commands(&waits, &[0x67]))), fault(25, 0x100 + 3 * 760));
    // As many samples are fewer clocks on a PAL machine: 760 x 65535 x 1662607 / 44100 is 1877750607.8.
    let pal = check(&file(0x161, PAL, &commands(&waits, &[0x66])));
    assert_eq!(pal.map(|all| (all.clocks, all.turns)), Ok((1_877_750_607, 1878)));
    let text = "check=1\nrefused=26:257\nbyte 257: register not among 00..13, 15, 17\n";
    assert_eq!(recording::file_text(&file(0x161, 0, &[0xb4, 0x14, 0])), text);
}

#[test]
fn blocks_in_front() {
    let blocks = [block(0x00, &[0x66; 3]), sample(0x8000, &[1, 2]), block(0xc0, &[]), sample(0x8001, &[7])].concat();
    let with = |commands: &[u8]| file(0x161, 0, &[&blocks[..], commands].concat());
    let right = with(&TWO);
    assert_eq!(items(&right).map(|items| items.len()), Ok(4));
    let memory = own_memory(&right).unwrap();
    assert_eq!((&memory[..3], memory.iter().filter(|&&byte| byte > 0).count()), (&[1, 7, 0][..], 2));
    // A fault's place is in the file; a block behind a command is an unknown command.
    assert_eq!(check(&with(&[0x00])), fault(25, 0x100 + blocks.len()));
    let later = [&[0x70][..], &sample(0x8000, &[1]), &[0x66]].concat();
    assert_eq!(check(&file(0x161, 0, &later)), fault(25, 0x101));
    assert_eq!(own_memory(&file(0x161, 0, &later)), None);
    // A block that the file cuts short is none, nor is one without its $66.
    let cut = sample(0x8000, &[1, 2, 3]);
    for length in 1..cut.len() {
        assert_eq!(check(&file(0x161, 0, &cut[..length])), fault(25, 0x100));
    }
    assert_eq!(check(&file(0x161, 0, &cut)), fault(27, 0x100 + cut.len()));
    assert_eq!(check(&file(0x161, 0, &[0x67, 0x67, 0xc2, 2, 0, 0, 0, 0, 0x80, 0x66])), fault(25, 0x100));
    // The size has four bytes.
    assert_eq!(check(&file(0x161, 0, &[0x67, 0x66, 0, 0, 0, 0, 1, 0x66])), fault(25, 0x100));
}

#[test]
fn sample_blocks() {
    let of = |stream: &[u8]| {
        let mut memory = vec![b'?'; MEMORY];
        let answer = samples(stream, &mut memory);
        assert!(answer as u8 == 0 || memory == [b'?'; MEMORY]);
        (answer & 0xff, answer >> 8)
    };
    for (address, bytes, right) in [
        (0x8000, 0, true),
        (0x8000, 32768, true),
        (0x8000, 32769, false),
        (0x8001, 32767, true),
        (0x8001, 32768, false),
        (0xffff, 1, true),
        (0xffff, 2, false),
        (0x7fff, 0, false),
        (0x7fff, 1, false),
        (0x0000, 1, false),
    ] {
        let stream = [block(0x40, &[9]), sample(address, &vec![5; bytes])].concat();
        assert_eq!(of(&stream), if right { (0, 1) } else { (34, 8) }, "{address:x} {bytes}");
    }
    // No address.
    assert_eq!(of(&block(0xc2, &[])), (34, 0));
    assert_eq!(of(&block(0xc2, &[0x80])), (34, 0));
    // Another type is passed over, whatever it holds.
    assert_eq!(of(&block(0xc1, &[0])), (0, 0));
    // The memory is zeros elsewhere; it stays where it isn't 32,768 bytes.
    let mut memory = vec![b'?'; MEMORY];
    assert_eq!(samples(&sample(0xfffe, &[3, 4]), &mut memory), 1 << 8);
    assert_eq!((&memory[32766..], memory[..32766] == [0; 32766]), (&[3, 4][..], true));
    for size in [0, MEMORY - 1, MEMORY + 1] {
        let mut other = vec![b'?'; size];
        assert_eq!((samples(&block(0xc2, &[]), &mut other), other == vec![b'?'; size]), (1, true));
    }
}

#[test]
fn imports_for_a_machine() {
    let of = |machine, stream: &[u8]| {
        let mut text = vec![b'?'; 100];
        let answer = import_for(stream, machine, &mut text);
        (answer & 0xff, String::from_utf8_lossy(&text[..(answer >> 8) as usize]).into_owned())
    };
    let log = "log=1\nmachine=pal\nwait=27710\nwrite=4011:40\nwait=1000000\nwait=14\nstop=1027724\n";
    // 735 + 26525 samples are 1027724.87 clocks.
    assert_eq!(of(1, &[0x62, 0xb4, 0x11, 0x40, 0x61, 0x9d, 0x67, 0x66]), (0, log.into()));
    assert_eq!(of(0, &[0x62, 0x66]), (0, "log=1\nwait=29829\nstop=29829\n".into()));
    assert_eq!(of(2, &[0x00]).0, 2);
    assert_eq!(of(255, &[0x66]).0, 2);
}

#[test]
fn the_imported_log_says_the_same() {
    let stream = [&TWO[..3], &[0xb4, 0x15, 0x1f, 0x61, 0x00, 0x10, 0xb4, 0x10, 0x8f, 0x7f], &TWO[3..]].concat();
    for machine in Machine::ALL {
        let clock = if machine == Machine::Pal { PAL } else { 0 };
        let file = file(0x161, clock, &stream);
        let mut log = vec![0; 1000];
        let length = import_for(&stream, machine as u8, &mut log) >> 8;
        let log = &log[..length as usize];
        let memory = vec![0x55; MEMORY];
        assert_eq!(recording::check(&file), recording::check(log));
        assert_eq!(recording::machine(&file), recording::machine(log));
        assert_eq!(recording::items(&file), recording::items(log));
        assert_eq!(play::text(&file, &memory), play::text(log, &memory));
        assert_eq!(flags::text(&file, &memory), flags::text(log, &memory));
        assert_eq!(dwell::text(&file, &memory), dwell::text(log, &memory));
        assert_eq!(moment::text(&file, &memory, 29000), moment::text(log, &memory, 29000));
        assert_eq!(trace::text(&file, &memory, 100, 500), trace::text(log, &memory, 100, 500));
        assert_eq!(wave::file(&file, &memory, 8000), wave::file(log, &memory, 8000));
    }
}

#[test]
fn refusals_of_files_in_texts() {
    let bad = file(0x161, PAL | 1 << 30, &TWO);
    assert_eq!(play::text(&bad, &MEMORY_0), "play=1\nrefused=36:132\n");
    assert_eq!(dwell::text(&bad, &MEMORY_0), "dwell=1\nrefused=36:132\n");
    assert_eq!(wave::file(&bad, &MEMORY_0, 8000), b"refused=36:132\n");
    assert_eq!(play::text(&bad, &MEMORY_0[1..]), "play=1\nrefused=1:0\n");
}

/// The lines of a file, with a player made from the beginning and changed.
fn changed(file: &[u8], change: impl Fn(&mut [u8])) -> (u64, String) {
    let (mut bytes, mut text) = (vec![7; layout::SIZE], [0; 200]);
    assert_eq!(begin(&mut bytes, &self::file(0x161, PAL, &TWO), &MEMORY_0), 0);
    layout::PHASE.put(&mut bytes, 2);
    change(&mut bytes);
    let kept = bytes.clone();
    let answer = play_on(&mut bytes, file, &MEMORY_0, &mut text);
    assert!(answer as u8 == 0 || bytes == kept);
    (answer & 0xffff_ffff, String::from_utf8_lossy(&text[..(answer >> 32) as usize]).into_owned())
}

#[test]
fn sizes() {
    assert_eq!((layout::SIZE, layout::STATE.start, reading::layout::wav::SIZE), (198, 107, 224));
    assert_eq!((place::SAMPLES.start, place::CLOCK.start, place::SIZE), (88, 92, 96));
}

#[test]
fn players_of_files() {
    let right = file(0x161, PAL, &TWO);
    let over = 1 << 8;
    // With the triangle at 15 the DMC at 64 is 16620, and at 5 it is 32768 x 0.2712.
    let lines = "level=0:16620\nlevel=27710:8886\nstop=55420\n";
    assert_eq!(changed(&right, |_| {}), (over, lines.into()));
    let at = |bytes: &mut [u8], place, samples, clock| {
        let part = layout::CURSOR.of_mut(bytes);
        reading::layout::cursor::PLACE.put(part, place);
        place::SAMPLES.put(part, samples);
        place::CLOCK.put(part, clock);
    };
    // Behind the first wait: the clocks that were given count from 0 on.
    assert_eq!(changed(&right, |bytes| at(bytes, 0x104, 735, 0)).1, "level=27710:8886\nstop=55420\n");
    assert_eq!(changed(&right, |bytes| at(bytes, 0x104, 735, 27700)).1, "level=10:8886\nstop=27720\n");
    // More clocks given than there are: no wait up to the second gap's end.
    assert_eq!(changed(&right, |bytes| at(bytes, 0x104, 735, 55420)).1, "level=0:8886\nstop=0\n");
    assert_eq!(changed(&right, |bytes| at(bytes, 0x104, 735, u64::from(u32::MAX))).1, "level=0:8886\nstop=0\n");
    // At the header it begins from its first command, whatever samples it had.
    assert_eq!(changed(&right, |bytes| at(bytes, 0, 735, 9)), (over, lines.into()));
    // In mid-command, at the end, and behind it: of a place the low 24 bits are told.
    assert_eq!(changed(&right, |bytes| at(bytes, 0x102, 0, 0)), (25 | 0x102 << 8, String::new()));
    assert_eq!(changed(&right, |bytes| at(bytes, 0x109, 0, 0)), (27 | 0x109 << 8, String::new()));
    assert_eq!(changed(&right, |bytes| at(bytes, 0x1234_5678, 0, 0)), (27 | 0x34_5678 << 8, String::new()));
    assert_eq!(changed(&right, |bytes| at(bytes, u64::MAX, 0, 0)), (27 | 0xff_ffff << 8, String::new()));
    // Too many samples: at a wait, and before a write.
    for samples in [100_000_000, u64::from(u32::MAX)] {
        assert_eq!(changed(&right, |bytes| at(bytes, 0x103, samples, 0)), (9, String::new()));
    }
    assert_eq!(changed(&right, |bytes| at(bytes, 0x104, 100_000_001, 0)), (9, String::new()));
    // A file that says no place for its commands, and one for two chips.
    assert_eq!(changed(&right[..0x80], |_| {}), (35, String::new()));
    assert_eq!(changed(&file(0x161, PAL | 1 << 30, &TWO), |_| {}), (35, String::new()));
}
