//! What the wrapper makes of the library's answers.

use perch::{Access, Chip, Cursor, Fault, Found, Item, MEMORY, Machine, Piece, Player, Refusal, Wav};

const LOG: &[u8] = b"log=1\nloop=3\nwait=10\nwrite=4011:40\ndone=loop\nread=4015\nstop=30\n";

fn fault(number: u8, place: usize) -> Fault {
    Fault { refusal: Refusal(number), place }
}

#[test]
fn items_by_number() {
    assert_eq!(perch::item(LOG, 0), Ok(Item::Wait(10)));
    assert_eq!(perch::item(LOG, 3), Ok(Item::Write(0x4011, 0x40)));
    assert_eq!(perch::item(LOG, 6), Ok(Item::Read));
    assert_eq!(perch::item(LOG, 7), Err(fault(11, 0)));
    assert_eq!(perch::item(b"log=1\n", 0), Err(fault(18, 6)));
}

#[test]
fn bodies_of_loops() {
    assert_eq!(perch::body(LOG, 6), Ok(&b"wait=10\nwrite=4011:40\n"[..]));
    assert_eq!(perch::body(LOG, 0), Err(fault(12, 0)));
    assert_eq!(perch::body(b"log=1\nloop=2\ndone=loop\nstop=0\n", 6), Ok(&b""[..]));
}

#[test]
fn machines_of_chips() {
    for machine in [Machine::Ntsc, Machine::Pal] {
        let mut chip = Chip::power_on(machine);
        assert_eq!(chip.machine(), machine);
        chip.access(Access::Write(0x4015, 0x1f)).unwrap();
        assert_eq!(chip.machine(), machine);
        assert_eq!(Chip::from_bytes(*chip.bytes()), Ok(chip));
    }
    assert_eq!(Chip::from_bytes([0xff; perch::STATE]), Err(Refusal(2)));
}

#[test]
fn levels_as_fractions() {
    let mut chip = Chip::power_on(Machine::Ntsc);
    assert_eq!(chip.level_f32(), Ok(8074.0 / 32768.0));
    chip.access(Access::Write(0x4011, 0x40)).unwrap();
    assert_eq!(chip.level_f32(), Ok(16620.0 / 32768.0));
}

#[test]
fn cursors_of_bytes() {
    let mut cursor = Cursor::new();
    for _ in 0..3 {
        cursor.next(LOG).unwrap();
    }
    let mut stored = Cursor::from_bytes(*cursor.bytes());
    assert_eq!(stored, cursor);
    assert_eq!(stored.next(LOG), Ok(Found::Item(Item::Write(0x4011, 0x40))));
    // Any bytes are a cursor: this one stands far behind the log's end.
    assert_eq!(Cursor::from_bytes([0xff; perch::CURSOR]).next(LOG), Err(fault(18, LOG.len())));
}

#[test]
fn players_are_copied_and_stored() {
    let memory = vec![0x55; MEMORY];
    let log = b"log=1\nwrite=4015:01\nwrite=4000:bf\nwrite=4002:10\nwrite=4003:00\nloop=3\nwait=1000000\ndone=loop\nstop=3000000\n";
    let whole: Vec<u8> = Player::new(log, &memory).unwrap().flatten().collect();
    let mut player = Player::new(log, &memory).unwrap();
    let first: Vec<u8> = player.by_ref().take(2).flatten().collect();
    assert!(first.len() < whole.len() && whole.starts_with(&first));
    // The time is not before the last line and not past the next.
    let clock = |line: &[u8]| -> u32 {
        let line = std::str::from_utf8(line).unwrap();
        line.split(['=', ':']).nth(1).unwrap().parse().unwrap()
    };
    let last = first.split(|byte| *byte == b'\n').nth_back(1).unwrap();
    let next = whole[first.len()..].split(|byte| *byte == b'\n').next().unwrap();
    assert!((clock(last)..=clock(next)).contains(&player.time()), "{}", player.time());
    let copy = player.clone();
    let stored = Player::from_bytes(*player.bytes(), log, &memory).unwrap();
    for (rest, kind) in [(player, "itself"), (copy, "a copy"), (stored, "a stored one")] {
        assert!([&first[..], &rest.flatten().collect::<Vec<u8>>()].concat() == whole, "{kind}");
    }
}

#[test]
fn players_end() {
    let memory = vec![0; MEMORY];
    let mut player = Player::new(LOG, &memory).unwrap();
    assert_eq!(player.time(), 0);
    assert!(player.by_ref().flatten().collect::<Vec<u8>>().ends_with(b"stop=30\n"));
    assert_eq!((player.time(), player.fault()), (30, None));
    assert_eq!(Player::from_bytes(*player.bytes(), LOG, &memory).unwrap().next(), None);
    // Bytes that are no player, memory of another length, and a player that this log didn't lead to.
    assert_eq!(Player::from_bytes([0xff; perch::PLAYER], LOG, &memory).err(), Some(fault(2, 0)));
    assert_eq!(Player::from_bytes(*player.bytes(), LOG, &memory[1..]).err(), Some(fault(1, 0)));
    let begun = *Player::new(LOG, &memory).unwrap().bytes();
    let mut other = Player::from_bytes(begun, b"log=1\nnothing\n", &memory).unwrap();
    other.by_ref().for_each(drop);
    assert_eq!(other.fault(), Some(fault(14, 6)));
}

/// The pieces of a file joined, each in a buffer of so many bytes.
fn joined(mut wav: Wav, size: usize) -> Vec<u8> {
    let (mut file, mut out) = (Vec::new(), vec![0; size]);
    loop {
        let piece = wav.on(&mut out).unwrap();
        file.extend(&out[..piece.written]);
        if piece.over {
            return file;
        }
    }
}

#[test]
fn wavs_in_pieces() {
    let memory = vec![0; MEMORY];
    // At 8000 a second the samples end at clocks 223, 447, 671; the write at clock 223 is heard from the second on.
    let log = b"log=1\nwait=223\nwrite=4011:40\nwait=447\nstop=670\n";
    let (begun, size) = Wav::begin(log, &memory, 8000).unwrap();
    let whole = joined(begun.clone(), 44);
    assert_eq!((whole.len() as u64, size), (48, 48));
    assert_eq!((&whole[..4], &whole[8..16], &whole[36..40]), (&b"RIFF"[..], &b"WAVEfmt "[..], &b"data"[..]));
    let number = |at: usize| u32::from_le_bytes(std::array::from_fn(|place| whole[at + place]));
    assert_eq!([4, 24, 28, 40].map(number), [40, 8000, 16000, 4]);
    assert_eq!(whole[44..], [8074u16, 16620].map(u16::to_le_bytes).concat());
    for size in [44, 45, 46, 48, 100] {
        assert_eq!(joined(begun.clone(), size), whole);
    }
    // The head in one piece alone, samples in whole ones; the file that is stored goes on.
    let mut wav = begun;
    let nothing = Piece { written: 0, over: false };
    let mut out = [b'?'; 60];
    assert_eq!(wav.on(&mut out[..43]), Ok(nothing));
    assert_eq!(wav.on(&mut out), Ok(Piece { written: 44, over: false }));
    assert_eq!(wav.on(&mut out[..1]), Ok(nothing));
    assert_eq!(wav.on(&mut out[..3]), Ok(Piece { written: 2, over: false }));
    let stored = Wav::from_bytes(*wav.bytes(), log, &memory).unwrap();
    assert_eq!(joined(stored, 4), whole[46..]);
    assert_eq!(joined(wav, 2), whole[46..]);
}

#[test]
fn wavs_refused() {
    let memory = vec![0; MEMORY];
    let refused = |log, memory, rate| Wav::begin(log, memory, rate).map(|_| ()).expect_err("it is refused");
    assert_eq!(refused(LOG, &memory[1..], 0), fault(1, 0));
    assert_eq!(refused(&LOG[..20], &memory, 0), fault(17, 20));
    for rate in [0, 7_999, 192_001, u32::MAX] {
        assert_eq!(refused(LOG, &memory, rate), fault(33, 0));
    }
    let (mut wav, size) = Wav::begin(LOG, &memory, 192_000).unwrap();
    assert_eq!(size, 44 + 2 * 3);
    wav.on(&mut [0; 44]).unwrap();
    assert_eq!(Wav::from_bytes([0xff; perch::WAV], LOG, &memory).err(), Some(fault(2, 0)));
    assert_eq!(Wav::from_bytes(*wav.bytes(), LOG, &memory[1..]).err(), Some(fault(1, 0)));
    // A file that this log didn't lead to: refused by the line that it comes to, and it stays.
    let mut other = Wav::from_bytes(*wav.bytes(), b"log=1\nnothing\n", &memory).unwrap();
    let mut out = [b'?'; 60];
    assert_eq!(other.on(&mut out), Err(fault(14, 6)));
    assert_eq!((out, other.bytes()), ([b'?'; 60], wav.bytes()));
}

/// A VGM file of a PAL machine with a sample block, its commands behind it at 0x92.
fn vgm_file() -> Vec<u8> {
    let mut file = vec![0; 0x88];
    for (at, word) in [(0x08, 0x161), (0x34, 0x88 - 0x34), (0x84, 1_662_607u32)] {
        file[at..at + 4].copy_from_slice(&word.to_le_bytes());
    }
    file[..4].copy_from_slice(b"Vgm ");
    file.extend([0x67, 0x66, 0xc2, 3, 0, 0, 0, 0x00, 0xc0, 0x55]);
    file.extend([0xb4, 0x11, 0x40, 0x62, 0xb4, 0x11, 0x05, 0x66]);
    file
}

#[test]
fn vgm_files_are_recordings() {
    let file = vgm_file();
    let (memory, blocks) = perch::samples(&file[0x88..]).unwrap();
    assert_eq!((blocks, memory[0x4000], memory.iter().filter(|&&byte| byte > 0).count()), (1, 0x55, 1));
    let log = perch::import_for(&file[0x92..], Machine::Pal).unwrap();
    assert_eq!(log, b"log=1\nmachine=pal\nwrite=4011:40\nwait=27710\nwrite=4011:05\nstop=27710\n");
    let text = |recording| Player::new(recording, &memory).unwrap().flatten().collect::<Vec<u8>>();
    assert_eq!(text(&file), b"play=1\nlevel=0:8074\nlevel=0:16620\nlevel=27710:8886\nstop=27710\n");
    assert_eq!(text(&log), text(&file));
    let sound = |recording| joined(Wav::begin(recording, &memory, 8000).unwrap().0, 100);
    assert_eq!(sound(&log), sound(&file));
    let (chip, clock) = Chip::at(&file, &memory, 27709).unwrap();
    assert_eq!((chip.machine(), chip.outputs().unwrap().dmc, clock), (Machine::Pal, 64, 27709));
    // A block is no command of a log; the functions of logs take no file.
    assert_eq!(perch::import_for(&file[0x88..], Machine::Pal), Err(fault(25, 0)));
    assert_eq!(perch::check(&file), Err(fault(14, 0)));
}

#[test]
fn vgm_files_refused() {
    let memory = vec![0; MEMORY];
    let refused = |change: &dyn Fn(&mut Vec<u8>)| {
        let mut file = vgm_file();
        change(&mut file);
        let begun = Player::new(&file, &memory).err();
        assert_eq!(Wav::begin(&file, &memory, 0).err(), begun);
        assert_eq!(Chip::at(&file, &memory, 0).err(), begun);
        begun
    };
    assert_eq!(refused(&|file| file.resize(524_289, 0)), Some(fault(5, 0)));
    assert_eq!(refused(&|file| file.truncate(0x3f)), Some(fault(35, 0)));
    assert_eq!(refused(&|file| file[0x87] |= 0x40), Some(fault(36, 0x84)));
    assert_eq!(refused(&|file| file[0x90] = 0x7f), Some(fault(34, 0x88)));
    assert_eq!(refused(&|file| file[0x93] = 0x14), Some(fault(26, 0x93)));
    assert_eq!(refused(&|file| file.truncate(0x95)), Some(fault(27, 0x95)));
    assert_eq!(perch::samples(&[0x67, 0x66, 0xc2, 0, 0, 0, 0]), Err(fault(34, 0)));
}

/// The words of `perch` for a refusal, out of the table that it is built from.
fn words(table: &str, number: u8) -> Option<&str> {
    let line = table.split_once(&format!("(eqb n {number}) (bytes \""))?.1;
    line.split_once('"').map(|(words, _)| words)
}

#[test]
fn refusals_in_words() {
    let root = concat!(env!("CARGO_MANIFEST_DIR"), "/../..");
    let table = std::fs::read_to_string(format!("{root}/crates/perch_reasons/specs/Reasons.antt")).unwrap();
    let header = std::fs::read_to_string(format!("{root}/include/perchpulley.h")).unwrap();
    let refused = header.lines().filter_map(|line| line.strip_prefix("#define PERCH_REFUSED_"));
    let mut numbers = 0;
    for line in refused {
        let number: u8 = line.split_whitespace().nth(1).unwrap().parse().unwrap();
        assert_eq!(Some(Refusal(number).to_string().as_str()), words(&table, number), "{line}");
        numbers += 1;
    }
    assert!(numbers > 30);
    assert_eq!(Refusal(6).to_string(), "refused");
    assert_eq!(fault(16, 67).to_string(), "value outside its range at 67");
    assert_eq!(perch::refusal_text(fault(16, 67)), b"play=1\nrefused=16:67\n");
}

#[test]
fn versions_and_sizes_agree() {
    assert_eq!(perch::version(), perch::VERSION);
    assert_eq!(perch::raw::state_size(), perch::STATE);
    assert_eq!(perch::raw::player_size(), perch::PLAYER);
    assert_eq!(perch::raw::cursor_size(), perch::CURSOR);
    assert_eq!(perch::raw::wav_size(), perch::WAV);
}

#[test]
fn states_at_a_clock() {
    let memory = vec![0; MEMORY];
    let log = b"log=1\nmachine=pal\nwrite=4011:40\nwait=10\nwrite=4011:05\nstop=10\n";
    let (chip, clock) = Chip::at(log, &memory, 9).unwrap();
    assert_eq!((chip.machine(), chip.outputs().unwrap().dmc, clock), (Machine::Pal, 64, 9));
    let (chip, clock) = Chip::at(log, &memory, u64::MAX).unwrap();
    assert_eq!((chip.outputs().unwrap().dmc, clock), (5, 10));
    assert_eq!(Chip::at(log, &memory[1..], 9), Err(fault(1, 0)));
    assert_eq!(Chip::at(&log[..20], &memory, 9), Err(fault(17, 20)));
}

#[test]
fn what_channels_give() {
    let mut chip = Chip::power_on(Machine::Ntsc);
    for (register, value) in [(0x4015, 0x0b), (0x4000, 0xff), (0x4002, 0xfd), (0x4003, 0x08), (0x4011, 0x7f)] {
        chip.access(Access::Write(register, value)).unwrap();
    }
    let gives = perch::Outputs { square1: 15, square2: 0, triangle: 15, noise: 0, dmc: 127 };
    assert_eq!((chip.outputs(), chip.status()), (Ok(gives), Ok(0x01)));
}
