//! Sheets worked out by hand from request 5.

use reading::MEMORY;
use reading::sheet::sheet;

/// The levels of a sheet, or the number of its refusal. The buffer has two bytes more than the length.
fn levels(memory: &[u8], level: u64, address: u64, length: u64) -> Result<Vec<u8>, u64> {
    let mut buffer = vec![0xa5; length.min(5000) as usize + 2];
    let answer = sheet(memory, level, address, length, &mut buffer);
    if answer as u8 != 0 {
        assert_eq!(answer >> 8, 0);
        assert!(buffer.iter().all(|byte| *byte == 0xa5));
        return Err(answer);
    }
    assert_eq!(answer, length << 8);
    assert_eq!(buffer.split_off(length as usize), [0xa5, 0xa5]);
    Ok(buffer)
}

/// Memory with these bytes from $8000 on.
fn memory(first: &[u8]) -> Vec<u8> {
    let mut memory = vec![0; MEMORY];
    memory[..first.len()].copy_from_slice(first);
    memory
}

#[test]
fn four_times_the_ones_less_16() {
    for (byte, moved) in [(0x00, -16), (0x01, -12), (0x80, -12), (0x0f, 0), (0xaa, 0), (0xfe, 12), (0xff, 16)] {
        for level in [16, 17, 64, 110, 111] {
            assert_eq!(levels(&memory(&[byte]), level, 0x8000, 1), Ok(vec![(level as i32 + moved) as u8]));
        }
    }
}

#[test]
fn steps_past_an_edge_are_refused() {
    for (level, byte, after) in [
        (0, 0x00, 0),
        (1, 0x00, 1),
        (15, 0x00, 1),
        (2, 0x00, 0),
        (0, 0xff, 16),
        (127, 0xff, 127),
        (126, 0xff, 126),
        (125, 0xff, 127),
        (112, 0xff, 126),
        (113, 0xff, 127),
        (127, 0x00, 111),
        // Bit 0 first: up by 2, then seven down; or seven down, of which none moves, then up.
        (0, 0x01, 0),
        (0, 0x80, 2),
        // Four up, two of which move, then four down; and four down, then four up.
        (123, 0x0f, 119),
        (123, 0xf0, 123),
        // Up and down in turns, and down and up, of which the first down doesn't move.
        (0, 0x55, 0),
        (0, 0xaa, 2),
    ] {
        assert_eq!(levels(&memory(&[byte]), level, 0x8000, 1), Ok(vec![after]), "{level} {byte:02x}");
    }
}

#[test]
fn levels_follow_each_other() {
    assert_eq!(levels(&memory(&[0xff, 0xff, 0x0f, 0x00]), 64, 0x8000, 4), Ok(vec![80, 96, 96, 80]));
    assert_eq!(levels(&memory(&[0xff, 0xff, 0x0f, 0x00]), 64, 0x8001, 2), Ok(vec![80, 80]));
    assert_eq!(levels(&memory(&[]), 64, 0x8000, 0), Ok(vec![]));
}

#[test]
fn the_address_wraps() {
    let mut memory = memory(&[0x0f, 0xff]);
    memory[MEMORY - 1] = 0xff;
    assert_eq!(levels(&memory, 32, 0xfffe, 4), Ok(vec![16, 32, 32, 48]));
    assert_eq!(levels(&memory, 32, 0xffff, 1), Ok(vec![48]));
}

#[test]
fn the_longest() {
    let sheet = levels(&memory(&[]), 127, 0xc000, 4081).unwrap();
    assert_eq!(sheet[..8], [111, 95, 79, 63, 47, 31, 15, 1]);
    assert!(sheet[8..].iter().all(|level| *level == 1));
}

#[test]
fn refusals_lowest_first() {
    let memory = memory(&[]);
    for length in [0, 1, MEMORY - 1] {
        assert_eq!(levels(&memory[..length], 128, 0, 4082), Err(1));
    }
    assert_eq!(levels(&[0; MEMORY + 1], 0, 0x8000, 0), Err(1));
    assert_eq!(levels(&memory, 128, 0, 4082), Err(20));
    assert_eq!(levels(&memory, u64::MAX, 0x8000, 0), Err(20));
    assert_eq!(levels(&memory, 127, 0x7fff, 4082), Err(21));
    assert_eq!(levels(&memory, 127, 0x1_0000, 0), Err(21));
    assert_eq!(levels(&memory, 127, 0x1_8000, 0), Err(21));
    assert_eq!(levels(&memory, 127, 0x8000, 4082), Err(22));
    assert_eq!(levels(&memory, 127, 0x8000, u64::MAX), Err(22));
    // The length comes before the buffer.
    assert_eq!(sheet(&memory, 127, 0x8000, 4082, &mut []), 22);
    assert_eq!(sheet(&memory, 127, 0x8000, 1, &mut []), 23);
    assert_eq!(sheet(&memory, 127, 0x8000, 0, &mut []), 0);
    assert_eq!(sheet(&memory, 127, 0x8000, 4081, &mut [0; 4080]), 23);
}
