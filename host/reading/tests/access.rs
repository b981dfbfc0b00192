//! Accesses worked out by hand from request 7.

use reading::access::{Access, Accessed, access};
use reading::{Chip, Machine};

#[test]
fn a_write_gives_the_level_after_and_whether_it_differs() {
    let mut chip = Chip::POWER_ON;
    let write = |register, value| Access::Write(register, value);
    assert_eq!(chip.access(write(0x4011, 0x40)), Accessed { byte: 0, level: 16620, differs: true });
    assert_eq!(chip.access(write(0x4011, 0x40)), Accessed { byte: 0, level: 16620, differs: false });
    assert_eq!(chip.access(write(0x4011, 0x00)), Accessed { byte: 0, level: 8074, differs: true });
}

#[test]
fn a_read_gives_the_byte_and_clears_the_frame_flag() {
    let mut chip = Chip::power_on(Machine::Pal);
    chip.frame.interrupt = true;
    assert_eq!(chip.access(Access::Read), Accessed { byte: 0x40, level: 8074, differs: false });
    assert_eq!(chip.access(Access::Read), Accessed { byte: 0x00, level: 8074, differs: false });
}

#[test]
fn answers() {
    let mut state = Chip::POWER_ON.encode();
    assert_eq!(access(&mut state, 0, 0x4011, 0x40), 1 << 32 | 16620 << 16);
    assert_eq!(access(&mut state, 0, 0x4000, 0xff), 16620 << 16);
    state[89] = 1;
    // Any number but 0 is a read, whatever the register.
    let flagged = state;
    for (read, register) in [(1, 0x4015), (2, 0x4014), (255, 0xffff), (128, 0)] {
        state = flagged;
        assert_eq!(access(&mut state, read, register, 0xff), 16620 << 16 | 0x40 << 8);
        assert_eq!((state[89], &state[..89]), (0, &flagged[..89]));
    }
}

#[test]
fn refusals() {
    let mut state = Chip::POWER_ON.encode();
    state[89] = 1;
    for register in [0, 0x3fff, 0x4014, 0x4016, 0x4018, 0xffff] {
        assert_eq!(access(&mut state, 0, register, 0), 4);
        assert_eq!(access(&mut state[1..], 0, register, 0), 2);
    }
    assert_eq!(access(&mut state[1..], 1, 0x4015, 0), 2);
    assert_eq!(state[89], 1);
    state[0] = 4;
    assert_eq!((access(&mut state, 0, 0x4014, 0), access(&mut state, 1, 0, 0)), (2, 2));
}
