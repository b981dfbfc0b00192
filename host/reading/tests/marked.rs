//! Document 01's marked cases (1) to (11).

use reading::chip::{Length, Which};
use reading::mixer::Outputs;
use reading::{Chip, MEMORY};

static MEMORY_0: [u8; MEMORY] = [0; MEMORY];

#[test]
fn case_1_power_on_level() {
    assert_eq!(Chip::POWER_ON.level(), 8074);
}

#[test]
fn case_2_squares_15_and_0() {
    assert_eq!(Outputs { squares: 15, triangle: 0, noise: 0, dmc: 0 }.a(), 4894);
}

#[test]
fn case_3_steps() {
    // A step clocks the linear counter in either mode, but the fifth of mode 1.
    for clock in 0..29830 {
        let mut chip = Chip::POWER_ON;
        (chip.frame.clock, chip.triangle.linear) = (clock, 9);
        chip.clock(&MEMORY_0);
        let step = [7456, 14912, 22370, 29828].contains(&clock);
        assert_eq!(chip.triangle.linear, if step { 8 } else { 9 }, "{clock}");
    }
}

#[test]
fn case_4_status() {
    let mut chip = Chip::POWER_ON;
    chip.frame.clock = 29828;
    assert_eq!(chip.read_status(), 0x00);
    chip.clock(&MEMORY_0);
    assert_eq!(chip.read_status(), 0x40);
    assert_eq!(chip.read_status(), 0x00);
}

#[test]
fn case_5_negated_targets() {
    let mut square = Chip::POWER_ON.squares[0];
    (square.period, square.sweep.s, square.sweep.negate) = (1000, 1, true);
    assert_eq!((square.target(Which::First), square.target(Which::Second)), (499, 500));
}

#[test]
fn case_6_target_below_0() {
    let mut square = Chip::POWER_ON.squares[0];
    (square.period, square.sweep.s, square.sweep.negate) = (8, 0, true);
    assert_eq!(square.target(Which::First), -1);
    assert!(!square.muted(Which::First));
}

#[test]
fn case_7_muting() {
    let mut square = Chip::POWER_ON.squares[0];
    for which in [Which::First, Which::Second] {
        square.period = 1024;
        assert!(square.muted(which));
        square.period = 1023;
        assert!(!square.muted(which));
    }
}

#[test]
fn case_8_shift_register() {
    let mut chip = Chip::POWER_ON;
    for register in [16384, 8192] {
        for _ in 0..4 {
            chip.clock(&MEMORY_0);
        }
        assert_eq!(chip.noise.register, register);
    }
}

#[test]
fn case_9_length_value_08() {
    let mut chip = Chip::POWER_ON;
    chip.write(0x4015, 0x0f);
    for register in [0x4003, 0x4007, 0x400b, 0x400f] {
        chip.write(register, 0x08);
    }
    let lengths = [chip.squares[0].length, chip.squares[1].length, chip.triangle.length, chip.noise.length];
    assert_eq!(lengths, [Length { count: 254, enabled: true }; 4]);
}

#[test]
fn case_10_sample_lengths() {
    for (byte, remaining) in [(0, 1), (255, 4081)] {
        let mut chip = Chip::POWER_ON;
        chip.write(0x4013, byte);
        chip.write(0x4015, 0x10);
        assert_eq!(chip.dmc.remaining, remaining);
    }
}

#[test]
fn case_11_address_wraps() {
    let mut chip = Chip::POWER_ON;
    (chip.dmc.address, chip.dmc.remaining) = (0xffff, 2);
    chip.clock(&MEMORY_0);
    assert_eq!((chip.dmc.address, chip.dmc.remaining), (0x8000, 1));
}
