//! Cases worked out by hand from document 01.

use reading::bytes::{FIELDS, SIZE};
use reading::chip::Length;
use reading::mixer::{Outputs, level_f32};
use reading::{Chip, MEMORY, Record, boundary, number, plain};

static MEMORY_0: [u8; MEMORY] = [0; MEMORY];

fn clocks(chip: &mut Chip, count: u32) {
    for _ in 0..count {
        chip.clock(&MEMORY_0);
    }
}

/// A state one clock before frame step `step` of mode 0.
fn before_step(step: usize) -> Chip {
    let mut chip = Chip::POWER_ON;
    chip.frame.clock = [7456, 14912, 22370, 29828][step - 1];
    chip
}

/// What moves after a $4017 write, and after how many clocks: the linear counter, the lengths, the frame flag.
fn steps(value: u8, count: u32) -> Vec<(u32, String)> {
    let mut chip = Chip::POWER_ON;
    (chip.triangle.linear, chip.triangle.length) = (127, Length { count: 254, enabled: true });
    let mut seen = Vec::new();
    for clock in 0..=count {
        let before = chip.triangle;
        if clock == 0 {
            chip.write(0x4017, value);
        } else {
            chip.clock(&MEMORY_0);
        }
        let mut moved = Vec::new();
        moved.extend((chip.triangle.linear != before.linear).then_some("linear"));
        moved.extend((chip.triangle.length != before.length).then_some("length"));
        moved.extend((chip.read_status() & 0x40 > 0).then_some("flag"));
        if !moved.is_empty() {
            seen.push((clock, moved.join(" ")));
        }
    }
    seen
}

#[test]
fn a_state_is_79_fields_in_91_bytes() {
    let (mut fields, mut bytes) = (0, 0);
    Chip::POWER_ON.clone().fields(|_, slot| {
        fields += 1;
        bytes += slot.width();
    });
    assert_eq!((fields, bytes), (79, 91));
    assert_eq!((FIELDS, SIZE), (79, 91));
}

#[test]
fn bytes_lie_where_the_header_says() {
    let mut chip = Chip::POWER_ON;
    (chip.squares[0].period, chip.squares[1].duty) = (0x123, 2);
    (chip.triangle.linear, chip.noise.register) = (77, 0x4567);
    (chip.dmc.address, chip.frame.clock, chip.frame.interrupt) = (0xabcd, 0x1234, true);
    let bytes = chip.encode();
    assert_eq!(bytes[10..12], [0x23, 0x01]);
    assert_eq!((bytes[21], bytes[44]), (2, 77));
    assert_eq!(bytes[65..67], [0x67, 0x45]);
    assert_eq!(bytes[75..77], [0xcd, 0xab]);
    assert_eq!((&bytes[87..89], bytes[89]), (&[0x34, 0x12][..], 1));
    assert_eq!(Chip::decode(&bytes), Some(chip));
}

#[test]
fn power_on_is_marked_fields_and_zeros() {
    let marked = [
        (9, 1),
        (12, 1),
        (17, 1),
        (30, 1),
        (33, 1),
        (38, 1),
        (48, 1),
        (57, 1),
        (63, 4),
        (65, 1),
        (70, 428 & 255),
        (71, 428 >> 8),
        (76, 49152u16 >> 8),
        (82, 8),
        (83, 1),
    ];
    let mut bytes = [0; SIZE];
    for (at, value) in marked {
        bytes[at] = value as u8;
    }
    assert_eq!(Chip::POWER_ON.encode(), bytes);
    assert!(Chip::POWER_ON.in_range());
}

#[test]
fn ranges_over_more_than_one_field() {
    let mut chip = Chip::POWER_ON;
    for (mode, last) in [(false, 29829), (true, 37281)] {
        (chip.frame.mode, chip.frame.clock) = (mode, last);
        assert!(chip.in_range());
        chip.frame.clock = last + 1;
        assert!(!chip.in_range());
    }
    chip.frame.clock = 37281;
    chip.noise.length = Length { count: 1, enabled: false };
    assert!(!chip.in_range());
    chip.noise.length.enabled = true;
    assert!(chip.in_range());
    for (disable, interrupt) in [(false, false), (false, true), (true, false), (true, true)] {
        (chip.frame.disable, chip.frame.interrupt) = (disable, interrupt);
        assert_eq!(chip.in_range(), !(disable && interrupt));
    }
}

#[test]
fn the_largest_level_is_32767() {
    assert_eq!(Outputs { squares: 30, triangle: 15, noise: 15, dmc: 127 }.level(), 32767);
    assert_eq!(Outputs { squares: 0, triangle: 0, noise: 0, dmc: 0 }.level(), 0);
    for level in 0..=32767 {
        assert_eq!(level_f32(level) * 32768.0, f32::from(level));
    }
}

#[test]
fn the_players_example() {
    let mut chip = Chip::POWER_ON;
    chip.write(0x4011, 0x40);
    assert_eq!(chip.level(), 16620);
    clocks(&mut chip, 10);
    assert_eq!((chip.level(), chip.read_status()), (16620, 0x00));
}

#[test]
fn four_steps_in_29830_clocks() {
    let expected = [
        (7457, "linear"),
        (14913, "linear length"),
        (22371, "linear"),
        (29829, "linear length flag"),
        (29830 + 7457, "linear"),
        (29830 + 14913, "linear length"),
        (29830 + 22371, "linear"),
        (29830 + 29829, "linear length flag"),
    ];
    assert_eq!(steps(0x00, 2 * 29830), expected.map(|(clock, moved)| (clock, moved.to_string())));
    let without = expected.map(|(clock, moved)| (clock, moved.trim_end_matches(" flag").to_string()));
    assert_eq!(steps(0x40, 2 * 29830), without);
}

#[test]
fn five_steps_in_37282_clocks() {
    // The write brings step 1; then come 2, 3, 4, 5, which moves nothing, and 1.
    let expected = [
        (0, "linear length"),
        (7457, "linear"),
        (14913, "linear length"),
        (22371, "linear"),
        (37281, "linear length"),
        (37282 + 7457, "linear"),
        (37282 + 14913, "linear length"),
        (37282 + 22371, "linear"),
        (37282 + 37281, "linear length"),
    ];
    for value in [0x80, 0xc0] {
        assert_eq!(steps(value, 2 * 37282), expected.map(|(clock, moved)| (clock, moved.to_string())));
    }
}

#[test]
fn a_write_of_mode_1_acts_at_once() {
    let mut chip = Chip::POWER_ON;
    chip.write(0x4015, 0x01);
    chip.write(0x4003, 0x18);
    assert_eq!(chip.squares[0].length.count, 2);
    chip.frame.interrupt = true;
    chip.write(0x4017, 0x80);
    // Step 1 at once; with bit 6 clear the flag stays.
    assert_eq!((chip.frame.clock, chip.squares[0].length.count), (0, 1));
    assert!(chip.frame.interrupt && !chip.squares[0].envelope.start);
    assert_eq!(chip.squares[0].envelope.counter, 15);
    // The next time is counted from the write.
    clocks(&mut chip, 14912);
    assert_eq!(chip.squares[0].length.count, 1);
    clocks(&mut chip, 1);
    assert_eq!(chip.squares[0].length.count, 0);
}

#[test]
fn the_last_clock_number_leads_to_0_without_a_step() {
    for (mode, last) in [(false, 29829), (true, 37281)] {
        let mut chip = Chip::POWER_ON;
        (chip.frame.mode, chip.frame.clock, chip.triangle.linear) = (mode, last, 9);
        clocks(&mut chip, 1);
        assert_eq!((chip.frame.clock, chip.triangle.linear, chip.frame.interrupt), (0, 9, false));
    }
}

#[test]
fn frame_flag_is_set_only_while_disable_is_clear() {
    // Request 4.
    for disable in [false, true] {
        let mut chip = before_step(4);
        chip.frame.disable = disable;
        chip.clock(&MEMORY_0);
        assert_eq!((chip.frame.interrupt, chip.line()), (!disable, !disable));
        assert_eq!(chip.read_status(), if disable { 0x00 } else { 0x40 });
    }
}

#[test]
fn bit_6_of_4017_clears_the_frame_flag() {
    for (value, flag) in [(0x00, true), (0x80, true), (0x40, false), (0xc0, false), (0x3f, true), (0x7f, false)] {
        let mut chip = Chip::POWER_ON;
        chip.frame.interrupt = true;
        chip.write(0x4017, value);
        assert_eq!((chip.frame.interrupt, chip.line()), (flag, flag), "{value:02x}");
        // Disable being cleared again brings nothing back.
        chip.write(0x4017, 0x00);
        assert_eq!(chip.frame.interrupt, flag);
    }
}

#[test]
fn envelope_starts_then_divides() {
    let mut chip = before_step(1);
    chip.write(0x4000, 0x02);
    chip.write(0x4003, 0x00);
    let mut seen = Vec::new();
    for _ in 0..8 {
        chip.frame.clock = 7456;
        chip.clock(&MEMORY_0);
        let envelope = chip.squares[0].envelope;
        seen.push((envelope.counter, envelope.divider));
    }
    // Reset to n + 1 = 3, then an output at every third clock.
    assert_eq!(seen, [(15, 3), (15, 2), (15, 1), (14, 3), (14, 2), (14, 1), (13, 3), (13, 2)]);
}

#[test]
fn envelope_at_0_stays_or_loops() {
    for (looped, after) in [(false, 0), (true, 15)] {
        let mut chip = before_step(1);
        chip.noise.envelope.looped = looped;
        chip.clock(&MEMORY_0);
        assert_eq!(chip.noise.envelope.counter, after);
    }
}

#[test]
fn sweep_outputs_first_and_is_reset_then() {
    let mut chip = before_step(2);
    chip.squares[0].period = 1000;
    chip.squares[0].timer = 1001;
    chip.write(0x4001, 0xb9);
    // P 3, negate, S 1; the divider stood at 1, so it gives its output, then takes 4.
    chip.clock(&MEMORY_0);
    let square = chip.squares[0];
    assert_eq!((square.period, square.sweep.divider, square.sweep.written), (499, 4, false));
    assert_eq!(square.timer, 1000);
}

#[test]
fn sweep_stays_where_muted_or_without_shift() {
    for (period, sweep) in [(7, 0x81), (1366, 0x81), (1000, 0x80), (1000, 0x01)] {
        let mut chip = before_step(4);
        chip.squares[1].period = period;
        chip.write(0x4005, sweep);
        chip.clock(&MEMORY_0);
        assert_eq!(chip.squares[1].period, period);
    }
}

#[test]
fn square_goes_by_two_timer_outputs_a_step() {
    let mut chip = Chip::POWER_ON;
    chip.write(0x4015, 0x01);
    chip.write(0x4000, 0xbf);
    chip.write(0x4002, 9);
    chip.write(0x4003, 0x00);
    // The timer stands at 1: half is set after 1 clock, position is 1 after 11, 2 after 31, and so on.
    let ran = plain(chip, &MEMORY_0, 200, 100, [0; 128]);
    let high = Outputs { squares: 15, triangle: 15, noise: 0, dmc: 0 }.level();
    let changes: Vec<_> = ran.records.iter().map(|r| (r.clock, r.level)).collect();
    assert_eq!(changes, [(11, high), (91, 8074), (171, high)]);
    assert_eq!(ran.done, 200);
}

#[test]
fn fourth_register_leaves_timer_and_half() {
    let mut chip = Chip::POWER_ON;
    let square = &mut chip.squares[1];
    (square.timer, square.half, square.position, square.period) = (1234, true, 5, 0x0ff);
    chip.write(0x4007, 0x0a);
    let square = chip.squares[1];
    assert_eq!((square.timer, square.half, square.position, square.period), (1234, true, 0, 0x2ff));
    assert!(square.envelope.start);
    assert_eq!(square.length.count, 0);
}

#[test]
fn triangle_is_gated_by_its_counters_as_they_stood() {
    // The length falls to 0 in the clock of step 2, whose timer output still moves the triangle.
    let mut chip = before_step(2);
    chip.triangle.length = Length { count: 1, enabled: true };
    chip.triangle.linear = 5;
    clocks(&mut chip, 1);
    assert_eq!((chip.triangle.position, chip.triangle.length.count, chip.triangle.linear), (1, 0, 4));
    clocks(&mut chip, 1);
    assert_eq!(chip.triangle.position, 1);
    assert_eq!(chip.outputs().triangle, 14);
}

#[test]
fn triangle_shape() {
    let mut chip = Chip::POWER_ON;
    chip.triangle.length = Length { count: 1, enabled: true };
    chip.triangle.linear = 1;
    let mut seen = vec![chip.outputs().triangle];
    for _ in 0..32 {
        clocks(&mut chip, 1);
        seen.push(chip.outputs().triangle);
    }
    let shape: Vec<u16> = (0..16).rev().chain(0..16).chain([15]).collect();
    assert_eq!(seen, shape);
}

#[test]
fn linear_counter() {
    for (control, halt_after) in [(0x00, false), (0x80, true)] {
        let mut chip = before_step(1);
        chip.write(0x4008, control | 9);
        chip.write(0x400b, 0);
        clocks(&mut chip, 1);
        assert_eq!((chip.triangle.linear, chip.triangle.linear_halt), (9, halt_after));
        chip.frame.clock = 22370;
        clocks(&mut chip, 1);
        assert_eq!(chip.triangle.linear, if halt_after { 9 } else { 8 });
    }
}

#[test]
fn noise_periods_of_the_register() {
    // 32,767 outputs bring a register back in mode 0; in mode 1, from 1, 93 or 31 do.
    for (mode, outputs) in [(false, 32767), (true, 93)] {
        let mut chip = Chip::POWER_ON;
        chip.noise.mode = mode;
        for output in 1..=outputs {
            clocks(&mut chip, 4);
            assert_eq!(chip.noise.register == 1, output == outputs, "{mode} {output}");
        }
    }
}

#[test]
fn dmc_steps_are_refused_at_the_ends() {
    for (level, shift, after) in [(126, 1, 126), (127, 1, 127), (125, 1, 127), (1, 0, 1), (0, 0, 0), (2, 0, 0)] {
        let mut chip = Chip::POWER_ON;
        (chip.dmc.level, chip.dmc.shift, chip.dmc.silence, chip.dmc.timer) = (level, shift, false, 1);
        clocks(&mut chip, 1);
        assert_eq!(chip.dmc.level, after);
    }
}

#[test]
fn dmc_buffer_emptied_in_a_clock_is_filled_in_it() {
    let mut memory = MEMORY_0;
    memory[0x4000] = 0x96;
    let mut chip = Chip::POWER_ON;
    (chip.dmc.timer, chip.dmc.bits, chip.dmc.full, chip.dmc.buffer, chip.dmc.remaining) = (1, 1, true, 0x5a, 2);
    chip.clock(&memory);
    let d = chip.dmc;
    assert_eq!((d.shift, d.silence, d.bits, d.timer), (0x5a, false, 8, 428));
    assert_eq!((d.buffer, d.full, d.address, d.remaining), (0x96, true, 49153, 1));
}

#[test]
fn dmc_end_of_a_sample() {
    for (looped, enable, remaining, interrupt) in
        [(false, false, 0, false), (false, true, 0, true), (true, true, 17, false), (true, false, 17, false)]
    {
        let mut chip = Chip::POWER_ON;
        let d = &mut chip.dmc;
        (d.looped, d.interrupt_enable, d.remaining, d.address) = (looped, enable, 1, 40000);
        (d.address_byte, d.length_byte) = (2, 1);
        clocks(&mut chip, 1);
        let d = chip.dmc;
        assert_eq!((d.remaining, d.interrupt), (remaining, interrupt));
        assert_eq!(d.address, if looped { 49152 + 128 } else { 40001 });
    }
}

#[test]
fn dmc_restart_fetches_after_the_next_timer_output() {
    let mut chip = Chip::POWER_ON;
    (chip.dmc.timer, chip.dmc.bits) = (1, 1);
    chip.write(0x4015, 0x10);
    clocks(&mut chip, 1);
    // The output found the buffer empty; the reader filled it after that.
    assert!(chip.dmc.silence && chip.dmc.full);
}

#[test]
fn status_write() {
    let mut chip = Chip::POWER_ON;
    chip.write(0x4015, 0x0f);
    for register in [0x4003, 0x4007, 0x400b, 0x400f] {
        chip.write(register, 0x00);
    }
    (chip.dmc.remaining, chip.dmc.interrupt, chip.dmc.address) = (5, true, 50000);
    assert_eq!(chip.read_status(), 0x9f);
    assert!(chip.dmc.interrupt);
    chip.write(0x4015, 0x15);
    assert_eq!((chip.dmc.remaining, chip.dmc.address, chip.dmc.interrupt), (5, 50000, false));
    assert_eq!(chip.read_status(), 0x15);
    chip.write(0x4015, 0x00);
    assert_eq!(chip.read_status(), 0x00);
}

#[test]
fn interrupt_enable_clear_clears_the_flag() {
    let mut chip = Chip::POWER_ON;
    chip.dmc.interrupt = true;
    chip.write(0x4010, 0x80);
    assert!(chip.line());
    chip.write(0x4010, 0x4f);
    assert!(!chip.line());
}

#[test]
fn an_early_end_comes_before_the_clock() {
    let mut chip = Chip::POWER_ON;
    chip.triangle.length = Length { count: 254, enabled: true };
    chip.triangle.linear = 127;
    let ran = plain(chip, &MEMORY_0, 1000, 3, [0; 128]);
    assert_eq!((ran.done, ran.records.len(), ran.chip.triangle.position), (3, 3, 3));
    assert_eq!(
        ran.records[0],
        Record { clock: 1, level: Outputs { squares: 0, triangle: 14, noise: 0, dmc: 0 }.level() }
    );
    let more = plain(ran.chip, &MEMORY_0, 1000, 0, ran.dwell);
    assert_eq!((more.done, more.chip), (0, ran.chip));
}

#[test]
fn answers_and_refusals() {
    let mut state = Chip::POWER_ON.encode();
    let kept = state;
    let mut words = [7; 5];
    let mut counts = [0; 128];
    let m = MEMORY_0.as_slice();
    assert_eq!(boundary::run(&mut state, &m[1..], 2_000_000, &mut words, &mut counts), number::MEMORY.into());
    assert_eq!(boundary::run(&mut state, m, 1_000_001, &mut words, &mut counts), number::CLOCKS.into());
    assert_eq!(boundary::run(&mut state[1..], m, 1_000_001, &mut words, &mut counts), number::STATE.into());
    assert_eq!(boundary::clock(&mut state, &m[1..]), number::MEMORY.into());
    assert_eq!((state, words), (kept, [7; 5]));
    state[1] = 2;
    assert_eq!(boundary::level(&state), 2);
    assert_eq!((boundary::line(&state), boundary::in_range(&state), boundary::in_range(&kept)), (2, 0, 256));
    assert_eq!(boundary::power_on(&mut state, 0), 0);
    assert_eq!(boundary::level(&state), 8074 << 8);
    assert_eq!(boundary::run(&mut state, m, 1_000_000, &mut words, &mut counts), 1_000_000 << 8);
    assert_eq!(words, [7; 5]);
    assert_eq!((counts[0], counts[1..].iter().sum::<u32>()), (1_000_000, 0));
}

#[test]
fn a_full_count_ends_a_run_before_its_clock() {
    let m = MEMORY_0.as_slice();
    let (mut state, mut words) = (Chip::POWER_ON.encode(), [7; 4]);
    let mut counts = [0; 128];
    counts[0] = 4_000_000_000 - 10;
    assert_eq!(boundary::run(&mut state, m, 100, &mut words, &mut counts), 10 << 8);
    assert_eq!(boundary::run(&mut state, m, 100, &mut words, &mut counts), 0);
    assert_eq!(counts[0], 4_000_000_000);
    let kept = state;
    counts[9] = 4_000_000_001;
    assert_eq!(boundary::run(&mut state, m, 100, &mut words, &mut counts), number::COUNTS.into());
    assert_eq!(boundary::run(&mut state, m, 1_000_001, &mut words, &mut counts), number::CLOCKS.into());
    assert_eq!(boundary::run(&mut state, m, 100, &mut words, &mut [0; 127]), number::COUNTS.into());
    assert_eq!((state, words, counts[9]), (kept, [7; 4], 4_000_000_001));
}
