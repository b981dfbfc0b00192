//! Reasons worked out by hand from request 6.

use reading::chip::{Chip, Length};
use reading::why::why;

/// A state whose square 1, square 2 and noise all sound, with 5, 9 and 12.
fn sounding() -> Chip {
    let mut chip = Chip::POWER_ON;
    for (square, n) in chip.squares.iter_mut().zip([5, 9]) {
        square.length = Length { count: 1, enabled: true };
        // Duty 01000000.
        (square.position, square.period) = (1, 8);
        (square.envelope.constant, square.envelope.n) = (true, n);
    }
    chip.noise.length = Length { count: 1, enabled: true };
    chip.noise.register = 2;
    (chip.noise.envelope.constant, chip.noise.envelope.counter) = (false, 12);
    chip
}

/// The answers of square 1, square 2 and the noise.
fn answers(change: impl FnOnce(&mut Chip)) -> [u64; 3] {
    let mut chip = sounding();
    change(&mut chip);
    [0, 1, 3].map(|channel| {
        let answer = why(&chip.encode(), channel);
        assert_eq!(answer as u8, 0);
        answer >> 8
    })
}

#[test]
fn power_on_is_not_enabled() {
    for channel in [0, 1, 3] {
        assert_eq!(why(&Chip::POWER_ON.encode(), channel), 1 << 8);
    }
}

#[test]
fn all_sound() {
    assert_eq!(answers(|_| {}), [16 + 5, 16 + 9, 16 + 12]);
}

#[test]
fn each_reason() {
    assert_eq!(answers(|chip| chip.squares[0].length = Length { count: 0, enabled: false }), [1, 25, 28]);
    assert_eq!(answers(|chip| chip.squares[1].length.count = 0), [21, 2, 28]);
    assert_eq!(answers(|chip| chip.noise.length.count = 0), [21, 25, 2]);
    assert_eq!(answers(|chip| chip.squares[0].period = 7), [3, 25, 28]);
    assert_eq!(answers(|chip| chip.squares[1].period = 1024), [21, 4, 28]);
    assert_eq!(answers(|chip| chip.squares[1].position = 2), [21, 5, 28]);
    assert_eq!(answers(|chip| chip.noise.register = 3), [21, 25, 5]);
    assert_eq!(answers(|chip| chip.squares[0].envelope.n = 0), [6, 25, 28]);
    // The volume is the counter, which is 0.
    assert_eq!(answers(|chip| chip.squares[0].envelope.constant = false), [6, 25, 28]);
    assert_eq!(answers(|chip| chip.noise.envelope.constant = true), [21, 25, 6]);
}

#[test]
fn the_first_reason_is_given() {
    let mut chip = sounding();
    for square in &mut chip.squares {
        (square.length, square.period, square.position) = (Length::default(), 7, 0);
        square.envelope.n = 0;
    }
    let mut answers = Vec::new();
    let mut ask = |chip: &Chip| answers.push(why(&chip.encode(), 1) >> 8);
    ask(&chip);
    chip.squares[1].length.enabled = true;
    ask(&chip);
    chip.squares[1].length.count = 254;
    ask(&chip);
    chip.squares[1].period = 2047;
    ask(&chip);
    chip.squares[1].period = 8;
    ask(&chip);
    chip.squares[1].position = 1;
    ask(&chip);
    chip.squares[1].envelope.n = 15;
    ask(&chip);
    assert_eq!(answers, [1, 2, 3, 4, 5, 6, 16 + 15]);
}

#[test]
fn the_sweep_counts_enabled_or_not() {
    for enabled in [false, true] {
        let with = |period, s, negate| {
            answers(|chip| {
                let square = &mut chip.squares[0];
                (square.period, square.sweep.s, square.sweep.negate, square.sweep.enabled) =
                    (period, s, negate, enabled);
            })[0]
        };
        // 1365 + 682 is 2047, 1366 + 683 is 2049.
        assert_eq!((with(1365, 1, false), with(1366, 1, false)), (21, 4));
        // 2047 - 2048 is -1.
        assert_eq!(with(2047, 0, true), 21);
        // Below 8 comes first; 7 + 7 is 14.
        assert_eq!((with(7, 0, false), with(0, 0, false)), (3, 3));
    }
}

#[test]
fn refusals() {
    let mut state = sounding().encode();
    for channel in 0..=255 {
        let number = why(&state, channel) as u8;
        assert_eq!(number, if matches!(channel, 0 | 1 | 3) { 0 } else { 24 });
        assert_eq!(why(&state[1..], channel), 2);
    }
    // A flag above 1, also in another channel.
    state[45] = 2;
    assert_eq!((why(&state, 0), why(&state, 2)), (2, 2));
}
