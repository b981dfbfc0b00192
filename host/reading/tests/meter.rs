//! Meters worked out by hand from request 11.

use reading::meter::{meter, meter_records};
use reading::mixer::level_f32;

/// 2^8 x case + 2^16 x lowest + 2^32 x highest.
fn answer(case: u64, lowest: u64, highest: u64) -> u64 {
    case << 8 | lowest << 16 | highest << 32
}

const NONE: u64 = 0;
const SILENT: u64 = 1 << 8;
/// No level before.
const NOTHING: u64 = u64::MAX;

#[test]
fn lists() {
    for (levels, expected) in [
        (&[][..], NONE),
        (&[0], SILENT),
        (&[0, 0, 0], SILENT),
        (&[1], answer(2, 1, 1)),
        (&[8074], answer(2, 8074, 8074)),
        (&[32767, 32767], answer(2, 32767, 32767)),
        (&[0, 1], answer(3, 0, 1)),
        (&[1, 0], answer(3, 0, 1)),
        (&[0, 32767, 5], answer(3, 0, 32767)),
        (&[7, 7, 8], answer(3, 7, 8)),
        (&[9, 3, 5, 3, 9], answer(3, 3, 9)),
        (&[32768], 29),
        (&[65536], 29),
        (&[u32::MAX], 29),
        (&[0, 0, 32768], 29),
        (&[32768, 0, 0], 29),
        (&[1, 40000, 2], 29),
    ] {
        assert_eq!(meter(levels), expected, "{levels:?}");
    }
}

#[test]
fn records() {
    // Levels 5, 6, 6, 40000 and half a record; the clocks don't count.
    let words = [1, 5, 99_999, 6, 100_000, 6, u32::MAX, 40_000, 8];
    for (start, count, before, expected) in [
        (0, 0, NOTHING, NONE),
        (0, 1, NOTHING, answer(2, 5, 5)),
        (0, 3, NOTHING, answer(3, 5, 6)),
        (1, 2, NOTHING, answer(2, 6, 6)),
        (0, 4, NOTHING, 29),
        (3, 1, NOTHING, 29),
        (2, u64::MAX, NOTHING, 29),
        (4, 1, NOTHING, NONE),
        (u64::MAX, u64::MAX, NOTHING, NONE),
        (0, 0, 0, SILENT),
        (0, 0, 32_767, answer(2, 32_767, 32_767)),
        (0, 0, 32_768, 29),
        (0, 0, (1 << 32) - 1, 29),
        (0, 0, 1 << 32, NONE),
        (1, 2, 6, answer(2, 6, 6)),
        (1, 2, 0, answer(3, 0, 6)),
        (1, 2, 7, answer(3, 6, 7)),
        (1, 1, (1 << 32) + 7, answer(2, 6, 6)),
        (9, 1, 7, answer(2, 7, 7)),
    ] {
        assert_eq!(meter_records(&words, start, count, before), expected, "{start} {count} {before}");
    }
    assert_eq!(meter_records(&[5], 0, 9, NOTHING), NONE);
}

#[test]
fn fractions() {
    assert_eq!((level_f32(0), level_f32(16_384), level_f32(1)), (0.0, 0.5, 1.0 / 32768.0));
    assert_eq!(level_f32(32_767), 0.999_969_5);
}
