//! A small random generator (splitmix64), so that a seed says all.

use std::ops::RangeInclusive;

/// The generator's state.
pub struct Random(u64);

impl Random {
    /// The generator for one case of a kind.
    pub fn new(seed: u64, kind: &str, case: u64) -> Self {
        let name = kind.bytes().fold(0u64, |sum, byte| sum.wrapping_mul(257).wrapping_add(byte.into()));
        let mut random = Self(seed ^ name.rotate_left(32));
        let first = random.bits();
        Self(first ^ case)
    }

    /// The next 64 bits.
    pub fn bits(&mut self) -> u64 {
        self.0 = self.0.wrapping_add(0x9e37_79b9_7f4a_7c15);
        let z = (self.0 ^ self.0 >> 30).wrapping_mul(0xbf58_476d_1ce4_e5b9);
        let z = (z ^ z >> 27).wrapping_mul(0x94d0_49bb_1331_11eb);
        z ^ z >> 31
    }

    /// A number of the range.
    pub fn within(&mut self, range: RangeInclusive<u64>) -> u64 {
        range.start() + self.bits() % (range.end() - range.start() + 1)
    }

    /// A number of the range.
    pub fn within16(&mut self, range: RangeInclusive<u16>) -> u16 {
        self.within((*range.start()).into()..=(*range.end()).into()) as u16
    }

    /// A byte.
    pub fn byte(&mut self) -> u8 {
        self.bits() as u8
    }

    /// True once in so many times.
    pub fn one_in(&mut self, times: u64) -> bool {
        self.bits().is_multiple_of(times)
    }

    /// One of the choices.
    pub fn pick<T: Copy>(&mut self, choices: &[T]) -> T {
        choices[self.within(0..=choices.len() as u64 - 1) as usize]
    }
}
