//! The mixer: from what the channels give to one level.

/// What the channels give to the mixer.
#[derive(Clone, Copy, Debug, PartialEq, Eq)]
pub struct Outputs {
    /// The sum of the two squares, 0..30.
    pub squares: u16,
    /// The triangle, 0..15.
    pub triangle: u16,
    /// The noise, 0..15.
    pub noise: u16,
    /// The DMC's level, 0..127.
    pub dmc: u16,
}

const TRIANGLE: u64 = 8227;
const NOISE: u64 = 12241;
const DMC: u64 = 22638;
const L: u64 = TRIANGLE * NOISE * DMC;

impl Outputs {
    /// A = floor(32768 x 2397s / (203200 + 2500s)).
    pub fn a(&self) -> u64 {
        let s = u64::from(self.squares);
        32768 * 2397 * s / (203_200 + 2500 * s)
    }

    /// B = floor(32768 x 15979N / (100L + 10000N)), with N = L(t/8227 + n/12241 + d/22638).
    pub fn b(&self) -> u64 {
        let (t, n, d) = (u64::from(self.triangle), u64::from(self.noise), u64::from(self.dmc));
        let sum = t * (NOISE * DMC) + n * (TRIANGLE * DMC) + d * (TRIANGLE * NOISE);
        32768 * 15979 * sum / (100 * L + 10_000 * sum)
    }

    /// The level, at most 32,767.
    pub fn level(&self) -> u16 {
        (self.a() + self.b()) as u16
    }
}

/// The level as a float: level over 32,768.
pub fn level_f32(level: u16) -> f32 {
    f32::from(level) / 32768.0
}
