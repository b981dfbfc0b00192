//! Request 9: the two machines, and what differs between them.

/// The machine that a state is of; no access changes it.
#[derive(Clone, Copy, Debug, PartialEq, Eq)]
pub enum Machine {
    /// Number 0.
    Ntsc,
    /// Number 1.
    Pal,
}

/// When the frame sequencer steps, in clocks after the reset, and when it begins from the start again.
#[derive(Clone, Copy, Debug, PartialEq, Eq)]
pub struct Times {
    /// The clocks that bring a step.
    pub steps: &'static [u16],
    /// From the start again at this clock.
    pub again: u16,
}

/// What a machine has of its own.
struct Tables {
    noise: [u16; 16],
    dmc: [u16; 16],
    four_steps: Times,
    five_steps: Times,
}

const NTSC: Tables = Tables {
    noise: [4, 8, 16, 32, 64, 96, 128, 160, 202, 254, 380, 508, 762, 1016, 2034, 4068],
    dmc: [428, 380, 340, 320, 286, 254, 226, 214, 190, 160, 142, 128, 106, 84, 72, 54],
    four_steps: Times { steps: &[7457, 14913, 22371, 29829], again: 29830 },
    five_steps: Times { steps: &[7457, 14913, 22371, 29829, 37281], again: 37282 },
};

const PAL: Tables = Tables {
    noise: [4, 8, 14, 30, 60, 88, 118, 148, 188, 236, 354, 472, 708, 944, 1890, 3778],
    dmc: [398, 354, 316, 298, 276, 236, 210, 198, 176, 148, 132, 118, 98, 78, 66, 50],
    four_steps: Times { steps: &[8313, 16627, 24939, 33253], again: 33254 },
    five_steps: Times { steps: &[8313, 16627, 24939, 33253, 41565], again: 41566 },
};

impl Machine {
    /// Both machines, by number.
    pub const ALL: [Self; 2] = [Self::Ntsc, Self::Pal];

    /// The machine of a number; none for any other.
    pub fn of(number: u8) -> Option<Self> {
        Self::ALL.get(usize::from(number)).copied()
    }

    const fn tables(self) -> &'static Tables {
        match self {
            Self::Ntsc => &NTSC,
            Self::Pal => &PAL,
        }
    }

    /// How many clocks a second has.
    pub const fn clocks_a_second(self) -> u64 {
        match self {
            Self::Ntsc => 1_789_773,
            Self::Pal => 1_662_607,
        }
    }

    /// The noise timer's periods by index.
    pub const fn noise_periods(self) -> &'static [u16; 16] {
        &self.tables().noise
    }

    /// The DMC timer's periods by index.
    pub const fn dmc_periods(self) -> &'static [u16; 16] {
        &self.tables().dmc
    }

    /// The frame's times in mode 0, or in mode 1.
    pub const fn times(self, mode: bool) -> Times {
        if mode { self.tables().five_steps } else { self.tables().four_steps }
    }
}
