//! The chip: its state, one clock of it, its registers, its status and its interrupt line.
//!
//! Every number of the state is a `u16` and every flag a `bool`. What a clock or an access does is said of states in
//! range only (`Chip::in_range`); the operations that refuse other states are in `boundary`.

use crate::machine::{Machine, Times};
use crate::mixer::Outputs;

/// A divider counts down by one; on reaching 0 it takes its period again and gives an output.
fn divide(count: &mut u16, period: u16) -> bool {
    *count -= 1;
    if *count > 0 {
        return false;
    }
    *count = period;
    true
}

fn bit(value: u8, place: u8) -> bool {
    value >> place & 1 == 1
}

/// The low bits of a register's value.
fn low(value: u8, mask: u8) -> u16 {
    u16::from(value & mask)
}

/// A length counter and its channel's enable.
#[derive(Clone, Copy, Debug, Default, PartialEq, Eq)]
pub struct Length {
    /// 0..254, and 0 where the channel isn't enabled.
    pub count: u16,
    /// The channel's bit of $4015.
    pub enabled: bool,
}

/// What the fourth register loads, by its value divided by 8.
pub const LENGTHS: [u16; 32] = [
    10, 254, 20, 2, 40, 4, 80, 6, 160, 8, 60, 10, 14, 12, 26, 14, 12, 16, 24, 18, 48, 20, 96, 22, 192, 24, 72, 26, 16,
    28, 32, 30,
];

impl Length {
    fn load(&mut self, value: u8) {
        if self.enabled {
            self.count = LENGTHS[usize::from(value / 8)];
        }
    }

    fn enable(&mut self, on: bool) {
        self.enabled = on;
        if !on {
            self.count = 0;
        }
    }

    fn clock(&mut self, halted: bool) {
        if !halted && self.count > 0 {
            self.count -= 1;
        }
    }
}

/// An envelope, with its bits of the channel's first register.
#[derive(Clone, Copy, Debug, PartialEq, Eq)]
pub struct Envelope {
    /// Loop; it also halts the channel's length.
    pub looped: bool,
    /// The volume is `n`.
    pub constant: bool,
    /// 0..15: the constant volume, and the divider's period less one.
    pub n: u16,
    /// The fourth register was written since the last clock.
    pub start: bool,
    /// 1..16.
    pub divider: u16,
    /// 0..15.
    pub counter: u16,
}

impl Envelope {
    const POWER_ON: Self = Self { looped: false, constant: false, n: 0, start: false, divider: 1, counter: 0 };

    fn write(&mut self, value: u8) {
        self.looped = bit(value, 5);
        self.constant = bit(value, 4);
        self.n = low(value, 0x0f);
    }

    fn clock(&mut self) {
        if self.start {
            self.start = false;
            self.counter = 15;
            self.divider = self.n + 1;
        } else if divide(&mut self.divider, self.n + 1) {
            if self.counter > 0 {
                self.counter -= 1;
            } else if self.looped {
                self.counter = 15;
            }
        }
    }

    /// `n` if constant, else the counter.
    pub fn volume(&self) -> u16 {
        if self.constant { self.n } else { self.counter }
    }
}

/// The two squares differ in how a negated sweep adds.
#[derive(Clone, Copy, Debug, PartialEq, Eq)]
pub enum Which {
    /// Adds the inverted bits.
    First,
    /// Adds one more.
    Second,
}

/// A sweep unit.
#[derive(Clone, Copy, Debug, PartialEq, Eq)]
pub struct Sweep {
    /// Bit 7 of the second register.
    pub enabled: bool,
    /// Bit 3.
    pub negate: bool,
    /// P, 0..7: the divider's period less one.
    pub p: u16,
    /// S, 0..7: the shift.
    pub s: u16,
    /// The second register was written since the last clock.
    pub written: bool,
    /// 1..8.
    pub divider: u16,
}

/// A square channel.
#[derive(Clone, Copy, Debug, PartialEq, Eq)]
pub struct Square {
    /// 0..3.
    pub duty: u16,
    /// The envelope; its loop flag halts the length.
    pub envelope: Envelope,
    /// The sweep unit.
    pub sweep: Sweep,
    /// 0..2047.
    pub period: u16,
    /// 1..2048.
    pub timer: u16,
    /// Flips at each output of the timer.
    pub half: bool,
    /// 0..7.
    pub position: u16,
    /// The length counter.
    pub length: Length,
}

/// The duties by position.
pub const DUTIES: [&[u8; 8]; 4] = [b"01000000", b"01100000", b"01111000", b"10011111"];

impl Square {
    const POWER_ON: Self = Self {
        duty: 0,
        envelope: Envelope::POWER_ON,
        sweep: Sweep { enabled: false, negate: false, p: 0, s: 0, written: false, divider: 1 },
        period: 0,
        timer: 1,
        half: false,
        position: 0,
        length: Length { count: 0, enabled: false },
    };

    /// One of the channel's four registers, by its place.
    fn write(&mut self, place: u16, value: u8) {
        match place {
            0 => {
                self.duty = u16::from(value >> 6);
                self.envelope.write(value);
            }
            1 => {
                self.sweep.enabled = bit(value, 7);
                self.sweep.p = low(value >> 4, 7);
                self.sweep.negate = bit(value, 3);
                self.sweep.s = low(value, 7);
                self.sweep.written = true;
            }
            2 => self.period = self.period & 0x700 | u16::from(value),
            _ => {
                self.period = self.period & 0xff | low(value, 7) << 8;
                self.length.load(value);
                self.envelope.start = true;
                self.position = 0;
            }
        }
    }

    fn timer_clock(&mut self) {
        if divide(&mut self.timer, self.period + 1) {
            self.half = !self.half;
            if !self.half {
                self.position = (self.position + 1) % 8;
            }
        }
    }

    /// The sweep's target, -1..4094.
    pub fn target(&self, which: Which) -> i32 {
        let shifted = i32::from(self.period >> self.sweep.s);
        let added = match (self.sweep.negate, which) {
            (false, _) => shifted,
            (true, Which::First) => !shifted,
            (true, Which::Second) => !shifted + 1,
        };
        i32::from(self.period) + added
    }

    /// Whether the sweep mutes the channel, enabled or not.
    pub fn muted(&self, which: Which) -> bool {
        self.period < 8 || self.target(which) > 2047
    }

    fn sweep_clock(&mut self, which: Which) {
        let output = divide(&mut self.sweep.divider, self.sweep.p + 1);
        if output && self.sweep.enabled && self.sweep.s > 0 && !self.muted(which) {
            self.period = self.target(which) as u16;
        }
        if self.sweep.written {
            self.sweep.written = false;
            self.sweep.divider = self.sweep.p + 1;
        }
    }

    /// What the channel gives to the mixer, 0..15.
    pub fn output(&self, which: Which) -> u16 {
        let high = DUTIES[usize::from(self.duty)][usize::from(self.position)] == b'1';
        if high && self.length.count > 0 && !self.muted(which) { self.envelope.volume() } else { 0 }
    }
}

/// The triangle channel.
#[derive(Clone, Copy, Debug, PartialEq, Eq)]
pub struct Triangle {
    /// Control; it also halts the length.
    pub control: bool,
    /// 0..127.
    pub reload: u16,
    /// The linear counter, 0..127.
    pub linear: u16,
    /// $400B was written; the linear counter takes `reload` when clocked.
    pub linear_halt: bool,
    /// 0..2047.
    pub period: u16,
    /// 1..2048.
    pub timer: u16,
    /// 0..31.
    pub position: u16,
    /// The length counter.
    pub length: Length,
}

impl Triangle {
    const POWER_ON: Self = Self {
        control: false,
        reload: 0,
        linear: 0,
        linear_halt: false,
        period: 0,
        timer: 1,
        position: 0,
        length: Length { count: 0, enabled: false },
    };

    fn write(&mut self, place: u16, value: u8) {
        match place {
            0 => {
                self.control = bit(value, 7);
                self.reload = low(value, 0x7f);
            }
            1 => {}
            2 => self.period = self.period & 0x700 | u16::from(value),
            _ => {
                self.period = self.period & 0xff | low(value, 7) << 8;
                self.length.load(value);
                self.linear_halt = true;
            }
        }
    }

    fn timer_clock(&mut self) {
        let sounding = self.length.count > 0 && self.linear > 0;
        if divide(&mut self.timer, self.period + 1) && sounding {
            self.position = (self.position + 1) % 32;
        }
    }

    fn linear_clock(&mut self) {
        if self.linear_halt {
            self.linear = self.reload;
        } else if self.linear > 0 {
            self.linear -= 1;
        }
        if !self.control {
            self.linear_halt = false;
        }
    }

    /// What the channel gives to the mixer: 15 down to 0, then 0 up to 15.
    pub fn output(&self) -> u16 {
        if self.position < 16 { 15 - self.position } else { self.position - 16 }
    }
}

/// The noise channel.
#[derive(Clone, Copy, Debug, PartialEq, Eq)]
pub struct Noise {
    /// The envelope; its loop flag halts the length.
    pub envelope: Envelope,
    /// The length counter.
    pub length: Length,
    /// Bit 7 of $400E.
    pub mode: bool,
    /// 0..15.
    pub index: u16,
    /// From 1 to the machine's longest period.
    pub timer: u16,
    /// 1..32767.
    pub register: u16,
}

impl Noise {
    const fn power_on(machine: Machine) -> Self {
        Self {
            envelope: Envelope::POWER_ON,
            length: Length { count: 0, enabled: false },
            mode: false,
            index: 0,
            timer: machine.noise_periods()[0],
            register: 1,
        }
    }

    fn write(&mut self, place: u16, value: u8) {
        match place {
            0 => self.envelope.write(value),
            1 => {}
            2 => {
                self.mode = bit(value, 7);
                self.index = low(value, 0x0f);
            }
            _ => {
                self.length.load(value);
                self.envelope.start = true;
            }
        }
    }

    fn timer_clock(&mut self, machine: Machine) {
        if divide(&mut self.timer, machine.noise_periods()[usize::from(self.index)]) {
            let other = if self.mode { 6 } else { 1 };
            let fed = (self.register ^ self.register >> other) & 1;
            self.register = self.register >> 1 | fed << 14;
        }
    }

    /// What the channel gives to the mixer, 0..15.
    pub fn output(&self) -> u16 {
        if self.register & 1 == 1 || self.length.count == 0 { 0 } else { self.envelope.volume() }
    }
}

/// The DMC.
#[derive(Clone, Copy, Debug, PartialEq, Eq)]
pub struct Dmc {
    /// Bit 7 of $4010.
    pub interrupt_enable: bool,
    /// Bit 6 of $4010.
    pub looped: bool,
    /// 0..15.
    pub index: u16,
    /// From 1 to the machine's longest period.
    pub timer: u16,
    /// 0..127.
    pub level: u16,
    /// $4012.
    pub address_byte: u16,
    /// $4013.
    pub length_byte: u16,
    /// 32768..65535: where the next byte is fetched.
    pub address: u16,
    /// 0..4081 bytes to fetch.
    pub remaining: u16,
    /// The byte fetched.
    pub buffer: u16,
    /// The buffer holds a byte not yet taken.
    pub full: bool,
    /// The byte that is shifted out.
    pub shift: u16,
    /// 1..8 bits until the next byte.
    pub bits: u16,
    /// The bits don't move the level.
    pub silence: bool,
    /// The interrupt flag.
    pub interrupt: bool,
}

impl Dmc {
    const fn power_on(machine: Machine) -> Self {
        Self {
            interrupt_enable: false,
            looped: false,
            index: 0,
            timer: machine.dmc_periods()[0],
            level: 0,
            address_byte: 0,
            length_byte: 0,
            address: 49152,
            remaining: 0,
            buffer: 0,
            full: false,
            shift: 0,
            bits: 8,
            silence: true,
            interrupt: false,
        }
    }

    fn write(&mut self, place: u16, value: u8) {
        match place {
            0 => {
                self.interrupt_enable = bit(value, 7);
                self.looped = bit(value, 6);
                self.index = low(value, 0x0f);
                if !self.interrupt_enable {
                    self.interrupt = false;
                }
            }
            1 => self.level = low(value, 0x7f),
            2 => self.address_byte = u16::from(value),
            _ => self.length_byte = u16::from(value),
        }
    }

    fn restart(&mut self) {
        self.address = self.address_byte * 64 + 0xc000;
        self.remaining = self.length_byte * 16 + 1;
    }

    /// Its part of a write to $4015.
    fn start(&mut self, on: bool) {
        self.interrupt = false;
        if !on {
            self.remaining = 0;
        } else if self.remaining == 0 {
            self.restart();
        }
    }

    fn timer_clock(&mut self, machine: Machine) {
        if !divide(&mut self.timer, machine.dmc_periods()[usize::from(self.index)]) {
            return;
        }
        if !self.silence {
            if self.shift & 1 == 0 && self.level > 1 {
                self.level -= 2;
            } else if self.shift & 1 == 1 && self.level < 126 {
                self.level += 2;
            }
        }
        self.shift >>= 1;
        self.bits -= 1;
        if self.bits == 0 {
            self.bits = 8;
            if self.full {
                self.shift = self.buffer;
                self.full = false;
                self.silence = false;
            } else {
                self.silence = true;
            }
        }
    }

    fn reader_clock(&mut self, memory: &[u8]) {
        if self.full || self.remaining == 0 {
            return;
        }
        self.buffer = u16::from(memory[usize::from(self.address - 0x8000)]);
        self.full = true;
        self.address = if self.address == 0xffff { 0x8000 } else { self.address + 1 };
        self.remaining -= 1;
        if self.remaining == 0 {
            if self.looped {
                self.restart();
            } else if self.interrupt_enable {
                self.interrupt = true;
            }
        }
    }
}

/// The frame sequencer.
#[derive(Clone, Copy, Debug, Default, PartialEq, Eq)]
pub struct Frame {
    /// Five steps instead of four.
    pub mode: bool,
    /// The interrupt flag isn't set.
    pub disable: bool,
    /// The clock number, counted from the reset, below that where the machine's frame begins again in the mode.
    pub clock: u16,
    /// The interrupt flag, set only while disable is clear.
    pub interrupt: bool,
}

impl Frame {
    /// One clock more; the step that it brings, if it brings one.
    fn count(&mut self, machine: Machine) -> Option<usize> {
        let Times { steps, again } = machine.times(self.mode);
        self.clock += 1;
        if self.clock == again {
            self.clock = 0;
        }
        let place = steps.iter().position(|time| *time == self.clock)?;
        // In mode 1 step 1 happens at the write; the five times then bring steps 2, 3, 4, 5 and 1.
        Some(if self.mode { [2, 3, 4, 5, 1][place] } else { [1, 2, 3, 4][place] })
    }
}

/// The whole state.
#[derive(Clone, Copy, Debug, PartialEq, Eq)]
pub struct Chip {
    /// Square 1 and square 2.
    pub squares: [Square; 2],
    /// The triangle.
    pub triangle: Triangle,
    /// The noise.
    pub noise: Noise,
    /// The DMC.
    pub dmc: Dmc,
    /// The frame sequencer.
    pub frame: Frame,
    /// NTSC or PAL.
    pub machine: Machine,
}

const WHICH: [Which; 2] = [Which::First, Which::Second];

/// Whether an access may name this register: $4000..$4013, $4015 or $4017.
pub fn is_register(register: u16) -> bool {
    matches!(register, 0x4000..=0x4013 | 0x4015 | 0x4017)
}

impl Chip {
    /// A machine's state at power-on: flags clear, numbers 0, except as marked.
    pub const fn power_on(machine: Machine) -> Self {
        Self {
            squares: [Square::POWER_ON; 2],
            triangle: Triangle::POWER_ON,
            noise: Noise::power_on(machine),
            dmc: Dmc::power_on(machine),
            frame: Frame { mode: false, disable: false, clock: 0, interrupt: false },
            machine,
        }
    }

    /// The NTSC machine's.
    pub const POWER_ON: Self = Self::power_on(Machine::Ntsc);

    /// The times of the frame.
    pub fn times(&self) -> Times {
        self.machine.times(self.frame.mode)
    }

    /// One clock: the timers with what they drive, the DMC reader, the frame's clock number, then its step if due.
    pub fn clock(&mut self, memory: &[u8]) {
        for square in &mut self.squares {
            square.timer_clock();
        }
        self.triangle.timer_clock();
        self.noise.timer_clock(self.machine);
        self.dmc.timer_clock(self.machine);
        self.dmc.reader_clock(memory);
        if let Some(step) = self.frame.count(self.machine) {
            self.frame_step(step);
        }
    }

    /// A step of the frame sequence.
    fn frame_step(&mut self, step: usize) {
        let (envelopes, lengths) =
            if self.frame.mode { (step <= 4, step == 1 || step == 3) } else { (true, step == 2 || step == 4) };
        if envelopes {
            for square in &mut self.squares {
                square.envelope.clock();
            }
            self.noise.envelope.clock();
            self.triangle.linear_clock();
        }
        if lengths {
            for (square, which) in self.squares.iter_mut().zip(WHICH) {
                square.length.clock(square.envelope.looped);
                square.sweep_clock(which);
            }
            self.triangle.length.clock(self.triangle.control);
            self.noise.length.clock(self.noise.envelope.looped);
        }
        if !self.frame.mode && step == 4 && !self.frame.disable {
            self.frame.interrupt = true;
        }
    }

    /// A write to a register for which `is_register` holds; any other changes nothing.
    pub fn write(&mut self, register: u16, value: u8) {
        let place = register % 4;
        match register {
            0x4000..=0x4003 => self.squares[0].write(place, value),
            0x4004..=0x4007 => self.squares[1].write(place, value),
            0x4008..=0x400b => self.triangle.write(place, value),
            0x400c..=0x400f => self.noise.write(place, value),
            0x4010..=0x4013 => self.dmc.write(place, value),
            0x4015 => {
                self.squares[0].length.enable(bit(value, 0));
                self.squares[1].length.enable(bit(value, 1));
                self.triangle.length.enable(bit(value, 2));
                self.noise.length.enable(bit(value, 3));
                self.dmc.start(bit(value, 4));
            }
            0x4017 => {
                self.frame.mode = bit(value, 7);
                self.frame.disable = bit(value, 6);
                if self.frame.disable {
                    self.frame.interrupt = false;
                }
                self.frame.clock = 0;
                if self.frame.mode {
                    self.frame_step(1);
                }
            }
            _ => {}
        }
    }

    /// A read of $4015; it clears the frame flag.
    pub fn read_status(&mut self) -> u8 {
        let bits = [
            self.squares[0].length.count > 0,
            self.squares[1].length.count > 0,
            self.triangle.length.count > 0,
            self.noise.length.count > 0,
            self.dmc.remaining > 0,
            false,
            self.frame.interrupt,
            self.dmc.interrupt,
        ];
        self.frame.interrupt = false;
        bits.iter().rev().fold(0, |byte, &bit| byte << 1 | u8::from(bit))
    }

    /// Whether the interrupt line is asserted.
    pub fn line(&self) -> bool {
        self.frame.interrupt && !self.frame.disable || self.dmc.interrupt
    }

    /// What each channel gives to the mixer: square 1, square 2, triangle, noise, DMC.
    pub fn gives(&self) -> [u16; 5] {
        let [first, second] = &self.squares;
        let squares = [first.output(Which::First), second.output(Which::Second)];
        [squares[0], squares[1], self.triangle.output(), self.noise.output(), self.dmc.level]
    }

    /// What the channels give to the mixer, with the squares' sum.
    pub fn outputs(&self) -> Outputs {
        let [first, second, triangle, noise, dmc] = self.gives();
        Outputs { squares: first + second, triangle, noise, dmc }
    }

    /// The mixed level.
    pub fn level(&self) -> u16 {
        self.outputs().level()
    }
}
