//! The lanes of a value change dump, held to the reading at each clock and at each access.

use crate::vcd::{Change, Dump, read};
use reading::log::Fault;
use reading::play;
use reading::trace::{Bus, Event, Moment, Seen, walk};

/// The scope, the name and the bits of each lane.
const LANES: [(&str, &str, usize); 13] = [
    ("", "clock", 31),
    ("", "level", 15),
    ("channels", "square1", 4),
    ("channels", "square2", 4),
    ("channels", "triangle", 4),
    ("channels", "noise", 4),
    ("channels", "dmc", 7),
    ("interrupts", "line", 1),
    ("interrupts", "frame_flag", 1),
    ("interrupts", "dmc_flag", 1),
    ("bus", "register", 16),
    ("bus", "value", 8),
    ("bus", "read", 1),
];

/// The clock's place among the lanes; behind it are those that are seen of the chip, then those of the bus.
const CLOCK: usize = 0;
const SEEN: std::ops::Range<usize> = 1..10;
const FLAGS: std::ops::Range<usize> = 7..10;
const BUS: std::ops::Range<usize> = 10..13;

/// What was held to the reading.
#[derive(Clone, Copy, Debug, Default, PartialEq, Eq)]
pub struct Held {
    /// Clocks of the window.
    pub clocks: u64,
    /// Accesses.
    pub accesses: u64,
    /// The most of them at one clock.
    pub most: u64,
    /// Clocks and accesses behind which a lane of the chip differs.
    pub differ: u64,
    /// Those behind which the line or a flag does.
    pub flags: u64,
}

fn declared(dump: &Dump) -> Result<(), String> {
    let scopes = |scope: &str| match scope {
        "" => vec!["module perchpulley".to_string()],
        inner => vec!["module perchpulley".to_string(), format!("module {inner}")],
    };
    let right = dump.variables.len() == LANES.len()
        && dump.variables.iter().zip(LANES).all(|(variable, (scope, name, width))| {
            variable.kind == "wire"
                && variable.scopes == scopes(scope)
                && variable.name == name
                && variable.width == width
        });
    match (right, &dump.timescale[..]) {
        (true, "1ns") => Ok(()),
        _ => Err(format!("the head declares {:?} in units of {}", dump.variables, dump.timescale)),
    }
}

/// A dump that is gone through.
struct Lanes<'a> {
    left: std::slice::Iter<'a, Change>,
    now: [u64; LANES.len()],
    held: Held,
}

impl Lanes<'_> {
    /// Takes what the dump tells of one moment: up to the moment's time, and not past the clock lane's next value.
    fn take(&mut self, moment: &Moment) -> Result<Vec<usize>, String> {
        let mut told = Vec::new();
        while let Some(change) = self.left.as_slice().first() {
            if change.time > moment.time || !told.is_empty() && change.variable == CLOCK {
                break;
            }
            if change.time < moment.time || told.contains(&change.variable) {
                return Err(format!("{} stands at {}", LANES[change.variable].1, change.time));
            }
            let value = change.number().ok_or("a bit that is neither 0 nor 1")?;
            let same = SEEN.contains(&change.variable) && self.now[change.variable] == value;
            if same && moment.event != Event::Begin {
                return Err(format!("{} is told and stays {value}", LANES[change.variable].1));
            }
            self.now[change.variable] = value;
            told.push(change.variable);
            self.left.next();
        }
        Ok(told)
    }

    fn is(&self, lane: usize, value: u64) -> Result<(), String> {
        match self.now[lane] {
            now if now == value => Ok(()),
            now => Err(format!("{} is {now}, by the reading {value}", LANES[lane].1)),
        }
    }

    fn chip(&self, seen: &Seen) -> Result<(), String> {
        SEEN.zip(seen).try_for_each(|(lane, value)| self.is(lane, (*value).into()))
    }

    fn bus(&self, bus: Bus) -> Result<(), String> {
        let values = [u64::from(bus.register), bus.value.into(), bus.read.into()];
        BUS.zip(values).try_for_each(|(lane, value)| self.is(lane, value))
    }

    fn hold(&mut self, moment: &Moment, dump: &Dump) -> Result<(), String> {
        let told = self.take(moment)?;
        match moment.event {
            Event::Begin => {
                if told != (0..LANES.len()).collect::<Vec<_>>() || dump.dumped != LANES.len() {
                    return Err("not every lane is dumped once".into());
                }
                self.bus(Bus { register: 0, value: 0, read: false })?;
            }
            Event::Clock if told.iter().any(|lane| BUS.contains(lane)) => return Err("the bus changes".into()),
            Event::Clock => self.held.clocks += 1,
            Event::Access(bus) => {
                if !BUS.chain([CLOCK]).all(|lane| told.contains(&lane)) {
                    return Err("an access isn't told whole".into());
                }
                self.bus(bus)?;
                self.held.accesses += 1;
                self.held.most = self.held.most.max(moment.nth);
            }
            Event::End if self.left.len() > 0 => return Err("something is told behind the end".into()),
            Event::End => {
                let last = dump.times.last();
                return if last == Some(&moment.time) { Ok(()) } else { Err(format!("the last time is {last:?}")) };
            }
        }
        // The clock's number is told at each change, and at each access.
        if !told.is_empty() {
            self.is(CLOCK, moment.clock)?;
        }
        if moment.event != Event::Begin {
            self.held.differ += u64::from(told.iter().any(|lane| SEEN.contains(lane)));
            self.held.flags += u64::from(told.iter().any(|lane| FLAGS.contains(lane)));
        }
        if told == [CLOCK] {
            return Err("the clock alone is told".into());
        }
        self.chip(&moment.seen)
    }
}

/// Holds a dump to a window of a log, lane by lane; none where the log is refused.
pub fn hold(text: &str, log: &[u8], memory: &[u8], from: u64, clocks: u64) -> Result<Option<Held>, String> {
    let mut result = Ok(());
    let mut lanes = Lanes { left: [].iter(), now: [0; LANES.len()], held: Held::default() };
    // A refused log has no dump.
    let dump = match play::check(log, memory) {
        Ok(_) => read(text)?,
        Err(Fault { number, place }) if text == format!("refused={number}:{place}\n") => return Ok(None),
        Err(fault) => return Err(format!("the log is refused: {fault:?}")),
    };
    declared(&dump)?;
    lanes.left = dump.changes.iter();
    let _ = walk(log, memory, from, clocks, |moment| {
        if result.is_ok() {
            let Moment { event, clock, nth, time, .. } = moment;
            let what = |what| format!("{event:?} at clock {clock}, access {nth}, time {time}: {what}");
            result = lanes.hold(&moment, &dump).map_err(what);
        }
    });
    result.map(|()| Some(lanes.held))
}
