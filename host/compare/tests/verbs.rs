//! What the verbs of `perch` write about the examples (`host/verbs`), by the reading.

use compare::lanes;
use reading::log::{items, machine, open_at, summed};
use reading::salvage::Done;
use reading::{Machine, dwell, flags, meter, moment, sheet, trace, why};
use std::fs::read;

const HOST: &str = concat!(env!("CARGO_MANIFEST_DIR"), "/..");

fn example(name: &str) -> Vec<u8> {
    read(format!("{HOST}/../examples/{name}")).unwrap()
}

/// Holds each stored text whose name begins so to what is expected of the rest of its name.
fn hold(beginning: &str, expected: impl Fn(&str) -> String) {
    let mut files = 0;
    for entry in std::fs::read_dir(format!("{HOST}/verbs")).unwrap().flatten() {
        let name = entry.file_name().into_string().unwrap();
        if let Some(rest) = name.strip_prefix(beginning) {
            assert_eq!(expected(rest), String::from_utf8(read(entry.path()).unwrap()).unwrap(), "{name}");
            files += 1;
        }
    }
    assert!(files > 0, "nothing stored begins with {beginning}");
}

#[test]
fn reasons_of_the_examples() {
    hold("why-", |name| {
        let (log, clock) = name.rsplit_once('-').unwrap();
        why::text(&example(&format!("{log}.log")), &example("sample.bin"), clock.parse().unwrap())
    });
}

/// What `perch check` writes behind a refusal: clocks in all (10), totals cut off just above what a log may have (9), the open loop's line (8).
fn mending(log: &[u8], number: u8, place: usize) -> String {
    let totals = || summed(log).expect("its lines are right");
    match number {
        10 => format!("clocks={}\n", totals().clocks),
        9 => format!("clocks={}\nturns={}\n", totals().clocks.min(2_000_000_001), totals().turns.min(1_000_001)),
        8 => {
            let line = |at: usize| 1 + log[..at].iter().filter(|byte| **byte == b'\n').count();
            format!("open={}\n", open_at(log, place).map_or(0, line))
        }
        _ => String::new(),
    }
}

/// The text of `perch check` for a log.
fn checked(log: &[u8]) -> String {
    match reading::log::check(log) {
        Ok(totals) => {
            let machine = if machine(log) == Ok(Machine::Pal) { "machine=pal\n" } else { "" };
            let items = items(log).expect("the log passes").len();
            format!("check=1\n{machine}clocks={}\nturns={}\nitems={items}\n", totals.clocks, totals.turns)
        }
        Err(fault) => {
            let start = log[..fault.place].iter().rposition(|byte| *byte == b'\n').map_or(0, |feed| feed + 1);
            let number = 1 + log[..start].iter().filter(|byte| **byte == b'\n').count();
            let line = String::from_utf8_lossy(log[start..].split(|byte| *byte == b'\n').next().unwrap_or_default());
            let (before, words) = (fault.place - start, perch::Refusal(fault.number));
            let first = format!(
                "check=1\nrefused={}:{}\nline {number}, column {}: {words}\n",
                fault.number,
                fault.place,
                before + 1
            );
            format!("{first}{line}\n{}^\n{}", " ".repeat(before), mending(log, fault.number, fault.place))
        }
    }
}

#[test]
fn checks_of_the_examples() {
    hold("check-", |log| checked(&example(&format!("{log}.log"))));
}

/// Of a log that is longer only so many clocks are worked.
const MOST_METERED: u64 = 20_000_000;

#[test]
fn meters_of_the_examples() {
    hold("meter-", |name| {
        let (log, each) = name.strip_prefix("waits-").map_or((name, false), |log| (log, true));
        meter::text(&example(&format!("{log}.log")), &example("sample.bin"), each, MOST_METERED)
    });
}

#[test]
fn sheet_of_the_sample() {
    hold("sheet", |_| {
        let mut levels = [0; 20];
        assert_eq!(sheet::sheet(&example("sample.bin"), 64, 0xc000, 20, &mut levels), 20 << 8);
        let lines = levels.iter().zip(0xc000..).map(|(level, address)| format!("{address:04x}:{level}\n"));
        format!("sheet=1\n{}", lines.collect::<String>())
    });
}

#[test]
fn repairs_of_the_examples() {
    hold("salvage-", |name| {
        let damaged = example(&format!("{name}.log"));
        let (repaired, list) = reading::salvage::salvaged(&damaged).expect("the log can be repaired");
        let line = |log: &[u8], place: usize| 1 + log[..place].iter().filter(|byte| **byte == b'\n').count();
        let entry = |done: &Done| match *done {
            Done::Added(place) => {
                let added = repaired[place..].split(|byte| *byte == b'\n').next().unwrap_or_default();
                format!("added={place}:0 line {}: {}\n", line(&repaired, place), String::from_utf8_lossy(added))
            }
            Done::Dropped(place, number) => {
                format!("dropped={place}:{number} line {}: {}\n", line(&damaged, place), perch::Refusal(number))
            }
        };
        list.iter().map(entry).collect()
    });
}

#[test]
fn dwell_tables_of_the_examples() {
    hold("dwell-", |log| dwell::text(&example(&format!("{log}.log")), &example("sample.bin")));
}

#[test]
fn interrupts_of_the_examples() {
    hold("interrupts-", |log| flags::text(&example(&format!("{log}.log")), &example("sample.bin")));
}

#[test]
fn states_of_the_examples() {
    hold("at-", |name| {
        let (log, clock) = name.rsplit_once('-').unwrap();
        moment::text(&example(&format!("{log}.log")), &example("sample.bin"), clock.parse().unwrap())
    });
}

#[test]
fn traces_of_the_examples() {
    hold("vcd-", |name| {
        let [log, from, clocks] = name.split('-').collect::<Vec<_>>()[..] else { panic!("{name}") };
        let (from, clocks) = (from.parse().unwrap(), clocks.parse().unwrap());
        let (log, memory) = (example(&format!("{log}.log")), example("sample.bin"));
        let text = trace::text(&log, &memory, from, clocks);
        lanes::hold(&text, &log, &memory, from, clocks).unwrap();
        text
    });
}
