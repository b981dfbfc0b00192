//! Cursors: through the items of right logs one by one, and cursors that no log led to, on any logs; the answer and the bytes
//! are held to the reading's.

use crate::counts::Counts;
use crate::logs::{self, same};
use crate::players::{looped, place, spinning};
use crate::random::Random;
use crate::{free, lines};
use perch::raw;
use reading::layout::{VERSION, cursor as layout};
use reading::log::{self, MOST_DEPTH};
use reading::player::held;
use reading::{cursor, number};

/// What must come up, and how often in 10,000 cursors.
const SEEN: [(&str, u64); 18] = [
    ("started", 1000),
    ("an item", 5000),
    ("the end", 1000),
    ("moved", 1),
    ("2", 500),
    ("4", 5),
    ("5", 10),
    ("7", 100),
    ("8", 200),
    ("14", 1000),
    ("15", 50),
    ("16", 10),
    ("17", 50),
    ("18", 300),
    ("more than eight loops open", 500),
    ("a place in mid-line", 1000),
    ("right logs gone through", 500),
    ("their items", 5000),
];

/// A cursor's bytes: at a beginning, some way on, with any fields, or free ones.
fn drawn(random: &mut Random, log: &[u8], counts: &mut Counts) -> Vec<u8> {
    let mut bytes: Vec<u8> = (0..layout::SIZE).map(|_| random.byte()).collect();
    if random.one_in(8) {
        return bytes;
    }
    cursor::start(&mut bytes);
    for _ in 0..random.pick(&[0, 1, 5, 50]) {
        cursor::next(&mut bytes, log);
    }
    for _ in 0..random.within(0..=3) {
        match random.within(0..=4) {
            0 | 1 => {
                let at = place(random, log);
                layout::PLACE.put(&mut bytes, at);
                let before = usize::try_from(at).ok().and_then(|at| at.checked_sub(1)).and_then(|at| log.get(at));
                counts.add_if(before.is_some_and(|&byte| byte != b'\n'), "a place in mid-line");
            }
            2 => {
                let eight = MOST_DEPTH as u64;
                let (few, any) = (random.within(0..=eight), random.bits());
                let open = random.pick(&[few, few, few, eight, eight, eight + 1, 256, (1 << 32) + few, any]);
                layout::OPEN.put(&mut bytes, open);
                counts.add_if(open > eight, "more than eight loops open");
            }
            3 => layout::STARTS.nth(random.within(0..=7) as usize, 8).put(&mut bytes, place(random, log)),
            _ => layout::LEFT.nth(random.within(0..=7) as usize, 1).put(&mut bytes, random.within(0..=3)),
        }
    }
    bytes
}

/// Holds a start to the reading: any bytes of any length.
fn started(random: &mut Random, counts: &mut Counts) -> Result<(), String> {
    let sizes = [layout::SIZE, layout::SIZE, 0, 1, layout::SIZE - 1, layout::SIZE + 1, 200];
    let mut ours: Vec<u8> = (0..random.pick(&sizes)).map(|_| random.byte()).collect();
    let mut theirs = ours.clone();
    let answer = cursor::start(&mut ours);
    same(|| "a cursor's start".into(), answer, raw::cursor_start(&mut theirs))?;
    if ours != theirs {
        return Err(format!("a cursor of {} bytes starts as {theirs:?}", ours.len()));
    }
    counts.add(if answer == 0 { "started" } else { "2" });
    // A refused step.
    if ours.len() != layout::SIZE {
        let log = if random.one_in(2) { b"log=1\n".to_vec() } else { vec![b'\n'; 60_001] };
        same(|| "a cursor of another length".into(), number::STATE.into(), raw::cursor_next(&mut theirs, &log))?;
        if ours != theirs {
            return Err("a refused step changed the cursor".into());
        }
    }
    Ok(())
}

/// Holds some steps of a cursor to the reading.
fn stepped(bytes: Vec<u8>, log: &[u8], steps: u64, counts: &mut Counts) -> Result<(), String> {
    let (mut ours, mut theirs) = (bytes.clone(), bytes);
    for step in 0..steps {
        let before = ours.clone();
        let answer = cursor::next(&mut ours, log);
        let from = || format!("step {step} of a cursor from {:?}", cursor::Cursor::decode(&before));
        same(from, answer, raw::cursor_next(&mut theirs, log))?;
        if ours != theirs {
            let [ours, theirs] = [&ours, &theirs].map(|bytes| cursor::Cursor::decode(bytes));
            return Err(format!("{}: the reading leads to {ours:?}, the library to {theirs:?}", from()));
        }
        match (answer as u8, answer >> 56) {
            (0, 0) => counts.add("the end"),
            (0, 4) => counts.add("moved"),
            (0, _) => counts.add("an item"),
            (number, _) => {
                counts.add(&number.to_string());
                break;
            }
        }
    }
    Ok(())
}

/// Goes through a right log: call k gives item k, and behind the last the end. The list is unrolled, and not by a cursor.
fn gone_through(log: &[u8], counts: &mut Counts) -> Result<(), String> {
    let Ok(items) = log::items(log) else {
        return Ok(());
    };
    let mut bytes = vec![0xff; layout::SIZE];
    raw::cursor_start(&mut bytes);
    for (k, item) in items.iter().enumerate() {
        same(|| format!("item {k} by a cursor"), held(*item) << 32, raw::cursor_next(&mut bytes, log))?;
        counts.add("their items");
    }
    for _ in 0..2 {
        same(|| "the end by a cursor".into(), 0, raw::cursor_next(&mut bytes, log))?;
    }
    counts.add("right logs gone through");
    Ok(())
}

/// Any log: right, damaged, with a line at fault, or free bytes.
fn any_log(random: &mut Random) -> Vec<u8> {
    match random.within(0..=9) {
        0..=2 => looped(random),
        3 => logs::sounding(random),
        4 => {
            let mut log = looped(random);
            logs::damage(random, &mut log);
            log
        }
        5 => {
            let mut log = looped(random);
            logs::cut_short(random, &mut log);
            log
        }
        6 => free::log(random),
        7 if random.one_in(20) => vec![b'\n'; 60_001],
        _ => lines::log(random),
    }
}

/// Draws and judges cursors; tells what came up, and it is an error where something hardly did.
pub fn compare(seed: u64, cursors: u64) -> Result<String, String> {
    same(|| "the version".into(), VERSION.into(), raw::version().into())?;
    same(|| "a cursor's size".into(), layout::SIZE as u64, raw::cursor_size() as u64)?;
    let mut counts = Counts::new(cursors, SEEN);
    for number in 0..cursors {
        let random = &mut Random::new(seed, "cursors", number);
        let spins = number % 2000 == 1000;
        let log = if spins { spinning() } else { any_log(random) };
        let bytes = if spins { vec![0; layout::SIZE] } else { drawn(random, &log, &mut counts) };
        let steps = random.pick(&[1, 1, 5, 40]);
        let judged = started(random, &mut counts).and_then(|()| stepped(bytes, &log, steps, &mut counts));
        judged.and_then(|()| gone_through(&log, &mut counts)).map_err(|difference| {
            let shown = log.escape_ascii().to_string().replace("\\n", "\\n\n");
            format!("seed {seed}, cursor {number}: {difference}\n{shown}")
        })?;
    }
    Ok(format!("{cursors} cursors ({})", counts.told()?))
}
