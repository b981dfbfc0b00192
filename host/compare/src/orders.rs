//! Request 13: two writes to different channels, one right after the other, in either order.

use crate::counts::Counts;
use crate::draw;
use crate::folds::played;
use crate::random::Random;
use perch::raw;
use reading::MOST_COUNT;

const CHANNELS: [&str; 5] = ["square 1", "square 2", "triangle", "noise", "DMC"];

type Write = (u16, u8);

/// Lines that let both squares and the noise sound.
const SOUNDING: &str =
    "write=4015:1f\nwrite=4002:80\nwrite=4003:08\nwrite=4006:90\nwrite=4007:08\nwrite=400f:08\nwait=5000\n";

fn pair(one: usize, other: usize) -> String {
    format!("{} and {}", CHANNELS[one.min(other)], CHANNELS[one.max(other)])
}

fn things() -> Vec<(String, u64)> {
    let pairs = (0..5).flat_map(|one| (one + 1..5).map(move |other| (pair(one, other), 700)));
    let others = [
        ("levels between that aren't the same", 2_000),
        ("runs with records", 2_000),
        ("runs that a count ended", 300),
        ("other texts", 60),
    ];
    pairs.chain(others.map(|(name, fewest)| (name.into(), fewest))).collect()
}

/// Two writes to $4000..$4013 that belong to different channels, as often as not to registers that act on the level at once.
fn writes(random: &mut Random) -> [Write; 2] {
    let at_once = random.one_in(2);
    let write = |channel: u16, random: &mut Random| {
        let place = if at_once { [0, 0, 0, 0, 1][usize::from(channel)] } else { random.within16(0..=3) };
        (0x4000 + 4 * channel + place, random.byte())
    };
    let one = random.within16(0..=4);
    let other = (one + random.within16(1..=4)) % 5;
    [write(one, random), write(other, random)]
}

/// Draws states and logs, each with two writes; a failing one is told whole.
pub fn compare(seed: u64, orders: u64, memory: &[u8]) -> Result<String, String> {
    let mut counts = Counts::new(orders, things());
    for number in 0..orders {
        let random = &mut Random::new(seed, "orders", number);
        let two = writes(random);
        let state = draw::state(random).encode().to_vec();
        counts.add(&pair(usize::from(two[0].0 % 32 / 4), usize::from(two[1].0 % 32 / 4)));
        in_a_state(&state, two, memory, random, &mut counts)
            .map_err(|what| format!("seed {seed}, orders {number}: {two:04x?}, {what}\n{state:02x?}"))?;
        if random.one_in(4) {
            in_a_log(two, memory, random, &mut counts)
                .map_err(|what| format!("seed {seed}, orders {number}: {two:04x?}, {what}"))?;
        }
    }
    Ok(format!("{orders} pairs of writes ({})", counts.told()?))
}

/// The state after the writes in an order, and what each of them answers.
fn written(state: &[u8], two: [Write; 2]) -> (Vec<u8>, [u64; 2]) {
    let mut after = state.to_vec();
    let answers = two.map(|(register, value)| raw::access(&mut after, 0, register, value));
    (after, answers)
}

/// Either order ends in the same state and level, and a run after it gives the same.
fn in_a_state(
    state: &[u8],
    two @ [one, other]: [Write; 2],
    memory: &[u8],
    random: &mut Random,
    counts: &mut Counts,
) -> Result<(), String> {
    let (mut first, answers) = written(state, two);
    let (mut second, turned) = written(state, [other, one]);
    let ended = |answer: u64| answer & 0xffff_ffff;
    if answers.iter().chain(&turned).any(|&answer| answer as u8 != 0)
        || first != second
        || ended(answers[1]) != ended(turned[1])
    {
        return Err(format!(
            "{answers:#x?}, {turned:#x?} in the other order, the states\n{first:02x?}\n{second:02x?} from"
        ));
    }
    counts.add_if(answers[0] >> 16 & 0xffff != turned[0] >> 16 & 0xffff, "levels between that aren't the same");
    let count = random.within(0..=20_000);
    let mut words = vec![0xa5a5_a5a5; random.within(0..=64) as usize];
    let mut again = words.clone();
    let near = random.one_in(2);
    let mut table: Vec<u32> =
        (0..128).map(|_| if near { MOST_COUNT - random.within(0..=9_999) as u32 } else { 0 }).collect();
    let mut retable = table.clone();
    let ran = raw::run(&mut first, memory, count, &mut words, &mut table);
    let rerun = raw::run(&mut second, memory, count, &mut again, &mut retable);
    if (ran, &first, &words, &table) != (rerun, &second, &again, &retable) {
        return Err(format!("a run of {count} clocks answers {ran:#x}, {rerun:#x} in the other order, from"));
    }
    counts.add_if(ran >> 32 > 0, "runs with records");
    let room = words.len() as u64 / 2;
    counts.add_if(ran >> 8 & 0xff_ffff < count && ran >> 32 < room, "runs that a count ended");
    Ok(())
}

fn line((register, value): Write) -> String {
    format!("write={register:04x}:{value:02x}\n")
}

/// Lines that write any register of $4000..$4013, wait and read, and their clocks.
fn lines(random: &mut Random, most: u64) -> (String, u64) {
    let (mut text, mut clocks) = (String::new(), 0);
    for _ in 0..random.within(0..=most) {
        match random.within(0..=5) {
            0 => text += "read=4015\n",
            1 => {
                let wait = random.within(1..=3_000);
                text += &format!("wait={wait}\n");
                clocks += wait;
            }
            _ => text += &line((random.within16(0x4000..=0x4013), random.byte())),
        }
    }
    (text, clocks)
}

/// Two logs that differ in nothing but the order of the writes: the check answers the same, and the player writes the same but for the
/// levels on the way.
fn in_a_log(
    two @ [one, other]: [Write; 2],
    memory: &[u8],
    random: &mut Random,
    counts: &mut Counts,
) -> Result<(), String> {
    let machine = random.pick(&["", "machine=pal\n"]);
    let ((before, first), (inside, turn), (behind, last)) = (lines(random, 20), lines(random, 6), lines(random, 6));
    let clocks = 5_000 + first + 2 * turn + last;
    let [log, turned] = [two, [other, one]].map(|[one, other]| {
        let two = line(one) + &line(other);
        format!("log=1\n{machine}{SOUNDING}{before}loop=2\n{two}{inside}done=loop\n{behind}stop={clocks}\n")
            .into_bytes()
    });
    let asked = |log: &[u8]| [raw::check(log), raw::turns(log), raw::items(log)];
    if asked(&log) != asked(&turned) || raw::check(&log) as u8 != 0 {
        return Err(format!("the checks {:#x?}, {:#x?}", asked(&log), asked(&turned)));
    }
    let texts =
        [played(&log, memory)?, played(&turned, memory)?].map(|text| String::from_utf8_lossy(&text).into_owned());
    if settled(&texts[0]) != settled(&texts[1]) {
        return Err(format!("played as\n{}and as\n{}for\n{}", texts[0], texts[1], String::from_utf8_lossy(&log)));
    }
    counts.add_if(texts[0] != texts[1], "other texts");
    Ok(())
}

/// The lines of a text with, of level lines at one time, the last alone, and none where it is the level before them.
fn settled(text: &str) -> Vec<&str> {
    let lines: Vec<&str> = text.lines().collect();
    let time = |line: &str| line.strip_prefix("level=").map(|rest| rest.split(':').next().map(str::to_owned));
    let mut level = "";
    let mut kept = Vec::new();
    for (at, line) in lines.iter().enumerate() {
        if time(line).is_none() {
            kept.push(*line);
        } else if lines.get(at + 1).and_then(|next| time(next)) != time(line) {
            let now = line.split(':').nth(1).unwrap_or_default();
            if now != level {
                kept.push(*line);
                level = now;
            }
        }
    }
    kept
}
