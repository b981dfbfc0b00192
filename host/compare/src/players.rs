//! Players that no log led to: one is begun and played some way, everything in it but the state is damaged, or the log is
//! another, and its next pieces are held to the reading's machine, which turns by the library's definitions.

use crate::counts::Counts;
use crate::logs::{cut_short, damage, sounding};
use crate::random::Random;
use perch::raw;
use reading::layout::{cursor, player as layout};
use reading::log::{Fault, MOST_DEPTH};
use reading::player::{MOST_SILENT, Player, Said};
use reading::{MEMORY, MOST_CLOCKS};

/// The longest line: a text of so many bytes gets one.
const LONGEST: usize = 23;

/// The most clocks of a piece, and of one with the longest wait: the machine goes one by one.
pub(crate) const MOST_WORKED: u64 = 40_000;
const MOST_WORKED_RARELY: u64 = 1_000_000 + MOST_WORKED;

/// More turns than any piece has been seen to go behind its last line.
const MOST_TURNS: u64 = 3 * MOST_SILENT;

const LONGEST_WAIT: &str = "a wait of 1,000,000 clocks";

/// What can be damaged, and how often it must come up in 10,000 players.
const DAMAGE: [(&str, u64); 15] = [
    ("nothing", 300),
    ("the place", 1000),
    ("a place in mid-line", 300),
    ("the loops open", 1000),
    ("more than eight loops open", 200),
    ("a loop's start", 1000),
    ("the turns left", 1000),
    ("the time", 500),
    ("the wait", 500),
    (LONGEST_WAIT, 20),
    ("a wait up to the latest time", 100),
    ("the phase", 500),
    ("the last level", 500),
    ("the log", 500),
    ("the state", 20),
];

/// What a piece can come to, and how often it must come up in 10,000 players.
const SEEN: [(&str, u64); 18] = [
    ("lines", 5000),
    ("no line in a short text", 500),
    ("over", 500),
    ("silent turns", 1),
    ("too long for the machine", 0),
    ("1", 50),
    ("2", 20),
    ("3", 50),
    ("4", 1),
    ("5", 10),
    ("7", 100),
    ("8", 300),
    ("9", 50),
    ("14", 300),
    ("15", 10),
    ("16", 1),
    ("17", 10),
    ("18", 100),
];

/// Any number of a log's length, or near it, or of 64 bits.
pub(crate) fn place(random: &mut Random, log: &[u8]) -> u64 {
    let length = log.len() as u64;
    match random.within(0..=9) {
        0 => {
            let any = random.bits();
            random.pick(&[0, length, length + 1, u64::MAX, 1 << 32, any])
        }
        1..=4 => random.within(0..=length),
        _ => line_start(random, log),
    }
}

/// Where some line begins.
fn line_start(random: &mut Random, log: &[u8]) -> u64 {
    let from = random.within(0..=log.len() as u64) as usize;
    let feed = log[from..].iter().position(|&byte| byte == b'\n');
    feed.map_or(0, |feed| (from + feed + 1) as u64)
}

/// Damages one thing in a cursor's bytes; tells what.
pub(crate) fn damage_cursor(random: &mut Random, cursor: &mut [u8], log: &[u8]) -> &'static str {
    match random.within(0..=25) {
        0..=7 => {
            let at = place(random, log);
            cursor::PLACE.put(cursor, at);
            let before = usize::try_from(at).ok().and_then(|at| at.checked_sub(1)).and_then(|at| log.get(at));
            if before.is_some_and(|&byte| byte != b'\n') { "a place in mid-line" } else { "the place" }
        }
        8..=14 => {
            let eight = MOST_DEPTH as u64;
            let (few, any) = (random.within(0..=eight), random.bits());
            let high = random.pick(&[eight + 1, 255, 256, 1 << 32, (1 << 32) + 1, u64::MAX, any]);
            let open = random.pick(&[few, few, few, few, few, eight, eight, high]);
            cursor::OPEN.put(cursor, open);
            if open > eight { "more than eight loops open" } else { "the loops open" }
        }
        15..=20 => {
            for i in 0..MOST_DEPTH {
                if random.one_in(2) {
                    cursor::STARTS.nth(i, 8).put(cursor, place(random, log));
                }
            }
            "a loop's start"
        }
        _ => {
            for i in 0..MOST_DEPTH {
                if random.one_in(2) {
                    let (few, any) = (random.within(0..=3), random.byte());
                    cursor::LEFT.nth(i, 1).put(cursor, random.pick(&[few, few, 255, any.into()]));
                }
            }
            "the turns left"
        }
    }
}

/// Another log than this one: drawn anew, this one damaged, or one of many loops or of too many bytes.
pub(crate) fn another(random: &mut Random, log: &[u8]) -> Vec<u8> {
    let mut log = log.to_vec();
    match random.within(0..=9) {
        0 => log = sounding(random),
        1 => log = vec![b'x'; random.within(59_999..=60_002) as usize],
        2 => {
            let turns = random.pick(&[2, 3, 255]);
            let loops = format!("loop={turns}\n").repeat(random.within(1..=9) as usize);
            log = [&b"log=1\n"[..], loops.as_bytes()].concat();
        }
        4 => cut_short(random, &mut log),
        _ => damage(random, &mut log),
    }
    log
}

/// Damages one thing in a player's bytes or in its log; tells what.
fn damaged(random: &mut Random, bytes: &mut [u8], log: &mut Vec<u8>) -> &'static str {
    match random.within(0..=41) {
        0 => "nothing",
        1..=26 => damage_cursor(random, layout::CURSOR.of_mut(bytes), log),
        27..=29 => {
            let any = random.bits();
            let wait = layout::WAIT.get(bytes).clamp(1, MOST_CLOCKS);
            if random.one_in(4) {
                // A wait that ends at the latest time, or one clock behind it.
                layout::WAIT.put(bytes, wait);
                layout::TIME.put(bytes, 2_000_000_000 - wait + random.within(0..=1));
                return "a wait up to the latest time";
            }
            let near = 2_000_000_000 + random.within(0..=2000) - 1000;
            let times = [any, any % 1_000_000_000, near, 2_000_000_000, 2_000_000_001, 0, u64::MAX];
            layout::TIME.put(bytes, random.pick(&times));
            "the time"
        }
        30..=32 => {
            if random.one_in(20) {
                layout::WAIT.put(bytes, MOST_CLOCKS);
                return LONGEST_WAIT;
            }
            let (few, any) = (random.within(0..=2000), random.bits());
            layout::WAIT.put(bytes, random.pick(&[0, 1, few, few, few, MOST_CLOCKS + 1, u64::MAX, any]));
            "the wait"
        }
        33..=35 => {
            let any = random.byte();
            layout::PHASE.put(bytes, random.pick(&[0, 1, 2, 3, 4, 255, any.into()]));
            "the phase"
        }
        36..=37 => {
            let any = random.bits();
            layout::LAST.put(bytes, random.pick(&[0, 32767, 65535, any]));
            "the last level"
        }
        38 => {
            let at = random.within(0..=layout::STATE.size as u64 - 1) as usize;
            layout::STATE.of_mut(bytes)[at] = random.byte();
            "the state"
        }
        _ => {
            *log = another(random, log);
            "the log"
        }
    }
}

/// A log with more turns than any that passes, which say nothing.
pub(crate) fn spinning() -> Vec<u8> {
    let loops = 3;
    ["log=1\n".to_string(), "loop=255\n".repeat(loops), "done=loop\n".repeat(loops), "stop=0\n".into()]
        .concat()
        .into_bytes()
}

/// A right log with few clocks and loops in each other, a read or a write here and there.
pub(crate) fn looped(random: &mut Random) -> Vec<u8> {
    let depth = random.within(1..=8) as usize;
    let mut log = String::from("log=1\n");
    let line = |random: &mut Random| match random.within(0..=3) {
        0 => format!("write=4011:{:02x}\n", random.byte()),
        1 => "read=4015\n".to_string(),
        _ => String::new(),
    };
    for _ in 0..depth {
        log += &line(random);
        log += "loop=2\n";
    }
    log += &line(random);
    for _ in 0..depth {
        log += "done=loop\n";
        log += &line(random);
    }
    (log + "stop=0\n").into_bytes()
}

/// A right log.
fn right(random: &mut Random) -> Vec<u8> {
    match random.within(0..=9) {
        0..=3 => looped(random),
        _ => sounding(random),
    }
}

/// What the machine comes to from a player on.
enum Ahead {
    /// Lines first, or all is over, or a line that has no room.
    Fine,
    /// A refusal before any line.
    Refused(Fault),
    /// More clocks than it works.
    TooLong,
}

/// Looks how far a piece of so many bytes can lead.
fn ahead(mut now: Player, log: &[u8], memory: &[u8], size: usize, worked: u64) -> Ahead {
    let (mut written, begun) = (0, now.time);
    for _ in 0..MOST_TURNS {
        let (done, wait) = (u64::from(now.time - begun), u64::from(now.wait));
        if now.phase == 2 && wait <= MOST_CLOCKS && done + wait > worked {
            return Ahead::TooLong;
        }
        match now.turn(log, memory) {
            Said::Nothing => {}
            Said::Line(line) => {
                written += line.len();
                if written > size.max(LONGEST) {
                    return Ahead::Fine;
                }
            }
            Said::Refused(fault) if written == 0 => return Ahead::Refused(fault),
            Said::Over | Said::Refused(_) => return Ahead::Fine,
        }
    }
    Ahead::Fine
}

/// How far the machine has to turn from a player to say just these lines and be at another; none where it doesn't.
fn led(mut now: Player, to: &Player, mut lines: &[u8], log: &[u8], memory: &[u8]) -> Result<u64, String> {
    for turns in 0..MOST_TURNS {
        if lines.is_empty() && now == *to {
            return Ok(turns);
        }
        match now.turn(log, memory) {
            Said::Nothing => {}
            Said::Line(line) => match lines.strip_prefix(line.as_bytes()) {
                Some(rest) => lines = rest,
                None if lines.is_empty() => return Err(format!("the player isn't behind its lines; next is {line:?}")),
                None => {
                    return Err(format!(
                        "the next line is {line:?}, written is {:?}",
                        lines.escape_ascii().to_string()
                    ));
                }
            },
            said => {
                return Err(format!("the machine comes to {said:?}, with {:?} left", lines.escape_ascii().to_string()));
            }
        }
    }
    Err("the player is nowhere on the machine's way".into())
}

/// Holds one piece to the machine, and moves the player; tells what it came to.
pub(crate) fn piece(
    bytes: &mut Vec<u8>,
    log: &[u8],
    memory: &[u8],
    size: usize,
    worked: u64,
) -> Result<String, String> {
    let before = bytes.clone();
    let first = Player::decode(&before);
    let refused = match (&first, memory.len()) {
        (_, length) if length != MEMORY => Some(Fault { number: 1, place: 0 }),
        (None, _) => Some(Fault { number: 2, place: 0 }),
        (Some(first), _) => match ahead(*first, log, memory, size, worked) {
            Ahead::TooLong => return Ok("too long for the machine".into()),
            Ahead::Refused(fault) => Some(fault),
            Ahead::Fine => None,
        },
    };
    let mut text = vec![b'?'; size];
    let answer = raw::play_on(bytes, log, memory, &mut text);
    let (number, low, written) = (answer as u8, answer >> 8 & 0xff_ffff, (answer >> 32) as usize);
    let wrong = |what: String| {
        let shown = first.map(|first| (first.place, first.phase, first.wait, first.time, first.last));
        Err(format!("a piece of {size} bytes answers {answer:#x}: {what}\nfrom {shown:?}"))
    };
    if written > size || text[written..].iter().any(|&byte| byte != b'?') {
        return wrong("it wrote behind its lines".into());
    }
    if number != 0 {
        if *bytes != before || written > 0 {
            return wrong("refused, and something changed".into());
        }
        return match refused {
            Some(fault) if (fault.number, fault.place as u64 & 0xff_ffff) == (number, low) => Ok(number.to_string()),
            _ => wrong(format!("the machine comes to {refused:?}")),
        };
    }
    let (over, stays) = (low == 1, *bytes == before);
    // In a text that is too short for a line nothing may be said, and then the player stays.
    let short = size < LONGEST && written == 0 && stays;
    if let Some(fault) = refused
        && !(short && !over && fault.number > 2)
    {
        return wrong(format!("the machine comes to {fault:?} before any line"));
    }
    let (Some(first), Some(now)) = (first, Player::decode(bytes)) else {
        return wrong("what is handed back is no player".into());
    };
    let turns = match led(first, &now, &text[..written], log, memory) {
        Ok(turns) => turns,
        Err(what) => return wrong(what),
    };
    if low > 1 || over && { now }.turn(log, memory) != Said::Over {
        return wrong("it says that it is over, and the machine isn't".into());
    }
    Ok(match (over, written) {
        (true, _) => "over",
        (_, 0) if short => "no line in a short text",
        (_, 0) if turns >= MOST_SILENT => "silent turns",
        (_, 0) => return wrong("no line, and it isn't over".into()),
        _ => "lines",
    }
    .into())
}

/// Begins a player, plays it some way, damages it and holds its next pieces; counts what came up.
fn judge(
    random: &mut Random,
    memory: &[u8],
    counts: &mut Counts,
    log: &mut Vec<u8>,
    spins: bool,
) -> Result<(), String> {
    *log = right(random);
    let mut bytes = vec![0; raw::player_size()];
    let answer = raw::begin(&mut bytes, log, memory);
    if answer != 0 {
        return Err(format!("the beginning of a right log answers {answer:#x}"));
    }
    for _ in 0..random.within(0..=4) {
        let most = random.pick(&[30, 30, 100, 400]);
        raw::play_on(&mut bytes, log, memory, &mut vec![0; random.within(0..=most) as usize]);
    }
    let mut worked = MOST_WORKED;
    if spins {
        *log = spinning();
        layout::CURSOR.of_mut(&mut bytes).fill(0);
        layout::WAIT.put(&mut bytes, 0);
        layout::PHASE.put(&mut bytes, 2);
    }
    for _ in 0..if spins { 0 } else { random.pick(&[1, 1, 2, 3, 4]) } {
        let what = damaged(random, &mut bytes, log);
        counts.add(what);
        if what == LONGEST_WAIT {
            worked = MOST_WORKED_RARELY;
        }
    }
    for _ in 0..random.within(1..=4) {
        let size = if random.one_in(4) { random.within(0..=22) } else { random.within(23..=200) };
        let memory = if random.one_in(100) { &memory[..random.pick(&[0, 1, MEMORY - 1])] } else { memory };
        let seen = piece(&mut bytes, log, memory, size as usize, worked)?;
        counts.add(&seen);
    }
    Ok(())
}

/// Draws and judges players; tells what came up, and it is an error where something hardly did.
pub fn compare(seed: u64, players: u64, memory: &[u8]) -> Result<String, String> {
    if raw::player_size() != layout::SIZE {
        return Err(format!("a player is {} bytes, and in the layout {}", raw::player_size(), layout::SIZE));
    }
    let mut counts = Counts::new(players, DAMAGE.into_iter().chain(SEEN));
    for number in 0..players {
        let mut log = Vec::new();
        let random = &mut Random::new(seed, "players", number);
        judge(random, memory, &mut counts, &mut log, number % 2000 == 1000).map_err(|difference| {
            let shown = log.escape_ascii().to_string().replace("\\n", "\\n\n");
            format!("seed {seed}, player {number}: {difference}\n{shown}")
        })?;
    }
    Ok(format!("{players} players ({})", counts.told()?))
}
