//! How fast the leaping run is, beside the run clock by clock: one table.

#[cfg(pace)]
mod pace;
mod tune;

use compare::random::Random;
use compare::{draw, folds, imports};
use perch::{Access, Chip, Dwell, MEMORY, Machine, Ran, Refusal, raw};
use std::process::{Command, ExitCode};
use tune::Act;

const USAGE: &str = "\
bench [--log FILE] [--gme COMMAND] [--quick]
--log FILE     the tune is this log; without it a tune of the same kind is made
--gme COMMAND  a command that plays the same tune by libgme and prints `.. in SECONDS s ..`
--quick        shorter stretches";

/// Processor time of this thread in seconds, so that other work of the machine doesn't count.
fn now() -> f64 {
    #[repr(C)]
    struct Time {
        seconds: i64,
        nanoseconds: i64,
    }
    unsafe extern "C" {
        fn clock_gettime(clock: i32, time: *mut Time) -> i32;
    }
    const THREAD_CPU: i32 = 3;
    let mut time = Time { seconds: 0, nanoseconds: 0 };
    // The time has the form that 64-bit Linux writes.
    unsafe { clock_gettime(THREAD_CPU, &mut time) };
    time.seconds as f64 + time.nanoseconds as f64 / 1e9
}

type Run = fn(&mut Chip, &[u8], u64, &mut [u32], &mut Dwell) -> Result<Ran, Refusal>;

/// What is measured: the accesses that lead to the first state, and what is played from there.
struct Scene {
    name: String,
    first: Chip,
    acts: Vec<Act>,
}

/// What playing a scene came to.
#[derive(PartialEq, Eq, Debug)]
struct Played {
    chip: Chip,
    clocks: u64,
    records: u64,
    sum: u64,
    dwell: Dwell,
}

/// Plays a scene; a run that ends early for want of room goes on with the room used again.
fn play(scene: &Scene, memory: &[u8], words: &mut [u32], run: Run) -> Result<Played, Refusal> {
    let mut now = Played { chip: scene.first, clocks: 0, records: 0, sum: 0, dwell: perch::EMPTY };
    for act in &scene.acts {
        match *act {
            Act::Write(register, value) => drop(now.chip.access(Access::Write(register, value))?),
            Act::Read => now.sum += u64::from(now.chip.access(Access::Read)?.byte),
            Act::Wait(clocks) => {
                let mut left = clocks;
                while left > 0 {
                    let ran = run(&mut now.chip, memory, left.min(1_000_000), words, &mut now.dwell)?;
                    for pair in words[..2 * ran.records].chunks_exact(2) {
                        now.sum = now.sum.wrapping_mul(31).wrapping_add((now.clocks + u64::from(pair[0])) << 16);
                        now.sum = now.sum.wrapping_add(pair[1].into());
                    }
                    now.clocks += ran.done;
                    now.records += ran.records as u64;
                    left -= ran.done;
                }
            }
        }
    }
    Ok(now)
}

/// The least time of playing a scene over some tries, in seconds.
fn time(scene: &Scene, memory: &[u8], run: Run, tries: u32) -> Result<(f64, Played), Refusal> {
    let mut words = vec![0; 32_768];
    let mut best = f64::INFINITY;
    let mut played = None;
    let first = now();
    for _ in 0..tries {
        let begun = now();
        played = Some(play(scene, memory, &mut words, run)?);
        best = best.min(now() - begun);
        if now() - first > 1.5 {
            break;
        }
    }
    Ok((best, played.expect("one try at least")))
}

/// Measures both runs of a scene and prints its row; gives the leaping run's time.
fn row(scene: &Scene, memory: &[u8]) -> Result<f64, Refusal> {
    let (leap, by_leap) = time(scene, memory, Chip::run, 50)?;
    let (plain, by_plain) = time(scene, memory, Chip::run_plain, 3)?;
    assert_eq!(by_leap, by_plain, "{}: the two runs differ", scene.name);
    let clocks = by_leap.clocks as f64;
    let each = |seconds: f64| match by_leap.records {
        0 => "-".to_string(),
        records => format!("{:.1}", seconds * 1e9 / records as f64),
    };
    println!(
        "| {:<34} | {:>11} | {:>9} | {:>10.3e} | {:>8.3} | {:>9} | {:>10.3e} | {:>8.3} | {:>9} | {:>7.1} |",
        scene.name,
        by_leap.clocks,
        by_leap.records,
        clocks / leap,
        leap * 1e9 / clocks,
        each(leap),
        clocks / plain,
        plain * 1e9 / clocks,
        each(plain),
        plain / leap,
    );
    Ok(leap)
}

/// A chip after some writes from power-on.
fn after(writes: &[(u16, u8)]) -> Result<Chip, Refusal> {
    let mut chip = Chip::power_on(Machine::Ntsc);
    for (register, value) in writes {
        chip.access(Access::Write(*register, *value))?;
    }
    Ok(chip)
}

/// The drawn state whose leaping run does worst beside its plain run.
fn worst(memory: &[u8], states: u64, clocks: u64) -> Result<Scene, Refusal> {
    let mut found: Option<(f64, Scene)> = None;
    for number in 0..states {
        let first = Chip::from_bytes(draw::state(&mut Random::new(1, "worst", number)).encode())?;
        let scene = Scene { name: format!("worst of {states} drawn states"), first, acts: vec![Act::Wait(clocks)] };
        let (leap, _) = time(&scene, memory, Chip::run, 3)?;
        let (plain, _) = time(&scene, memory, Chip::run_plain, 2)?;
        if found.as_ref().is_none_or(|(ratio, _)| plain / leap < *ratio) {
            found = Some((plain / leap, scene));
        }
    }
    Ok(found.expect("one state at least").1)
}

/// Begins something that is written in pieces and writes it to its end, to a buffer of 64 KiB: the least time over some tries, and the
/// bytes written.
fn pieces<T>(begin: impl Fn() -> T, on: impl Fn(&mut T, &mut [u8]) -> u64) -> (f64, u64) {
    let mut out = vec![0; 1 << 16];
    let (mut best, mut bytes) = (f64::INFINITY, 0);
    let first = now();
    for _ in 0..10 {
        let begun = now();
        let mut under_way = begin();
        bytes = 0;
        loop {
            let answer = on(&mut under_way, &mut out);
            bytes += answer >> 32;
            if answer as u16 != 0 {
                break;
            }
        }
        best = best.min(now() - begun);
        if now() - first > 1.5 {
            break;
        }
    }
    (best, bytes)
}

/// Plays a log to its end: the least time over some tries, the bytes of its text, and its clocks.
fn heard(log: &[u8], memory: &[u8]) -> Result<(f64, u64, u64), Box<dyn std::error::Error>> {
    let clocks = perch::check(log)?.clocks;
    let begin = || {
        let mut player = vec![0; raw::player_size()];
        raw::begin(&mut player, log, memory);
        player
    };
    let (seconds, bytes) = pieces(begin, |player, text| raw::play_on(player, log, memory, text));
    Ok((seconds, bytes, clocks))
}

/// Writes the WAV file of a log at a rate and prints its row, beside the time of its run.
fn wav(name: &str, log: &[u8], memory: &[u8], rate: u32, run: f64) {
    let begin = || {
        let mut file = vec![0; raw::wav_size()];
        let answer = raw::wav_begin(&mut file, log, memory, rate);
        (file, answer >> 32)
    };
    let (seconds, bytes) = pieces(begin, |(file, _), out| raw::wav_on(file, log, memory, out));
    assert_eq!(begin().1, bytes, "{name}: the file isn't as long as its beginning says");
    let samples = (bytes - 44) / 2;
    println!(
        "\n| {:<34} | {:>11} | {:>10} | {:>8} | {:>9} | {:>14} |",
        format!("a WAV file, {rate} samples a second"),
        "samples",
        "bytes",
        "seconds",
        "ns/sample",
        "times its run"
    );
    println!("|{}|{}", "-".repeat(36), "-:|".repeat(5));
    let each = seconds * 1e9 / samples as f64;
    println!("| {name:<34} | {samples:>11} | {bytes:>10} | {seconds:>8.4} | {each:>9.1} | {:>14.2} |", seconds / run);
}

/// Brings a stream in whose log is 60,000 bytes long, and prints the row.
fn import(quick: bool) {
    let stream = imports::of_length(&mut Random::new(1, "import", 0), perch::LOG);
    let mut log = vec![0; perch::LOG];
    let mut best = f64::INFINITY;
    for _ in 0..if quick { 20 } else { 500 } {
        let begun = now();
        let answer = raw::import(&stream, &mut log);
        best = best.min(now() - begun);
        assert_eq!(answer, (perch::LOG as u64) << 8);
    }
    println!(
        "\n| {:<34} | {:>11} | {:>10} | {:>8} | {:>14} |",
        "the import", "stream", "log", "seconds", "stream MB/s"
    );
    println!("|{}|{}", "-".repeat(36), "-:|".repeat(4));
    let (name, bytes) = ("writes and waits, a full log", stream.len());
    println!("| {name:<34} | {bytes:>11} | {:>10} | {best:>8.6} | {:>14.1} |", log.len(), bytes as f64 / best / 1e6);
}

/// Measures folding on drawn logs, and prints the row of the one that takes longest.
fn fold(quick: bool) {
    let (mut slowest, mut bytes, mut length) = (0.0, 0, 0);
    for number in 0..if quick { 50 } else { 1000 } {
        let log = folds::dense(&mut Random::new(1, "fold", number));
        let mut text = vec![0; log.len()];
        let (mut best, mut answer) = (f64::INFINITY, 0);
        for _ in 0..5 {
            let begun = now();
            answer = raw::fold(&log, &mut text);
            best = best.min(now() - begun);
        }
        assert_eq!(answer as u8, 0);
        if best > slowest {
            (slowest, bytes, length) = (best, log.len(), answer >> 32);
        }
    }
    println!("\n| {:<34} | {:>11} | {:>10} | {:>8} |", "folding", "log", "folded", "seconds");
    println!("|{}|{}", "-".repeat(36), "-:|".repeat(3));
    println!("| {:<34} | {bytes:>11} | {length:>10} | {slowest:>8.6} |", "the slowest of drawn logs");
}

/// Measures the question when the line rises next, within 1,000,000 clocks, over drawn states, and prints the row.
fn interrupts(quick: bool, memory: &[u8]) {
    let states: Vec<Vec<u8>> =
        (0..1000).map(|number| draw::state(&mut Random::new(1, "interrupts", number)).encode().to_vec()).collect();
    let (mut best, mut found) = (f64::INFINITY, 0);
    for _ in 0..if quick { 5 } else { 50 } {
        let begun = now();
        found = states.iter().map(|state| raw::next_interrupt(state, memory, 1_000_000, 0) >> 8 & 1).sum();
        best = best.min(now() - begun);
    }
    println!("\n| {:<34} | {:>11} | {:>10} | {:>8} |", "the next interrupt", "states", "it rises", "ns each");
    println!("|{}|{}", "-".repeat(36), "-:|".repeat(3));
    let each = best * 1e9 / states.len() as f64;
    println!("| {:<34} | {:>11} | {found:>10} | {each:>8.1} |", "within 1,000,000 clocks", states.len());
}

/// Measures the repair of damaged logs of 60,000 bytes, and prints a row for each kind of damage.
fn salvage(quick: bool) {
    println!("\n| {:<34} | {:>11} | {:>10} | {:>8} | {:>8} |", "salvage", "log", "repaired", "entries", "seconds");
    println!("|{}|{}", "-".repeat(36), "-:|".repeat(4));
    for (name, line) in
        [("right waits", "wait=10\n"), ("bad writes", "write=4014:00\n"), ("stops", "stop=0\n"), ("empty lines", "\n")]
    {
        let mut log = b"log=1\n".to_vec();
        while log.len() + line.len() <= perch::LOG - 20 {
            log.extend(line.as_bytes());
        }
        let (mut text, mut list) = (vec![0; perch::LOG], vec![0; 2 * (perch::LOG + 10)]);
        let (mut best, mut answer) = (f64::INFINITY, 0);
        for _ in 0..if quick { 3 } else { 20 } {
            let begun = now();
            answer = raw::salvage(&log, &mut text, &mut list);
            best = best.min(now() - begun);
        }
        assert_eq!(answer as u8, 0);
        let (bytes, length, entries) = (log.len(), answer >> 32 & 0xffff, answer >> 48);
        println!("| {name:<34} | {bytes:>11} | {length:>10} | {entries:>8} | {best:>8.6} |");
    }
}

/// Measures the meter over more levels than the caches hold, and prints the row.
fn meter(quick: bool) -> Result<(), Refusal> {
    let words = (if quick { 64 } else { 512 }) << 18;
    let random = &mut Random::new(1, "meter", 0);
    let levels: Vec<u32> = (0..words).map(|_| random.within(0..=32_767) as u32).collect();
    let mut best = f64::INFINITY;
    for _ in 0..if quick { 3 } else { 20 } {
        let begun = now();
        let shown = perch::meter(&levels)?;
        best = best.min(now() - begun);
        assert!(matches!(shown, perch::Meter::Moving { .. }));
    }
    println!("\n| {:<34} | {:>11} | {:>8} | {:>8} |", "the meter", "levels", "seconds", "GB/s");
    println!("|{}|{}", "-".repeat(36), "-:|".repeat(3));
    println!("| {:<34} | {words:>11} | {best:>8.5} | {:>8.2} |", "any levels", 4.0 * words as f64 / best / 1e9);
    Ok(())
}

/// Processor time of the commands run so far, in seconds.
fn of_commands() -> f64 {
    #[repr(C)]
    struct Usage {
        user: [i64; 2],
        system: [i64; 2],
        rest: [i64; 14],
    }
    unsafe extern "C" {
        fn getrusage(who: i32, usage: *mut Usage) -> i32;
    }
    const CHILDREN: i32 = -1;
    let mut usage = Usage { user: [0; 2], system: [0; 2], rest: [0; 14] };
    // The usage has the form that 64-bit Linux writes.
    unsafe { getrusage(CHILDREN, &mut usage) };
    let [user, system] = [usage.user, usage.system].map(|[seconds, micros]| seconds as f64 + micros as f64 / 1e6);
    user + system
}

/// The least seconds of a command over some tries: its processor time, or what it tells by `.. in SECONDS s ..`.
fn least(command: &str) -> Option<f64> {
    let mut best = f64::INFINITY;
    for _ in 0..10 {
        let before = of_commands();
        let output = Command::new("sh").args(["-c", command]).output().ok()?;
        let text = String::from_utf8(output.stdout).ok()?;
        let told: f64 = text.split_once(" in ")?.1.split_once(" s")?.0.parse().ok()?;
        best = best.min(told).min(of_commands() - before);
    }
    Some(best)
}

/// The tune: the log of a file, or one that is made; its name in the table and its bytes.
fn tune(log: Option<String>, quick: bool) -> Result<(&'static str, Vec<u8>), String> {
    match log {
        None => Ok(("a tune, made", tune::made(1, 900, if quick { 2 } else { 8 }).into_bytes())),
        Some(path) => match std::fs::read(&path) {
            Ok(bytes) => Ok(("the tune of the log", bytes)),
            Err(error) => Err(format!("{path}: {error}")),
        },
    }
}

fn table(log: Option<String>, gme: Option<String>, quick: bool) -> Result<(), Box<dyn std::error::Error>> {
    let (name, tune) = tune(log, quick)?;
    let (machine, acts) = tune::of_log(&tune).map_err(|fault| format!("the tune is refused: {fault}"))?;
    let random = &mut Random::new(1, "memory", 0);
    let memory: Vec<u8> = (0..MEMORY).map(|_| random.byte()).collect();
    let runs = if quick { 2 } else { 10 };
    let stretch = vec![Act::Wait(1_000_000); runs];
    let scene = |name: &str, writes: &[(u16, u8)]| -> Result<Scene, Refusal> {
        Ok(Scene { name: name.into(), first: after(writes)?, acts: stretch.clone() })
    };
    let square = [(0x4015, 0x01), (0x4000, 0xbf), (0x4001, 0x08), (0x4002, 0xfd), (0x4003, 0x00)];
    let all = [
        (0x4015, 0x0f),
        (0x4000, 0xbf),
        (0x4001, 0x08),
        (0x4002, 0x08),
        (0x4003, 0x00),
        (0x4004, 0x7f),
        (0x4005, 0x08),
        (0x4006, 0x08),
        (0x4007, 0x00),
        (0x4008, 0xff),
        (0x400a, 0x00),
        (0x400b, 0x00),
        (0x400c, 0x3f),
        (0x400e, 0x00),
        (0x400f, 0x00),
        (0x4010, 0x4f),
        (0x4013, 0xff),
        (0x4015, 0x1f),
        (0x4017, 0x80),
    ];
    let voices = [
        (0x4015, 0x0f),
        (0x4000, 0xbf),
        (0x4001, 0x08),
        (0x4002, 0xfd),
        (0x4003, 0x00),
        (0x4004, 0x7a),
        (0x4005, 0x08),
        (0x4006, 0x80),
        (0x4007, 0x01),
        (0x4008, 0xff),
        (0x400a, 0x40),
        (0x400b, 0x01),
        (0x400c, 0x3a),
        (0x400e, 0x05),
        (0x400f, 0x00),
        (0x4010, 0x4e),
        (0x4013, 0xff),
        (0x4015, 0x1f),
    ];
    println!("against {}\n", perch::LINKED);
    println!(
        "| {:<34} | {:>11} | {:>9} | {:>10} | {:>8} | {:>9} | {:>10} | {:>8} | {:>9} | {:>7} |",
        "", "clocks", "records", "run /s", "ns/clock", "ns/record", "plain /s", "ns/clock", "ns/record", "ratio"
    );
    println!("|{}|{}", "-".repeat(36), "-:|".repeat(9));
    row(&scene("power-on, quiet, noise period 4", &[])?, &memory)?;
    row(&scene("quiet with $400E:0f", &[(0x400e, 0x0f)])?, &memory)?;
    row(&scene("one square, 440 Hz", &square)?, &memory)?;
    row(&scene("all channels, audible", &voices)?, &memory)?;
    row(&scene("all channels, shortest periods", &all)?, &memory)?;
    let (states, clocks) = if quick { (50, 20_000) } else { (400, 60_000) };
    row(&worst(&memory, states, clocks)?, &memory)?;
    let leap = row(&Scene { name: name.into(), first: Chip::power_on(machine), acts }, &memory)?;

    println!(
        "\n| {:<34} | {:>11} | {:>10} | {:>8} | {:>14} |",
        "the player", "clocks", "bytes", "seconds", "times its run"
    );
    println!("|{}|{}", "-".repeat(36), "-:|".repeat(4));
    let (seconds, bytes, clocks) = heard(&tune, &memory)?;
    println!("| {name:<34} | {clocks:>11} | {bytes:>10} | {seconds:>8.4} | {:>14.2} |", seconds / leap);
    if perch::ARCHIVE && !quick {
        for (name, first) in [("2,000,000,000 quiet clocks", ""), ("the same after $400E:0f", "write=400e:0f\n")] {
            let loops = "loop=200\nloop=10\nwait=1000000\ndone=loop\ndone=loop\n";
            let log = format!("log=1\n{first}{loops}stop=2000000000\n");
            let (seconds, bytes, clocks) = heard(log.as_bytes(), &memory)?;
            println!("| {name:<34} | {clocks:>11} | {bytes:>10} | {seconds:>8.4} | {:>14} |", "");
        }
    }
    wav(name, &tune, &memory, 44_100, leap);
    import(quick);
    fold(quick);
    salvage(quick);
    interrupts(quick, &memory);
    meter(quick)?;
    #[cfg(pace)]
    {
        println!("\n| {:<34} | {:>8} |", "the clock by itself", "ns/clock");
        println!("|{}|{}", "-".repeat(36), "-:|");
        let tries = if quick { 3 } else { 20 };
        pace::line("all channels, audible", &after(&voices)?, &memory, tries)?;
        pace::line("all channels, shortest periods", &after(&all)?, &memory, tries)?;
    }
    if let Some(command) = gme {
        let seconds = least(&command).ok_or("the libgme command told no time")?;
        println!(
            "\nthe tune by run {leap:.4} s, by libgme {seconds:.4} s: run takes {:.2} of libgme's time",
            leap / seconds
        );
    }
    Ok(())
}

fn main() -> ExitCode {
    let (mut log, mut gme, mut quick) = (None, None, false);
    let mut words = std::env::args().skip(1);
    while let Some(word) = words.next() {
        match word.as_str() {
            "--log" if words.len() > 0 => log = words.next(),
            "--gme" if words.len() > 0 => gme = words.next(),
            "--quick" => quick = true,
            _ => {
                eprintln!("{USAGE}");
                return ExitCode::from(2);
            }
        }
    }
    match table(log, gme, quick) {
        Ok(()) => ExitCode::SUCCESS,
        Err(error) => {
            eprintln!("{error}");
            ExitCode::FAILURE
        }
    }
}
