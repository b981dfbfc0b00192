//! The library against the plain Rust reading, on drawn cases. See README.md beside it.

use compare::case::{self, Case, Outcome, sample};
use compare::judge::{self, Tally, judge};
use compare::random::Random;
use compare::{
    accesses, cursors, draw, edges, every, file_verbs, files, folds, free, imports, interrupts, lines, logs, machines,
    meters, moments, orders, outputs, players, reasons, salvages, sheets, stored, traces, under_way, waves, wavs,
};
use reading::{Chip, MEMORY};
use std::process::ExitCode;
use std::time::Instant;

const USAGE: &str = "\
compare [--seed N] [--short N] [--long N] [--logs N] [--each N] [--archive] [--brief]
                                                        compare on drawn cases
compare cases N [--seed N]                              write N cases with the reading's answers
compare questions FILE                                  write the cases of a file with zeros for every answer
compare check FILE                                      hold the library to the cases of a file
compare log-cases N FOLDER [--seed N]                   write N logs, a sample.bin and the texts that the reading gives
compare examples FOLDER                                 hold the library to the reading on the logs of a folder, with sample.bin
compare text LOG SAMPLE                                 write what the player writes for a log, by the reading
compare dwell LOG SAMPLE                                write what perch dwell writes for a log, by the reading
compare flags LOG SAMPLE                                write what perch interrupts writes for a log, by the reading
compare at LOG SAMPLE CLOCK                             write what perch at writes for a log, by the reading
compare vcd LOG SAMPLE FROM CLOCKS                      write what perch vcd writes for a log, by the reading
compare carried VCD OTHER FEWEST                        hold each lane of another VCD to the lane of its name, so many at least
compare wav LOG SAMPLE [RATE]                           write what perch wav writes for a log, by the reading
compare spectra WAV OTHER LEAST                         hold the frequencies of a sound to another's: their cosine, and the strongest
compare edges N PERCH [--seed N]                        hold what a built perch interrupts writes for N logs drawn near edges to the reading
compare lanes VCD LOG SAMPLE FROM CLOCKS                hold each lane of a VCD at each clock and each access to the reading
compare files N PERCH [--seed N]                        hold what the verbs of a built perch write for N drawn VGM files to the reading
compare moments N PERCH [--seed N]                      hold what a built perch at writes for N drawn logs and clocks to the reading
compare traces N PERCH [--seed N]                       hold what a built perch vcd writes for N drawn windows to the reading
compare waves N PERCH [--seed N]                        hold what a built perch wav writes for N drawn logs and rates to the reading
compare judged FOLDER                                   write what test_logs prints about the logs of a folder
compare played FOLDER                                   write what test_plays prints about them, with sample.bin
compare through FILE SAMPLE                             play a recording through in the library, and hold each line to the reading
(LOG may be a VGM file: one with sample blocks is played with these)
--each N: so many accesses, orders, reasons, outputs, meters, sheets and texts, half as many whole logs, cursors, players,
         WAV files, WAV files under way and imports, an eighth as many VGM files
--archive: an error where the library's archive isn't linked; --brief: no more parts after one that differs";

/// What the command line asks for.
struct Asked {
    words: Vec<String>,
    seed: u64,
    short: u64,
    long: u64,
    logs: u64,
    each: u64,
    archive: bool,
    brief: bool,
}

fn asked() -> Option<Asked> {
    let now = std::time::UNIX_EPOCH.elapsed().map_or(0, |since| since.as_nanos() as u64);
    let mut asked = Asked {
        words: Vec::new(),
        seed: now,
        short: 20_000,
        long: 2_000,
        logs: 4_000,
        each: 20_000,
        archive: false,
        brief: false,
    };
    let mut words = std::env::args().skip(1);
    while let Some(word) = words.next() {
        match word.as_str() {
            "--seed" => asked.seed = words.next()?.parse().ok()?,
            "--short" => asked.short = words.next()?.parse().ok()?,
            "--long" => asked.long = words.next()?.parse().ok()?,
            "--logs" => asked.logs = words.next()?.parse().ok()?,
            "--each" => asked.each = words.next()?.parse().ok()?,
            "--archive" => asked.archive = true,
            "--brief" => asked.brief = true,
            _ if word.starts_with('-') => return None,
            _ => asked.words.push(word),
        }
    }
    Some(asked)
}

/// One kind of comparison: how many checks it made, or where it failed.
fn part(name: &str, work: &mut dyn FnMut() -> Result<String, String>) -> bool {
    let begun = Instant::now();
    let result = work();
    let seconds = begun.elapsed().as_secs_f64();
    match &result {
        Ok(what) => println!("{name:<10} agree  {seconds:6.1} s  {what}"),
        Err(difference) => println!("{name:<10} DIFFER {seconds:6.1} s\n{difference}"),
    }
    result.is_ok()
}

/// Draws and judges cases of one kind; a failing one is told whole.
fn drawn(name: &str, seed: u64, cases: u64, mut draw: impl FnMut(&mut Random) -> Case) -> Result<String, String> {
    let mut tally = Tally::default();
    for number in 0..cases {
        let case = draw(&mut Random::new(seed, name, number));
        if let Err(difference) = judge(&case, &mut tally) {
            let text = case::text(&case, &judge::expected(&case));
            return Err(format!("seed {seed}, {name} case {number}: {difference}\n{text}"));
        }
    }
    let Tally { cases, pal, runs, refused, early, clocks, records } = tally;
    Ok(format!(
        "{cases} lists ({pal} PAL), {runs} runs ({refused} refused, {early} ended early), {clocks} clocks, {records} records"
    ))
}

/// Single clocks with nothing between them come to what one run comes to.
fn singles_are_a_run(seed: u64, lists: u64) -> Result<String, String> {
    for number in 0..lists {
        let random = &mut Random::new(seed, "one run", number);
        let first = draw::state(random).encode();
        let memory: Vec<u8> = (0..MEMORY).map(|_| random.byte()).collect();
        let clocks = random.within(1..=16_000);
        let (mut clocked, mut ran) = (first, first);
        let mut records = Vec::new();
        let mut level = perch::raw::level(&clocked) >> 8;
        for clock in 1..=clocks {
            perch::raw::clock(&mut clocked, &memory);
            let now = perch::raw::level(&clocked) >> 8;
            if now != level {
                records.extend([clock as u32, now as u32]);
                level = now;
            }
        }
        let mut words = vec![0; records.len()];
        let answer = perch::raw::run(&mut ran, &memory, clocks, &mut words, &mut [0; 128]);
        let expected = clocks << 8 | (records.len() as u64 / 2) << 32;
        if (answer, ran) != (expected, clocked) || words != records {
            let chip = Chip::decode(&first);
            return Err(format!("seed {seed}, list {number}: {clocks} single clocks aren't one run, from {chip:?}"));
        }
    }
    Ok(format!("{lists} lists of single clocks, each against one run"))
}

fn compare(asked: &Asked) -> bool {
    let seed = asked.seed;
    println!("seed {seed}, against {}", perch::LINKED);
    type Every = fn(&mut Random) -> Result<u64, String>;
    let every: [(&str, Every); 9] = [
        ("power-on", every::power_on),
        ("ranges", every::ranges),
        ("mixer", every::mixer),
        ("writes", every::writes),
        ("sweeps", every::sweeps),
        ("counters", every::counters),
        ("frames", every::frames),
        ("noises", every::noises),
        ("samples", every::samples),
    ];
    let mut good = true;
    let mut part = |name: &str, work: &mut dyn FnMut() -> Result<String, String>| {
        if good || !asked.brief {
            good &= part(name, work);
        }
    };
    for (name, work) in every {
        part(name, &mut || work(&mut Random::new(seed, name, 0)).map(|checks| format!("{checks} checks")));
    }
    part("single", &mut || drawn("single", seed, asked.short / 20, draw::single));
    part("one run", &mut || singles_are_a_run(seed, asked.short / 60));
    part("short", &mut || drawn("short", seed, asked.short, draw::short));
    part("long", &mut || {
        drawn("long", seed, asked.long, |random| {
            let clocks = random.within(40_000..=200_000);
            draw::long(random, clocks)
        })
    });
    part("accesses", &mut || accesses::compare(seed, asked.each));
    part("reasons", &mut || reasons::compare(seed, asked.each));
    part("outputs", &mut || outputs::compare(seed, asked.each));
    part("meters", &mut || meters::compare(seed, asked.each));
    part("sheets", &mut || sheets::compare(seed, asked.each));
    let memory = sample(seed);
    part("orders", &mut || orders::compare(seed, asked.each, &memory));
    part("interrupts", &mut || interrupts::compare(seed, asked.each, &memory));
    part("states", &mut || moments::states(seed, asked.logs / 4, &memory));
    part("lines", &mut || lines::compare(seed, asked.logs * 50, &memory));
    part("cuts", &mut || lines::cuts(seed, asked.logs / 20));
    part("machines", &mut || machines::compare(seed, asked.logs / 4, &memory));
    part("logs", &mut || logs::compare(seed, asked.logs, &memory));
    part("whole", &mut || free::compare(seed, asked.each / 2, &memory));
    part("texts", &mut || free::texts(seed, asked.each));
    part("cursors", &mut || cursors::compare(seed, asked.each / 2));
    part("players", &mut || players::compare(seed, asked.each / 2, &memory));
    part("wavs", &mut || wavs::compare(seed, asked.each / 2, &memory));
    part("under way", &mut || under_way::compare(seed, asked.each / 2, &memory));
    part("folds", &mut || folds::compare(seed, asked.logs, &memory));
    part("salvages", &mut || salvages::compare(seed, asked.logs));
    part("imports", &mut || imports::compare(seed, asked.each / 2));
    part("files", &mut || files::compare(seed, asked.each / 8, &memory));
    part("file bytes", &mut || files::every_byte(seed, asked.each / 200, &memory));
    good
}

fn write_cases(asked: &Asked, count: &str) -> Result<(), String> {
    let count: u64 = count.parse().map_err(|_| USAGE)?;
    for number in 0..count {
        let case = draw::stored(&mut Random::new(asked.seed, "stored", number), number);
        print!("{}", case::text(&case, &judge::expected(&case)));
    }
    Ok(())
}

fn write_logs(asked: &Asked, count: &str, folder: &str) -> Result<(), String> {
    let count: u64 = count.parse().map_err(|_| USAGE)?;
    let write = |name: String, bytes: &[u8]| {
        std::fs::write(format!("{folder}/{name}"), bytes).map_err(|error| format!("{folder}/{name}: {error}"))
    };
    let memory = sample(asked.seed);
    write("sample.bin".into(), &memory)?;
    let mut texts = String::new();
    for number in 0..count {
        let log = logs::stored(&mut Random::new(asked.seed, "stored logs", number), number);
        write(format!("{number:03}.log"), &log)?;
        texts += &reading::play::text(&log, &memory);
    }
    write("texts".into(), texts.as_bytes())
}

/// A comparison of so many drawn logs with what a program writes for them.
type Drawn = fn(u64, u64, &str) -> Result<String, String>;

fn run_program(asked: &Asked, drawn: Drawn, count: &str, program: &str) -> Result<(), String> {
    let count: u64 = count.parse().map_err(|_| USAGE)?;
    drawn(asked.seed, count, program).map(|told| print!("{told}"))
}

fn read_cases(path: &str) -> Result<Vec<(Case, Outcome)>, String> {
    let text = std::fs::read_to_string(path).map_err(|error| format!("{path}: {error}"))?;
    case::parse(&text).ok_or(format!("{path}: a line not of the form"))
}

fn write_questions(path: &str) -> Result<(), String> {
    for (case, _) in read_cases(path)? {
        print!("{}", case::text(&case, &Outcome { answers: vec![0; case.ops.len()], state: Vec::new(), sum: 0 }));
    }
    Ok(())
}

fn check_cases(path: &str) -> Result<(), String> {
    let cases = read_cases(path)?;
    for (number, (case, outcome)) in cases.iter().enumerate() {
        judge::holds(case, outcome).map_err(|what| format!("case {number}: {what}\n{}", case::text(case, outcome)))?;
        if case::text(case, &judge::expected(case)) != case::text(case, outcome) {
            return Err(format!("case {number}: not what the reading answers\n{}", case::text(case, outcome)));
        }
    }
    println!("{} cases hold, against {}", cases.len(), perch::LINKED);
    Ok(())
}

fn main() -> ExitCode {
    let Some(asked) = asked() else {
        eprintln!("{USAGE}");
        return ExitCode::from(2);
    };
    if asked.archive && !perch::ARCHIVE {
        eprintln!("the library's archive isn't linked; ./build perchpulley builds it");
        return ExitCode::FAILURE;
    }
    let words: Vec<&str> = asked.words.iter().map(String::as_str).collect();
    let result = match words[..] {
        [] => return if compare(&asked) { ExitCode::SUCCESS } else { ExitCode::FAILURE },
        ["cases", count] => write_cases(&asked, count),
        ["questions", path] => write_questions(path),
        ["check", path] => check_cases(path),
        ["log-cases", count, folder] => write_logs(&asked, count, folder),
        ["examples", folder] => stored::examples(folder).map(|told| print!("{told}")),
        ["text", log, sample] => stored::text(log, sample).map(|text| print!("{text}")),
        ["dwell", log, sample] => stored::dwell(log, sample).map(|text| print!("{text}")),
        ["flags", log, sample] => stored::flags(log, sample).map(|text| print!("{text}")),
        ["at", log, sample, clock] => stored::at(log, sample, clock).map(|text| print!("{text}")),
        ["vcd", log, sample, from, clocks] => stored::vcd(log, sample, from, clocks).map(|text| print!("{text}")),
        ["wav", log, sample] => stored::wav(log, sample, "44100"),
        ["wav", log, sample, rate] => stored::wav(log, sample, rate),
        ["lanes", vcd, log, sample, from, clocks] => {
            stored::lanes(vcd, log, sample, from, clocks).map(|told| print!("{told}"))
        }
        ["carried", vcd, other, fewest] => stored::carried(vcd, other, fewest).map(|told| print!("{told}")),
        ["spectra", sound, other, least] => stored::spectra(sound, other, least).map(|told| print!("{told}")),
        ["edges", count, program] => run_program(&asked, edges::compare, count, program),
        ["files", count, program] => run_program(&asked, file_verbs::compare, count, program),
        ["moments", count, program] => run_program(&asked, moments::compare, count, program),
        ["waves", count, program] => run_program(&asked, waves::compare, count, program),
        ["traces", count, program] => run_program(&asked, traces::compare, count, program),
        ["judged", folder] => stored::judged(folder).map(|text| print!("{text}")),
        ["through", log, sample] => stored::through(log, sample).map(|told| print!("{told}")),
        ["played", folder] => stored::played(folder).map(|text| print!("{text}")),
        _ => Err(USAGE.into()),
    };
    if let Err(what) = result {
        eprintln!("{what}");
        return ExitCode::FAILURE;
    }
    ExitCode::SUCCESS
}
