//! The verbs of a built `perch` on drawn VGM files: what each writes to standard output, and of `import` and `samples` also what it says.

use crate::case::sample;
use crate::counts::Counts;
use crate::program::Program;
use crate::random::Random;
use crate::stamped::Stamps;
use crate::{vgm_files, waves};
use reading::log::Fault;
use reading::vgm_file::{self, commands_at, is_file};
use reading::words::words;
use reading::{dwell, flags, meter, moment, number, play, recording, trace, vgm, wave, why};

/// The verbs, with the fewest of each in 300 files.
const VERBS: [(&str, u64); 12] = [
    ("play", 10),
    ("check", 10),
    ("why", 10),
    ("at", 10),
    ("vcd", 10),
    ("wav", 10),
    ("meter", 10),
    ("meter waits", 10),
    ("interrupts", 10),
    ("dwell", 10),
    ("import", 10),
    ("samples", 10),
];

/// What else is counted, with the fewest in 300 files.
const THINGS: [(&str, u64); 6] =
    [("pal", 20), ("ntsc", 40), ("with its own samples", 30), ("with sample.bin", 30), ("refused", 30), ("said", 2)];

/// The most clocks of a file that is drawn: the reading goes one by one.
const MOST_CLOCKS: u128 = 3_000_000;

/// What a verb writes to standard output, and what it says on standard error where that is held too.
struct Told {
    out: Vec<u8>,
    said: Option<String>,
}

impl Told {
    fn text(text: String) -> Self {
        Self { out: text.into_bytes(), said: None }
    }

    fn both(out: Vec<u8>, said: String) -> Self {
        Self { out, said: Some(said) }
    }
}

/// What is said of a refusal.
fn refused(Fault { number, place }: Fault) -> Told {
    Told::both(Vec::new(), format!("refused={number}:{place}\n{}\n", words(number)))
}

/// What is said of a file that has no commands; none where it has.
fn no_commands(file: &[u8]) -> Option<Told> {
    let words = match commands_at(file) {
        _ if !is_file(file) => "no VGM file: it doesn't begin with `Vgm `",
        Ok(_) => return None,
        Err(_) if file.len() < 0x40 => "the VGM file ends inside its header",
        Err(Fault { number: number::TWO_CHIPS, .. }) => "a VGM file for two chips",
        Err(_) => "the VGM file's header says no place for its commands",
    };
    Some(Told::both(Vec::new(), format!("perch: {words}\n")))
}

/// `perch import`: the log of what is behind the header, blocks or not.
fn imported(file: &[u8]) -> Told {
    if let Some(told) = no_commands(file) {
        return told;
    }
    let start = commands_at(file).unwrap_or_default();
    let mut log = vec![0; 60_000];
    let answer = vgm::import_for(&file[start..], vgm_file::machine(file) as u8, &mut log);
    let value = (answer >> 8) as usize;
    match answer as u8 {
        0 => {
            log.truncate(value);
            let said = match vgm_file::clock(file) {
                0 | 1_662_607 | 1_789_772 | 1_789_773 => String::new(),
                clock => format!("perch: the NES clock at $84 is {clock}: taken as NTSC\n"),
            };
            Told::both(log, said)
        }
        number @ 25..=27 => refused(Fault { number, place: start + value }),
        number => refused(Fault { number, place: value }),
    }
}

/// `perch samples`: the memory of the blocks in front; what else the file may be refused for is no matter.
fn samples(file: &[u8]) -> Told {
    if let Some(told) = no_commands(file) {
        return told;
    }
    let start = commands_at(file).unwrap_or_default();
    match vgm_file::sample_memory(&file[start..]) {
        Ok((memory, _)) => Told::both(memory, String::new()),
        Err(fault) => refused(Fault { place: start + fault.place, ..fault }),
    }
}

/// The words of a verb on a file, and what it comes to.
fn asked(random: &mut Random, verb: &str, file: &[u8], memory: &[u8]) -> (Vec<String>, Told) {
    let stamps = Stamps::of(file);
    let clock = stamps.as_ref().map_or(0, |stamps| stamps.clock(random).min(2_000_000_000));
    let clocks = random.pick(&[1, 20, 500, 5_000]);
    let rate = waves::rate(random);
    let told = match verb {
        "play" => Told::text(play::text(file, memory)),
        "check" => Told::text(recording::file_text(file)),
        "why" => Told::text(why::text(file, memory, clock)),
        "at" => Told::text(moment::text(file, memory, clock)),
        "vcd" => Told::text(trace::text(file, memory, clock, clocks)),
        "wav" => Told { out: wave::file(file, memory, rate.unwrap_or(wave::RATE)), said: None },
        "meter" => Told::text(meter::text(file, memory, false, u64::MAX)),
        "meter waits" => Told::text(meter::text(file, memory, true, u64::MAX)),
        "interrupts" => Told::text(flags::text(file, memory)),
        "dwell" => Told::text(dwell::text(file, memory)),
        "import" => imported(file),
        _ => samples(file),
    };
    let numbers = match verb {
        "why" | "at" => vec![clock],
        "vcd" => vec![clock, clocks],
        "wav" => rate.into_iter().collect(),
        _ => Vec::new(),
    };
    let words = verb.split(' ').map(String::from).chain(numbers.iter().map(u64::to_string)).collect();
    (words, told)
}

fn count(file: &[u8], told: &Told, own: bool, counts: &mut Counts) {
    match recording::machine(file) {
        Ok(reading::Machine::Pal) => counts.add("pal"),
        Ok(reading::Machine::Ntsc) => counts.add("ntsc"),
        Err(_) => counts.add("refused"),
    }
    counts.add(if own { "with its own samples" } else { "with sample.bin" });
    counts.add_if(told.said.as_ref().is_some_and(|said| !said.is_empty()), "said");
}

/// A file that the reading can go through, and that begins as a VGM file does.
fn file(random: &mut Random) -> Vec<u8> {
    loop {
        let file = vgm_files::file(random);
        if is_file(&file) && recording::check(&file).map_or(true, |totals| totals.clocks <= MOST_CLOCKS) {
            return file;
        }
    }
}

/// Draws files and holds what the verbs of a program `perch` write for them to the reading; a failing file is told.
pub fn compare(seed: u64, files: u64, program: &str) -> Result<String, String> {
    let lent = sample(seed);
    let program = Program::new(program, &lent)?;
    // The fewest are those of 300 files.
    let things = VERBS.into_iter().chain(THINGS).map(|(name, fewest)| (name, fewest * 10_000 / 300));
    let mut counts = Counts::new(files, things);
    for number in 0..files {
        let random = &mut Random::new(seed, "file verbs", number);
        let file = file(random);
        let memory = recording::memory(&file, &lent);
        let verb = VERBS[number as usize % VERBS.len()].0;
        let (words, told) = asked(random, verb, &file, &memory);
        let (out, said) = program.tells(&words, &file)?;
        let failed = |what: String| {
            let shown = &file[..file.len().min(3_000)];
            Err(format!("seed {seed}, file {number}, {words:?}: {what}\n{} bytes {shown:02x?}", file.len()))
        };
        if out != told.out {
            let at = out.iter().zip(&told.out).take_while(|(theirs, ours)| theirs == ours).count();
            let shown = |bytes: &[u8]| bytes[at..bytes.len().min(at + 60)].escape_ascii().to_string();
            return failed(format!("at byte {at} it writes {}, by the reading {}", shown(&out), shown(&told.out)));
        }
        if told.said.as_ref().is_some_and(|ours| ours.as_bytes() != said) {
            return failed(format!("it says {}, by the reading {:?}", said.escape_ascii(), told.said));
        }
        counts.add(verb);
        count(&file, &told, matches!(memory, std::borrow::Cow::Owned(_)), &mut counts);
    }
    Ok(format!("{files} VGM files ({})\n", counts.told()?))
}
