//! A reader of value change dumps, by the grammar of IEEE 1364 ("Value change dump files", the four-state form). It knows nothing of what
//! `perch vcd` writes.

use std::collections::HashMap;

/// A variable that the head declares.
#[derive(Clone, Debug, PartialEq, Eq)]
pub struct Variable {
    /// The scopes that it stands in, from the outermost on, each behind its kind: `module top`.
    pub scopes: Vec<String>,
    /// Its type, as `wire`.
    pub kind: String,
    /// How many bits it has.
    pub width: usize,
    /// Its name, and behind it the bits selected where some are.
    pub name: String,
}

/// A value given to a variable.
#[derive(Clone, Debug, PartialEq, Eq)]
pub struct Change {
    /// The time, in units of the time scale.
    pub time: u64,
    /// The variable's place among those declared.
    pub variable: usize,
    /// Its bits, as many as it has, the highest first: 0, 1, x or z.
    pub bits: String,
}

impl Change {
    /// The number that the bits are; none where one is x or z, or where they are more than 64.
    pub fn number(&self) -> Option<u64> {
        u64::from_str_radix(&self.bits, 2).ok()
    }
}

/// A dump: its head, and the values in their order.
#[derive(Clone, Debug, Default, PartialEq, Eq)]
pub struct Dump {
    /// The text of `$timescale`, its words joined.
    pub timescale: String,
    /// The variables in the order in which they are declared.
    pub variables: Vec<Variable>,
    /// The changes in their order; the times never go back.
    pub changes: Vec<Change>,
    /// How many of them `$dumpvars` has; they are the first.
    pub dumped: usize,
    /// The time lines, each once.
    pub times: Vec<u64>,
}

impl Dump {
    /// What a variable is from which time on, counted from the dump's first time; a value that it has for no time is left out.
    pub fn lane(&self, variable: usize) -> Vec<(u64, &str)> {
        let (first, last) = (self.times.first(), self.times.last());
        let mut lane: Vec<(u64, &str)> = Vec::new();
        for change in self.changes.iter().filter(|change| change.variable == variable) {
            let time = change.time - first.unwrap_or(&0);
            if lane.last().is_some_and(|before| before.0 == time) {
                lane.pop();
            }
            if Some(&change.time) != last && lane.last().is_none_or(|before| before.1 != change.bits) {
                lane.push((time, &change.bits));
            }
        }
        lane
    }
}

/// Holds each variable of another dump, by its name, to the same in this one; the number of those that are in both.
pub fn carried(dump: &Dump, other: &Dump) -> Result<usize, String> {
    let mut both = 0;
    for (theirs, variable) in other.variables.iter().enumerate() {
        let name = variable.name.rsplit('.').next();
        let Some(ours) = dump.variables.iter().position(|variable| Some(&variable.name[..]) == name) else {
            continue;
        };
        both += 1;
        let (ours, theirs) = (dump.lane(ours), other.lane(theirs));
        if ours != theirs {
            let at = ours.iter().zip(&theirs).take_while(|(ours, theirs)| ours == theirs).count();
            return Err(format!("{}: {:?}, not {:?}", variable.name, theirs.get(at), ours.get(at)));
        }
    }
    Ok(both)
}

/// What a section doesn't have in it; other words may begin with a dollar, a code too.
const KEYWORDS: [&str; 8] =
    ["$comment", "$date", "$enddefinitions", "$scope", "$timescale", "$upscope", "$var", "$version"];
const SCOPES: [&str; 5] = ["module", "task", "function", "begin", "fork"];
const VARIABLES: [&str; 18] = [
    "event",
    "integer",
    "parameter",
    "real",
    "realtime",
    "reg",
    "supply0",
    "supply1",
    "time",
    "tri",
    "triand",
    "trior",
    "trireg",
    "tri0",
    "tri1",
    "wand",
    "wire",
    "wor",
];

/// The words of a text, one behind the other, and the line that the last stood in.
struct Words<'a> {
    words: Box<dyn Iterator<Item = (usize, &'a str)> + 'a>,
    line: usize,
}

impl<'a> Words<'a> {
    fn of(text: &'a str) -> Self {
        let lines = text.split('\n').enumerate();
        Self {
            words: Box::new(lines.flat_map(|(i, line)| line.split_ascii_whitespace().map(move |w| (i + 1, w)))),
            line: 1,
        }
    }

    fn next(&mut self) -> Option<&'a str> {
        let (line, word) = self.words.next()?;
        self.line = line;
        Some(word)
    }

    /// The words up to `$end`, which is taken too.
    fn section(&mut self) -> Result<Vec<&'a str>, String> {
        let mut words = Vec::new();
        loop {
            match self.next().ok_or("a section without $end")? {
                "$end" => return Ok(words),
                word if KEYWORDS.contains(&word) => return Err(format!("{word} in a section")),
                word => words.push(word),
            }
        }
    }
}

/// A dump on its way.
#[derive(Default)]
struct Reader {
    dump: Dump,
    scopes: Vec<String>,
    /// The variables of a code: several may share one.
    codes: HashMap<String, Vec<usize>>,
}

impl Reader {
    /// A variable: its type, its size, its code and its name.
    fn variable(&mut self, words: &[&str]) -> Result<(), String> {
        let [kind, size, code, name, select @ ..] = words else {
            return Err("a variable with words missing".into());
        };
        let selected = match select {
            [] => String::new(),
            [bits] if bits.starts_with('[') && bits.ends_with(']') => bits.to_string(),
            _ => return Err(format!("words behind the variable {name}")),
        };
        if !VARIABLES.contains(kind) {
            return Err(format!("a variable of type {kind}"));
        }
        let width = size.parse().ok().filter(|width| *width > 0).ok_or(format!("a variable of size {size}"))?;
        if !code.bytes().all(|byte| (b'!'..=b'~').contains(&byte)) {
            return Err(format!("the code {code} has a character that can't be printed"));
        }
        let same = self.codes.entry(code.to_string()).or_default();
        if same.iter().any(|other| self.dump.variables[*other].width != width) {
            return Err(format!("the code {code} is declared twice, with two sizes"));
        }
        same.push(self.dump.variables.len());
        let name = format!("{name}{selected}");
        self.dump.variables.push(Variable { scopes: self.scopes.clone(), kind: kind.to_string(), width, name });
        Ok(())
    }

    /// The declarations, up to `$enddefinitions`.
    fn head(&mut self, words: &mut Words) -> Result<(), String> {
        loop {
            let keyword = words.next().ok_or("no $enddefinitions")?;
            if keyword == "$comment" {
                words.section()?;
                continue;
            }
            let section = words.section()?;
            match (keyword, &section[..]) {
                ("$date" | "$version", _) => {}
                ("$timescale", scale) => {
                    let joined = scale.concat();
                    let digits = joined.trim_end_matches(|c: char| c.is_ascii_lowercase());
                    let unit = &joined[digits.len()..];
                    if !["1", "10", "100"].contains(&digits) || !["s", "ms", "us", "ns", "ps", "fs"].contains(&unit) {
                        return Err(format!("a time scale of {joined}"));
                    }
                    self.dump.timescale = joined;
                }
                ("$scope", [kind, name]) if SCOPES.contains(kind) => self.scopes.push(format!("{kind} {name}")),
                ("$upscope", []) => drop(self.scopes.pop().ok_or("$upscope with no scope open")?),
                ("$var", words) => self.variable(words)?,
                ("$enddefinitions", []) if !self.scopes.is_empty() => return Err("a scope is open".into()),
                ("$enddefinitions", []) => return Ok(()),
                _ => return Err(format!("{keyword} {} is no declaration", section.join(" "))),
            }
        }
    }

    fn change(&mut self, code: &str, digits: &str) -> Result<(), String> {
        let time = *self.dump.times.last().ok_or("a value before the first time")?;
        let of = self.codes.get(code).ok_or(format!("a value of {code}, which isn't declared"))?;
        for &variable in of {
            let width = self.dump.variables[variable].width;
            let digits = digits.to_ascii_lowercase();
            if digits.len() > width {
                return Err(format!("{} bits for {code}, which has {width}", digits.len()));
            }
            // Shorter ones are extended to the left: by 0 in front of 0 and 1, else by their own first.
            let first = match digits.chars().next().ok_or("a value without digits")? {
                '0' | '1' => "0",
                'x' => "x",
                'z' => "z",
                other => return Err(format!("{other} is no bit")),
            };
            if digits.contains(|c| !"01xz".contains(c)) {
                return Err(format!("{digits} are no bits"));
            }
            let bits = first.repeat(width - digits.len()) + &digits;
            self.dump.changes.push(Change { time, variable, bits });
        }
        Ok(())
    }

    /// A value: a bit with its code behind it, or b, the bits, and the code as the next word.
    fn value(&mut self, word: &str, words: &mut Words) -> Result<(), String> {
        match word.split_at(1) {
            ("0" | "1" | "x" | "X" | "z" | "Z", "") => Err(format!("the bit {word} without a code")),
            (bit @ ("0" | "1" | "x" | "X" | "z" | "Z"), code) => self.change(code, bit),
            ("b" | "B", bits) => self.change(words.next().ok_or("bits without a code")?, bits),
            _ => Err(format!("{word} is neither a time nor a value")),
        }
    }

    fn time(&mut self, digits: &str) -> Result<(), String> {
        let right = !digits.is_empty() && digits.bytes().all(|byte| byte.is_ascii_digit());
        let time = digits.parse().ok().filter(|_| right).ok_or(format!("the time {digits}"))?;
        match self.dump.times.last() {
            Some(last) if time < *last => return Err(format!("time goes back from {last} to {time}")),
            Some(last) if time == *last => {}
            _ => self.dump.times.push(time),
        }
        Ok(())
    }

    /// The times and values behind the head.
    fn body(&mut self, words: &mut Words) -> Result<(), String> {
        let mut open = None;
        while let Some(word) = words.next() {
            match (word, open) {
                ("$comment", None) => drop(words.section()?),
                ("$dumpvars" | "$dumpall" | "$dumpon" | "$dumpoff", None) => open = Some(word),
                ("$end", Some(keyword)) => {
                    if keyword == "$dumpvars" {
                        self.dump.dumped = self.dump.changes.len();
                    }
                    open = None;
                }
                (_, None) if word.starts_with('#') => self.time(&word[1..])?,
                _ if word.starts_with(['$', '#']) || !word.is_ascii() => {
                    return Err(format!("{word} where it can't stand"));
                }
                _ => self.value(word, words)?,
            }
        }
        match open {
            Some(keyword) => Err(format!("{keyword} without $end")),
            None => Ok(()),
        }
    }
}

/// Reads a dump; a text that isn't one is told with the line at fault.
pub fn read(text: &str) -> Result<Dump, String> {
    let (mut reader, mut words) = (Reader::default(), Words::of(text));
    let read = reader.head(&mut words).and_then(|()| reader.body(&mut words));
    read.map_err(|what| format!("line {}: {what}", words.line))?;
    Ok(reader.dump)
}
