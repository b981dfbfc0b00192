//! A refusal's number in words, as a person reads them.

/// The words; "refused" for a number that has none of its own.
pub fn words(number: u8) -> &'static str {
    match number {
        1 => "sample memory isn't 32,768 bytes",
        2 => "a state field is outside its range",
        3 => "a run of more than 1,000,000 clocks",
        4 => "register not among 4000..4013, 4015, 4017",
        5 => "log longer than 60,000 bytes",
        7 => "a ninth loop opened inside eight",
        8 => "`done` with no loop open, or `stop` with one open",
        9 => "over 2,000,000,000 clocks or 1,000,000 turns in all",
        10 => "`stop` differs from the clocks in all",
        11 => "the log has no such item",
        12 => "no loop line begins there",
        13 => "a count over 4,000,000,000",
        14 => "unknown key, or one that is not allowed here",
        15 => "value not of its shape",
        16 => "value outside its range",
        17 => "line feed missing",
        18 => "`stop` missing",
        19 => "something after `stop`",
        20 => "level above 127",
        21 => "address outside 32768..65535",
        22 => "length above 4081",
        23 => "buffer shorter than the length",
        24 => "no such channel",
        25 => "unknown command",
        26 => "register not among 00..13, 15, 17",
        27 => "the stream ends before its end command",
        28 => "the log is longer than the buffer or 60,000 bytes",
        29 => "a level above 32,767",
        30 => "the repaired log is longer than the buffer or 60,000 bytes",
        31 => "the list has no room",
        32 => "buffer shorter than the log",
        33 => "rate outside 8000..192000",
        34 => "a sample block outside 8000..ffff",
        35 => "the header of the VGM file says no place for commands",
        36 => "a VGM file for two chips",
        _ => "refused",
    }
}

/// Writes the words where they fit: 2^32 x bytes written.
pub fn reason(number: u8, text: &mut [u8]) -> u64 {
    let words = words(number).as_bytes();
    match text.get_mut(..words.len()) {
        Some(front) => {
            front.copy_from_slice(words);
            (words.len() as u64) << 32
        }
        None => 0,
    }
}
