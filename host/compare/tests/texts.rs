//! The text of cases: read back as written, with lines of one length for each letter.

use compare::case::{parse, text};
use compare::judge::expected;
use compare::random::Random;
use compare::{draw, logs};
use std::collections::HashMap;

#[test]
fn cases_are_read_back() {
    let mut lengths = HashMap::new();
    for number in 0..100 {
        let case = draw::stored(&mut Random::new(1, "stored", number), number);
        let outcome = expected(&case);
        let written = text(&case, &outcome);
        for line in written.lines() {
            assert_eq!(*lengths.entry(line.as_bytes()[0]).or_insert(line.len()), line.len(), "{line}");
        }
        assert_eq!(parse(&written), Some(vec![(case, outcome)]));
    }
    assert_eq!(lengths.len(), 9);
}

#[test]
fn every_refusal_of_a_log_is_drawn() {
    let mut seen = [0; 20];
    for number in 0..3000 {
        let log = logs::log(&mut Random::new(1, "logs", number));
        seen[reading::player::check(&log) as u8 as usize] += 1;
    }
    for number in [0, 4, 5, 7, 8, 9, 10, 14, 15, 16, 17, 18, 19] {
        assert!(seen[number] > 5, "{seen:?}");
    }
}
