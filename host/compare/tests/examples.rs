//! The examples of folding and of repairing.

use std::fs::read;

fn example(name: &str) -> Vec<u8> {
    read(format!("{}/../../examples/{name}.log", env!("CARGO_MANIFEST_DIR"))).unwrap()
}

#[test]
fn repeats_fold() {
    let (before, after) = (example("repeats"), example("folded"));
    assert_eq!(reading::fold::folded(&before), Ok(after.clone()));
    assert_eq!(perch::fold(&before), Ok(after));
}

#[test]
fn damaged_is_repaired() {
    use perch::Repair::{Added, Dropped};
    let (before, after) = (example("damaged"), example("repaired"));
    let dropped = |start, number| Dropped { start, number };
    let done = vec![dropped(76, 7), dropped(90, 7), dropped(180, 10), Added { place: 163 }];
    assert_eq!(perch::salvage(&before), Ok((after.clone(), done)));
    assert_eq!(reading::salvage::salvaged(&before).map(|(new, _)| new), Ok(after));
}
