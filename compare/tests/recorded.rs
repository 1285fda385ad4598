//! The committed record is what the crate answers today.
#![cfg(crate_there)]

#[test]
fn record_is_reproduced() {
    let file = concat!(env!("CARGO_MANIFEST_DIR"), "/../crates/recorded/stdin");
    let (text, _) = compare::record::recorded(1, compare::record::HISTORIES);
    assert!(std::fs::read_to_string(file).unwrap() == text);
}
