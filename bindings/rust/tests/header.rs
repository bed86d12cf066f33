//! What this crate says again of include/powhanire.h, held to the header and to the archive.

use powhanire::{room, Refusal};

fn header() -> String {
    std::fs::read_to_string(concat!(env!("CARGO_MANIFEST_DIR"), "/../../include/powhanire.h")).unwrap()
}

/// The word of the header that comes after this one.
fn after(word: &str) -> String {
    let header = header();
    let mut words = header.split_whitespace().skip_while(|&other| other != word);
    words.nth(1).unwrap_or_else(|| panic!("the header has no {word}")).to_string()
}

#[test]
fn version() {
    let [major, minor, patch] =
        ["MAJOR", "MINOR", "PATCH"].map(|part| after(&format!("POWHANIRE_VERSION_{part}")).parse::<u64>().unwrap());
    assert_eq!(env!("CARGO_PKG_VERSION"), format!("{major}.{minor}.{patch}"));
    assert_eq!(powhanire::VERSION, major * 10_000 + minor * 100 + patch);
    assert_eq!(powhanire::version(), powhanire::VERSION);
}

/// The header has lines such as `rules (read_rules) 40,000 numbers`.
#[test]
fn rooms() {
    for (call, said) in [
        ("(read_rules)", room::RULES),
        ("(write_rules)", room::RULE_FILE),
        ("(read_wishes)", room::ROW),
        ("(write_wishes)", room::WISH_FILE),
        ("(rewrite)", room::REWRITTEN),
        ("(write_opb)", room::OPB_FILE),
    ] {
        assert_eq!(after(call).replace(',', ""), said.to_string(), "{call}");
    }
    assert!(header().contains(&format!("at most {} with a wish row, {} without", room::ROW, room::CHOICE)));
}

#[test]
fn every_refusal_says_what_is_wrong() {
    let unknown = Refusal { number: 5, place: 0 }.what();
    for number in 0..=20 {
        let known = (1..=16).contains(&number) && number != 5;
        assert_eq!(Refusal { number, place: 0 }.what() != unknown, known, "{number}");
    }
}
