//! Each call that the header declares is made by the driver and compared.

use machines::calls::CALLS;
use machines::driver::root;
use std::fs;

fn text_of(name: &str) -> String {
    fs::read_to_string(root().join(name)).expect("a text")
}

/// What stands behind a mark at the start of a line, up to an end, sorted.
fn names(text: &str, mark: &str, end: char) -> Vec<String> {
    let lines = text
        .lines()
        .filter_map(|line| line.trim().strip_prefix(mark));
    let mut names: Vec<String> = lines
        .filter_map(|rest| Some(rest.split_once(end)?.0.to_string()))
        .collect();
    names.sort();
    names
}

#[test]
fn every_call_of_the_header_is_driven_and_compared() {
    let declared = names(&text_of("include/ttwibonal.h"), "uint64_t ttw_", '(');
    assert!(!declared.is_empty());
    let driven = names(&text_of("host/machines/driver.c"), "CALL(ttw_", ',');
    assert_eq!(driven, declared, "driver.c");
    let mut compared: Vec<&str> = CALLS
        .iter()
        .map(|call| &call.name["ttw_".len()..])
        .collect();
    compared.sort();
    assert_eq!(compared, declared, "CALLS");
}

#[test]
fn the_header_says_how_much_stack_a_call_may_take() {
    let said = text_of("include/ttwibonal.h").replace("\n *", "");
    for promise in [
        "a call on files takes less than 2,048 bytes",
        "labels and listings from files less than 4,096",
        "opening a pack, labels, listings, a suffix or a sector from a pack less than 80 KiB",
        "building a pack or listing codes less than 192 KiB",
        "labels and listings from a set take less than 6,144 bytes",
        "building a pack from a set takes less than 1 MiB",
        "Rows of CSV PAF take what labels from the same files do, and a call on a CSV file less \
        than 4,096 bytes",
        "A call on a book takes less than 8,192 bytes, but tidying one less than 96 KiB and \
        building a pack from one less than 192 KiB",
    ] {
        assert!(said.contains(promise), "{promise}");
    }
    let mut allowed: Vec<u64> = CALLS.iter().map(|call| call.stack).collect();
    allowed.sort();
    allowed.dedup();
    assert_eq!(
        allowed,
        [
            2_048,
            4_096,
            6_144,
            8_192,
            80 << 10,
            96 << 10,
            192 << 10,
            1 << 20
        ]
    );
}
