//! The calls on the handset's machine, under the emulator. `make test-arm` says
//! what has to be installed for it, and runs these tests; the gate runs all but
//! the whole, where that is installed.

use machines::compare::Tally;
use machines::driver::Machine::Aarch64;
use machines::inputs::{cases, largest, SHORT, WHOLE};
use machines::kit::printed;
use std::process::Command;

#[test]
#[ignore = "make test-arm runs it"]
fn a_short_part_is_answered_alike() {
    let tally = Tally::of(Aarch64, cases(SHORT));
    println!("{tally}");
    tally.assert_all_reached();
}

#[test]
#[ignore = "make test-arm runs it"]
fn the_whole_is_answered_alike() {
    let tally = Tally::of(Aarch64, cases(WHOLE));
    println!("{tally}");
    tally.assert_all_reached();
    assert!(tally.calls >= 10_000);
}

#[test]
#[ignore = "make test-arm runs it"]
fn no_call_on_the_largest_files_takes_more_stack_than_the_header_says() {
    let tally = Tally::of(Aarch64, [largest()].into_iter());
    println!("{tally}");
    tally.assert_no_refusal();
}

/// Android keeps it for itself.
#[test]
#[ignore = "make test-arm runs it"]
fn no_instruction_has_the_register_x18() {
    let mut objdump = Command::new("aarch64-linux-gnu-objdump");
    let listing = printed(objdump.arg("--disassemble").arg(Aarch64.archive()));
    let has = |register| {
        let mut words = listing.split(|c: char| !c.is_alphanumeric());
        words.any(|word| word == register)
    };
    assert!(has("x17") && has("w17") && has("x19") && has("w19"));
    assert!(!has("x18") && !has("w18"));
}
