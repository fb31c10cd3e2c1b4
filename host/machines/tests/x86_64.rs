//! The calls on the office's machine, made by the program that makes them on the
//! handset's too.

use machines::compare::Tally;
use machines::driver::Machine::X86_64;
use machines::inputs::{cases, largest, SHORT};

#[test]
fn a_short_part_is_answered_alike() {
    let tally = Tally::of(X86_64, cases(SHORT));
    println!("{tally}");
    tally.assert_all_reached();
}

#[test]
fn no_call_on_the_largest_files_takes_more_stack_than_the_header_says() {
    let tally = Tally::of(X86_64, [largest()].into_iter());
    println!("{tally}");
    tally.assert_no_refusal();
}
