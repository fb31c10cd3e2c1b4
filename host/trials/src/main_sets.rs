//! Each call on a Mainfile set asked beside the second program. An answer is
//! handed back only where both give it and the lent bytes are as they were.

use crate::agree::{lent, printed, same};
use crate::rooms::label_rooms;
use crate::runs::{item, same_thrice, same_twice, Asked};
use paper::mainfile::{self, Set};
use paper::make::{padded, MainSet};
use std::hint::black_box;
use ttw::main_calls;
use ttw::main_set::MainSet as Library;

/// Bytes of a record in each file.
pub const WIDTHS: [usize; 7] = [151, 68, 30, 58, 38, 153, 88];

/// Makes a call that only reads these files, and fails where it wrote.
#[track_caller]
pub(crate) fn lent_set(set: Set, call: impl FnOnce(Set) -> u64) -> u64 {
    let before = set.map(<[u8]>::to_vec);
    let answer = call(set);
    assert!(*black_box(&set) == before, "the call wrote into lent files");
    answer
}

/// How many views a set has, or the refusal of a file.
#[track_caller]
pub fn views(set: Set) -> u64 {
    let answer = lent_set(set, main_calls::views);
    let plain = mainfile::views(set).map(|views| views as u64);
    same("views of a set", set[6], answer, plain)
}

/// How many addresses an outward code has, or the refusal.
#[track_caller]
pub fn live(addresses: &[u8], code: &[u8]) -> u64 {
    let answer = lent(code, |code| {
        lent(addresses, |addresses| main_calls::live(addresses, code))
    });
    let plain = mainfile::live(addresses, code).map(|count| count as u64);
    same(&format!("addresses in {code:?}"), addresses, answer, plain)
}

/// The codes of an address file, or the refusal, with a buffer of so many bytes.
#[track_caller]
pub fn codes(addresses: &[u8], room: usize) -> u64 {
    printed(
        &format!("codes into {room} bytes"),
        addresses,
        room,
        |out| lent(addresses, |addresses| main_calls::codes(addresses, out)),
        |out| mainfile::codes(addresses, out),
    )
}

/// The label of a view, or the refusal, with a buffer of so many bytes.
#[track_caller]
pub fn label(set: Set, view: u64, room: usize) -> u64 {
    printed(
        &format!("label of {view} into {room} bytes"),
        set[6],
        room,
        |out| lent_set(set, |set| main_calls::label(set, view, out)),
        |out| mainfile::label(set, view, out),
    )
}

/// The label of the k-th address of a code, or the refusal.
#[track_caller]
pub fn code_label(set: Set, code: &[u8], k: u64, room: usize) -> u64 {
    printed(
        &format!("label of {k} in {code:?} into {room} bytes"),
        set[6],
        room,
        |out| lent_set(set, |set| main_calls::code_label(set, code, k, out)),
        |out| mainfile::code_label(set, code, k, out),
    )
}

/// The pack of a code, or the refusal.
#[track_caller]
pub fn build(set: Set, code: &[u8], room: usize) -> u64 {
    printed(
        &format!("pack of {code:?} into {room} bytes"),
        set[6],
        room,
        |out| {
            lent_set(set, |set| {
                lent(code, |code| main_calls::build(set, code, out))
            })
        },
        |out| mainfile::build(set, code, out),
    )
}

/// A run over the views of a set: its answer.
#[track_caller]
pub fn labels(set: Set, asked: Asked) -> u64 {
    let Asked { first, count, .. } = asked;
    same_thrice(
        asked,
        |out, bytes| lent_set(set, |set| main_calls::labels(set, first, count, out, bytes)),
        |view, out| main_calls::label(set, view, out),
        |out| mainfile::labels(set, first, count, out),
    )
}

/// A run over the addresses of a code: its answer.
#[track_caller]
pub fn code_labels(set: Set, code: &[u8], asked: Asked) -> u64 {
    let Asked { first, count, .. } = asked;
    same_thrice(
        asked,
        |out, bytes| {
            lent_set(set, |set| {
                main_calls::code_labels(set, code, first, count, out, bytes)
            })
        },
        |k, out| main_calls::code_label(set, code, k, out),
        |out| mainfile::code_labels(set, code, first, count, out),
    )
}

/// A listing of the views of a set: its answer.
#[track_caller]
pub fn list(set: Set, asked: Asked) -> u64 {
    let Asked { first, count, .. } = asked;
    let one = |view, out: &mut [u8]| {
        let line = || format!("view {view}\n");
        item(line, |room| main_calls::label(set, view, room), out)
    };
    same_thrice(
        asked,
        |out, bytes| lent_set(set, |set| main_calls::list(set, first, count, out, bytes)),
        one,
        |out| mainfile::list(set, first, count, out),
    )
}

/// A listing of the addresses of a code: its answer. No call tells the number of
/// such a view, so it is asked beside the second program alone.
#[track_caller]
pub fn code_list(set: Set, code: &[u8], asked: Asked) -> u64 {
    let Asked { first, count, .. } = asked;
    same_twice(
        asked,
        |out, bytes| {
            lent_set(set, |set| {
                main_calls::code_list(set, code, first, count, out, bytes)
            })
        },
        |out| mainfile::code_list(set, code, first, count, out),
    )
    .answer
}

/// Every call on a set, each with room and without; the answer to how many views
/// there are. A refusal of the files has to be the same from each call that reads
/// the file to blame, whatever else is asked.
#[track_caller]
pub fn ask_all(set: Set, code: &[u8], number: u64) -> u64 {
    let answer = views(set);
    let run = |room| Asked::new(number, 3, room);
    let whole = [
        label_rooms(|room| label(set, number, room)),
        label_rooms(|room| code_label(set, code, number, room)),
        labels(set, run(0)),
        labels(set, run(1_500)),
        code_labels(set, code, run(1_500)),
        list(set, run(1_500)),
        code_list(set, code, run(1_500)),
        code_list(set, code, run(40)),
        build(set, code, 0),
        build(set, code, 9_000),
    ];
    let of_addresses = [live(set[6], code), codes(set[6], 0), codes(set[6], 4_000)];
    let file = answer >> 52 & 15;
    if answer >> 56 != 0 {
        assert!(whole.iter().all(|other| *other == answer), "{whole:#x?}");
    }
    if answer >> 56 != 0 && file == 7 {
        assert_eq!(of_addresses, [answer; 3]);
    }
    answer
}

/// Every code of a set's addresses, as it is given to the calls.
pub fn codes_of(made: &MainSet) -> Vec<Vec<u8>> {
    let addresses = made.addresses.iter();
    let mut codes: Vec<Vec<u8>> = addresses.map(|one| padded(&one.outward, 4)).collect();
    codes.sort();
    codes.dedup();
    codes
}

/// The pack that the library builds for a code; none where it refuses.
pub fn built(set: Set, code: &[u8]) -> Option<Vec<u8>> {
    Library(set).build(code, 0).ok()
}

/// A set with one file, 1 to 7, replaced.
pub fn with_file<'a>(made: &'a MainSet, file: u8, bytes: &'a [u8]) -> Set<'a> {
    let mut set = made.set();
    set[usize::from(file) - 1] = bytes;
    set
}
