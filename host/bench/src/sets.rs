//! The calls on a Mainfile set of full length, which is made here.

use crate::input::{LABEL, ROUND};
use crate::same::same;
use crate::{bare_pass, barred, by_turns, plain_main, print_whole};
use paper::mainfile::Set;
use paper::make::long_set;
use std::hint::black_box;
use ttw::main_calls;

/// Records of each file, but for the descriptors, whose keys have four digits.
const RECORDS: usize = 1_000_000;

/// How often a call is timed.
const RUNS: usize = 7;

/// The bars: how many times the plain version a call may take, how many bare passes over all files the check may, and how
/// much of the check a pack of no address may take beyond it.
const MOST_RATIO: f64 = 1.1;
const MOST_PASSES: f64 = 3.0;
const MOST_EMPTY: f64 = 0.1;

/// A code of the set, one of 90, and one that has no address.
const CODE: &[u8] = b"AB55";
const EMPTY: &[u8] = b"QA1 ";

/// Bytes that hold any pack of the set, and the labels of a round.
const ROOM: usize = 1 << 23;

/// How many views the longest run is over.
const VIEWS: u64 = 100_000;

/// A call on the set.
type Question = fn(Set, room: &mut [u8], bytes: &mut u64) -> u64;

/// The name of a call, the library's and the plain version's.
type Call = (&'static str, Question, Question);

/// A call of both sides with the same arguments.
macro_rules! both {
    ($symbol:literal, |$set:ident, $room:pat_param, $bytes:pat_param| $name:ident($($argument:expr),*)) => {
        (
            $symbol,
            |$set, $room, $bytes| main_calls::$name($($argument),*),
            |$set, $room, $bytes| plain_main::$name($($argument),*),
        )
    };
}

/// The first is the check of all files.
const CALLS: [Call; 12] = [
    both!("ttw_main", |set, _, _| views(set)),
    both!("ttw_main_live", |set, _, _| live(set[6], CODE)),
    both!("ttw_main_codes", |set, room, _| codes(set[6], room)),
    both!("ttw_main_label", |set, room, _| label(
        set,
        last(set),
        &mut room[..LABEL]
    )),
    both!("ttw_main_code_label", |set, room, _| code_label(
        set,
        CODE,
        1,
        &mut room[..LABEL]
    )),
    both!("ttw_main_labels", |set, room, bytes| labels(
        set,
        last(set) - ROUND + 1,
        ROUND,
        room,
        bytes
    )),
    both!("ttw_main_code_labels", |set, room, bytes| code_labels(
        set, CODE, 1, ROUND, room, bytes
    )),
    both!("ttw_main_list", |set, room, bytes| list(
        set,
        last(set) - ROUND + 1,
        ROUND,
        room,
        bytes
    )),
    both!("ttw_main_code_list", |set, room, bytes| code_list(
        set, CODE, 1, ROUND, room, bytes
    )),
    both!("ttw_main_build", |set, room, _| build(set, CODE, room)),
    both!("ttw_main_csv_row", |set, room, _| csv_row(
        set,
        last(set),
        &mut room[..LABEL]
    )),
    both!("ttw_main_csv_rows", |set, room, bytes| csv_rows(
        set,
        last(set) - ROUND + 1,
        ROUND,
        room,
        bytes
    )),
];

/// The number of the last view.
fn last(set: Set) -> u64 {
    set[6].len() as u64 / 88 - 2
}

/// Times both sides of a call, which answer and write the same: milliseconds.
fn times((name, library, plain): Call, set: Set) -> [f64; 2] {
    same(
        name,
        ROOM,
        |room, bytes| library(set, room, bytes),
        |room, bytes| plain(set, room, bytes),
    );
    let (mut room, mut other) = (vec![0; ROOM], vec![0; ROOM]);
    let both = by_turns(
        RUNS,
        [
            &mut || library(black_box(set), &mut room, &mut 0),
            &mut || plain(black_box(set), &mut other, &mut 0),
        ],
    );
    both.map(|microseconds| microseconds / 1e3)
}

/// Every call, with the bare passes of those that look at all they are lent and at little more.
fn print_calls(set: Set) {
    let pass = |files: &[&[u8]]| {
        let mut sum = || files.iter().map(|file| bare_pass(black_box(file))).sum();
        let [microseconds] = by_turns(RUNS, [&mut sum]);
        microseconds / 1e3
    };
    for (n, call) in CALLS.into_iter().enumerate() {
        let [ours, theirs] = times(call, set);
        let passes = match n {
            0 => barred(ours / pass(&set), MOST_PASSES),
            1 => format!("{:.2}", ours / pass(&set[6..])),
            _ => String::new(),
        };
        let ratio = barred(ours / theirs, MOST_RATIO);
        println!(
            "{:<21} {ours:>9.1} {theirs:>9.1} {ratio:>6} {passes:>6}",
            call.0
        );
    }
}

/// What building costs beyond the check, for a code and for one without address.
fn print_beyond(set: Set) {
    let (mut room, mut other) = (vec![0; ROOM], vec![0; ROOM]);
    let [check, plain_check, empty, plain_empty, whole, plain_whole] = by_turns(
        RUNS,
        [
            &mut || main_calls::views(set),
            &mut || plain_main::views(set),
            &mut || main_calls::build(set, EMPTY, &mut [0; 61]),
            &mut || plain_main::build(set, EMPTY, &mut [0; 61]),
            &mut || main_calls::build(set, CODE, &mut room),
            &mut || plain_main::build(set, CODE, &mut other),
        ],
    )
    .map(|microseconds| microseconds / 1e3);
    let addresses = main_calls::live(set[6], CODE);
    println!(
        "building beyond the check: {:.2} beside {:.2} for a code of {addresses} addresses; {:.2} beside {:.2} for one of \
         none, {} of the check, bar {MOST_EMPTY}",
        whole - check,
        plain_whole - plain_check,
        empty - check,
        plain_empty - plain_check,
        barred((empty - check) / check, MOST_EMPTY),
    );
}

/// The labels of a code, and labels and rows of many views, as one run.
fn print_runs(set: Set) {
    let code = main_calls::live(set[6], CODE);
    print_whole(
        ("ttw_main_code_labels, a code", RUNS, MOST_RATIO),
        code,
        |count, room, bytes| main_calls::code_labels(set, CODE, 1, count, room, bytes),
        |count, room, bytes| plain_main::code_labels(set, CODE, 1, count, room, bytes),
    );
    print_whole(
        ("ttw_main_labels", RUNS, MOST_RATIO),
        VIEWS,
        |count, room, bytes| main_calls::labels(set, 1, count, room, bytes),
        |count, room, bytes| plain_main::labels(set, 1, count, room, bytes),
    );
    print_whole(
        ("ttw_main_csv_rows", RUNS, MOST_RATIO),
        VIEWS,
        |count, room, bytes| main_calls::csv_rows(set, 1, count, room, bytes),
        |count, room, bytes| plain_main::csv_rows(set, 1, count, room, bytes),
    );
}

pub fn print_all() {
    let files = long_set(RECORDS);
    let set = files.each_ref().map(Vec::as_slice);
    let bytes: usize = set.iter().map(|file| file.len()).sum();
    println!("\nmilliseconds, library and plain version, on a Mainfile set of {bytes} bytes:\n");
    println!(
        "{:<21} {:>9} {:>9} {:>6} {:>6}",
        "call", "library", "plain", "ratio", "passes"
    );
    print_calls(set);
    println!("\nratio: bar {MOST_RATIO}. passes: over all files, bar {MOST_PASSES:.1}; over the address file.");
    print_beyond(set);
    println!("microseconds:");
    print_runs(set);
}
