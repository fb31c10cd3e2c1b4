//! The plain version answers as the library does, on good sets and damaged ones.

use crate::plain_main;
use crate::same::same;
use paper::mainfile::Set;
use paper::make::{damaged_main, main_set, scratch, MainSet, Place, Rng};
use ttw::main_calls;

/// How many random sets, and how many files of each kind of damage.
const SETS: u64 = 20;
const DAMAGED: usize = 5;

/// Asks both for the same, in buffers of several lengths.
macro_rules! same_call {
    ($rooms:expr, |$out:pat_param, $bytes:pat_param| $name:ident($($argument:expr),*)) => {
        for room in $rooms {
            same(
                stringify!($name),
                room,
                |$out, $bytes| main_calls::$name($($argument),*),
                |$out, $bytes| plain_main::$name($($argument),*),
            );
        }
    };
}

fn same_check(set: Set) {
    assert_eq!(main_calls::views(set), plain_main::views(set));
    same_call!([0, 8, 15, 4_000], |out, _| codes(set[6], out));
}

fn same_views(set: Set, count: u64) {
    for view in 0..count + 2 {
        let rooms = [0, 40, 499, 519, 9_000];
        same_call!(rooms, |out, _| label(set, view, out));
        same_call!(rooms, |out, bytes| labels(set, view, 3, out, bytes));
        same_call!(rooms, |out, bytes| list(set, view, 3, out, bytes));
        same_call!(rooms, |out, _| csv_row(set, view, out));
        same_call!(rooms, |out, bytes| csv_rows(set, view, 3, out, bytes));
    }
}

fn same_in_code(set: Set, code: &[u8]) {
    assert_eq!(
        main_calls::live(set[6], code),
        plain_main::live(set[6], code)
    );
    for k in 0..4 {
        same_call!([499], |out, _| code_label(set, code, k, out));
        same_call!([2_000], |out, bytes| code_labels(
            set, code, k, 9, out, bytes
        ));
        same_call!([2_000], |out, bytes| code_list(set, code, k, 9, out, bytes));
    }
    same_call!([0, 61, 20_000], |out, _| build(set, code, out));
}

fn same_answers(made: &MainSet) {
    let set = made.set();
    same_check(set);
    same_views(set, made.addresses.len() as u64);
    for code in [&b"AB1 "[..], b"QA1 ", b"AB1"] {
        same_in_code(set, code);
    }
    for address in &made.addresses {
        same_in_code(set, format!("{:<4}", address.outward).as_bytes());
    }
}

#[test]
fn as_the_library_on_good_sets() {
    for seed in 0..SETS {
        same_answers(&main_set(&mut Rng::new(seed), 40));
    }
}

#[test]
fn as_the_library_on_damaged_sets() {
    let mut rng = Rng::new(15);
    for file in 1..=7 {
        for number in 1..=5 {
            for place in Place::ALL {
                for _ in 0..DAMAGED {
                    let made = main_set(&mut rng, 12);
                    let mut set = made.set();
                    if let Some(damaged) = damaged_main(&mut rng, file, number, place) {
                        set[usize::from(file) - 1] = &damaged.file;
                        same_check(set);
                    }
                }
            }
        }
    }
}

#[test]
fn as_the_library_on_scratched_sets() {
    let mut rng = Rng::new(16);
    for n in 0..SETS as usize * 7 {
        let mut made = main_set(&mut rng, 12);
        scratch(&mut rng, &mut made.files[n % 7]);
        same_check(made.set());
    }
}
