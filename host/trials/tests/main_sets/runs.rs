//! Runs and listings of a set: from every number, so many, into buffers of every
//! length.

use paper::make::{exact_set, main_set, Rng};
use paper::{packed, Refusal};
use trials::around::Around;
use trials::main_sets::{code_labels, code_list, codes_of, labels, list, live};
use trials::runs::Asked;
use trials::samples;

/// Room for any label, and for any item.
const LABEL: usize = 499;
const ITEM: usize = 512;

#[test]
fn every_run_and_every_listing_of_random_sets() {
    let mut rng = Rng::new(501);
    let (mut runs, mut lists) = (Around::new(LABEL), Around::new(ITEM));
    for _ in 0..40 {
        let made = main_set(&mut rng, 14);
        let (set, numbers) = (made.set(), made.addresses.len() as u64);
        runs.ask(&mut rng, numbers, |asked| labels(set, asked));
        lists.ask(&mut rng, numbers, |asked| list(set, asked));
    }
    runs.reached(&[0, 7, 8, 9, 10]);
    lists.reached(&[0, 7, 10]);
}

#[test]
fn every_run_and_every_listing_of_every_code() {
    let mut rng = Rng::new(503);
    let (mut runs, mut lists) = (Around::new(LABEL), Around::new(ITEM));
    for _ in 0..25 {
        let made = main_set(&mut rng, 16);
        let set = made.set();
        for code in codes_of(&made) {
            let numbers = live(set[6], &code);
            runs.ask(&mut rng, numbers, |asked| code_labels(set, &code, asked));
            lists.ask(&mut rng, numbers, |asked| code_list(set, &code, asked));
        }
    }
    runs.reached(&[0, 7, 8, 9, 10]);
    lists.reached(&[0, 7, 10]);
}

#[test]
fn rooms_of_every_length() {
    let made = samples::main_set();
    let set = made.set();
    for room in 0..700 {
        labels(set, Asked::new(34, 9, room));
        list(set, Asked::new(36, 9, room));
        code_labels(set, b"AB10", Asked::new(3, 9, room));
        code_list(set, b"AB2 ", Asked::new(1, 20, room));
    }
}

#[test]
fn a_run_over_a_whole_set_is_long() {
    let made = exact_set(&mut Rng::new(5), 600);
    let asked = Asked::new(1, 598, 598 * LABEL);
    assert_eq!(labels(made.set(), asked), 598);
    assert_eq!(list(made.set(), Asked::new(1, 598, 598 * ITEM)), 598);
}

#[test]
fn what_is_refused_as_a_whole_writes_nothing() {
    let made = samples::main_set();
    let code = packed(Err(Refusal::new(12, 0)));
    let mut set = made.set();
    for bad in [b"ab1 ".as_slice(), b"AB1", b"", b"QA1 "] {
        for asked in [Asked::new(1, 1, 400), Asked::new(0, 0, 0)] {
            assert_eq!(code_labels(set, bad, asked), code);
            assert_eq!(code_list(set, bad, asked), code);
        }
    }
    let short = &made.files[3][1..];
    set[3] = short;
    let of_file = packed(Err(Refusal::of_file(4, 1, 0)));
    for asked in [Asked::new(1, 1, 400), Asked::new(0, 0, 0)] {
        assert_eq!(labels(set, asked), of_file);
        assert_eq!(list(set, asked), of_file);
        assert_eq!(code_labels(set, b"no code", asked), of_file);
        assert_eq!(code_list(set, b"no code", asked), of_file);
    }
}
