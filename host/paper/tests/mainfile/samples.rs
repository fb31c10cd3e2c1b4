//! The set in `samples/main`, and what a listing of it has.

use paper::mainfile::{build, codes, list, views};
use paper::make::samples::{main_set, MAIN_NAMES};
use paper::Refusal;
use std::fs;
use std::path::{Path, PathBuf};

fn samples() -> PathBuf {
    Path::new(env!("CARGO_MANIFEST_DIR")).join("../../samples")
}

#[test]
fn the_samples_are_what_they_are_made_from() {
    for (name, made) in MAIN_NAMES.iter().zip(main_set().files) {
        let kept = fs::read(samples().join("main").join(name)).expect("a sample file");
        assert!(kept == made, "samples/main/{name}");
    }
    let folder = fs::read_dir(samples().join("main")).expect("samples/main");
    assert_eq!(folder.count(), MAIN_NAMES.len());
}

#[test]
fn the_listing_is_the_one_that_stands_beside() {
    let made = main_set();
    let mut out = vec![0; 20_000];
    let count = views(made.set()).expect("views") as u64;
    let run = list(made.set(), 1, count, &mut out).expect("accepted files");
    assert_eq!((run.labels, run.stop), (count, None));
    let kept = fs::read_to_string(samples().join("main-labels.txt")).expect("main-labels.txt");
    assert_eq!(String::from_utf8_lossy(&out[..run.bytes]), kept);
    for (number, highest) in [(8, 3), (9, 8)] {
        for detail in 1..=highest {
            assert!(kept.contains(&format!("refused {number} {detail}\n")));
        }
    }
}

#[test]
fn two_of_the_codes_have_packs() {
    let made = main_set();
    let mut out = [0; 24];
    assert_eq!(codes(&made.files[6], &mut out), Ok(3));
    let mut pack = vec![0; 10_000];
    assert!(build(made.set(), b"AB1 ", &mut pack).is_ok());
    assert!(build(made.set(), b"AB10", &mut pack).is_ok());
    let counted = |entry: &[u8]| u64::from(entry[7]);
    let before = counted(&out[..8]) + counted(&out[8..16]);
    let first = Refusal {
        second: before + 1,
        ..Refusal::new(9, 1)
    };
    assert_eq!(build(made.set(), b"AB2 ", &mut pack), Err(first));
}
