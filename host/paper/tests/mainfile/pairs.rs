//! The same elements give the same label from a pair, from a set and from the
//! packs of both.

use paper::mainfile;
use paper::make::guide;
use paper::make::{pair, set_of_pair, MainSet, Pair, Rng};
use paper::{label_of, pack_label, Refusal};

/// The label of a view of a set.
fn main_label(made: &MainSet, view: u64) -> Result<Vec<u8>, Refusal> {
    let mut out = [0; 499];
    let written = mainfile::label(made.set(), view, &mut out)?;
    Ok(out[..written].to_vec())
}

/// Compares every label of a pair with that of the set that says the same; how
/// many were printed, how many refused.
#[track_caller]
fn compare(pair: &Pair) -> [usize; 2] {
    let made = set_of_pair(pair);
    assert_eq!(made.addresses.len(), pair.views.len());
    let mut seen = [0; 2];
    for (number, address) in (1..).zip(&made.addresses) {
        let view = u64::from(address.address_key);
        let expected = label_of(&pair.table, &pair.points, view);
        assert_eq!(main_label(&made, number), expected, "{address:?}");
        seen[usize::from(expected.is_err())] += 1;
    }
    seen
}

#[test]
fn a_pair_and_the_set_that_says_the_same_print_the_same() {
    let mut seen = [0; 2];
    for seed in 0..1_500 {
        let most_records = 2 + seed as usize % 40;
        let [printed, refused] = compare(&pair(&mut Rng::new(seed), most_records));
        seen[0] += printed;
        seen[1] += refused;
    }
    assert!(seen[0] > 3_000 && seen[1] > 500, "{seen:?}");
}

#[test]
fn the_guides_examples_print_the_same() {
    assert_eq!(compare(&guide::pair()), [guide::examples().len(), 0]);
    for example in guide::examples() {
        for (split, large) in [(false, false), (true, false), (false, true), (true, true)] {
            let made = set_of_pair(&example.files(split, large));
            let label = main_label(&made, 1).expect("a label");
            assert_eq!(label, example.label().as_bytes(), "{}", example.table);
            let code = &made.files[6][88..92];
            let mut pack = [0; 2_000];
            let length = mainfile::build(made.set(), code, &mut pack).expect("a pack");
            let mut out = [0; 499];
            let written = pack_label(&pack[..length], 1, &mut out).expect("a label");
            assert_eq!(out[..written], label);
        }
    }
}
