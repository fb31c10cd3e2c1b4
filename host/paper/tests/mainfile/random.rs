//! Random sets: what the makers call accepted is accepted and has every case;
//! nothing panics, whatever the damage.

use paper::mainfile::{
    build, check, code_label, code_labels, code_list, codes, label, labels, list, live, views, Set,
};
use paper::make::{exact_set, joined_key, main_set, scratch, MainSet, Rng, View};
use paper::{Refusal, Run};
use std::collections::{BTreeMap, BTreeSet};

#[test]
fn random_sets_are_accepted_and_have_every_case() {
    let mut premises = [0; 8];
    let mut kinds: BTreeMap<(u8, bool, bool), usize> = BTreeMap::new();
    let mut shared = [0; 2];
    for seed in 0..1_500 {
        let rng = &mut Rng::new(seed);
        let most_records = 2 + rng.below(40);
        let made = main_set(rng, most_records);
        let records = check(made.set()).expect("accepted");
        assert!(records.iter().all(|count| *count <= most_records));
        assert_eq!(records[..5].iter().sum::<usize>(), made.rows.len() + 10);
        assert_eq!(records[5], made.organisations.len() + 2);
        assert_eq!(views(made.set()), Ok(made.addresses.len()));
        let mut used = BTreeSet::new();
        for address in &made.addresses {
            premises[premises_case(address)] += 1;
            let row = joined_key(address).map(|key| (address.postcode_type, key));
            let found = made
                .organisations
                .iter()
                .find(|organisation| Some((organisation.postcode_type, organisation.key)) == row);
            let named = found.is_some_and(|organisation| !organisation.name.is_empty());
            let kind = (address.postcode_type, row.is_some(), named);
            *kinds.entry(kind).or_default() += 1;
            let again = row.is_some() && !used.insert(row);
            shared[usize::from(address.postcode_type == b'L')] += usize::from(again);
        }
    }
    println!("{premises:?} {kinds:?} {shared:?}");
    assert!(premises.iter().all(|count| *count > 50));
    assert_eq!(kinds.len(), 5);
    assert!(kinds.values().all(|count| *count > 50));
    assert!(shared.iter().all(|count| *count > 50));
}

/// Which of sub building, building name and number an address has.
fn premises_case(view: &View) -> usize {
    let bits = [view.sub_building, view.building, view.building_number];
    bits.iter()
        .fold(0, |case, key| 2 * case + usize::from(*key > 0))
}

#[test]
fn exact_sets_have_exactly_their_records_and_every_label() {
    for records in [2, 3, 4, 5, 60, 300] {
        let made = exact_set(&mut Rng::new(4), records);
        assert_eq!(check(made.set()), Ok([records; 7]));
        let count = records as u64 - 2;
        let run = labels(made.set(), 1, count, &mut vec![0; 499 * records]).expect("accepted");
        assert_eq!((run.labels, run.stop), (count, None));
    }
}

#[test]
fn codes_are_the_outward_codes_rising_with_their_addresses() {
    for seed in 0..300 {
        let made = main_set(&mut Rng::new(seed), 30);
        let mut counted: BTreeMap<String, u32> = BTreeMap::new();
        for address in &made.addresses {
            *counted.entry(format!("{:4}", address.outward)).or_default() += 1;
        }
        let mut expected = Vec::new();
        for (code, count) in &counted {
            expected.extend(code.bytes());
            expected.extend(count.to_be_bytes());
            assert_eq!(live(&made.files[6], code.as_bytes()), Ok(*count as usize));
        }
        let mut out = vec![0; expected.len()];
        assert_eq!(codes(&made.files[6], &mut out), Ok(counted.len()));
        assert_eq!(out, expected);
        if let Some(short) = expected.len().checked_sub(1) {
            let room = Refusal::new(10, expected.len() as u64);
            assert_eq!(codes(&made.files[6], &mut out[..short]), Err(room));
        }
    }
}

/// One label after another, until one is refused or does not fit.
fn in_turn(
    numbers: impl Iterator<Item = u64>,
    out: &mut [u8],
    one: impl Fn(u64, &mut [u8]) -> Result<usize, Refusal>,
) -> Run {
    let mut run = Run {
        labels: 0,
        bytes: 0,
        stop: None,
    };
    for number in numbers {
        match one(number, &mut out[run.bytes..]) {
            Ok(bytes) => {
                run.labels += 1;
                run.bytes += bytes;
            }
            Err(stop) => {
                return Run {
                    stop: Some(stop),
                    ..run
                }
            }
        }
    }
    run
}

/// What a listing has for a view.
fn entry(set: Set, view: u64, out: &mut [u8]) -> Result<usize, Refusal> {
    let mut printed = [0; 499];
    let answer = match label(set, view, &mut printed) {
        Err(why) if why.number == 7 => return Err(why),
        Err(why) => format!("refused {} {}\n", why.number, why.detail).into_bytes(),
        Ok(written) => printed[..written].to_vec(),
    };
    let entry = [format!("view {view}\n").as_bytes(), &answer].concat();
    let room = Refusal::new(10, entry.len() as u64);
    out.get_mut(..entry.len())
        .ok_or(room)?
        .copy_from_slice(&entry);
    Ok(entry.len())
}

#[test]
fn runs_and_listings_are_each_view_in_turn() {
    for seed in 0..60 {
        let rng = &mut Rng::new(seed);
        let made = main_set(rng, 14);
        let set = made.set();
        let last = made.addresses.len() as u64;
        for room in [0, rng.below(400), 499 * 14] {
            for (first, count) in [(1, last), (1, last + 1), (0, 2), (2, 3), (last, u64::MAX)] {
                let (mut ours, mut turned) = (vec![7; room], vec![7; room]);
                let numbers = || (0..count).map(|index| first + index);
                let run = labels(set, first, count, &mut ours);
                let one = |view, out: &mut [u8]| label(set, view, out);
                assert_eq!(run, Ok(in_turn(numbers(), &mut turned, one)));
                let listing = list(set, first, count, &mut ours);
                let one = |view, out: &mut [u8]| entry(set, view, out);
                assert_eq!(listing, Ok(in_turn(numbers(), &mut turned, one)));
                assert_eq!(ours, turned);
            }
        }
    }
}

#[test]
fn a_code_has_the_views_of_its_stretch() {
    for seed in 0..100 {
        let made = main_set(&mut Rng::new(seed), 14);
        let set = made.set();
        for (index, address) in made.addresses.iter().enumerate() {
            let code = format!("{:4}", address.outward);
            let code = code.as_bytes();
            let same = |other: &View| other.outward == address.outward;
            let start = made.addresses.iter().position(same).expect("itself");
            let (k, view) = ((index - start + 1) as u64, index as u64 + 1);
            let (mut by_code, mut by_view) = ([0; 1_200], [0; 1_200]);
            assert_eq!(
                code_label(set, code, k, &mut by_code),
                label(set, view, &mut by_view)
            );
            assert_eq!(
                code_labels(set, code, k, 1, &mut by_code),
                labels(set, view, 1, &mut by_view)
            );
            assert_eq!(
                code_list(set, code, k, 1, &mut by_code),
                list(set, view, 1, &mut by_view)
            );
            assert_eq!(by_code, by_view);
        }
    }
}

/// Document 02, No. 13, for a set: without the rows that no address refers to,
/// every listing and pack is the same.
#[test]
fn rows_that_no_address_uses_do_not_matter() {
    let mut left_out = 0;
    for seed in 0..300 {
        let full = main_set(&mut Rng::new(seed), 20);
        let row_types = [1, 2, 3, 2, 3, 4, 5];
        let names = |view: &View| row_types.into_iter().zip(view.keys());
        let used: BTreeSet<(u8, u32)> = full.addresses.iter().flat_map(names).collect();
        let joined = |view: &View| joined_key(view).map(|key| (view.postcode_type, key));
        let organised: BTreeSet<(u8, u32)> = full.addresses.iter().filter_map(joined).collect();
        let mut rows = full.rows.clone();
        rows.retain(|row| used.contains(&(row.row_type, row.key)));
        let mut organisations = full.organisations.clone();
        organisations.retain(|row| organised.contains(&(row.postcode_type, row.key)));
        left_out += full.rows.len() + full.organisations.len() - rows.len() - organisations.len();
        let bare = MainSet::new(rows, organisations, full.addresses.clone());
        let count = full.addresses.len() as u64;
        let (mut ours, mut theirs) = ([0; 12_000], [0; 12_000]);
        let answer = list(bare.set(), 1, count, &mut ours);
        assert_eq!(answer, list(full.set(), 1, count, &mut theirs));
        for address in &full.addresses {
            let code = format!("{:4}", address.outward);
            let answer = build(bare.set(), code.as_bytes(), &mut ours);
            assert_eq!(answer, build(full.set(), code.as_bytes(), &mut theirs));
        }
        assert_eq!(ours, theirs);
    }
    assert!(left_out > 1_000, "{left_out}");
}

/// Every call, with any files and numbers; 6 does not occur.
fn call_all(set: Set, code: &[u8], number: u64) {
    let out = &mut [0; 3_000];
    let answers = [
        check(set).map(|_| 0),
        views(set),
        live(set[6], code),
        codes(set[6], out),
        label(set, number, out),
        code_label(set, code, number, out),
        labels(set, number, number, out).map(|run| run.bytes),
        code_labels(set, code, number, 3, out).map(|run| run.bytes),
        list(set, number, number, out).map(|run| run.bytes),
        code_list(set, code, number, 3, out).map(|run| run.bytes),
        build(set, code, out),
    ];
    for answer in answers {
        assert!(
            answer.is_ok_and(|value| value <= 3_000) || answer.is_err_and(|why| why.number != 6)
        );
    }
}

#[test]
fn scratched_sets_always_get_an_answer() {
    let mut seen = [0; 8];
    for seed in 0..4_000 {
        let rng = &mut Rng::new(seed);
        let made = main_set(rng, 10);
        let mut files = made.files.clone();
        for _ in 0..rng.below(3) {
            let file = rng.below(7);
            scratch(rng, &mut files[file]);
        }
        let set = files.each_ref().map(Vec::as_slice);
        for number in [0, 1, 2, u64::MAX] {
            call_all(set, b"AB1 ", number);
        }
        seen[check(set).map_or_else(|why| usize::from(why.file), |_| 0)] += 1;
    }
    println!("{seen:?}");
    assert!(seen.iter().all(|count| *count > 50));
}

#[test]
fn any_bytes_get_an_answer() {
    for seed in 0..500 {
        let rng = &mut Rng::new(seed);
        let files: Vec<Vec<u8>> = (0..7)
            .map(|_| (0..rng.below(500)).map(|_| rng.byte()).collect())
            .collect();
        let set = std::array::from_fn(|index| files[index].as_slice());
        call_all(set, &files[0][..files[0].len().min(4)], seed);
    }
}
