//! What is made by hand is what it is said to be, and enough cases have all of
//! it.

use fuzz::limits::{self, Limit};
use fuzz::reached::{wanted, Kind, Reached, ENOUGH};
use fuzz::{case, malformed, sets};
use paper::make::{Edition, Rng, EDITIONS, FIRST, SECOND};
use paper::Refusal;
use std::collections::BTreeSet;

#[test]
fn each_limit_opens_or_is_refused_by_its_step() {
    let mut rng = Rng::new(31);
    for limit in limits::ALL.iter() {
        for _ in 0..5 {
            let refused = paper::open(&limits::pack(&mut rng, limit)).err();
            let expected = (limit.step > 0).then_some(Refusal::new(11, limit.step));
            assert_eq!(refused, expected, "{}", limit.name);
        }
    }
}

/// Limits that open, each with one of the same field that does not.
fn sides(edition: Edition) -> Vec<(&'static str, &'static str)> {
    let mut sides = vec![
        ("building number: 9999", "building number: 10000"),
        ("address key: 99999999", "address key: 100000000"),
        ("organisation key: 1", "organisation key: 0"),
        ("row 0, text 2: \"\"", "row 0, text 1: \"\""),
        ("code \"Y1  \"", "code \"X1  \""),
    ];
    sides.push(match edition {
        FIRST => ("edition byte 1", "edition byte 2"),
        SECOND => ("edition byte 2", "edition byte 3"),
        _ => ("edition byte 3", "edition byte 4"),
    });
    if edition.has_suffix() {
        sides.push(("suffix: 48", "suffix: 47"));
        sides.push(("suffix, second: 90", "suffix, second: 91"));
    }
    if edition.has_counts() {
        sides.push(("counts with [] more", "counts with [(9, 1)] more"));
    }
    sides
}

#[test]
fn the_limits_of_a_field_have_both_sides() {
    for edition in EDITIONS {
        let step = |name: &str| {
            let is_it = |limit: &&Limit| limit.edition == edition && limit.name == name;
            let limit = limits::ALL.iter().find(is_it);
            limit.unwrap_or_else(|| panic!("{name}")).step
        };
        for (opens, refused) in sides(edition) {
            assert_eq!(step(opens), 0, "{opens}");
            assert_ne!(step(refused), 0, "{refused}");
        }
    }
    let name = |limit: &'static Limit| (limit.edition.number, &limit.name);
    let mut names: Vec<_> = limits::ALL.iter().map(name).collect();
    names.sort_unstable();
    names.dedup();
    assert_eq!(names.len(), limits::ALL.len(), "each limit stands once");
    assert!(names.len() as u64 <= ENOUGH);
}

#[test]
fn enough_cases_have_both_files_at_the_most_records_and_beyond() {
    let mut seen = BTreeSet::new();
    for number in 1..=ENOUGH {
        let files = case::make(5, number).files;
        for (width, file) in [(169, &files.table), (168, &files.points)] {
            let records = file.len() / width;
            if records >= 20_000 && file.len().is_multiple_of(width) {
                let plain = match width {
                    169 => paper::check_table(file),
                    _ => paper::check_points(file),
                };
                seen.insert((width, records, plain.is_ok()));
            }
        }
    }
    for width in [168, 169] {
        assert!(seen.contains(&(width, 20_000, true)), "{width}");
        assert!(seen.contains(&(width, 20_001, false)), "{width}");
    }
}

#[test]
fn nothing_reached_is_everything_missing_and_all_of_it_nothing() {
    let mut reached = Reached::default();
    assert_eq!(reached.missing(), wanted());
    assert!(wanted().len() >= 700, "{}", wanted().len());
    for Kind {
        call,
        number,
        file,
        detail,
    } in wanted()
    {
        let second = match number {
            4 | 14 => detail.max(1),
            _ => 0,
        };
        let answer = u64::from(number) << 56 | u64::from(file) << 52 | second << 32 | detail;
        reached.count(call, answer);
    }
    assert_eq!(reached.missing(), []);
    assert!(
        malformed::bytes(1).contains(&135),
        "the double dependent locality"
    );
    assert!(malformed::bytes(2).contains(&107), "the concatenation");
    assert!(sets::bytes(6).contains(&9), "the organisation's type");
    assert!(sets::bytes(7).contains(&79), "an address's concatenation");
}
