//! Which rows an address is joined to, and its refusals 8 and 9.

use paper::mainfile::{build, label};
use paper::make::{whole_view, MainSet, Organisation, View, FORBIDDEN, MISSING};
use paper::Refusal;

/// A whole view as a small user of organisation 8.
fn whole_address() -> View {
    View {
        organisation_key: 8,
        ..whole_view().1
    }
}

const ALL_LINES: &str =
    "LEDA\nSTORES\nFLAT 1\nTHE MANOR\nSEASTONE COURT\nHIGH STREET\nHOLT\nAB1 9ZZ\n";

/// The label of the only address, or its refusal, which building gives too.
fn printed(made: &MainSet) -> Result<String, (u8, u64)> {
    let mut out = [0; 499];
    let answer = label(made.set(), 1, &mut out);
    let built = build(made.set(), b"AB1 ", &mut [0; 500]).err();
    let with_view = |why: Refusal| Refusal { second: 1, ..why };
    assert_eq!(built, answer.err().map(with_view));
    let printed = answer.map(|written| String::from_utf8_lossy(&out[..written]).into_owned());
    printed.map_err(|why| (why.number, why.detail))
}

/// The same for an address of the rows that a whole view has.
fn asked(organisations: &[Organisation], address: View) -> Result<String, (u8, u64)> {
    let rows = whole_view().0;
    printed(&MainSet::new(rows, organisations.to_vec(), vec![address]))
}

/// The refusal of the address that has every key, after a change.
fn changed(change: impl Fn(&mut View)) -> Option<(u8, u64)> {
    let mut view = whole_address();
    change(&mut view);
    asked(&[Organisation::new(b'S', 8, "LEDA", "")], view).err()
}

#[test]
fn all_eight_rows_are_joined() {
    let organisation = Organisation::new(b'S', 8, "LEDA", "STORES");
    let printed = asked(&[organisation], whole_address());
    assert_eq!(printed, Ok(ALL_LINES.to_string()));
}

/// Six digits for a locality, four for a descriptor, eight for the others.
#[test]
fn the_highest_keys_are_joined() {
    let (mut rows, _) = whole_view();
    for row in &mut rows {
        row.key = match (row.row_type, row.key) {
            (1, _) => 999_999,
            (3, 5) => 9_999,
            (2, 2) | (3, 3) => row.key,
            _ => 99_999_999,
        };
    }
    let address = View {
        locality: 999_999,
        dependent_thoroughfare: 99_999_999,
        dependent_descriptor: 9_999,
        building: 99_999_999,
        sub_building: 99_999_999,
        organisation_key: 99_999_999,
        ..whole_view().1
    };
    let organisation = Organisation::new(b'S', 99_999_999, "LEDA", "STORES");
    let made = MainSet::new(rows, vec![organisation], vec![address]);
    assert_eq!(printed(&made), Ok(ALL_LINES.to_string()));
}

#[test]
fn refusal_9_has_eight_details_lowest_first_and_8_comes_before() {
    for (detail, change) in (1..).zip(MISSING) {
        assert_eq!(changed(change), Some((9, detail)));
        let from_there = &MISSING[detail as usize - 1..];
        let all = |view: &mut View| from_there.iter().for_each(|change| change(view));
        assert_eq!(changed(all), Some((9, detail)));
    }
    assert_eq!(changed(|view| view.locality = 0), Some((9, 1)));
    let all_and_forbidden = |view: &mut View| {
        MISSING.iter().for_each(|change| change(view));
        view.thoroughfare = 0;
    };
    assert_eq!(changed(all_and_forbidden), Some((8, 2)));
}

#[test]
fn rule_8_has_three_details() {
    assert_eq!(changed(|_| ()), None);
    for (change, detail) in FORBIDDEN {
        assert_eq!(changed(change), Some((8, detail)));
    }
    let numbered = |view: &mut View| (view.building, view.building_number) = (0, 1);
    assert_eq!(changed(numbered), None);
}

/// An address at the town with these organisations: the first line of its label,
/// which is the town where there is none.
fn first_line(
    organisations: &[Organisation],
    kind: u8,
    keys: (u32, u32),
) -> Result<String, (u8, u64)> {
    let address = View {
        locality: 1,
        postcode_type: kind,
        address_key: keys.0,
        organisation_key: keys.1,
        ..View::default()
    };
    let printed = asked(organisations, address)?;
    Ok(printed.lines().next().unwrap_or_default().to_string())
}

#[test]
fn a_small_user_is_joined_by_organisation_key_a_large_one_by_address_key() {
    let rows = [
        Organisation::new(b'S', 5, "SMALL FIVE", ""),
        Organisation::new(b'S', 6, "SMALL SIX", ""),
        Organisation::new(b'L', 5, "LARGE FIVE", ""),
        Organisation::new(b'L', 6, "", ""),
        Organisation::new(b'L', 7, "", "STORES"),
    ];
    let line = |kind, keys| first_line(&rows, kind, keys);
    assert_eq!(line(b'S', (6, 5)), Ok("SMALL FIVE".to_string()));
    assert_eq!(line(b'S', (5, 6)), Ok("SMALL SIX".to_string()));
    assert_eq!(line(b'S', (5, 0)), Ok("HOLT".to_string()));
    assert_eq!(line(b'S', (5, 7)), Err((9, 8)));
    assert_eq!(line(b'L', (5, 0)), Ok("LARGE FIVE".to_string()));
    assert_eq!(line(b'L', (5, 6)), Ok("LARGE FIVE".to_string()));
    assert_eq!(line(b'L', (6, 5)), Ok("HOLT".to_string()));
    assert_eq!(line(b'L', (7, 0)), Ok("STORES".to_string()));
    assert_eq!(line(b'L', (8, 5)), Err((9, 8)));
    assert_eq!(line(b'L', (0, 5)), Err((9, 8)));
}

/// The indicator and the suffix join nothing.
#[test]
fn the_small_user_indicator_does_not_count() {
    let rows = [Organisation::new(b'S', 8, "LEDA", "")];
    for (indicator, organisation_key) in [(b'Y', 0), (b' ', 8)] {
        let address = View {
            indicator,
            organisation_key,
            ..whole_address()
        };
        let printed = asked(&rows, address).expect("a label");
        assert_eq!(printed.starts_with("LEDA\n"), organisation_key > 0);
    }
}

#[test]
fn an_unused_small_user_needs_a_name_all_the_same() {
    let nameless = Organisation::new(b'S', 9, "", "STORES");
    let made = MainSet::new(whole_view().0, vec![nameless], vec![]);
    let answer = label(made.set(), 1, &mut [0; 499]);
    assert_eq!(answer, Err(Refusal::malformed(6, 2, 10)));
}
