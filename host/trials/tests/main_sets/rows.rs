//! Which row a key finds, and that rows which no address refers to change nothing.

use paper::make::{joined_key, main_set, MainSet, Organisation, Rng, TableRow, View};
use std::collections::BTreeSet;
use trials::main_sets::{code_label, codes_of, label};
use trials::rooms::{label_rooms, refusal};
use ttw::main_set::MainSet as Library;

/// Keys at the ends of a file, in it, beside it and behind it.
#[test]
fn a_row_is_found_at_every_place_of_its_file() {
    let keys = [1, 2, 5, 6, 7, 99, 1_000, 9_998, 9_999];
    let mut rows = Vec::new();
    for key in keys {
        rows.push(TableRow::locality(key, "HOLT", &format!("PLACE {key}"), ""));
        rows.push(TableRow::thoroughfare(key, &format!("STREET {key}")));
        rows.push(TableRow::descriptor(key, &format!("LANE {key}")));
        rows.push(TableRow::building(key, &format!("HOUSE {key}")));
        rows.push(TableRow::sub_building(key, &format!("FLAT {key}")));
    }
    let organisations = keys.map(|key| Organisation::new(b'S', key, &format!("FIRM {key}"), ""));
    for asked in (0..12).chain([98, 99, 100, 999, 1_000, 1_001, 9_997, 9_998, 9_999]) {
        let address = View {
            locality: asked,
            thoroughfare: asked,
            descriptor: asked,
            building: asked,
            sub_building: asked,
            organisation_key: asked,
            ..View::default()
        };
        let made = MainSet::new(rows.clone(), organisations.to_vec(), vec![address]);
        let answer = label_rooms(|room| label(made.set(), 1, room));
        assert_eq!(refusal(answer) == 0, keys.contains(&asked), "{asked}");
    }
}

/// A small user's organisation goes by its organisation key, a large user's by
/// its address key, and a row of the other type is none.
#[test]
fn an_organisation_is_found_by_type_and_key() {
    let organisation =
        |postcode_type, key| Organisation::new(postcode_type, key, &format!("FIRM {key}"), "");
    let types = [b'S', b'L'];
    for (row_type, row_key) in types.into_iter().flat_map(|t| [(t, 3), (t, 4)]) {
        for postcode_type in types {
            for (address_key, organisation_key) in [(3, 4), (4, 3), (3, 0), (0, 3), (0, 0)] {
                let address = View {
                    postcode_type,
                    address_key,
                    organisation_key,
                    locality: 1,
                    ..View::default()
                };
                let wanted = joined_key(&address);
                let rows = vec![TableRow::locality(1, "HOLT", "", "")];
                let organisations = vec![organisation(row_type, row_key)];
                let made = MainSet::new(rows, organisations, vec![address]);
                let answer = label_rooms(|room| label(made.set(), 1, room));
                let found = row_type == postcode_type && wanted == Some(row_key);
                assert_eq!(refusal(answer) == 0, wanted.is_none() || found);
                assert_eq!(
                    label_rooms(|room| code_label(made.set(), b"AB1 ", 1, room)),
                    answer
                );
            }
        }
    }
}

/// Every listing, run and pack of a set without the rows that no address refers
/// to.
#[test]
fn rows_that_no_address_uses_do_not_matter() {
    let mut left_out = 0;
    for seed in 0..200 {
        let full = main_set(&mut Rng::new(seed), 20);
        let row_types = [1, 2, 3, 2, 3, 4, 5];
        let names = |view: &View| row_types.into_iter().zip(view.keys());
        let used: BTreeSet<(u8, u32)> = full.addresses.iter().flat_map(names).collect();
        let joined = |view: &View| joined_key(view).map(|key| (view.postcode_type, key));
        let organised: BTreeSet<(u8, u32)> = full.addresses.iter().filter_map(joined).collect();
        let mut rows = full.rows.clone();
        rows.retain(|row| used.contains(&(row.row_type, row.key)));
        let mut organisations = full.organisations.clone();
        organisations.retain(|row| organised.contains(&(row.postcode_type, row.key)));
        left_out += full.rows.len() + full.organisations.len() - rows.len() - organisations.len();
        let bare = MainSet::new(rows, organisations, full.addresses.clone());
        let (full, bare) = (&full, &bare);
        let listed = |made: &MainSet, first| {
            let mut out = vec![0; 12_000];
            (Library(made.set()).list(first, u64::MAX, &mut out), out)
        };
        assert_eq!(listed(full, 1), listed(bare, 1));
        let run = |made: &MainSet| {
            let mut out = vec![0; 12_000];
            (Library(made.set()).labels(1, u64::MAX, &mut out), out)
        };
        assert_eq!(run(full), run(bare));
        for code in codes_of(full) {
            let built = |made: &MainSet| Library(made.set()).build(&code, 0);
            assert_eq!(built(full), built(bare));
        }
    }
    assert!(left_out > 500, "{left_out}");
}
