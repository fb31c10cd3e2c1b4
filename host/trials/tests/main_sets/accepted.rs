//! Sets that are accepted: samples, random ones, ones at a length, the guide's.

use paper::make::{exact_set, guide, long_set, main_file_of, main_set, pair, set_of_pair};
use paper::make::{MainSet, Organisation, Rng, TableRow};
use trials::main_sets::{
    ask_all, code_label, code_list, codes, codes_of, label, live, views, WIDTHS,
};
use trials::rooms::{label_rooms, refusal};
use trials::runs::Asked;
use trials::samples;

/// Every view and every code of a set, with numbers that there are none of: how
/// often each refusal of a label came, 0 for a value.
#[track_caller]
fn ask_every_label(made: &MainSet) -> [usize; 13] {
    let set = made.set();
    let count = made.addresses.len() as u64;
    assert_eq!(views(set), count);
    let mut given = [0; 13];
    for view in (0..=count + 1).chain([1 << 20, (1 << 32) + 1, u64::MAX]) {
        given[refusal(label_rooms(|room| label(set, view, room))) as usize] += 1;
    }
    for code in codes_of(made) {
        let addresses = live(set[6], &code);
        for k in 0..=addresses + 1 {
            label_rooms(|room| code_label(set, &code, k, room));
        }
    }
    given
}

#[test]
fn every_label_of_the_samples() {
    let given = ask_every_label(&samples::main_set());
    assert_eq!((given[0], given[7], given[8], given[9]), (38, 5, 4, 10));
}

#[test]
fn every_label_of_random_sets() {
    let mut given = [0; 13];
    for seed in 0..400 {
        let made = main_set(&mut Rng::new(seed), 2 + seed as usize % 30);
        let of_one = ask_every_label(&made);
        (0..13).for_each(|number| given[number] += of_one[number]);
    }
    println!("{given:?}");
    assert!([0, 7, 8, 9].iter().all(|number| given[*number] > 100));
}

#[test]
fn sets_of_every_small_length() {
    for records in 2..40 {
        let made = exact_set(&mut Rng::new(7), records);
        assert_eq!(ask_all(made.set(), b"AB1 ", 1), records as u64 - 2);
    }
}

#[test]
fn a_set_without_rows_has_no_views() {
    let empty = MainSet::new(vec![], vec![], vec![]);
    assert_eq!(ask_all(empty.set(), b"AB1 ", 1), 0);
    assert_eq!(codes(&empty.files[6], 0), 0);
}

/// Longer than any Changes file may be.
#[test]
fn sets_of_more_than_20_000_records() {
    let files = long_set(30_000);
    let set = files.each_ref().map(Vec::as_slice);
    assert_eq!(views(set), 29_998);
    let counted: u64 = (10..100)
        .map(|code| live(set[6], format!("AB{code}").as_bytes()))
        .sum();
    assert_eq!(counted, 29_998);
    assert_eq!(codes(set[6], 8 * 90), 90);
    for view in [1, 2, 14_999, 29_997, 29_998, 29_999] {
        label_rooms(|room| label(set, view, room));
    }
    // Not in turn: each label alone costs a check of the files.
    let listed = code_list(set, b"AB57", Asked::new(1, u64::MAX, 512 * 400));
    let count = live(set[6], b"AB57");
    assert_eq!((refusal(listed), listed >> 32 & 0xF_FFFF), (7, count));
}

/// Either identifier of the address file for itself; digits in the others.
#[test]
fn headers_and_trailers_of_every_form() {
    for starts in [[0; 7], [b' '; 7]] {
        for ends in [[255; 7], [b' '; 7]] {
            let mut made = exact_set(&mut Rng::new(11), 6);
            let last = made.files[6].len() - WIDTHS[6];
            made.files[6][..7].copy_from_slice(&starts);
            made.files[6][last..last + 7].copy_from_slice(&ends);
            assert_eq!(ask_all(made.set(), b"AB1 ", 1), 4);
        }
    }
}

/// Chapter 5's sample record, restored, with the texts of its Table 35.
#[test]
fn the_guides_record() {
    let town = TableRow::locality(39_258, "GLASGOW", "BLANTYRE", "BLANTYRE INDUSTRIAL ESTATE");
    let council = Organisation::new(b'S', 1_899_785, "SOUTH LANARKSHIRE COUNCIL", "HEAD START");
    let address = b"G72 0UP181818220392580000021300010000000000000000000052160067684900010189978\
          5S 2BY      ";
    let files = [
        main_file_of(1, &[town.main_record()]),
        main_file_of(2, &[TableRow::thoroughfare(213, "THIRD").main_record()]),
        main_file_of(3, &[TableRow::descriptor(1, "ROAD").main_record()]),
        main_file_of(4, &[TableRow::building(5_216, "BLOCK 3").main_record()]),
        main_file_of(
            5,
            &[TableRow::sub_building(676_849, "UNIT 1").main_record()],
        ),
        main_file_of(6, &[council.record()]),
        main_file_of(7, &[address.to_vec()]),
    ];
    let set = files.each_ref().map(Vec::as_slice);
    assert_eq!(ask_all(set, b"G72 ", 1), 1);
    let printed = ttw::main_set::MainSet(set).label(1).expect("a label");
    let expected = "SOUTH LANARKSHIRE COUNCIL\nHEAD START\nUNIT 1\nBLOCK 3\nTHIRD ROAD\n\
                    BLANTYRE INDUSTRIAL ESTATE\nBLANTYRE\nGLASGOW\nG72 0UP\n";
    assert_eq!(String::from_utf8_lossy(&printed), expected);
}

/// The same elements have the same label from a pair and from a set.
#[test]
fn a_pair_and_the_set_that_says_the_same() {
    let mut pairs: Vec<_> = (0..150).map(|seed| pair(&mut Rng::new(seed), 30)).collect();
    pairs.push(guide::pair());
    for pair in pairs {
        let made = set_of_pair(&pair);
        let library = ttw::main_set::MainSet(made.set());
        for (number, address) in (1..).zip(&made.addresses) {
            let view = u64::from(address.address_key);
            let of_pair = ttw::ask::label(&pair.table, &pair.points, view);
            assert_eq!(library.label(number), of_pair, "{address:?}");
        }
    }
}
