//! Headers, trailers, limits, sequence, and the order in which refusals come.

use paper::mainfile::{build, check, check_each, code_label, label, Set};
use paper::make::{exact_set, main_file_of, samples, MainSet, Organisation, Rng, TableRow, View};
use paper::{packed, Refusal};

const WIDTHS: [usize; 7] = [151, 68, 30, 58, 38, 153, 88];

/// The answer of one file, 1 to 7, for itself.
fn checked(file: u8, bytes: &[u8]) -> Result<usize, Refusal> {
    let mut set = Set::default();
    set[usize::from(file) - 1] = bytes;
    check_each(set)[usize::from(file) - 1]
}

#[test]
fn files_without_rows_are_accepted() {
    let empty = MainSet::new(vec![], vec![], vec![]);
    assert_eq!(check(empty.set()), Ok([2; 7]));
    assert_eq!(check(Set::default()), Err(Refusal::of_file(1, 1, 0)));
}

/// A file of spaces is whole records up to the limit, and then has no header.
#[test]
fn lengths_are_2_to_1_000_000_whole_records() {
    let spaces = vec![b' '; 153 * 1_000_001];
    for (file, width) in (1..).zip(WIDTHS) {
        let length = Err(Refusal::of_file(file, 1, 0));
        let header = Err(Refusal::of_file(file, 2, 1));
        for (bytes, answer) in [
            (0, length),
            (width, length),
            (2 * width - 1, length),
            (2 * width, header),
            (2 * width + 1, length),
            (1_000_000 * width, header),
            (1_000_000 * width + 1, length),
            (1_000_001 * width, length),
        ] {
            assert_eq!(checked(file, &spaces[..bytes]), answer, "{file} {bytes}");
        }
    }
}

/// The first bytes of a header or trailer, one of these for another.
fn begun(file: u8, start: &[u8], end: &[u8]) -> Result<usize, Refusal> {
    let mut bytes = main_file_of(file, &[]);
    let last = bytes.len() / 2;
    bytes[..start.len()].copy_from_slice(start);
    bytes[last..last + end.len()].copy_from_slice(end);
    checked(file, &bytes)
}

#[test]
fn files_of_rows_begin_and_end_with_digits() {
    for file in 1..=6 {
        let header = Err(Refusal::of_file(file, 2, 1));
        let trailer = Err(Refusal::of_file(file, 3, 2));
        assert_eq!(begun(file, b"00000000", b"99999999"), Ok(2));
        for start in [[0; 8], [b' '; 8], [b'9'; 8], *b"0000000 ", *b"10000000"] {
            assert_eq!(begun(file, &start, b""), header);
        }
        for end in [[255; 8], [b' '; 8], [b'0'; 8], *b"9999999 ", *b"89999999"] {
            assert_eq!(begun(file, b"", &end), trailer);
        }
        assert_eq!(begun(file, b"", b"9999999900000003"), trailer);
        assert_eq!(begun(file, b"00000000ADDRESS ", b""), header);
    }
}

#[test]
fn the_address_file_begins_and_ends_with_bytes_or_spaces_each_for_itself() {
    let header = Err(Refusal::of_file(7, 2, 1));
    let trailer = Err(Refusal::of_file(7, 3, 2));
    for start in [b"\0\0\0\0\0\0\x0000000000", b"       00000000"] {
        for end in [b"\xff\xff\xff\xff\xff\xff\xff99999999", b"       99999999"] {
            assert_eq!(begun(7, start, end), Ok(2));
        }
    }
    let starts: [&[u8]; 5] = [
        b" ",
        b"0000000",
        b"\xff\xff\xff\xff\xff\xff\xff",
        b"        ",
        &[0; 8],
    ];
    for start in starts {
        assert_eq!(begun(7, start, b""), header, "{start:?}");
    }
    let ends: [&[u8]; 5] = [b" ", &[0; 7], b"9999999", b"        ", &[255; 8]];
    for end in ends {
        assert_eq!(begun(7, b"", end), trailer, "{end:?}");
    }
    assert_eq!(begun(7, b"\0\0\0\0\0\0\x0000000000ADDRESS\0", b""), header);
    assert_eq!(
        begun(7, b"", b"\xff\xff\xff\xff\xff\xff\xff9999999900000001"),
        trailer
    );
}

#[test]
fn rows_rise_by_their_keys() {
    let key_of = |file: u8, key: u32| match file {
        1 => TableRow::locality(key, "HOLT", "", ""),
        2 => TableRow::thoroughfare(key, "HIGH"),
        3 => TableRow::descriptor(key, "STREET"),
        4 => TableRow::building(key, "THE MANOR"),
        _ => TableRow::sub_building(key, "FLAT 1"),
    };
    for file in 1..=5 {
        let of =
            |keys: [u32; 2]| main_file_of(file, &keys.map(|key| key_of(file, key).main_record()));
        let falls = Err(Refusal::of_file(file, 5, 3));
        assert_eq!(checked(file, &of([9, 10])), Ok(4));
        assert_eq!(checked(file, &of([10, 9])), falls);
        assert_eq!(checked(file, &of([9, 9])), falls);
    }
}

#[test]
fn organisations_rise_by_type_then_key() {
    let of = |rows: [(u8, u32); 2]| {
        let records = rows.map(|(kind, key)| Organisation::new(kind, key, "LEDA", "").record());
        checked(6, &main_file_of(6, &records))
    };
    let falls = Err(Refusal::of_file(6, 5, 3));
    assert_eq!(of([(b'L', 9), (b'S', 1)]), Ok(4));
    assert_eq!(of([(b'L', 9), (b'S', 9)]), Ok(4));
    assert_eq!(of([(b'S', 8), (b'S', 9)]), Ok(4));
    assert_eq!(of([(b'S', 1), (b'L', 9)]), falls);
    assert_eq!(of([(b'S', 9), (b'S', 9)]), falls);
    assert_eq!(of([(b'L', 9), (b'L', 8)]), falls);
}

#[test]
fn addresses_rise_by_postcode_address_key_and_organisation_key() {
    let address = |outward: &str, inward: &str, address_key, organisation_key| View {
        outward: outward.to_string(),
        inward: inward.to_string(),
        address_key,
        organisation_key,
        ..View::default()
    };
    let of = |views: [&View; 2]| checked(7, &main_file_of(7, &views.map(View::address_record)));
    let rising = [
        address("AB1", "9ZZ", 9, 9),
        address("AB10", "1AA", 1, 0),
        address("AB10", "1AA", 1, 1),
        address("AB10", "1AA", 2, 0),
        address("AB10", "1AB", 1, 0),
        address("AB2", "1AA", 1, 0),
    ];
    for (index, view) in rising.iter().enumerate() {
        for (other_index, other) in rising.iter().enumerate() {
            let answer = of([view, other]);
            let falls = Err(Refusal::of_file(7, 5, 3));
            assert_eq!(answer, if index < other_index { Ok(4) } else { falls });
        }
    }
    let small = address("AB1", "9ZZ", 9, 9);
    let large = View {
        postcode_type: b'L',
        ..small.clone()
    };
    let falls = Err(Refusal::of_file(7, 5, 3));
    assert_eq!([of([&small, &large]), of([&large, &small])], [falls, falls]);
}

#[test]
fn a_file_is_refused_in_the_order_1_2_3_then_record_by_record() {
    for (file, width) in (1..).zip(WIDTHS) {
        let mut bytes = exact_set(&mut Rng::new(8), 6).files[usize::from(file) - 1].clone();
        let (front, rest) = bytes.split_at(2 * width);
        bytes = [front, &front[width..], rest].concat();
        let last = bytes.len() - width;
        let count = last + if file == 7 { 22 } else { 15 };
        bytes[count] = b'7';
        let refused = |bytes: &[u8]| checked(file, bytes).expect_err("refused");
        assert_eq!(refused(&bytes), Refusal::of_file(file, 5, 3));
        bytes[2 * width] = b'?';
        assert_eq!(refused(&bytes), Refusal::malformed(file, 3, 1));
        bytes[width + 3] = b'?';
        assert_eq!(refused(&bytes).detail, 2);
        bytes[count] = b'6';
        assert_eq!(refused(&bytes), Refusal::of_file(file, 3, 7));
        bytes[0] = b'1';
        assert_eq!(refused(&bytes), Refusal::of_file(file, 2, 1));
        bytes.push(b' ');
        assert_eq!(refused(&bytes), Refusal::of_file(file, 1, 0));
    }
}

/// With the files from one on damaged, each in another way, the first of them is
/// to blame, before a malformed code and a number that no view has.
#[test]
fn the_first_refused_file_is_to_blame() {
    let mut made = exact_set(&mut Rng::new(9), 6);
    for file in (1..=7).rev() {
        let bytes = &mut made.files[usize::from(file) - 1];
        let width = WIDTHS[usize::from(file) - 1];
        let why = match file % 4 {
            0 => {
                bytes[width..2 * width].fill(b'?');
                Refusal::malformed(file, 2, 1)
            }
            1 => {
                bytes.pop();
                Refusal::of_file(file, 1, 0)
            }
            2 => {
                bytes[0] = b'A';
                Refusal::of_file(file, 2, 1)
            }
            _ => {
                let last = bytes.len() - width;
                bytes[last] = b'A';
                Refusal::of_file(file, 3, 6)
            }
        };
        let set = made.set();
        assert_eq!(check(set), Err(why));
        assert_eq!(label(set, 99, &mut []), Err(why));
        assert_eq!(code_label(set, b"?", 99, &mut []), Err(why));
        assert_eq!(build(set, b"?", &mut []), Err(why));
    }
}

#[test]
fn a_malformed_code_comes_before_the_views_and_7_before_their_refusals() {
    let made = samples::main_set();
    let set = made.set();
    let out = &mut [0; 499];
    let (code, none) = (Refusal::new(12, 0), Refusal::new(7, 0));
    for malformed in [&b"QA1 "[..], b"AB1", b"", b"AB1  "] {
        assert_eq!(code_label(set, malformed, 99, out), Err(code));
        assert_eq!(build(set, malformed, &mut []), Err(code));
    }
    let count = made.addresses.len() as u64;
    for number in [0, count + 1, 1 << 32, u64::MAX] {
        assert_eq!(label(set, number, out), Err(none));
        assert_eq!(code_label(set, b"AB2 ", number, out), Err(none));
    }
    assert_eq!(code_label(set, b"EC1N", 1, out), Err(none));
    assert_eq!(label(set, 1, &mut []), Err(Refusal::new(10, 33)));
    assert_eq!(label(set, count, &mut []), Err(Refusal::new(8, 3)));
}

#[test]
fn refusals_of_a_set_are_packed_into_bits() {
    let malformed = Refusal::malformed(7, 999_999, 88);
    assert_eq!(
        packed(Err(malformed)),
        4 << 56 | 7 << 52 | 88 << 32 | 999_999
    );
    let built = Refusal {
        second: 999_998,
        ..Refusal::new(9, 8)
    };
    assert_eq!(packed(Err(built)), 9 << 56 | 999_998 << 32 | 8);
}
