//! The proved leaves against the second program's: every short input, every code of a telling alphabet, long texts.

use paper::fields;
use paper::make::Rng;
use trials::leaves;

/// Letters, digits, padding and what stands beside them in the code table.
const TELLING: &[u8] = b"ABCDEFGHIJKLMNOPQRSTUVWXYZ059 /:@[az\0\xff";

fn assert_field(s: &[u8]) {
    assert_eq!(
        leaves::digits_fault(s),
        fields::digits_fault(s),
        "digits {s:?}"
    );
    assert_eq!(leaves::text_fault(s), fields::text_fault(s), "text {s:?}");
    assert_eq!(
        leaves::filled_fault(s),
        fields::filled_fault(s),
        "filled {s:?}"
    );
    assert_eq!(
        leaves::numeric_like(s),
        fields::numeric_like(s),
        "numeric-like {s:?}"
    );
    assert_eq!(
        leaves::text_length(s, 0, s.len()),
        fields::trimmed(s).len(),
        "trimmed {s:?}"
    );
    if s.len() <= 9 && fields::digits_fault(s) == 0 {
        assert_eq!(leaves::value(s) as u64, fields::value(s), "value {s:?}");
    }
}

fn assert_code(s: &[u8]) {
    assert_eq!(
        leaves::outward_fault(s),
        fields::outward_fault(s),
        "outward {s:?}"
    );
    assert_eq!(
        leaves::inward_fault(s),
        fields::inward_fault(s),
        "inward {s:?}"
    );
    assert_eq!(
        leaves::suffix_fault(s),
        fields::suffix_fault(s),
        "suffix {s:?}"
    );
}

#[test]
fn every_text_of_at_most_two_bytes() {
    assert_field(b"");
    assert_code(b"");
    for a in 0..=255u8 {
        assert_field(&[a]);
        assert_code(&[a]);
        for b in 0..=255u8 {
            assert_field(&[a, b]);
            assert_code(&[a, b]);
        }
    }
}

#[test]
fn every_code_of_the_telling_alphabet() {
    let mut taken = 0;
    for &a in TELLING {
        for &b in TELLING {
            for &c in TELLING {
                assert_code(&[a, b, c]);
                for &d in TELLING {
                    let code = [a, b, c, d];
                    let fault = leaves::outward_fault(&code);
                    assert_eq!(fault, fields::outward_fault(&code), "outward {code:?}");
                    taken += usize::from(fault == 0);
                }
            }
        }
    }
    // By the letter rules with three digits in the alphabet: AN 69, ANN 207, AAN 1656, AANN 4968, ANA 1656, AANA 34776.
    assert_eq!(taken, 69 + 207 + 1656 + 4968 + 1656 + 34776);
}

#[test]
fn every_inward_code_and_suffix_beside_its_letters() {
    for digit in 0..=255u8 {
        for &a in TELLING {
            assert_code(&[digit, a]);
            for &b in TELLING {
                assert_code(&[digit, a, b]);
            }
        }
    }
}

#[test]
fn codes_of_other_lengths() {
    let mut rng = Rng::new(5);
    for len in 0..40 {
        for _ in 0..200 {
            let code: Vec<u8> = (0..len)
                .map(|_| TELLING[rng.below(TELLING.len())])
                .collect();
            assert_code(&code);
        }
    }
}

/// A long field of bytes that mostly pass, with at most one that may not, at any place.
fn long_field(rng: &mut Rng, good: &[u8]) -> Vec<u8> {
    let len = rng.below(700);
    let mut field: Vec<u8> = (0..len).map(|_| good[rng.below(good.len())]).collect();
    if len > 0 && rng.below(2) == 0 {
        let place = rng.below(len);
        field[place] = rng.below(256) as u8;
    }
    field
}

#[test]
fn long_fields() {
    let texts: Vec<u8> = (32..=126u8).filter(|b| !b.is_ascii_lowercase()).collect();
    let mut rng = Rng::new(7);
    for _ in 0..20_000 {
        for good in [b"0123456789".as_slice(), b" ", b"A 1", &texts] {
            let mut field = long_field(&mut rng, good);
            assert_field(&field);
            field.resize(field.len() + rng.below(60), b' ');
            assert_field(&field);
        }
    }
}

#[test]
fn the_value_of_every_four_digits_and_of_wide_fields() {
    for n in 0..10_000usize {
        assert_eq!(leaves::value(format!("{n:04}").as_bytes()), n);
        assert_eq!(leaves::value(format!("{n:09}").as_bytes()), n);
        assert_eq!(
            leaves::value(format!("{n:09}7").as_bytes()),
            n,
            "a tenth digit is not read"
        );
    }
    assert_eq!(leaves::value(b"999999999"), 999_999_999);
    assert_eq!(leaves::value(&[255; 40]), 0);
}

#[test]
fn the_text_between_any_two_places() {
    let mut rng = Rng::new(11);
    for _ in 0..20_000 {
        let len = rng.below(64);
        let rec: Vec<u8> = (0..len).map(|_| b"AB  "[rng.below(4)]).collect();
        let start = rng.below(80);
        let end = if rng.below(8) == 0 {
            usize::MAX
        } else {
            rng.below(80)
        };
        let last = end.min(rec.len());
        let field = if start < last { &rec[start..last] } else { &[] };
        assert_eq!(
            leaves::text_length(&rec, start, end),
            fields::trimmed(field).len(),
            "{rec:?} {start} {end}"
        );
    }
}
