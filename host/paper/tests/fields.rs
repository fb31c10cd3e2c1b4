//! Single fields: document 01's lists, the letters and patterns of postcodes,
//! and the byte at which a fault stands.

use paper::fields::{
    digits_fault, filled_fault, inward_fault, numeric_like, outward_fault, suffix_fault,
    text_fault, trimmed, value,
};
use paper::make::{bad_outward, inward, outward, Rng};
use std::collections::HashSet;

const LETTERS: &[u8] = b"ABCDEFGHIJKLMNOPQRSTUVWXYZ";
const DIGITS: &[u8] = b"0123456789";

#[test]
fn digits_are_digits_throughout() {
    let table: [(&[u8], usize); 9] = [
        (b"", 0),
        (b"0", 0),
        (b"0123456789", 0),
        (b" 1", 1),
        (b"1 ", 2),
        (b"12345678X", 9),
        (b"1/", 2),
        (b":1", 1),
        (b"1\xb2", 2),
    ];
    for (field, fault) in table {
        assert_eq!(digits_fault(field), fault, "{field:?}");
    }
}

#[test]
fn texts_have_bytes_32_to_126_without_small_letters() {
    for byte in u8::MIN..=u8::MAX {
        let good = (32..=126).contains(&byte) && !byte.is_ascii_lowercase();
        let fault = if good { 0 } else { 2 };
        assert_eq!(text_fault(&[b'A', byte]), fault, "{byte}");
        assert_eq!(filled_fault(&[b'A', byte]), fault, "{byte}");
    }
}

#[test]
fn texts_may_be_blank_or_not_and_do_not_begin_with_a_space() {
    let table: [(&[u8], usize, usize); 9] = [
        (b"", 0, 1),
        (b" ", 0, 1),
        (b"     ", 0, 1),
        (b" A   ", 1, 1),
        (b"    A", 1, 1),
        (b" \x01", 1, 1),
        (b"A  B ", 0, 0),
        (b"A  b ", 4, 4),
        (b"a    ", 1, 1),
    ];
    for (field, fault, filled) in table {
        assert_eq!(text_fault(field), fault, "{field:?}");
        assert_eq!(filled_fault(field), filled, "{field:?}");
    }
}

#[test]
fn trailing_spaces_are_padding_and_inner_ones_are_kept() {
    let table: [(&[u8], &[u8]); 6] = [
        (b"", b""),
        (b"   ", b""),
        (b"A", b"A"),
        (b"A  B  ", b"A  B"),
        (b" A ", b" A"),
        (b"A\0 ", b"A\0"),
    ];
    for (field, text) in table {
        assert_eq!(trimmed(field), text, "{field:?}");
    }
}

#[test]
fn values_are_read_in_tens() {
    let table: [(&[u8], u64); 5] = [
        (b"", 0),
        (b"0000", 0),
        (b"0012", 12),
        (b"99999999", 99_999_999),
        (b"999999999", 999_999_999),
    ];
    for (field, number) in table {
        assert_eq!(value(field), number, "{field:?}");
    }
}

#[test]
fn values_of_other_bytes_do_not_panic() {
    let rng = &mut Rng::new(1);
    for length in 0..60 {
        let field: Vec<u8> = (0..length).map(|_| rng.byte()).collect();
        value(&field);
    }
}

#[test]
fn numeric_like_is_document_01s_list() {
    for text in ["1", "A", "12A", "5A", "110-114", "12-14A"] {
        assert!(numeric_like(text.as_bytes()), "{text}");
    }
    for text in ["A1", "FLAT 1", "12AB", "UNIT 12"] {
        assert!(!numeric_like(text.as_bytes()), "{text}");
    }
}

#[test]
fn numeric_like_at_its_edges() {
    for text in [
        "12", "1TO1", "100:1", "1-2", "1A1", "0", "-", " ", "1 2", "1A2Z", "11Z",
    ] {
        assert!(numeric_like(text.as_bytes()), "{text}");
    }
    for text in [
        "", "AA", "1-", "-1", "1a", "1 A", "1-A", "A1A", "1AA", "A12", "1.", "12 ",
    ] {
        assert!(!numeric_like(text.as_bytes()), "{text}");
    }
}

#[test]
fn outward_is_document_01s_list() {
    assert_eq!(outward_fault(b"DN55"), 0);
    assert_eq!(outward_fault(b"EC1N"), 0);
    assert_eq!(outward_fault(b"QA1 "), 1);
    assert_eq!(outward_fault(b"AI1 "), 2);
}

#[test]
fn outward_has_six_patterns() {
    for code in [
        b"M1  ", b"M60 ", b"CR2 ", b"DN55", b"W1P ", b"EC1A", b"EC1M", b"SW1Y",
    ] {
        assert_eq!(outward_fault(code), 0, "{code:?}");
    }
    let other: [&[u8]; 18] = [
        b"    ",
        b"A   ",
        b"AA  ",
        b"1   ",
        b"1A  ",
        b"A1AA",
        b"A1A1",
        b"A11A",
        b"A111",
        b"AAA1",
        b"AA  ",
        b"A 1 ",
        b" A1 ",
        b"A1 1",
        b"a1  ",
        b"Aa1 ",
        b"A1\0\0",
        b"\xc1\x31  ",
    ];
    for code in other {
        assert_eq!(outward_fault(code), 1, "{code:?}");
    }
    let lengths: [&[u8]; 6] = [b"", b"A1", b"A1 ", b"DN5", b"DN55 ", b"AB1  "];
    for code in lengths {
        assert_eq!(outward_fault(code), 1, "{code:?}");
    }
}

#[test]
fn outward_letters_are_forbidden_by_their_place() {
    for letter in LETTERS {
        let first = if b"QVX".contains(letter) { 1 } else { 0 };
        assert_eq!(outward_fault(&[*letter, b'1', b' ', b' ']), first);
        assert_eq!(outward_fault(&[*letter, b'1', b'1', b' ']), first);
        assert_eq!(outward_fault(&[*letter, b'B', b'1', b'1']), first);
        let second = b"IZ".contains(letter);
        let fault_at = |byte| if second { byte } else { 0 };
        assert_eq!(outward_fault(&[b'A', *letter, b'1', b' ']), fault_at(2));
        assert_eq!(outward_fault(&[b'A', *letter, b'1', b'1']), fault_at(2));
        assert_eq!(outward_fault(&[b'W', b'1', *letter, b' ']), fault_at(3));
        let third = if b"ILOQZ".contains(letter) { 4 } else { 0 };
        assert_eq!(outward_fault(&[b'E', b'C', b'1', *letter]), third);
    }
    assert_eq!(outward_fault(b"QI1Z"), 1);
    assert_eq!(outward_fault(b"AI1Z"), 2);
}

/// All codes of a pattern with the letters that are allowed at their places.
fn all_of(pattern: &str) -> Vec<Vec<u8>> {
    let without = |forbidden: &[u8]| -> Vec<u8> {
        let allowed = LETTERS.iter().filter(|letter| !forbidden.contains(letter));
        allowed.copied().collect()
    };
    let mut letters = [without(b"QVX"), without(b"IZ"), without(b"ILOQZ")].into_iter();
    let mut codes = vec![Vec::new()];
    for class in pattern.bytes() {
        let bytes = match class {
            b'A' => letters.next().expect("three letters at most"),
            b'N' => DIGITS.to_vec(),
            other => vec![other],
        };
        codes = codes
            .iter()
            .flat_map(|code| {
                bytes
                    .iter()
                    .map(|byte| [code.as_slice(), &[*byte]].concat())
            })
            .collect();
    }
    codes
}

#[test]
fn outward_takes_exactly_the_codes_that_can_be_listed() {
    let patterns = ["AN  ", "ANN ", "AAN ", "AANN", "ANA ", "AANA"];
    let good: HashSet<Vec<u8>> = patterns
        .iter()
        .flat_map(|pattern| all_of(pattern))
        .collect();
    let alphabet = [LETTERS, DIGITS, b" "].concat();
    let mut taken = 0;
    for a in &alphabet {
        for b in &alphabet {
            for c in &alphabet {
                for d in &alphabet {
                    let code = [*a, *b, *c, *d];
                    let is_good = good.contains(&code[..]);
                    assert_eq!(outward_fault(&code) == 0, is_good, "{code:?}");
                    taken += usize::from(is_good);
                }
            }
        }
    }
    assert_eq!(taken, good.len());
}

#[test]
fn inward_is_a_digit_and_two_letters() {
    for byte in u8::MIN..=u8::MAX {
        let digit = if byte.is_ascii_digit() { 0 } else { 1 };
        assert_eq!(inward_fault(&[byte, b'A', b'Z']), digit);
        let is_letter = byte.is_ascii_uppercase() && !b"CIKMOV".contains(&byte);
        let fault_at = |place| if is_letter { 0 } else { place };
        assert_eq!(inward_fault(&[b'0', byte, b'Z']), fault_at(2));
        assert_eq!(inward_fault(&[b'9', b'A', byte]), fault_at(3));
    }
    let table: [(&[u8], usize); 6] = [
        (b"", 1),
        (b"9Z", 1),
        (b"9ZZ ", 1),
        (b"ZCC", 1),
        (b"9CC", 2),
        (b"9AC", 3),
    ];
    for (code, fault) in table {
        assert_eq!(inward_fault(code), fault, "{code:?}");
    }
}

#[test]
fn suffix_is_a_digit_and_a_letter() {
    for byte in u8::MIN..=u8::MAX {
        let digit = if byte.is_ascii_digit() { 0 } else { 1 };
        assert_eq!(suffix_fault(&[byte, b'A']), digit);
        let letter = if byte.is_ascii_uppercase() { 0 } else { 2 };
        assert_eq!(suffix_fault(&[b'1', byte]), letter);
    }
    let table: [(&[u8], usize); 4] = [(b"", 1), (b"1", 1), (b"1AA", 1), (b"AA", 1)];
    for (field, fault) in table {
        assert_eq!(suffix_fault(field), fault, "{field:?}");
    }
}

#[test]
fn made_codes_are_good_or_bad_as_they_say() {
    let rng = &mut Rng::new(5);
    for _ in 0..20_000 {
        assert_eq!(outward_fault(&outward(rng)), 0);
        assert_eq!(inward_fault(&inward(rng)), 0);
        let bad = bad_outward(rng);
        assert_ne!(outward_fault(&bad), 0, "{bad:?}");
    }
}
