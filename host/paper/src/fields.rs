//! Document 01, "Well formed" and "Postcode": tests of single fields.
//!
//! Each test answers the byte (1 is the first) at which the field's first
//! fault stands, and 0 where there is none. Document 02, No. 1 says which
//! byte that is for faults that have no byte of their own.

/// Numeric fields are digits throughout.
pub fn digits_fault(field: &[u8]) -> usize {
    first_that(field, |byte| !byte.is_ascii_digit())
}

/// Text has bytes 32 to 126 without small letters, and a text that isn't blank
/// doesn't begin with a space. A blank text has no fault here.
pub fn text_fault(field: &[u8]) -> usize {
    if is_blank(field) {
        0
    } else if field.starts_with(b" ") {
        1
    } else {
        first_that(field, |byte| !is_text_byte(byte))
    }
}

/// A text that must not be blank; a blank one counts as byte 1.
pub fn filled_fault(field: &[u8]) -> usize {
    if is_blank(field) {
        1
    } else {
        text_fault(field)
    }
}

/// An outward code, padded with spaces to 4: one of the six patterns, and
/// letters that are allowed at their places, counting only the letters. Another
/// length, and a code in none of the patterns, count as byte 1.
pub fn outward_fault(code: &[u8]) -> usize {
    let [first, second, third, fourth] = code else {
        return 1;
    };
    let pattern = [first, second, third, fourth].map(|byte| class(*byte));
    match &pattern {
        b"AN  " | b"ANN " | b"AAN " | b"AANN" | b"ANA " | b"AANA" => forbidden_letter(code),
        _ => 1,
    }
}

/// The byte of the first letter of an outward code that its place forbids.
fn forbidden_letter(code: &[u8]) -> usize {
    let mut letters = 0;
    first_that(code, |byte| {
        if !byte.is_ascii_uppercase() {
            return false;
        }
        letters += 1;
        match letters {
            1 => b"QVX".contains(&byte),
            2 => b"IZ".contains(&byte),
            _ => !b"ABCDEFGHJKMNPRSTUVWXY".contains(&byte),
        }
    })
}

/// Inward: a digit, then two letters, none of C I K M O V. Another length
/// counts as byte 1.
pub fn inward_fault(code: &[u8]) -> usize {
    match code {
        [digit, _, _] if !digit.is_ascii_digit() => 1,
        [_, letter, _] if !is_inward_letter(*letter) => 2,
        [_, _, letter] if !is_inward_letter(*letter) => 3,
        [_, _, _] => 0,
        _ => 1,
    }
}

/// Suffix: digit, letter A to Z. Another length counts as byte 1.
pub fn suffix_fault(field: &[u8]) -> usize {
    match field {
        [digit, _] if !digit.is_ascii_digit() => 1,
        [_, letter] if !letter.is_ascii_uppercase() => 2,
        [_, _] => 0,
        _ => 1,
    }
}

/// The number that a field of up to 9 digits shows.
pub fn value(field: &[u8]) -> u64 {
    field.iter().fold(0, |number: u64, digit| {
        number
            .wrapping_mul(10)
            .wrapping_add(u64::from(digit.wrapping_sub(b'0')))
    })
}

/// A field's text: trailing spaces are padding, inner ones are kept.
pub fn trimmed(field: &[u8]) -> &[u8] {
    let mut end = field.len();
    while end > 0 && field[end - 1] == b' ' {
        end -= 1;
    }
    &field[..end]
}

/// A text is numeric-like if (i) its first and last bytes are digits, or (ii)
/// it has two bytes or more, the first and last but one are digits and the last
/// is A to Z, or (iii) it has one byte.
pub fn numeric_like(text: &[u8]) -> bool {
    match text {
        [] => false,
        [_] => true,
        [first, .., last] if first.is_ascii_digit() && last.is_ascii_digit() => true,
        [first, .., last] => {
            let last_but_one = text[text.len() - 2];
            first.is_ascii_digit() && last_but_one.is_ascii_digit() && last.is_ascii_uppercase()
        }
    }
}

/// Whether a text is absent: it has nothing but spaces.
pub(crate) fn is_blank(field: &[u8]) -> bool {
    field.iter().all(|byte| *byte == b' ')
}

fn is_text_byte(byte: u8) -> bool {
    (32..=126).contains(&byte) && !byte.is_ascii_lowercase()
}

fn is_inward_letter(byte: u8) -> bool {
    byte.is_ascii_uppercase() && !b"CIKMOV".contains(&byte)
}

/// `A` for a letter, `N` for a digit, a space for padding, `?` for the rest.
fn class(byte: u8) -> u8 {
    match byte {
        b'A'..=b'Z' => b'A',
        b'0'..=b'9' => b'N',
        b' ' => b' ',
        _ => b'?',
    }
}

/// The place (1 is the first) of the first byte that is such a byte, else 0.
fn first_that(field: &[u8], mut is_such: impl FnMut(u8) -> bool) -> usize {
    match field.iter().position(|byte| is_such(*byte)) {
        Some(at) => at + 1,
        None => 0,
    }
}
