//! The rows that a view refers to, found by halves, and refusals 8 and 9.

use super::check::{Point, Row};
use crate::plain_fields::number;
use paper::Refusal;

/// Where the keys of a view start, and the types of the rows that they name.
const KEYS: [usize; 7] = [42, 50, 58, 66, 74, 86, 94];
const KINDS: [u8; 7] = *b"1232345";

/// The rows in force that the keys of a view name.
pub type Found<'a> = [Option<&'a Row>; 7];

/// Type and key, as numbers that rise as the bytes do.
pub fn name_of(row: &Row) -> (u64, u8) {
    let [front @ .., last] = row.first_chunk::<9>().expect("nine bytes");
    (u64::from_be_bytes(*front), *last)
}

/// The keys of a view, each with its type before it, and whether it is zero.
fn names_in(view: &Point) -> [((u64, u8), bool); 7] {
    std::array::from_fn(|i| {
        let mut name = [KINDS[i]; 9];
        name[1..].copy_from_slice(&view[KEYS[i]..KEYS[i] + 8]);
        let zero = name[1..] == *b"00000000";
        let [front @ .., last] = name;
        ((u64::from_be_bytes(front), last), zero)
    })
}

/// The building number.
pub fn number_in(view: &Point) -> u16 {
    number(&view[82..86]) as u16
}

/// Refusal 8 of a view: which keys it has decides.
pub fn forbidden(given: [bool; 7], numbered: bool) -> u64 {
    let [_, street, descriptor, dependent, second, name, sub] = given;
    if sub & !(name | numbered) {
        1
    } else if dependent & !street {
        2
    } else if (descriptor & !street) | (second & !dependent) {
        3
    } else {
        0
    }
}

/// The rows of a view, by a look-up for a name; or 8 or 9.
pub fn rows_by<T: Copy>(
    view: &Point,
    look_up: impl Fn((u64, u8)) -> Option<T>,
) -> Result<[Option<T>; 7], Refusal> {
    let names = names_in(view);
    let rule = forbidden(names.map(|(_, zero)| !zero), number_in(view) != 0);
    if rule != 0 {
        return Err(Refusal::new(8, rule));
    }
    let mut found = [None; 7];
    for (i, (name, zero)) in names.into_iter().enumerate() {
        if !zero {
            found[i] = look_up(name);
        }
        if found[i].is_none() & (!zero | (i == 0)) {
            return Err(Refusal::new(9, i as u64 + 1));
        }
    }
    Ok(found)
}

/// Whether a row, the last for its name, is in force.
pub fn in_force(row: &Row) -> bool {
    (row[23] != b'B') & (row[23] != b'D')
}

/// The rows of a view among the records of an accepted table file.
pub fn rows_of<'a>(records: &'a [Row], view: &Point) -> Result<Found<'a>, Refusal> {
    let rows = &records[1..records.len() - 1];
    rows_by(view, |name| {
        let end = rows.partition_point(|row| name_of(row) <= name);
        let last = rows[..end].last()?;
        (name_of(last) == name && in_force(last)).then_some(last)
    })
}
