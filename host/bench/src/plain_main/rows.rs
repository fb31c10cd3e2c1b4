//! The rows that an address refers to, found by halves, and refusals 8 and 9.

use super::check::{eight, key, name_of, Address};
use super::Main;
use crate::plain_build::Places;
use crate::plain_fields::number;
use crate::plain_files::forbidden;
use paper::Refusal;

/// Where the keys of an address start, and the digits of each.
const KEYS: [(usize, usize); 7] = [
    (15, 6),
    (21, 8),
    (29, 4),
    (33, 8),
    (41, 4),
    (49, 8),
    (57, 8),
];

/// The shelf of each.
pub const SHELVES: [usize; 7] = [0, 1, 2, 1, 2, 3, 4];

/// Where the texts stand in the rows of each shelf, and in an organisation.
pub const TEXTS: [Places; 6] = [
    &[(51, 81), (81, 116), (116, 151)],
    &[(8, 68)],
    &[(4, 24)],
    &[(8, 58)],
    &[(8, 38)],
    ORGANISATION,
];
pub const ORGANISATION: Places = &[(9, 69), (69, 129)];

/// The rows of one of the first five files.
#[derive(Clone, Copy)]
pub struct Shelf<'a> {
    rows: &'a [u8],
    width: usize,
    digits: usize,
}

impl<'a> Shelf<'a> {
    pub fn new<const WIDTH: usize>(digits: usize, rows: &'a [[u8; WIDTH]]) -> Shelf<'a> {
        Shelf {
            rows: rows.as_flattened(),
            width: WIDTH,
            digits,
        }
    }

    pub fn row(&self, place: usize) -> &'a [u8] {
        &self.rows[place * self.width..][..self.width]
    }

    fn name(&self, place: usize) -> u64 {
        key(self.row(place), 0, self.digits)
    }

    /// The place of the row of a name.
    fn find(&self, name: u64) -> Option<usize> {
        let (mut first, mut left) = (0, self.rows.len() / self.width);
        while left > 1 {
            let half = left / 2;
            if self.name(first + half) <= name {
                first += half;
            }
            left -= half;
        }
        (left == 1 && self.name(first) == name).then_some(first)
    }
}

/// The places of the rows that an address refers to, the last its organisation's.
pub type Found = [Option<usize>; 8];

/// The building number.
pub fn number_in(address: &Address) -> u64 {
    number(&address[45..49])
}

/// The name of the organisation that an address needs.
fn needed(address: &Address) -> Option<(u8, u64)> {
    let alone = address[69..77] == *b"00000000";
    match address[77] {
        b'L' => Some((b'L', eight(address, 7))),
        _ if alone => None,
        _ => Some((b'S', eight(address, 69))),
    }
}

impl Main<'_> {
    /// The rows of an address; or 8 or 9.
    pub fn rows_of(&self, address: &Address) -> Result<Found, Refusal> {
        let given = KEYS.map(|(at, digits)| {
            let name = key(address, at, digits);
            (name != key(b"00000000", 0, digits)).then_some(name)
        });
        let rule = forbidden(given.map(|name| name.is_some()), number_in(address) != 0);
        if rule != 0 {
            return Err(Refusal::new(8, rule));
        }
        let mut found = [None; 8];
        for (i, name) in given.into_iter().enumerate() {
            found[i] = name.and_then(|name| self.shelves[SHELVES[i]].find(name));
            if found[i].is_none() & (name.is_some() | (i == 0)) {
                return Err(Refusal::new(9, i as u64 + 1));
            }
        }
        found[7] = self.organisation_of(address);
        if found[7].is_none() & needed(address).is_some() {
            return Err(Refusal::new(9, 8));
        }
        Ok(found)
    }

    /// The place of the organisation of an address.
    pub fn organisation_of(&self, address: &Address) -> Option<usize> {
        let name = needed(address)?;
        let found = self.organisations.binary_search_by_key(&name, name_of);
        found.ok()
    }
}
