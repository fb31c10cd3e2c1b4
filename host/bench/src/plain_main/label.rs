//! Labels, listings and rows printed from a set.

use super::check::{eight, Address};
use super::rows::{number_in, Found, ORGANISATION, SHELVES, TEXTS};
use super::Main;
use crate::plain_csv::{row, Tail};
use crate::plain_fields::check_code;
use crate::plain_label::{from, item, label, only, run, trimmed, Sheet};
use paper::{Elements, Refusal, Run};
use std::ops::Range;

/// How far a run or a listing came, or 12.
type Ran = Result<Run, Refusal>;

/// The places of the addresses of a code, which stand together.
pub fn places_of(addresses: &[Address], code: &[u8]) -> Result<Range<usize>, Refusal> {
    check_code(code)?;
    let wanted = code.try_into().map(u32::from_be_bytes).expect("four bytes");
    let code = |address: &Address| (eight(address, 0) >> 32) as u32;
    let start = addresses.partition_point(|address| code(address) < wanted);
    let count = addresses[start..].partition_point(|address| code(address) == wanted);
    Ok(start..start + count)
}

impl<'a> Main<'a> {
    /// The places of the addresses, all or those of a code, from the first that is given on.
    fn views(
        &self,
        code: Option<&[u8]>,
        first: u64,
    ) -> Result<impl Iterator<Item = usize>, Refusal> {
        let all = Ok(0..self.addresses.len());
        let places = code.map_or(all, |code| places_of(self.addresses, code))?;
        Ok(from(first, places))
    }

    /// What a label is printed from; or 8 or 9.
    fn elements(&self, place: usize) -> Result<Elements<'a>, Refusal> {
        let address = &self.addresses[place];
        let found = self.rows_of(address)?;
        let own = |n: usize| match found[7] {
            Some(place) => part(&self.organisations[place], ORGANISATION[n]),
            None => &[],
        };
        Ok(Elements {
            organisation: own(0),
            department: own(1),
            po_box: trimmed(&address[82..]),
            sub_building: self.text(&found, 6, 0),
            building_name: self.text(&found, 5, 0),
            building_number: number_in(address),
            concatenated: address[78] == b'Y',
            dependent_thoroughfare: self.text(&found, 3, 0),
            dependent_descriptor: self.text(&found, 4, 0),
            thoroughfare: self.text(&found, 1, 0),
            descriptor: self.text(&found, 2, 0),
            double_dependent_locality: self.text(&found, 0, 2),
            dependent_locality: self.text(&found, 0, 1),
            post_town: self.text(&found, 0, 0),
            outward: trimmed(&address[..4]),
            inward: &address[4..7],
        })
    }

    /// The n-th text of the row that the i-th key names; none where it names none.
    fn text(&self, found: &Found, i: usize, n: usize) -> &'a [u8] {
        let shelf = SHELVES[i];
        found[i].map_or(&[], |place| {
            part(self.shelves[shelf].row(place), TEXTS[shelf][n])
        })
    }

    pub fn label(&self, code: Option<&[u8]>, k: u64, out: &mut [u8]) -> Result<usize, Refusal> {
        only(self.labels(code, k, 1, out)?)
    }

    pub fn labels(&self, code: Option<&[u8]>, first: u64, count: u64, out: &mut [u8]) -> Ran {
        let views = self.views(code, first)?;
        Ok(run(views, count, out, |place, out| {
            label(&self.elements(place)?, out)
        }))
    }

    pub fn list(&self, code: Option<&[u8]>, first: u64, count: u64, out: &mut [u8]) -> Ran {
        let views = self.views(code, first)?;
        Ok(run(views, count, out, |place, out| {
            let heading = |sheet: &mut Sheet| {
                sheet.put(b"view ");
                sheet.number(place as u64 + 1);
                sheet.byte(b'\n');
            };
            item(heading, self.elements(place), out)
        }))
    }

    pub fn row(&self, view: u64, out: &mut [u8]) -> Result<usize, Refusal> {
        only(self.rows(view, 1, out)?)
    }

    pub fn rows(&self, first: u64, count: u64, out: &mut [u8]) -> Ran {
        let views = self.views(None, first)?;
        Ok(run(views, count, out, |place, out| {
            let address = &self.addresses[place];
            let tail = Tail {
                postcode_type: address[77],
                indicator: address[81],
                suffix: &address[79..81],
            };
            row(&self.elements(place)?, tail, out)
        }))
    }
}

/// The text at a place of a record, without its padding.
fn part(record: &[u8], (start, end): (usize, usize)) -> &[u8] {
    trimmed(&record[start..end])
}
