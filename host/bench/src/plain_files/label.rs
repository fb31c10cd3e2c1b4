//! Labels, listings and rows printed from files.

use super::check::{is_live_of, needed, views_in, Point, Row};
use super::rows::{number_in, rows_of};
use super::Files;
use crate::plain_csv::{row, Tail};
use crate::plain_fields::check_code;
use crate::plain_label::{from, item, label, only, run, trimmed, Sheet};
use paper::{Elements, Refusal, Run};

/// How far a run or a listing came, or 12.
type Ran = Result<Run, Refusal>;

/// What the label of a view is printed from, behind which its follower stands where
/// it needs one; or 8 or 9.
pub fn elements_of<'a>(
    rows: &'a [Row],
    view: &'a Point,
    next: &'a Point,
) -> Result<Elements<'a>, Refusal> {
    let found = rows_of(rows, view)?;
    let text = |i: usize, end: usize| found[i].map_or(&[][..], |row| trimmed(&row[24..end]));
    let town = |start: usize, end: usize| found[0].map_or(&[][..], |row| trimmed(&row[start..end]));
    let follower = (needed(view) != 0).then_some(next);
    let own = |start: usize, end: usize| follower.map_or(&[][..], |own| trimmed(&own[start..end]));
    Ok(Elements {
        organisation: own(42, 102),
        department: own(102, 162),
        po_box: trimmed(&view[107..113]),
        sub_building: text(6, 54),
        building_name: text(5, 74),
        building_number: u64::from(number_in(view)),
        concatenated: view[106] == b'Y',
        dependent_thoroughfare: text(3, 84),
        dependent_descriptor: text(4, 44),
        thoroughfare: text(1, 84),
        descriptor: text(2, 44),
        double_dependent_locality: town(134, 169),
        dependent_locality: town(99, 134),
        post_town: town(69, 99),
        outward: trimmed(&view[14..18]),
        inward: &view[18..21],
    })
}

impl<'a> Files<'a> {
    /// The number and the place of each view, or of each live one of a code, from
    /// the first that is given on.
    fn views(
        &self,
        code: Option<&'a [u8]>,
        first: u64,
    ) -> Result<impl Iterator<Item = (u64, usize)> + 'a, Refusal> {
        code.map_or(Ok(()), check_code)?;
        let points = self.points;
        let asked = move |(_, place): &(u64, usize)| {
            code.is_none_or(|code| is_live_of(&points[*place], code))
        };
        Ok(from(first, (1..).zip(views_in(points)).filter(asked)))
    }

    /// What the label of the view at a place is printed from; or 8 or 9.
    fn elements(&self, place: usize) -> Result<Elements<'a>, Refusal> {
        elements_of(self.rows, &self.points[place], &self.points[place + 1])
    }

    pub fn label(&self, code: Option<&[u8]>, k: u64, out: &mut [u8]) -> Result<usize, Refusal> {
        only(self.labels(code, k, 1, out)?)
    }

    pub fn labels(&self, code: Option<&[u8]>, first: u64, count: u64, out: &mut [u8]) -> Ran {
        let views = self.views(code, first)?;
        Ok(run(views, count, out, |(_, place), out| {
            label(&self.elements(place)?, out)
        }))
    }

    pub fn list(&self, code: Option<&[u8]>, first: u64, count: u64, out: &mut [u8]) -> Ran {
        let views = self.views(code, first)?;
        Ok(run(views, count, out, |(number, place), out| {
            let heading = |sheet: &mut Sheet| {
                sheet.put(b"view ");
                sheet.number(number);
                sheet.put(&[b' ', self.points[place][40], b'\n']);
            };
            item(heading, self.elements(place), out)
        }))
    }

    pub fn row(&self, view: u64, out: &mut [u8]) -> Result<usize, Refusal> {
        only(self.rows(view, 1, out)?)
    }

    pub fn rows(&self, first: u64, count: u64, out: &mut [u8]) -> Ran {
        let views = self.views(None, first)?;
        Ok(run(views, count, out, |(_, place), out| {
            let view = &self.points[place];
            let tail = Tail {
                postcode_type: view[23],
                indicator: view[113],
                suffix: &view[21..23],
            };
            row(&self.elements(place)?, tail, out)
        }))
    }
}
