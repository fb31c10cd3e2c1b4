//! A pack cut from files.

use super::check::{live_in, needed, views_in, Point, Row, MOST};
use super::rows::{in_force, rows_by};
use super::Files;
use crate::plain_build::{row_len, Area, Places, PointPlaces, ABSENT};
use crate::plain_fields::{check_code, number};
use crate::plain_label::Sheet;
use paper::Refusal;

/// Where the texts of a row of each type stand.
fn texts_of(row: &Row) -> Places {
    match row[0] {
        b'1' => &[(69, 99), (99, 134), (134, 169)],
        b'2' => &[(24, 84)],
        b'3' => &[(24, 44)],
        b'4' => &[(24, 74)],
        _ => &[(24, 54)],
    }
}

/// Where the texts of an organisation stand.
const ORGANISATION: Places = &[(42, 102), (102, 162)];

/// Where a point's fields stand in a view.
const POINT: PointPlaces = PointPlaces {
    postcode: 14,
    suffix: 21,
    postcode_type: 23,
    address_key: 24,
    organisation_key: 32,
    number: 82,
    concatenation: 106,
    po_box: 107,
};

/// The names of the rows as numbers, and where each used row starts: one place
/// for each record.
struct Index {
    names: [u32; MOST],
    starts: [u32; MOST],
}

impl Index {
    /// The names of a table file; no row is used yet.
    fn new(rows: &[Row]) -> Index {
        let mut names = [u32::MAX; MOST];
        for (name, row) in names.iter_mut().zip(&rows[1..rows.len() - 1]) {
            *name = number(&row[..9]) as u32;
        }
        Index {
            names,
            starts: [ABSENT; MOST],
        }
    }

    /// The places of the rows of a view; or 8 or 9.
    fn rows_of(&self, rows: &[Row], view: &Point) -> Result<[Option<usize>; 7], Refusal> {
        let names = &self.names[..rows.len() - 2];
        rows_by(view, |(front, last)| {
            let name = front.to_be_bytes();
            let wanted = number(&name) as u32 * 10 + u32::from(last - b'0');
            let end = names.partition_point(|other| *other <= wanted);
            let place = end.checked_sub(1)?;
            (names[place] == wanted && in_force(&rows[place + 1])).then_some(place)
        })
    }
}

/// A view that is packed: where it stands, its record, and the one behind it, which
/// is its follower where it needs one.
pub type Packed<'a> = (usize, &'a Point, &'a Point);

/// Marks the rows of the views of a code; or the first 8 or 9, and where its view
/// stands.
fn mark<'a>(
    index: &mut Index,
    rows: &[Row],
    views: impl Iterator<Item = Packed<'a>>,
) -> Result<Area, (usize, Refusal)> {
    let mut area = Area::default();
    for (place, view, next) in views {
        let found = index.rows_of(rows, view);
        let found = found.map_err(|refusal| (place, refusal))?;
        for row in found.into_iter().flatten() {
            index.starts[row] = 0;
        }
        if needed(view) != 0 {
            area.rows += 1;
            area.bytes += row_len(next, ORGANISATION);
        }
        area.count(&POINT, view);
    }
    Ok(area)
}

/// Gives each used row its start, and answers where the organisations begin.
fn place(index: &mut Index, rows: &[Row], area: &mut Area) -> usize {
    let mut at = 0;
    let used = index.starts.iter_mut().zip(&rows[1..rows.len() - 1]);
    for (start, row) in used.filter(|(start, _)| **start == 0) {
        *start = at as u32;
        at += row_len(row, texts_of(row));
        area.rows += 1;
    }
    area.bytes += at;
    at
}

/// Writes rows, points and trailer.
fn write<'a>(
    index: &Index,
    rows: &[Row],
    views: impl Iterator<Item = Packed<'a>> + Clone,
    code: &[u8],
    area: &Area,
    sheet: &mut Sheet,
) -> Result<(), Refusal> {
    let used = index.starts.iter().zip(&rows[1..rows.len() - 1]);
    for (_, row) in used.filter(|(start, _)| **start != ABSENT) {
        sheet.row(row[0] - b'0', row, texts_of(row));
    }
    let mut organisation = sheet.at;
    for (_, _, next) in views.clone().filter(|(_, view, _)| needed(view) != 0) {
        sheet.row(6, next, ORGANISATION);
    }
    for (_, view, next) in views {
        let mut offsets = [ABSENT; 8];
        for (offset, row) in offsets.iter_mut().zip(index.rows_of(rows, view)?) {
            *offset = row.map_or(ABSENT, |row| index.starts[row]);
        }
        if needed(view) != 0 {
            offsets[7] = organisation as u32;
            organisation += row_len(next, ORGANISATION);
        }
        sheet.point(&POINT, view, offsets);
    }
    area.put_trailer(code, sheet);
    Ok(())
}

/// The pack of these views of a code; `number` says which view stands at a place.
pub fn build_of<'a>(
    rows: &[Row],
    views: impl Iterator<Item = Packed<'a>> + Clone,
    number: impl Fn(usize) -> u64,
    code: &[u8],
    out: &mut [u8],
) -> Result<usize, Refusal> {
    let mut index = Index::new(rows);
    let marked = mark(&mut index, rows, views.clone());
    let mut area = marked.map_err(|(place, refusal)| Refusal {
        second: number(place),
        ..refusal
    })?;
    place(&mut index, rows, &mut area);
    let length = area.length();
    if out.len() < length {
        return Err(Refusal::new(10, length as u64));
    }
    let mut sheet = Sheet { out, at: 0 };
    write(&index, rows, views, code, &area, &mut sheet)?;
    Ok(length)
}

impl Files<'_> {
    /// The pack of a code.
    pub fn build(&self, code: &[u8], out: &mut [u8]) -> Result<usize, Refusal> {
        check_code(code)?;
        let Files { rows, points } = self;
        let packed = |place: usize| (place, &points[place], &points[place + 1]);
        let views = live_in(points, code).map(packed);
        let number = |place: usize| views_in(&points[..place + 2]).count() as u64;
        build_of(rows, views, number, code, out)
    }
}
