//! Whether a file is accepted, in one pass over its records.

use crate::plain_fields::{
    all, begins, blank, check_code, digits, filled, is_digit, is_mark, is_one, optional, refused,
    text, Frame, AMENDMENT, INWARD,
};
use crate::plain_label::from;
use paper::fields::outward_fault;
use paper::Refusal;

/// A record of the table file, and one of the point file.
pub type Row = [u8; 169];
pub type Point = [u8; 168];

/// The most records of a file.
pub const MOST: usize = 20_000;

const fn frame(mark: usize, name: &'static [u8; 8]) -> Frame {
    Frame {
        most: MOST,
        mark,
        digits: 0,
        name,
    }
}

/// The records of a table file, or its first refusal.
pub fn table_records(table: &[u8]) -> Result<&[Row], Refusal> {
    let accepted = frame(9, b"CHANGES1")
        .records(table)
        .filter(|records| are_rows(records));
    accepted.map_or_else(|| refused(paper::check_table(table)), Ok)
}

/// The records of a point file, or its first refusal.
pub fn point_records(points: &[u8]) -> Result<&[Point], Refusal> {
    let accepted = frame(14, b"CHANGES2")
        .records(points)
        .filter(|records| are_points(records));
    accepted.map_or_else(|| refused(paper::check_points(points)), Ok)
}

pub fn check_table(table: &[u8]) -> Result<usize, Refusal> {
    Ok(table_records(table)?.len())
}

pub fn check_points(points: &[u8]) -> Result<usize, Refusal> {
    Ok(point_records(points)?.len())
}

/// Whether the records between header and trailer are rows that rise.
fn are_rows(records: &[Row]) -> bool {
    let mut before: &[u8] = &[];
    records[1..records.len() - 1].iter().all(|row| {
        let above = row[..24] > *before;
        before = &row[..24];
        above && is_row(row)
    })
}

fn is_row(row: &Row) -> bool {
    let letter = is_one(row[23], AMENDMENT) | (row[23] == b' ');
    let head = digits(&row[1..23]) & !all(&row[1..9], |byte| byte == b'0') & letter;
    head && match row[0] {
        b'1' => is_locality(row),
        b'2' => filled(&row[24..84]),
        b'3' => filled(&row[24..44]),
        b'4' => filled(&row[24..74]),
        b'5' => filled(&row[24..54]),
        _ => false,
    }
}

fn is_locality(row: &Row) -> bool {
    let (dependent, double) = (&row[99..134], &row[134..]);
    let alone = blank(dependent) & !blank(double);
    text(&row[69..]) & (row[69] != b' ') & begins(dependent) & begins(double) & !alone
}

/// Whether the records between header and trailer are points that rise, each
/// view with its follower.
fn are_points(records: &[Point]) -> bool {
    let mut owed = 0;
    let mut i = 1;
    while i < records.len() - 1 {
        let point = &records[i];
        let fine = if owed == 0 {
            let first = i == 1;
            owed = needed(point);
            let next = &records[i + 1];
            let followed = (owed == 0) | ((next[41] == owed) & (next[..41] == point[..41]));
            let above = first || point[..42] > records[i - 1][..42];
            is_view(point, &records[i - 1], !first) && above && followed
        } else {
            let small = owed == b'2';
            owed = 0;
            is_organisation(point, small)
        };
        if !fine {
            return false;
        }
        i += 1;
    }
    true
}

/// The type of the record that a view needs next, 0 for none.
pub fn needed(view: &Point) -> u8 {
    let alone = all(&view[32..40], |byte| byte == b'0');
    match view[23] {
        b'L' => b'3',
        _ if alone => 0,
        _ => b'2',
    }
}

/// Whether a record is a view; the one before it has a well formed code where
/// that is known.
pub fn is_view(view: &Point, before: &Point, known: bool) -> bool {
    let numbers = digits(&view[..14])
        & digits(&view[24..40])
        & digits(&view[42..106])
        & digits(&view[114..116]);
    let code = (known && view[14..18] == before[14..18]) || outward_fault(&view[14..18]) == 0;
    let inward = is_digit(view[18]) & is_one(view[19], INWARD) & is_one(view[20], INWARD);
    let suffix = is_digit(view[21]) & (view[22].wrapping_sub(b'A') < 26);
    let user = (view[23] == b'S') | (view[23] == b'L');
    let kind = is_one(view[40], AMENDMENT) & (view[41] == b'1');
    let marks = is_mark(view[106]) & is_mark(view[113]);
    numbers & code & inward & suffix & user & kind & marks & optional(&view[107..113])
}

/// Whether a follower's texts are well formed; its front is its owner's.
pub fn is_organisation(point: &Point, small: bool) -> bool {
    let name = &point[42..102];
    text(&point[42..162]) & begins(&point[102..162]) & ((name[0] != b' ') | (!small & blank(name)))
}

/// The places of the views of an accepted file.
pub fn views_in(records: &[Point]) -> impl Iterator<Item = usize> + Clone + '_ {
    (1..records.len() - 1).filter(|place| records[*place][41] == b'1')
}

/// The places of the live views of a code.
pub fn live_in<'a>(
    records: &'a [Point],
    code: &'a [u8],
) -> impl Iterator<Item = usize> + Clone + 'a {
    views_in(records).filter(|place| is_live_of(&records[*place], code))
}

/// Whether a view is live.
pub fn is_live(view: &Point) -> bool {
    (view[40] == b'I') | (view[40] == b'C')
}

/// Whether a view is live and of that code.
pub fn is_live_of(view: &Point, code: &[u8]) -> bool {
    (view[14..18] == *code) & is_live(view)
}

pub fn views(points: &[u8]) -> Result<usize, Refusal> {
    Ok(views_in(point_records(points)?).count())
}

pub fn letter(points: &[u8], view: u64) -> Result<u8, Refusal> {
    let records = point_records(points)?;
    let mut views = from(view, views_in(records));
    Ok(records[views.next().ok_or(Refusal::new(7, 0))?][40])
}

pub fn live(points: &[u8], code: &[u8]) -> Result<usize, Refusal> {
    let records = point_records(points)?;
    check_code(code)?;
    Ok(live_in(records, code).count())
}
