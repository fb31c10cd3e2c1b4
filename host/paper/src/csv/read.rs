//! A file of rows, read and printed. Refusals come in this order: 14 of any row,
//! then 15 of any row; then 7, 8 and 10 of the row that is asked for.

use super::{
    fits, BUILDING_NAME, BUILDING_NUMBER, DEPARTMENT, DEPENDENT_LOCALITY, DEPENDENT_THOROUGHFARE,
    DOUBLE_DEPENDENT_LOCALITY, FIELDS, INDICATOR, ORGANISATION, POSTCODE, POSTCODE_TYPE, POST_TOWN,
    PO_BOX, ROW_END, SUB_BUILDING_NAME, SUFFIX, THOROUGHFARE, UDPRN,
};
use crate::fields::{
    digits_fault, filled_fault, inward_fault, is_blank, outward_fault, suffix_fault, text_fault,
    trimmed, value,
};
use crate::label::{label_bytes, lend, Elements};
use crate::listing::item;
use crate::records::{mark_fault, postcode_type_fault};
use crate::refusal::Refusal;
use crate::runs::{from, run, Run};

/// How many rows a file has.
pub fn check(csv: &[u8]) -> Result<usize, Refusal> {
    Ok(accepted(csv)?.len())
}

/// Writes the label of a row into `out` and answers its length.
pub fn label(csv: &[u8], row: u64, out: &mut [u8]) -> Result<usize, Refusal> {
    let rows = accepted(csv)?;
    let row = from(row, rows.iter()).next().ok_or(Refusal::new(7, 0))?;
    lend(&row_label(row)?, out)
}

/// Writes the labels of so many rows, from number `first` on, into `out`.
pub fn labels(csv: &[u8], first: u64, count: u64, out: &mut [u8]) -> Result<Run, Refusal> {
    let rows = accepted(csv)?;
    Ok(run(from(first, rows.iter()).map(row_label), count, out))
}

/// Lists so many rows, from number `first` on: for each the line `row` with its
/// number, then the label or the line `refused`, number, detail.
pub fn list(csv: &[u8], first: u64, count: u64, out: &mut [u8]) -> Result<Run, Refusal> {
    let rows = accepted(csv)?;
    let listed = |(number, row): (u64, &Row)| Ok(item(format!("row {number}\n"), row_label(row)));
    let rows = from(first, (1..).zip(rows.iter()));
    Ok(run(rows.map(listed), count, out))
}

/// The fields of a well formed row.
type Row<'a> = [&'a [u8]; FIELDS];

/// The rows of an accepted file. The first malformed field of the first such row
/// is told before a field of whichever row that the guide cannot carry.
fn accepted(csv: &[u8]) -> Result<Vec<Row<'_>>, Refusal> {
    let mut rows = Vec::new();
    for (number, found) in (1..).zip(found_rows(csv)) {
        let row = found.well_formed();
        rows.push(row.map_err(|field| Refusal::malformed_row(number, field))?);
    }
    let carried = |row: &Row| (0..FIELDS).all(|place| fits(place, row[place]));
    if !rows.iter().all(carried) {
        return Err(Refusal::new(15, 0));
    }
    Ok(rows)
}

/// A row as it stands in a file: fields, of which only a comma, CR LF or the end
/// of the file ends one.
struct Found<'a> {
    fields: Vec<&'a [u8]>,
    /// Whether CR LF ends it, and not the end of the file.
    ended: bool,
}

fn found_rows(mut csv: &[u8]) -> impl Iterator<Item = Found<'_>> {
    std::iter::from_fn(move || {
        if csv.is_empty() {
            return None;
        }
        let end = csv.windows(ROW_END.len()).position(|two| two == ROW_END);
        let row = &csv[..end.unwrap_or(csv.len())];
        csv = end.map_or(&[], |end| &csv[end + ROW_END.len()..]);
        Some(Found {
            fields: row.split(|byte| *byte == b',').collect(),
            ended: end.is_some(),
        })
    })
}

impl<'a> Found<'a> {
    /// The sixteen fields, or the number of the first that is malformed or
    /// missing; 17 where something else than CR LF stands behind them.
    fn well_formed(&self) -> Result<Row<'a>, usize> {
        let mut row: Row = [b""; FIELDS];
        for (place, field) in row.iter_mut().enumerate() {
            let here = self.fields.get(place).filter(|_| self.is_good(place));
            *field = here.ok_or(place + 1)?;
        }
        if self.fields.len() > FIELDS || !self.ended {
            return Err(FIELDS + 1);
        }
        Ok(row)
    }

    /// A field; one that the row does not come to is empty.
    fn field(&self, place: usize) -> &'a [u8] {
        self.fields.get(place).copied().unwrap_or_default()
    }

    fn is_good(&self, place: usize) -> bool {
        let field = self.field(place);
        let fault = match place {
            POSTCODE => postcode_fault(field),
            POST_TOWN => filled_fault(field),
            DOUBLE_DEPENDENT_LOCALITY if is_blank(self.field(DEPENDENT_LOCALITY)) => {
                usize::from(!is_blank(field))
            }
            BUILDING_NUMBER | UDPRN => digits_fault(field),
            ORGANISATION if self.lacks_organisation() => filled_fault(field),
            POSTCODE_TYPE => postcode_type_fault(field),
            INDICATOR if field.is_empty() => 0,
            INDICATOR => mark_fault(field),
            SUFFIX => suffix_fault(field),
            _ => text_fault(field),
        };
        fault == 0
    }

    /// A small user with a department needs an organisation name.
    fn lacks_organisation(&self) -> bool {
        self.field(POSTCODE_TYPE) == b"S" && !is_blank(self.field(DEPARTMENT))
    }
}

/// Outward code without padding, one space, inward code.
fn postcode_fault(field: &[u8]) -> usize {
    let space = field.iter().position(|byte| *byte == b' ');
    let Some(space) = space.filter(|space| *space <= 4) else {
        return 1;
    };
    let mut outward = [b' '; 4];
    outward[..space].copy_from_slice(&field[..space]);
    match outward_fault(&outward) {
        0 => inward_fault(&field[space + 1..]),
        fault => fault,
    }
}

/// The label of a row, or its 8: rules 1 and 2 by which fields are filled. Rule
/// 3 cannot be broken, since a joined thoroughfare is a name.
fn row_label(row: &Row) -> Result<Vec<u8>, Refusal> {
    let from = elements_of(row);
    let has = |text: &[u8]| !text.is_empty();
    if has(from.sub_building) && !has(from.building_name) && from.building_number == 0 {
        return Err(Refusal::new(8, 1));
    }
    if has(from.dependent_thoroughfare) && !has(from.thoroughfare) {
        return Err(Refusal::new(8, 2));
    }
    Ok(label_bytes(&from))
}

/// What the label of a row is printed from: joined thoroughfares stand as names,
/// without descriptors, and there is no concatenation mark.
fn elements_of<'a>(row: &Row<'a>) -> Elements<'a> {
    let text = |place: usize| trimmed(row[place]);
    let (outward, inward) = row[POSTCODE].split_at(row[POSTCODE].len() - 3);
    Elements {
        organisation: text(ORGANISATION),
        department: text(DEPARTMENT),
        po_box: text(PO_BOX),
        sub_building: text(SUB_BUILDING_NAME),
        building_name: text(BUILDING_NAME),
        building_number: value(row[BUILDING_NUMBER]),
        dependent_thoroughfare: text(DEPENDENT_THOROUGHFARE),
        thoroughfare: text(THOROUGHFARE),
        double_dependent_locality: text(DOUBLE_DEPENDENT_LOCALITY),
        dependent_locality: text(DEPENDENT_LOCALITY),
        post_town: text(POST_TOWN),
        outward: trimmed(outward),
        inward,
        ..Elements::default()
    }
}
