//! Views as rows. Refusals come in this order: the label's own but 10, then 15,
//! then 10.

use super::{fits, FIELDS, ROW_END};
use crate::label::{lend, number_text, with_space};
use crate::mainfile::{Mainfile, Set};
use crate::pair::Changes;
use crate::refusal::Refusal;
use crate::runs::{view_run, Run};
use crate::source::{elements_of, nth, Source, View};

/// Writes the row of a view into `out` and answers its length.
pub fn row(table: &[u8], points: &[u8], view: u64, out: &mut [u8]) -> Result<usize, Refusal> {
    write_row(Changes::accept(table, points)?, view, out)
}

/// Writes the rows of so many views, from number `first` on, into `out`.
pub fn rows(
    table: &[u8],
    points: &[u8],
    first: u64,
    count: u64,
    out: &mut [u8],
) -> Result<Run, Refusal> {
    let changes = Changes::accept(table, points)?;
    Ok(write_rows(changes, first, count, out))
}

/// Writes the row of a view of a Mainfile set into `out` and answers its length.
pub fn main_row(set: Set, view: u64, out: &mut [u8]) -> Result<usize, Refusal> {
    write_row(Mainfile::accept(set)?, view, out)
}

/// Writes the rows of so many views of a Mainfile set, from number `first` on,
/// into `out`.
pub fn main_rows(set: Set, first: u64, count: u64, out: &mut [u8]) -> Result<Run, Refusal> {
    Ok(write_rows(Mainfile::accept(set)?, first, count, out))
}

fn write_row<'a>(source: impl Source<'a>, view: u64, out: &mut [u8]) -> Result<usize, Refusal> {
    let view = nth(source.views(), view)?;
    lend(&view_row(source, &view)?, out)
}

fn write_rows<'a>(source: impl Source<'a>, first: u64, count: u64, out: &mut [u8]) -> Run {
    view_run(source.views(), first, count, out, |view| {
        view_row(source, view)
    })
}

/// The row of a view, or its 8, 9 or 15.
fn view_row<'a>(source: impl Source<'a>, view: &View<'a>) -> Result<Vec<u8>, Refusal> {
    let fields = fields_of(source, view)?;
    let mut numbered = fields.iter().enumerate();
    if !numbered.all(|(place, field)| fits(place, field)) {
        return Err(Refusal::new(15, 0));
    }
    Ok([&fields.join(&b',')[..], ROW_END].concat())
}

/// The fields of a view in the guide's order. No view has a UDPRN.
fn fields_of<'a>(source: impl Source<'a>, view: &View<'a>) -> Result<[Vec<u8>; FIELDS], Refusal> {
    let from = elements_of(source, view)?;
    Ok([
        with_space(from.outward, from.inward),
        from.post_town.to_vec(),
        from.dependent_locality.to_vec(),
        from.double_dependent_locality.to_vec(),
        with_space(from.thoroughfare, from.descriptor),
        with_space(from.dependent_thoroughfare, from.dependent_descriptor),
        number_text(from.building_number).into_bytes(),
        from.building_name.to_vec(),
        from.sub_building.to_vec(),
        from.po_box.to_vec(),
        from.department.to_vec(),
        from.organisation.to_vec(),
        Vec::new(),
        view.postcode_type().to_vec(),
        view.indicator().to_vec(),
        view.suffix().to_vec(),
    ])
}
