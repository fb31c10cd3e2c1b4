//! A view written as a row.

use crate::plain_fields::all;
use crate::plain_label::{lent, Sheet};
use paper::{Elements, Refusal};

/// The most bytes of a row, and of a thoroughfare with its descriptor.
const ROW: usize = 499;
const STREET: usize = 80;

/// What a row has beside what a label is printed from.
pub struct Tail<'a> {
    pub postcode_type: u8,
    pub indicator: u8,
    pub suffix: &'a [u8],
}

/// Writes a row; or 15 or 10.
pub fn row(e: &Elements, tail: Tail, out: &mut [u8]) -> Result<usize, Refusal> {
    if !carried(e) {
        return Err(Refusal::new(15, 0));
    }
    lent::<ROW>(out, |sheet| write(e, tail, sheet))
}

fn carried(e: &Elements) -> bool {
    let texts = [
        e.post_town,
        e.dependent_locality,
        e.double_dependent_locality,
        e.thoroughfare,
        e.descriptor,
        e.dependent_thoroughfare,
        e.dependent_descriptor,
        e.building_name,
        e.sub_building,
        e.po_box,
        e.department,
        e.organisation,
    ];
    let plain = |text: &&[u8]| all(text, |byte| (byte != b',') & (byte != b'"'));
    texts.iter().all(plain)
        && joined(e.thoroughfare, e.descriptor) <= STREET
        && joined(e.dependent_thoroughfare, e.dependent_descriptor) <= STREET
}

/// The bytes of a name with its descriptor.
fn joined(name: &[u8], descriptor: &[u8]) -> usize {
    name.len() + descriptor.len() + usize::from(!descriptor.is_empty())
}

fn write(e: &Elements, tail: Tail, sheet: &mut Sheet) {
    sheet.put(e.outward);
    sheet.byte(b' ');
    sheet.put(e.inward);
    sheet.byte(b',');
    field(e.post_town, sheet);
    field(e.dependent_locality, sheet);
    field(e.double_dependent_locality, sheet);
    sheet.two(e.thoroughfare, e.descriptor);
    sheet.byte(b',');
    sheet.two(e.dependent_thoroughfare, e.dependent_descriptor);
    sheet.byte(b',');
    if e.building_number != 0 {
        sheet.number(e.building_number);
    }
    sheet.byte(b',');
    field(e.building_name, sheet);
    field(e.sub_building, sheet);
    field(e.po_box, sheet);
    field(e.department, sheet);
    field(e.organisation, sheet);
    sheet.put(&[b',', tail.postcode_type, b',', tail.indicator, b',']);
    sheet.put(tail.suffix);
    sheet.put(b"\r\n");
}

fn field(text: &[u8], sheet: &mut Sheet) {
    sheet.put(text);
    sheet.byte(b',');
}
