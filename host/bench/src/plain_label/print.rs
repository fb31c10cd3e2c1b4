//! The lines of a label, from what it is printed from.

use super::sheet::Sheet;
use paper::fields::numeric_like;
use paper::Elements;

/// What stands before the first of the places: number, a text at once behind
/// it, another behind a space.
#[derive(Default)]
struct Front<'a> {
    number: u64,
    text: &'a [u8],
    beside: &'a [u8],
}

/// Writes the premises lines and answers the front.
fn premises<'a>(e: &Elements<'a>, sheet: &mut Sheet) -> Front<'a> {
    let (s, b, number) = (e.sub_building, e.building_name, e.building_number);
    let plain = Front {
        number,
        ..Front::default()
    };
    let named = (number == 0) & numeric_like(b);
    if s.is_empty() {
        if named {
            return Front { text: b, ..plain };
        }
        sheet.line(b"", b);
        return plain;
    }
    if b.is_empty() {
        if e.concatenated & (number != 0) {
            return Front { text: s, ..plain };
        }
        sheet.line(b"", s);
        return plain;
    }
    if numeric_like(s) {
        if named {
            let beside = b;
            return Front {
                text: s,
                beside,
                ..plain
            };
        }
        sheet.two(s, b);
        sheet.byte(b'\n');
        return plain;
    }
    sheet.line(b"", s);
    if named {
        return Front { text: b, ..plain };
    }
    sheet.line(b"", b);
    plain
}

/// Writes the lines from dependent thoroughfare to post town.
fn places(e: &Elements, mut front: Front, sheet: &mut Sheet) {
    let none: &[u8] = b"";
    let lines = [
        (e.dependent_thoroughfare, e.dependent_descriptor),
        (e.thoroughfare, e.descriptor),
        (e.double_dependent_locality, none),
        (e.dependent_locality, none),
        (e.post_town, none),
    ];
    for (name, descriptor) in lines {
        if name.is_empty() {
            continue;
        }
        if front.number != 0 {
            sheet.number(front.number);
        }
        sheet.two(front.text, front.beside);
        if (front.number != 0) | !front.text.is_empty() {
            sheet.byte(b' ');
        }
        front = Front::default();
        sheet.two(name, descriptor);
        sheet.byte(b'\n');
    }
}

/// Writes a label.
pub fn write(e: &Elements, sheet: &mut Sheet) {
    sheet.line(b"", e.organisation);
    sheet.line(b"", e.department);
    sheet.line(b"PO BOX ", e.po_box);
    let front = premises(e, sheet);
    places(e, front, sheet);
    sheet.put(e.outward);
    sheet.byte(b' ');
    sheet.put(e.inward);
    sheet.byte(b'\n');
}
