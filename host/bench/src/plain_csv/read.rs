//! A file of rows, checked in one pass, and its labels. Where it is not accepted,
//! the second program says why: no time is measured there.

use crate::plain_fields::{begins, blank, is_one, number, refused, INWARD};
use crate::plain_label::{item, label, only, run, trimmed, Sheet};
use paper::fields::outward_fault;
use paper::{Elements, Refusal, Run};

/// How many fields a row has, and the most bytes of each.
const FIELDS: usize = 16;
const MOST: [usize; FIELDS] = [8, 30, 35, 35, 80, 80, 4, 50, 30, 6, 60, 60, 8, 1, 1, 2];

/// The fields of digits; all others from the second up to the last of them are
/// texts.
const NUMBER: usize = 6;
const UDPRN: usize = 12;

/// What a byte may stand in: a text, a number; or it ends a field.
const TEXT: u8 = 1;
const DIGIT: u8 = 2;
const END: u8 = 4;

const fn class(byte: u8) -> u8 {
    match byte {
        b',' | b'\r' => END,
        b'"' | b'a'..=b'z' => 0,
        b'0'..=b'9' => TEXT | DIGIT,
        32..=126 => TEXT,
        _ => 0,
    }
}

static CLASSES: [u8; 256] = {
    let mut classes = [0; 256];
    let mut byte = 0;
    while byte < 256 {
        classes[byte] = class(byte as u8);
        byte += 1;
    }
    classes
};

/// A row: its fields, what all bytes of each may stand in, and where the next row
/// begins.
struct Row<'a> {
    fields: [&'a [u8]; FIELDS],
    classes: [u8; FIELDS],
    end: usize,
}

impl<'a> Row<'a> {
    /// The row at a place, where it has sixteen fields and ends by CR LF.
    fn at(csv: &'a [u8], start: usize) -> Option<Row<'a>> {
        let mut row = Row {
            fields: [&[]; FIELDS],
            classes: [0; FIELDS],
            end: start,
        };
        for place in 0..FIELDS {
            let begin = row.end;
            let mut classes = TEXT | DIGIT;
            loop {
                let class = CLASSES[usize::from(*csv.get(row.end)?)];
                if class == END {
                    break;
                }
                classes &= class;
                row.end += 1;
            }
            row.fields[place] = &csv[begin..row.end];
            row.classes[place] = classes;
            let last = place + 1 == FIELDS;
            if (csv[row.end] == b',') == last {
                return None;
            }
            row.end += 1;
        }
        let ended = csv.get(row.end) == Some(&b'\n');
        row.end += 1;
        ended.then_some(row)
    }

    /// Whether each field is well formed and can be carried. An outward code is
    /// tested only where it is not the known one, that of the row before.
    fn is_good(&self, known: &[u8]) -> bool {
        let [postcode, town, dependent, double, _, _, _, _, _, _, department, name, _, kind, mark, suffix] =
            self.fields;
        let formed = |place: usize| {
            let field = self.fields[place];
            let wanted = match place {
                NUMBER | UDPRN => DIGIT,
                _ => TEXT,
            };
            (field.len() <= MOST[place])
                & (self.classes[place] & wanted != 0)
                & (field.is_empty() || begins(field))
        };
        let small = kind == b"S";
        (1..=UDPRN).all(formed)
            && !blank(town)
            && (blank(double) || !blank(dependent))
            && !(small && blank(name) && !blank(department))
            && (small || kind == b"L")
            && matches!(mark, b"" | b" " | b"Y")
            && matches!(suffix, [digit, letter] if digit.is_ascii_digit() & letter.is_ascii_uppercase())
            && is_postcode(postcode, known)
    }

    /// The outward code of a row that is good.
    fn outward(&self) -> &'a [u8] {
        &self.fields[0][..self.fields[0].len() - 4]
    }

    /// What its label is printed from; or 8.
    fn elements(&self) -> Result<Elements<'a>, Refusal> {
        let text = |place: usize| trimmed(self.fields[place]);
        let e = Elements {
            organisation: text(11),
            department: text(10),
            po_box: text(9),
            sub_building: text(8),
            building_name: text(7),
            building_number: number(self.fields[6]),
            dependent_thoroughfare: text(5),
            thoroughfare: text(4),
            double_dependent_locality: text(3),
            dependent_locality: text(2),
            post_town: text(1),
            outward: self.outward(),
            inward: &self.fields[0][self.outward().len() + 1..],
            ..Elements::default()
        };
        if !e.sub_building.is_empty() & e.building_name.is_empty() & (e.building_number == 0) {
            return Err(Refusal::new(8, 1));
        }
        if !e.dependent_thoroughfare.is_empty() & e.thoroughfare.is_empty() {
            return Err(Refusal::new(8, 2));
        }
        Ok(e)
    }
}

/// Outward code, space, inward code.
fn is_postcode(field: &[u8], known: &[u8]) -> bool {
    let [outward @ .., b' ', digit, first, second] = field else {
        return false;
    };
    digit.is_ascii_digit() & is_one(*first, INWARD) & is_one(*second, INWARD)
        && (outward == known || is_outward(outward))
}

/// An outward code without padding.
fn is_outward(outward: &[u8]) -> bool {
    let mut padded = [b' '; 4];
    let Some(front) = padded.get_mut(..outward.len()) else {
        return false;
    };
    front.copy_from_slice(outward);
    outward.last() != Some(&b' ') && outward_fault(&padded) == 0
}

/// A file that is accepted.
pub struct Csv<'a> {
    csv: &'a [u8],
    pub rows: usize,
    /// The number of the row from which on it is asked, and its place; the end of
    /// the file where there is none.
    first: u64,
    from: usize,
}

impl<'a> Csv<'a> {
    /// A file that is asked from a row on.
    pub fn accept(csv: &'a [u8], first: u64) -> Result<Csv<'a>, Refusal> {
        Csv::accepted(csv, first).map_or_else(|| refused(paper::csv::check(csv)), Ok)
    }

    fn accepted(csv: &'a [u8], first: u64) -> Option<Csv<'a>> {
        let (mut at, mut rows, mut from) = (0, 0, csv.len());
        let mut known: &[u8] = b"";
        while at < csv.len() {
            rows += 1;
            if rows as u64 == first {
                from = at;
            }
            let row = Row::at(csv, at)?;
            if !row.is_good(known) {
                return None;
            }
            known = row.outward();
            at = row.end;
        }
        Some(Csv {
            csv,
            rows,
            first,
            from,
        })
    }

    /// The rows from the first on, each with its number.
    fn asked(&self) -> impl Iterator<Item = (u64, Row<'a>)> {
        let (csv, mut at) = (self.csv, self.from);
        let rows = std::iter::from_fn(move || {
            let row = Row::at(csv, at)?;
            at = row.end;
            Some(row)
        });
        (self.first..).zip(rows)
    }

    pub fn label(&self, out: &mut [u8]) -> Result<usize, Refusal> {
        only(self.labels(1, out))
    }

    pub fn labels(&self, count: u64, out: &mut [u8]) -> Run {
        run(self.asked(), count, out, |(_, row), out| {
            label(&row.elements()?, out)
        })
    }

    pub fn list(&self, count: u64, out: &mut [u8]) -> Run {
        run(self.asked(), count, out, |(number, row), out| {
            let heading = |sheet: &mut Sheet| {
                sheet.put(b"row ");
                sheet.number(number);
                sheet.byte(b'\n');
            };
            item(heading, row.elements(), out)
        })
    }
}
