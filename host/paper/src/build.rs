//! Document 01, "The pack": cutting a pack for one outward code, of the edition
//! that is built. Refusals come in this order: the files, 12, then the 8 or 9 of
//! the first live view in that code that has one, together with its view number,
//! then 10.

use crate::address::{text_rules, Texts, ORGANISATION, REFERENCES, ROW_TYPE};
use crate::fields::value;
use crate::label::lend;
use crate::layout::pack::{ABSENT, BUILT, SECTORS};
use crate::pair::Changes;
use crate::refusal::Refusal;
use crate::source::{rows_of, Rows, Source, View};

/// Writes the pack of an outward code into `out` and answers its length.
pub fn build(table: &[u8], points: &[u8], code: &[u8], out: &mut [u8]) -> Result<usize, Refusal> {
    build_from(Changes::accept(table, points)?, code, out)
}

/// The same, of any accepted files.
pub(crate) fn build_from<'a>(
    source: impl Source<'a>,
    code: &'a [u8],
    out: &mut [u8],
) -> Result<usize, Refusal> {
    let mut packed = Vec::new();
    for view in source.live_views(code)? {
        let rows = rows_of(source, &view).map_err(|refusal| Refusal {
            second: view.number,
            ..refusal
        })?;
        packed.push((view, rows));
    }
    lend(&pack_bytes(source, &packed, code), out)
}

/// Rows, then points, then a trailer that points back.
fn pack_bytes<'a>(source: impl Source<'a>, packed: &[(View, Rows)], code: &[u8]) -> Vec<u8> {
    let mut area = RowArea::default();
    let table_offsets = put_table_rows(source, packed, &mut area);
    let mut points = Vec::new();
    for (view, rows) in packed {
        let mut offsets = [ABSENT; REFERENCES];
        for (offset, row) in offsets[..ORGANISATION].iter_mut().zip(rows) {
            *offset = row.map_or(ABSENT, |row| table_offsets[row]);
        }
        if let Some(row) = rows[ORGANISATION] {
            offsets[ORGANISATION] = area.put(6, source.texts(ORGANISATION, row));
        }
        put_point(view, &offsets, &mut points);
    }
    let mut pack = area.bytes;
    let points_start = number_of(pack.len());
    let length = pack.len() + points.len() + BUILT.trailer;
    pack.extend(points);
    pack.extend(area.count.to_be_bytes());
    pack.extend(points_start.to_be_bytes());
    pack.extend(number_of(packed.len()).to_be_bytes());
    pack.extend(code);
    pack.extend(number_of(length).to_be_bytes());
    for count in sector_counts(packed) {
        pack.extend(number_of(count).to_be_bytes());
    }
    pack.push(BUILT.number);
    pack
}

/// "Ten counts of 4 bytes", "for inward digits 0 to 9": the packed views of each.
fn sector_counts(packed: &[(View, Rows)]) -> [usize; SECTORS] {
    let mut counts = [0; SECTORS];
    for (view, _) in packed {
        counts[value(&view.inward()[..1]) as usize] += 1;
    }
    counts
}

/// First the table rows used by a packed view, by type then key, each once.
/// This is the order of their numbers. Answers the offset of each used row by
/// its number.
fn put_table_rows<'a>(
    source: impl Source<'a>,
    packed: &[(View, Rows)],
    area: &mut RowArea,
) -> Vec<u32> {
    let references = || packed.iter().flat_map(|(_, rows)| table_rows(rows));
    let numbers = references().map(|(_, row)| row + 1).max().unwrap_or(0);
    let mut used = vec![None; numbers];
    for (place, row) in references() {
        used[row] = Some(place);
    }
    let mut offsets = vec![ABSENT; numbers];
    for (row, place) in used.into_iter().enumerate() {
        if let Some(place) = place {
            offsets[row] = area.put(ROW_TYPE[place], source.texts(place, row));
        }
    }
    offsets
}

/// The table rows among these, each behind the reference that names it.
fn table_rows(rows: &Rows) -> impl Iterator<Item = (usize, usize)> + '_ {
    let places = rows[..ORGANISATION].iter().enumerate();
    places.filter_map(|(place, row)| row.map(|row| (place, row)))
}

/// The rows written so far.
#[derive(Default)]
struct RowArea {
    bytes: Vec<u8>,
    count: u32,
}

impl RowArea {
    /// Writes a row, a type byte and then texts, each a length byte and its
    /// bytes. Answers its offset.
    fn put(&mut self, row_type: u8, texts: Texts) -> u32 {
        let offset = number_of(self.bytes.len());
        self.bytes.push(row_type);
        for text in &texts[..text_rules(row_type).len()] {
            self.bytes.push(text.len() as u8);
            self.bytes.extend(*text);
        }
        self.count += 1;
        offset
    }
}

/// Writes a point: postcode 7, suffix 2, then what stood behind the postcode.
fn put_point(view: &View, offsets: &[u32; REFERENCES], points: &mut Vec<u8>) {
    points.extend(view.outward());
    points.extend(view.inward());
    points.extend(view.suffix());
    points.extend(view.postcode_type());
    points.extend((value(view.address_key()) as u32).to_be_bytes());
    points.extend((value(view.organisation_key()) as u32).to_be_bytes());
    points.extend((view.building_number() as u16).to_be_bytes());
    points.extend(view.concatenation());
    points.extend(view.po_box());
    for offset in offsets {
        points.extend(offset.to_be_bytes());
    }
}

/// A count or a place in a pack. It has less than 1,000,000 points and rows of
/// each type, none of them longer than 123 bytes, so that every such number has
/// room in 4 bytes.
fn number_of(length: usize) -> u32 {
    length as u32
}
