//! What both builders write: that of the calls on files and that of the calls on a set.

use crate::plain_fields::number;
use crate::plain_label::{trimmed, Sheet};

/// The offset that means absent.
pub const ABSENT: u32 = u32::MAX;

/// The bytes of a point and of the trailer, and the edition that is built.
const POINT: usize = 59;
const TRAILER: usize = 61;
const EDITION: u8 = 3;

/// Where texts start and end in a record.
pub type Places = &'static [(usize, usize)];

/// The bytes of a row in a pack.
pub fn row_len(record: &[u8], texts: Places) -> usize {
    let lens = texts
        .iter()
        .map(|(start, end)| 1 + trimmed(&record[*start..*end]).len());
    1 + lens.sum::<usize>()
}

/// Where the fields of a point start in the record that it is written from.
pub struct PointPlaces {
    pub postcode: usize,
    pub suffix: usize,
    pub postcode_type: usize,
    pub address_key: usize,
    pub organisation_key: usize,
    pub number: usize,
    pub concatenation: usize,
    pub po_box: usize,
}

impl Sheet<'_> {
    pub fn row(&mut self, kind: u8, record: &[u8], texts: Places) {
        self.byte(kind);
        for (start, end) in texts {
            let text = trimmed(&record[*start..*end]);
            self.byte(text.len() as u8);
            self.put(text);
        }
    }

    pub fn point(&mut self, places: &PointPlaces, record: &[u8], offsets: [u32; 8]) {
        let field = |start: usize, width: usize| &record[start..start + width];
        self.put(field(places.postcode, 7));
        self.put(field(places.suffix, 2));
        self.put(field(places.postcode_type, 1));
        self.four(number(field(places.address_key, 8)) as u32);
        self.four(number(field(places.organisation_key, 8)) as u32);
        self.put(&(number(field(places.number, 4)) as u16).to_be_bytes());
        self.put(field(places.concatenation, 1));
        self.put(field(places.po_box, 6));
        for offset in offsets {
            self.four(offset);
        }
    }
}

/// What is written: the rows, their bytes, and the points, by sectors too.
#[derive(Clone, Copy, Default)]
pub struct Area {
    pub rows: usize,
    pub bytes: usize,
    pub points: usize,
    pub sectors: [u32; 10],
}

impl Area {
    /// Counts the point of a record.
    pub fn count(&mut self, places: &PointPlaces, record: &[u8]) {
        let digit = record[places.postcode + 4] - b'0';
        self.sectors[usize::from(digit)] += 1;
        self.points += 1;
    }

    /// The bytes of the pack.
    pub fn length(&self) -> usize {
        self.bytes + POINT * self.points + TRAILER
    }

    pub fn put_trailer(&self, code: &[u8], sheet: &mut Sheet) {
        sheet.four(self.rows as u32);
        sheet.four(self.bytes as u32);
        sheet.four(self.points as u32);
        sheet.put(code);
        sheet.four(self.length() as u32);
        self.sectors.iter().for_each(|count| sheet.four(*count));
        sheet.byte(EDITION);
    }
}
