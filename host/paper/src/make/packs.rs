use super::texts::{any_text, organisation, place, po_box, premises};
use super::{inward, outward, padded, suffix, Edition, Rng, EDITIONS, FIRST, SECOND};

/// The counts of document 01's pack: nine sectors without a point, and the last
/// with one.
const WORKED_COUNTS: &[u8] = b"\0\0\0\0\0\0\0\0\0\0\0\0\0\0\0\0\0\0\0\0\
    \0\0\0\0\0\0\0\0\0\0\0\0\0\0\0\0\0\0\0\x01";

/// Document 01's pack, of 129 bytes in edition 1, of 131 in edition 2 and of 171
/// in edition 3: its rows, its point and its trailer.
pub fn worked_pack(edition: Edition) -> Vec<u8> {
    let (suffix, length, counts): (&[u8], u8, &[u8]) = match edition {
        FIRST => (b"", 0x81, b""),
        SECOND => (b"1A", 0x83, b""),
        _ => (b"1A", 0xab, WORKED_COUNTS),
    };
    let rows: &[u8] = b"\x01\x0cHARTWELL BAY\x00\x00\
        \x02\x06QUARRY\
        \x03\x04LANE\
        \x04\x07110-114\
        \x05\x0aATTIC FLAT";
    let rest: &[u8] = b"S\0\0\0\x01\0\0\0\0\0\0       \
        \0\0\0\0\0\0\0\x10\0\0\0\x18\xff\xff\xff\xff\xff\xff\xff\xff\
        \0\0\0\x1e\0\0\0\x27\xff\xff\xff\xff";
    let trailer: &[u8] = b"\0\0\0\x05\0\0\0\x33\0\0\0\x01AB1 \0\0\0";
    let point = [b"AB1 9ZZ", suffix, rest].concat();
    let end = [&[length], counts, &[edition.number]].concat();
    [rows, &point, trailer, &end].concat()
}

/// A row of a pack, as it is written.
#[derive(Clone, Debug)]
pub struct PackRow {
    pub row_type: u8,
    pub texts: Vec<Vec<u8>>,
}

impl PackRow {
    pub(super) fn new(row_type: u8, texts: &[&str]) -> PackRow {
        PackRow {
            row_type,
            texts: texts.iter().map(|text| text.as_bytes().to_vec()).collect(),
        }
    }

    fn bytes(&self) -> Vec<u8> {
        let mut bytes = vec![self.row_type];
        for text in &self.texts {
            bytes.push(text.len() as u8);
            bytes.extend(text);
        }
        bytes
    }
}

/// A point of a pack, as it is written. Its rows are given as places in the
/// draft's list of rows.
#[derive(Clone, Debug)]
pub struct PackPoint {
    pub outward: Vec<u8>,
    pub inward: Vec<u8>,
    /// Written where the edition has one.
    pub suffix: Vec<u8>,
    pub postcode_type: u8,
    pub address_key: u32,
    pub organisation_key: u32,
    pub building_number: u16,
    pub concatenation: u8,
    pub po_box: Vec<u8>,
    pub rows: [Option<usize>; 8],
}

impl PackPoint {
    /// The point's bytes, its rows starting at these offsets.
    fn bytes(&self, edition: Edition, offsets: &[u32]) -> Vec<u8> {
        let mut bytes = [&self.outward[..], &self.inward].concat();
        if edition.has_suffix() {
            bytes.extend(&self.suffix);
        }
        bytes.push(self.postcode_type);
        bytes.extend(self.address_key.to_be_bytes());
        bytes.extend(self.organisation_key.to_be_bytes());
        bytes.extend(self.building_number.to_be_bytes());
        bytes.push(self.concatenation);
        bytes.extend(&self.po_box);
        for row in self.rows {
            let offset = row.map_or(u32::MAX, |row| offsets[row]);
            bytes.extend(offset.to_be_bytes());
        }
        bytes
    }
}

/// What a pack is made of.
#[derive(Clone, Debug)]
pub struct PackDraft {
    pub edition: Edition,
    pub rows: Vec<PackRow>,
    pub points: Vec<PackPoint>,
    pub outward: Vec<u8>,
}

impl PackDraft {
    /// The offset of each row, and behind the last the points start.
    pub fn offsets(&self) -> Vec<u32> {
        let mut offsets = vec![0];
        let mut end = 0;
        for row in &self.rows {
            end += row.bytes().len() as u32;
            offsets.push(end);
        }
        offsets
    }

    /// Where the points start.
    pub fn points_start(&self) -> usize {
        self.rows.iter().map(|row| row.bytes().len()).sum()
    }

    /// The pack.
    pub fn bytes(&self) -> Vec<u8> {
        let mut pack = self.body();
        let trailer = self.trailer(self.edition, pack.len(), self.points_start());
        pack.extend(trailer);
        pack
    }

    /// The pack without its trailer.
    pub(super) fn body(&self) -> Vec<u8> {
        let offsets = self.offsets();
        let mut body: Vec<u8> = self.rows.iter().flat_map(PackRow::bytes).collect();
        for point in &self.points {
            body.extend(point.bytes(self.edition, &offsets));
        }
        body
    }

    /// The trailer of an edition behind a body of so many bytes, in which the
    /// points start there.
    pub(super) fn trailer(&self, edition: Edition, body: usize, points_start: usize) -> Vec<u8> {
        let length = (body + edition.trailer) as u32;
        let mut trailer = (self.rows.len() as u32).to_be_bytes().to_vec();
        trailer.extend((points_start as u32).to_be_bytes());
        trailer.extend((self.points.len() as u32).to_be_bytes());
        trailer.extend(&self.outward);
        trailer.extend(length.to_be_bytes());
        if edition.has_counts() {
            trailer.extend(self.counts().map(u32::to_be_bytes).concat());
        }
        trailer.push(edition.number);
        trailer
    }

    /// How many points each sector has: those whose inward code begins with its
    /// digit.
    pub fn counts(&self) -> [u32; 10] {
        DIGITS.map(|digit| {
            let here = |point: &&PackPoint| point.inward.first() == Some(&digit);
            self.points.iter().filter(here).count() as u32
        })
    }
}

const DIGITS: [u8; 10] = *b"0123456789";

/// A random pack that opens, of any edition and of at most so many rows and
/// points. It may have what no building gives: rows that no point uses, and equal
/// ones.
pub fn pack_draft(rng: &mut Rng, bound: usize) -> PackDraft {
    let mut rows: Vec<PackRow> = (0..rng.below(bound + 1)).map(|_| pack_row(rng)).collect();
    rows.sort_by_key(|row| row.row_type);
    let mut draft = PackDraft {
        edition: *rng.pick(&EDITIONS),
        rows,
        points: Vec::new(),
        outward: outward(rng),
    };
    for _ in 0..rng.below(bound + 1) {
        if let Some(point) = pack_point(rng, &draft) {
            draft.points.push(point);
        }
    }
    draft
}

fn pack_row(rng: &mut Rng) -> PackRow {
    let row_type = rng.within(1, 6) as u8;
    let texts = match row_type {
        1 => pack_locality(rng),
        2 => vec![place(rng, 60)],
        3 => vec![any_text(rng, 20)],
        4 => vec![premises(rng, 50)],
        5 => vec![premises(rng, 30)],
        _ => vec![or_none(rng, 60), or_none(rng, 60)],
    };
    PackRow {
        row_type,
        texts: texts.into_iter().map(String::into_bytes).collect(),
    }
}

fn pack_locality(rng: &mut Rng) -> Vec<String> {
    let town = place(rng, 30);
    match rng.below(3) {
        0 => vec![town, String::new(), String::new()],
        1 => vec![town, place(rng, 35), String::new()],
        _ => vec![town, place(rng, 35), place(rng, 35)],
    }
}

fn or_none(rng: &mut Rng, width: usize) -> String {
    if rng.one_in(3) {
        String::new()
    } else {
        organisation(rng, width)
    }
}

/// A sound point of the draft's rows; none where there is no locality, or an
/// organisation is needed and there is none.
fn pack_point(rng: &mut Rng, draft: &PackDraft) -> Option<PackPoint> {
    let mut point = PackPoint {
        outward: draft.outward.clone(),
        inward: inward(rng),
        suffix: suffix(rng),
        postcode_type: *rng.pick(b"SL"),
        address_key: rng.within(0, 99_999_999),
        organisation_key: *rng.pick(&[0, 0, 1, 99_999_999]),
        building_number: *rng.pick(&[0, 0, 1, 12, 9_999]),
        concatenation: *rng.pick(b"Y "),
        po_box: padded(&po_box(rng), 6),
        rows: [None; 8],
    };
    let rows = &mut point.rows;
    rows[0] = Some(some_row(rng, draft, 1)?);
    rows[1] = some_row(rng, draft, 2);
    if rows[1].is_some() && rng.one_in(2) {
        rows[2] = some_row(rng, draft, 3);
        rows[3] = some_row(rng, draft, 2);
        rows[4] = some_row(rng, draft, 3);
    }
    if rng.one_in(2) {
        rows[5] = some_row(rng, draft, 4);
    }
    if rng.one_in(2) && (rows[5].is_some() || point.building_number > 0) {
        rows[6] = some_row(rng, draft, 5);
    }
    if point.postcode_type == b'L' || point.organisation_key > 0 {
        let row = some_row(rng, draft, 6)?;
        if point.postcode_type == b'S' && draft.rows[row].texts[0].is_empty() {
            return None;
        }
        rows[7] = Some(row);
    }
    Some(point)
}

/// The place of a row of that type; none where there is none.
fn some_row(rng: &mut Rng, draft: &PackDraft, row_type: u8) -> Option<usize> {
    let places: Vec<usize> = (0..draft.rows.len())
        .filter(|place| draft.rows[*place].row_type == row_type)
        .collect();
    (!places.is_empty()).then(|| *rng.pick(&places))
}

/// Rows of every type with every text.
fn full_rows() -> Vec<PackRow> {
    vec![
        PackRow::new(1, &["HARTWELL BAY", "NORTH END", "OLD QUAY"]),
        PackRow::new(1, &["HOLT", "", ""]),
        PackRow::new(2, &["QUARRY"]),
        PackRow::new(2, &["HIGH"]),
        PackRow::new(3, &["LANE"]),
        PackRow::new(3, &["COURT"]),
        PackRow::new(4, &["110-114"]),
        PackRow::new(5, &["ATTIC FLAT"]),
        PackRow::new(6, &["LEDA ENGINEERING LTD", "STORES"]),
        PackRow::new(6, &["", "POST ROOM"]),
    ]
}

/// A pack of an edition that opens and that has all: rows of every type with
/// every text, a small user with all eight rows, a large user without name in a
/// sector of its own, a small user without organisation.
pub fn full_draft(edition: Edition) -> PackDraft {
    let small_user = PackPoint {
        outward: b"AB1 ".to_vec(),
        inward: b"9ZZ".to_vec(),
        suffix: b"2B".to_vec(),
        postcode_type: b'S',
        address_key: 154_002,
        organisation_key: 10_003,
        building_number: 12,
        concatenation: b'Y',
        po_box: b"HK860 ".to_vec(),
        rows: [0, 2, 4, 3, 5, 6, 7, 8].map(Some),
    };
    let large_user = PackPoint {
        inward: b"0AA".to_vec(),
        suffix: b"0A".to_vec(),
        postcode_type: b'L',
        organisation_key: 0,
        rows: [Some(1), None, None, None, None, None, None, Some(9)],
        ..small_user.clone()
    };
    let resident = PackPoint {
        suffix: b"9Z".to_vec(),
        organisation_key: 0,
        rows: [Some(1), None, None, None, None, None, None, None],
        ..small_user.clone()
    };
    PackDraft {
        edition,
        rows: full_rows(),
        points: vec![small_user, large_user, resident],
        outward: b"AB1 ".to_vec(),
    }
}
