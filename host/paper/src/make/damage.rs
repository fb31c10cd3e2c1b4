use super::records::{Frame, MAIN_FRAMES, POINT_FRAME, TABLE_FRAME};
use super::{exact_pair, exact_set, padded, point_file_of, Follower, Rng, View};
use crate::refusal::Refusal;

/// Where in a file the damage is done.
#[derive(Clone, Copy, Debug, PartialEq, Eq)]
pub enum Place {
    /// The header.
    First,
    Second,
    /// Any record that is none of the others.
    Middle,
    LastButOne,
    /// The trailer.
    Last,
}

impl Place {
    pub const ALL: [Place; 5] = [
        Place::First,
        Place::Second,
        Place::Middle,
        Place::LastButOne,
        Place::Last,
    ];

    /// Where a refusal of a file, 1 to 6, can stand.
    pub fn of(number: u8) -> &'static [Place] {
        match number {
            1 | 2 => &[Place::First],
            3 => &[Place::Last],
            5 => &[Place::Middle, Place::LastButOne],
            _ => &[Place::Second, Place::Middle, Place::LastButOne],
        }
    }

    /// The number of the record, in a file of so many records.
    fn record(self, rng: &mut Rng, records: usize) -> usize {
        match self {
            Place::First => 1,
            Place::Second => 2,
            Place::Middle => 3 + rng.below(records.saturating_sub(4)),
            Place::LastButOne => records - 1,
            Place::Last => records,
        }
    }
}

/// A damaged file and the refusal that it has to give.
#[derive(Clone, Debug)]
pub struct Damaged {
    pub file: Vec<u8>,
    pub refusal: Refusal,
}

/// A change to a well formed record and the byte of the record (1 is the first)
/// at which its first fault then stands.
#[derive(Clone, Debug)]
pub struct Break {
    /// Where the bytes are written, counted from 0.
    pub at: usize,
    pub bytes: Vec<u8>,
    pub fault: usize,
}

impl Break {
    fn new(at: usize, bytes: &[u8], fault: usize) -> Break {
        Break {
            at,
            bytes: bytes.to_vec(),
            fault,
        }
    }

    /// Does the change.
    pub fn apply(&self, record: &mut [u8]) {
        for (byte, new) in record.iter_mut().skip(self.at).zip(&self.bytes) {
            *byte = *new;
        }
    }
}

/// Changes that make a table record of a type (1 to 5) malformed, in every
/// field that is read.
pub fn table_breaks(row_type: u8) -> Vec<Break> {
    let (start, width) = match row_type {
        1 => (69, 30),
        2 => (24, 60),
        3 => (24, 20),
        4 => (24, 50),
        _ => (24, 30),
    };
    let mut breaks = table_front_breaks();
    breaks.extend(filled_breaks(start, width));
    if row_type == 1 {
        breaks.extend(dependent_breaks(99));
    }
    breaks
}

/// Changes in front of a table record's texts.
fn table_front_breaks() -> Vec<Break> {
    let mut breaks = one_byte_breaks(0, b"06A");
    breaks.extend(key_breaks(1, 8));
    breaks.extend([
        Break::new(9, b"-", 10),
        Break::new(16, b" ", 17),
        Break::new(17, b":", 18),
        Break::new(22, b"/", 23),
    ]);
    breaks.extend(one_byte_breaks(23, b"Ai\0"));
    breaks
}

/// Changes of a table key.
fn key_breaks(start: usize, width: usize) -> Vec<Break> {
    vec![
        Break::new(start, &vec![b'0'; width], start + 1),
        Break::new(start, b" ", start + 1),
        Break::new(start + width - 1, b"X", start + width),
    ]
}

/// Changes of a field of one byte into each of these.
fn one_byte_breaks(at: usize, bytes: &[u8]) -> Vec<Break> {
    let breaks = bytes.iter().map(|byte| Break::new(at, &[*byte], at + 1));
    breaks.collect()
}

/// Changes in a locality's dependent locality and in the double dependent one
/// behind it, also together.
fn dependent_breaks(start: usize) -> Vec<Break> {
    let mut breaks = text_breaks(start, 35);
    let double_start = start + 35;
    let together = [
        ("", "X", 1),
        ("", "XYz", 1),
        ("X", "XYz", 3),
        ("X", " Y", 1),
    ];
    breaks.extend(together.map(|(dependent, double, fault)| {
        let bytes = [padded(dependent, 35), padded(double, 35)].concat();
        Break::new(start, &bytes, double_start + fault)
    }));
    breaks
}

/// Changes that make a text malformed that may not be blank.
fn filled_breaks(start: usize, width: usize) -> Vec<Break> {
    let mut breaks = vec![Break::new(start, &padded("", width), start + 1)];
    breaks.extend(text_breaks(start, width));
    breaks
}

/// Changes that make a text malformed, whether or not it may be blank.
fn text_breaks(start: usize, width: usize) -> Vec<Break> {
    let end = start + width;
    let full = vec![b'A'; width];
    let with_last = |byte: u8| [&full[1..], &[byte]].concat();
    vec![
        Break::new(start, &padded(" A", width), start + 1),
        Break::new(start, &padded("aA", width), start + 1),
        Break::new(start, &padded("A\u{1f}", width), start + 2),
        Break::new(start, &padded("A \u{7f}", width), start + 3),
        Break::new(start, &with_last(128), end),
        Break::new(start, &with_last(255), end),
        Break::new(start, &with_last(b'z'), end),
        Break::new(start, &with_last(0), end),
    ]
}

/// Changes that make a point record of a type (1 to 3) malformed, in every
/// field that is read.
pub fn point_breaks(record_type: u8) -> Vec<Break> {
    let mut breaks = front_breaks();
    match record_type {
        1 => breaks.extend(view_breaks()),
        2 => {
            breaks.extend(filled_breaks(42, 60));
            breaks.extend(text_breaks(102, 60));
        }
        _ => {
            breaks.extend(text_breaks(42, 60));
            breaks.extend(text_breaks(102, 60));
        }
    }
    breaks
}

/// Changes in the first 42 bytes of a point record.
fn front_breaks() -> Vec<Break> {
    [
        digit_breaks(0, 8),
        digit_breaks(8, 6),
        postcode_breaks(14),
        suffix_breaks(21),
        one_byte_breaks(23, b"X "),
        digit_breaks(24, 8),
        digit_breaks(32, 8),
        one_byte_breaks(40, b" A"),
        one_byte_breaks(41, b"04"),
    ]
    .concat()
}

/// Changes of an outward code and the inward code behind it.
fn postcode_breaks(start: usize) -> Vec<Break> {
    let codes: [(&[u8], usize); 9] = [
        (b"QA1 ", 1),
        (b"AI1 ", 2),
        (b"W1Z ", 3),
        (b"EC1L", 4),
        (b"1AB ", 1),
        (b"ABC ", 1),
        (b" AB1", 1),
        (b"ab1 ", 1),
        (b"A1 A", 1),
    ];
    let mut breaks: Vec<Break> = codes
        .map(|(code, fault)| Break::new(start, code, start + fault))
        .to_vec();
    breaks.extend(one_byte_breaks(start + 4, b"A"));
    breaks.extend(one_byte_breaks(start + 5, b"C"));
    breaks.extend(one_byte_breaks(start + 6, b"V1"));
    breaks
}

fn suffix_breaks(start: usize) -> Vec<Break> {
    let mut breaks = one_byte_breaks(start, b"A");
    breaks.extend(one_byte_breaks(start + 1, b"1a"));
    breaks
}

/// Changes in what a view has behind its first 42 bytes.
fn view_breaks() -> Vec<Break> {
    let digits = [
        (42, 8),
        (50, 8),
        (58, 8),
        (66, 8),
        (74, 8),
        (82, 4),
        (86, 8),
        (94, 8),
        (102, 4),
        (114, 2),
    ];
    let mut breaks = all_digit_breaks(&digits);
    breaks.extend(text_breaks(107, 6));
    breaks.extend(one_byte_breaks(106, b"Ny"));
    breaks.extend(one_byte_breaks(113, b"N\0"));
    breaks
}

/// Changes of numeric fields, given as start and width.
fn all_digit_breaks(fields: &[(usize, usize)]) -> Vec<Break> {
    let breaks = fields
        .iter()
        .map(|(start, width)| digit_breaks(*start, *width));
    breaks.collect::<Vec<_>>().concat()
}

/// Changes that make a record of a Mainfile set's file (1 to 7) malformed, in
/// every field that is read.
pub fn main_breaks(file: u8, record: &[u8]) -> Vec<Break> {
    match file {
        1 => [
            key_breaks(0, 6),
            filled_breaks(51, 30),
            dependent_breaks(81),
        ]
        .concat(),
        2 => [key_breaks(0, 8), filled_breaks(8, 60)].concat(),
        3 => [key_breaks(0, 4), filled_breaks(4, 20)].concat(),
        4 => [key_breaks(0, 8), filled_breaks(8, 50)].concat(),
        5 => [key_breaks(0, 8), filled_breaks(8, 30)].concat(),
        6 => organisation_breaks(record[8] == b'S'),
        _ => address_breaks(),
    }
}

/// Changes of an organisation row: a small user's needs a name.
fn organisation_breaks(small: bool) -> Vec<Break> {
    let name = if small {
        filled_breaks(9, 60)
    } else {
        text_breaks(9, 60)
    };
    [
        key_breaks(0, 8),
        one_byte_breaks(8, b"X s\0"),
        name,
        text_breaks(69, 60),
    ]
    .concat()
}

fn address_breaks() -> Vec<Break> {
    let digits = [
        (7, 8),
        (15, 6),
        (21, 8),
        (29, 4),
        (33, 8),
        (41, 4),
        (45, 4),
        (49, 8),
        (57, 8),
        (65, 4),
        (69, 8),
    ];
    [
        postcode_breaks(0),
        all_digit_breaks(&digits),
        one_byte_breaks(77, b"X s"),
        one_byte_breaks(78, b"Ny"),
        suffix_breaks(79),
        one_byte_breaks(81, b"N\0"),
        text_breaks(82, 6),
    ]
    .concat()
}

fn digit_breaks(start: usize, width: usize) -> Vec<Break> {
    vec![
        Break::new(start, b" ", start + 1),
        Break::new(start, b":", start + 1),
        Break::new(start + width - 1, b"A", start + width),
    ]
}

/// A table file that has to give this refusal (1 to 5) at that place; none
/// where the refusal can't stand there. Refusals 1 and 2 stand at the first
/// record, 3 at the last.
pub fn damaged_table(rng: &mut Rng, number: u8, place: Place) -> Option<Damaged> {
    let size = 7 + rng.below(20);
    let rows = exact_pair(rng, size, 2).rows;
    let records = rows.iter().map(|row| row.record()).collect();
    Kind::Table.damaged(rng, records, number, place)
}

/// The file of a Mainfile set (1 to 7) that has to give this refusal (1 to 5) at
/// that place; none where the refusal can't stand there.
pub fn damaged_main(rng: &mut Rng, file: u8, number: u8, place: Place) -> Option<Damaged> {
    let kind = Kind::Main(file);
    let size = 7 + rng.below(20);
    let made = &exact_set(rng, size).files[usize::from(file) - 1];
    let records = made.chunks(kind.frame().record).map(<[u8]>::to_vec);
    let records = records.skip(1).take(size - 2).collect();
    kind.damaged(rng, records, number, place)
}

/// A kind of file whose records stand each for itself.
#[derive(Clone, Copy)]
enum Kind {
    Table,
    /// A file of a Mainfile set, 1 to 7.
    Main(u8),
}

impl Kind {
    fn frame(self) -> &'static Frame {
        match self {
            Kind::Table => &TABLE_FRAME,
            Kind::Main(file) => &MAIN_FRAMES[usize::from(file) - 1],
        }
    }

    fn breaks(self, record: &[u8]) -> Vec<Break> {
        match self {
            Kind::Table => table_breaks(record[0] - b'0'),
            Kind::Main(file) => main_breaks(file, record),
        }
    }

    /// A record that is not above the last of these.
    fn not_above(self, rng: &mut Rng, before: &[Vec<u8>]) -> Vec<u8> {
        match self {
            Kind::Table => not_above(rng, before),
            Kind::Main(file) => not_above_in_main(rng, file, before),
        }
    }

    /// The file of these records with the damage of that refusal at that place.
    fn damaged(
        self,
        rng: &mut Rng,
        mut records: Vec<Vec<u8>>,
        number: u8,
        place: Place,
    ) -> Option<Damaged> {
        let frame = self.frame();
        let at = place.record(rng, records.len() + 2);
        let refusal = match (number, place) {
            (1..=3, _) => return damaged_frame(rng, frame, &records, number, place),
            (4 | 5, Place::First | Place::Last) | (5, Place::Second) => return None,
            (4, _) => {
                let breaks = self.breaks(&records[at - 2]);
                Refusal::malformed(frame.file, at, broken(rng, &mut records[at - 2], &breaks))
            }
            (5, _) => {
                records[at - 2] = self.not_above(rng, &records[..at - 2]);
                Refusal::of_file(frame.file, 5, at as u64)
            }
            _ => return None,
        };
        Some(Damaged {
            file: frame.around(&records),
            refusal,
        })
    }
}

/// A table record that is not above the last of these: one of them, or the last
/// in other words with the same first 24 bytes or a lower letter.
fn not_above(rng: &mut Rng, before: &[Vec<u8>]) -> Vec<u8> {
    let mut record = before[before.len() - 1].clone();
    let text = if record[0] == b'1' { 69 } else { 24 };
    match rng.below(3) {
        0 => return rng.pick(before).clone(),
        1 => record[text] = b'X',
        _ => record[23] = b' ',
    }
    record
}

/// A record of a Mainfile set's file that is not above the last of these: one of
/// them, or the last in other words with the same keys, or with a lower one.
fn not_above_in_main(rng: &mut Rng, file: u8, before: &[Vec<u8>]) -> Vec<u8> {
    let mut record = before[before.len() - 1].clone();
    let key = match file {
        1 => 0..6,
        3 => 0..4,
        7 => 7..15,
        _ => 0..8,
    };
    match rng.below(3) {
        0 => return rng.pick(before).clone(),
        1 if file == 7 => record[77] ^= b'S' ^ b'L',
        1 => record[[51, 8, 4, 8, 8, 9][usize::from(file) - 1]] = b'X',
        _ => {
            record[key.clone()].fill(b'0');
            record[key.end - 1] = b'1';
        }
    }
    record
}

/// A point file that has to give this refusal (1 to 6) at that place; none
/// where the refusal can't stand there.
pub fn damaged_points(rng: &mut Rng, number: u8, place: Place) -> Option<Damaged> {
    let size = 14 + rng.below(20);
    let views = exact_pair(rng, 20, size).views;
    match (number, place) {
        (1..=3, _) => damaged_frame(rng, &POINT_FRAME, &records_of(&views), number, place),
        (_, Place::First | Place::Last) | (5, Place::Second) => None,
        (4, _) => Some(malformed_point(rng, &views, place)),
        (5, _) => Some(misplaced_view(rng, views, place)),
        (6, _) if rng.one_in(2) => Some(lacking_view(rng, views, place)),
        (6, _) => Some(stray_follower(rng, views, place)),
        _ => None,
    }
}

/// Refusals 1 to 3 of a file with these records.
fn damaged_frame(
    rng: &mut Rng,
    frame: &Frame,
    records: &[Vec<u8>],
    number: u8,
    place: Place,
) -> Option<Damaged> {
    let mut file = frame.around(records);
    let count = records.len() + 2;
    let detail = match (number, place) {
        (1, Place::First) => {
            damage_length(rng, frame, &mut file);
            0
        }
        (2, Place::First) => {
            damage_header(rng, frame, &mut file[..frame.record]);
            1
        }
        (3, Place::Last) => {
            let start = file.len() - frame.record;
            damage_trailer(rng, frame, &mut file[start..], count);
            count
        }
        _ => return None,
    };
    Some(Damaged {
        file,
        refusal: Refusal::of_file(frame.file, number, detail as u64),
    })
}

/// A length that isn't 2 whole records up to the most. Too many of a Mainfile
/// set are rare, since they take 100 megabytes.
fn damage_length(rng: &mut Rng, frame: &Frame, file: &mut Vec<u8>) {
    let (width, most) = (frame.record, frame.most_records);
    let kinds = if most > 20_000 && !rng.one_in(40) {
        6
    } else {
        8
    };
    let length = match rng.below(kinds) {
        0 => 0,
        1 => width,
        2 => file.len() + 1,
        3 => file.len() - 1 - rng.below(width - 1),
        4 => 2 * width - 1,
        5 => rng.below(width),
        6 => (most + 1) * width,
        _ => most * width + 1,
    };
    file.resize(length, b' ');
}

/// An identifier that is neither all zero nor all spaces, digits that aren't all
/// 0, or another name.
fn damage_header(rng: &mut Rng, frame: &Frame, header: &mut [u8]) {
    let name = frame.front();
    match rng.below(4) {
        0 => damage_front(rng, frame, header),
        1 => header[..name].fill(255),
        2 => {
            let at = name + rng.below(8);
            header[at] = match *rng.pick(b"X0c \0") {
                same if same == header[at] => b'X',
                other => other,
            };
        }
        _ => header[name + 7] = *rng.pick(b"034"),
    }
}

/// Some bytes of an identifier, or a digit behind it; or all digits, as if the
/// file had no such digits.
fn damage_front(rng: &mut Rng, frame: &Frame, record: &mut [u8]) {
    let digits = frame.identifier..frame.front();
    match rng.below(3) {
        0 if frame.identifier > 0 => space_partly(rng, &mut record[..frame.identifier]),
        1 if frame.digits > 0 => record[digits].fill(*rng.pick(b" \0\xff1")),
        _ if frame.digits > 0 => {
            record[digits.start + rng.below(frame.digits)] = *rng.pick(b" \x00A18");
        }
        _ => space_partly(rng, &mut record[..frame.identifier]),
    }
}

/// Spaces in one byte of an identifier, or in all but one, or up to a place.
fn space_partly(rng: &mut Rng, identifier: &mut [u8]) {
    let at = rng.below(identifier.len());
    match rng.below(3) {
        0 => identifier[at] = b' ',
        1 => identifier[..at.max(1)].fill(b' '),
        _ => {
            let kept = identifier[at];
            identifier.fill(b' ');
            identifier[at] = kept;
        }
    }
}

/// An identifier that is neither all 255 nor all spaces, digits that aren't all
/// 9, or a wrong count; one of these would be right if a byte above the digits
/// counted as a digit.
fn damage_trailer(rng: &mut Rng, frame: &Frame, trailer: &mut [u8], records: usize) {
    let last = char::from(b'0' + records.clamp(10, 70) as u8);
    let count = match rng.below(7) {
        0 => return damage_front(rng, frame, trailer),
        1 => return trailer[..frame.front()].fill(0),
        2 => format!("{:08}", records + 1),
        3 => format!("{:08}", records - 2),
        4 => format!("{records:8}"),
        5 => format!("0000000{last}"),
        _ => format!("{records:07} "),
    };
    trailer[frame.front()..][..8].copy_from_slice(count.as_bytes());
}

fn records_of(views: &[View]) -> Vec<Vec<u8>> {
    views.iter().flat_map(View::records).collect()
}

/// The number of the record with which a view begins.
fn record_number(views: &[View], index: usize) -> usize {
    2 + records_of(&views[..index]).len()
}

fn damaged_at(records: &[Vec<u8>], number: u8, at: usize) -> Damaged {
    Damaged {
        file: point_file_of(records),
        refusal: Refusal::of_file(2, number, at as u64),
    }
}

/// Refusal 4. The first 42 bytes of a follower are left as they are: they would
/// be its owner's refusal 6.
fn malformed_point(rng: &mut Rng, views: &[View], place: Place) -> Damaged {
    let mut records = records_of(views);
    let at = place.record(rng, records.len() + 2);
    let record = &mut records[at - 2];
    let record_type = record[41] - b'0';
    let mut breaks = point_breaks(record_type);
    if record_type != 1 {
        breaks.retain(|change| change.at >= 42);
    }
    let byte = broken(rng, record, &breaks);
    Damaged {
        file: point_file_of(&records),
        refusal: Refusal::malformed(2, at, byte),
    }
}

/// Does one of the changes: the byte at which the first fault then stands.
fn broken(rng: &mut Rng, record: &mut [u8], breaks: &[Break]) -> usize {
    let change = rng.pick(breaks);
    change.apply(record);
    change.fault
}

/// The index of the view that stands at a place, counted in views.
fn view_index(rng: &mut Rng, views: &[View], place: Place) -> usize {
    match place {
        Place::Second => 0,
        Place::Middle => 1 + rng.below(views.len() - 2),
        _ => views.len() - 1,
    }
}

/// Refusal 5: a view with an older date than the one before, or the same view
/// twice.
fn misplaced_view(rng: &mut Rng, mut views: Vec<View>, place: Place) -> Damaged {
    let index = view_index(rng, &views, place);
    if rng.one_in(2) {
        views[index - 1] = alone(&views[index - 1]);
        views[index] = views[index - 1].clone();
    } else {
        views[index].date = 19_900_101;
        if place == Place::LastButOne {
            views[index] = alone(&views[index]);
        }
    }
    let at = record_number(&views, index);
    damaged_at(&records_of(&views), 5, at)
}

/// A view as a small user without organisation.
fn alone(view: &View) -> View {
    View {
        postcode_type: b'S',
        organisation_key: 0,
        follower: None,
        ..view.clone()
    }
}

/// A view with the follower that it needs; it stays above the view before.
fn followed(view: &View) -> View {
    if view.postcode_type == b'L' {
        view.clone().large_user("", "STORES")
    } else {
        view.clone().small_user(7, "LEDA", "STORES")
    }
}

/// Refusal 6: a view that lacks its follower. The record in its place is the
/// next view or the trailer, or a follower of the other type, or one that
/// differs from its owner in the first 41 bytes.
fn lacking_view(rng: &mut Rng, mut views: Vec<View>, place: Place) -> Damaged {
    let index = view_index(rng, &views, place);
    views[index] = followed(&views[index]);
    let at = record_number(&views, index);
    let mut records = records_of(&views);
    let follower = &mut records[at - 1];
    match rng.below(4) {
        0 if place != Place::LastButOne => follower[41] ^= 1,
        1 if place != Place::LastButOne => {
            let different = rng.below(41);
            follower[different] ^= 1;
        }
        _ => {
            records.remove(at - 1);
        }
    }
    damaged_at(&records, 6, at)
}

/// Refusal 6: a type 2 or 3 record behind a view that has none, behind another
/// follower, or behind the header.
fn stray_follower(rng: &mut Rng, mut views: Vec<View>, place: Place) -> Damaged {
    let index = view_index(rng, &views, place);
    views[index] = if rng.one_in(2) {
        alone(&views[index])
    } else {
        views[index].clone().small_user(7, "LEDA", "")
    };
    let stray = View {
        follower: Some(Follower {
            record_type: 3,
            organisation: "STRAY".to_string(),
            department: String::new(),
        }),
        ..views[index].clone()
    };
    let stray = stray.records().pop().unwrap_or_default();
    let before = if place == Place::Second {
        0
    } else {
        views[index].records().len()
    };
    let at = record_number(&views, index) + before;
    let mut records = records_of(&views);
    records.insert(at - 2, stray);
    damaged_at(&records, 6, at)
}

/// Damages a few bytes of anything; sometimes cuts or lengthens it.
pub fn scratch(rng: &mut Rng, bytes: &mut Vec<u8>) {
    for _ in 0..1 + rng.below(3) {
        if bytes.is_empty() {
            return;
        }
        let at = rng.below(bytes.len());
        bytes[at] = match rng.below(4) {
            0 => *rng.pick(b" 0129AISLYa\0\x01\x06\xff"),
            1 => bytes[at] ^ (1 << rng.below(8)),
            2 => bytes[rng.below(bytes.len())],
            _ => rng.byte(),
        };
    }
    if rng.one_in(20) {
        let length = rng.below(bytes.len() + 10);
        bytes.resize(length, b' ');
    }
}
