use super::Rng;

/// A row of the table file.
#[derive(Clone, Debug, PartialEq, Eq)]
pub struct TableRow {
    /// 1 locality, 2 thoroughfare, 3 descriptor, 4 building, 5 sub building.
    pub row_type: u8,
    pub key: u32,
    pub date: u32,
    pub time: u32,
    pub letter: u8,
    /// Three for a locality (town, dependent, double dependent), else one.
    pub texts: Vec<String>,
}

impl TableRow {
    fn new(row_type: u8, key: u32, texts: &[&str]) -> TableRow {
        TableRow {
            row_type,
            key,
            date: 0,
            time: 0,
            letter: b' ',
            texts: texts.iter().map(|text| text.to_string()).collect(),
        }
    }

    pub fn locality(key: u32, town: &str, dependent: &str, double_dependent: &str) -> TableRow {
        TableRow::new(1, key, &[town, dependent, double_dependent])
    }

    pub fn thoroughfare(key: u32, name: &str) -> TableRow {
        TableRow::new(2, key, &[name])
    }

    pub fn descriptor(key: u32, text: &str) -> TableRow {
        TableRow::new(3, key, &[text])
    }

    pub fn building(key: u32, text: &str) -> TableRow {
        TableRow::new(4, key, &[text])
    }

    pub fn sub_building(key: u32, text: &str) -> TableRow {
        TableRow::new(5, key, &[text])
    }

    /// What the sequence of a table file is over: type, key, date, time, letter.
    pub fn sequence(&self) -> (u8, u32, u32, u32, u8) {
        (self.row_type, self.key, self.date, self.time, self.letter)
    }

    /// Whether the row is in force where it is the last for its key.
    pub fn is_in_force(&self) -> bool {
        self.letter != b'B' && self.letter != b'D'
    }

    /// The record, 169 bytes.
    pub fn record(&self) -> Vec<u8> {
        let mut record = Record::default();
        record.number(u32::from(self.row_type), 1);
        record.number(self.key, 8);
        record.number(self.date, 8);
        record.number(self.time, 6);
        record.bytes(&[self.letter]);
        self.put_texts(&mut record);
        record.filled_to(169)
    }

    /// The record in a Mainfile set's file of this type.
    pub fn main_record(&self) -> Vec<u8> {
        let mut record = Record::default();
        record.number(self.key, key_width(self.row_type));
        self.put_texts(&mut record);
        record.filled_to(MAIN_FRAMES[usize::from(self.row_type) - 1].record)
    }

    /// The texts, a locality's behind its filler.
    fn put_texts(&self, record: &mut Record) {
        let widths: &[usize] = match self.row_type {
            1 => &[30, 35, 35],
            2 => &[60],
            3 => &[20],
            4 => &[50],
            _ => &[30],
        };
        if self.row_type == 1 {
            record.text("", 45);
        }
        for (text, width) in self.texts.iter().zip(widths) {
            record.text(text, *width);
        }
    }
}

/// How many digits the key of a row has in a Mainfile set.
fn key_width(row_type: u8) -> usize {
    match row_type {
        1 => 6,
        3 => 4,
        _ => 8,
    }
}

/// The highest key of a row in a Mainfile set.
pub fn highest_main_key(row_type: u8) -> u32 {
    10_u32.pow(key_width(row_type) as u32) - 1
}

/// A row of a Mainfile set's organisation file.
#[derive(Clone, Debug, PartialEq, Eq)]
pub struct Organisation {
    /// S small user, L large user.
    pub postcode_type: u8,
    pub key: u32,
    pub name: String,
    pub department: String,
}

impl Organisation {
    pub fn new(postcode_type: u8, key: u32, name: &str, department: &str) -> Organisation {
        Organisation {
            postcode_type,
            key,
            name: name.to_string(),
            department: department.to_string(),
        }
    }

    /// The record, 153 bytes.
    pub fn record(&self) -> Vec<u8> {
        let mut record = Record::default();
        record.number(self.key, 8);
        record.bytes(&[self.postcode_type]);
        record.text(&self.name, 60);
        record.text(&self.department, 60);
        record.filled_to(153)
    }
}

/// The organisation record that follows a view.
#[derive(Clone, Debug, PartialEq, Eq)]
pub struct Follower {
    /// 2 small user, 3 large user.
    pub record_type: u8,
    pub organisation: String,
    pub department: String,
}

/// A view of the point file, with its follower.
#[derive(Clone, Debug, PartialEq, Eq)]
pub struct View {
    pub date: u32,
    pub time: u32,
    pub outward: String,
    pub inward: String,
    pub suffix: String,
    pub postcode_type: u8,
    pub address_key: u32,
    pub organisation_key: u32,
    pub letter: u8,
    pub locality: u32,
    pub thoroughfare: u32,
    pub descriptor: u32,
    pub dependent_thoroughfare: u32,
    pub dependent_descriptor: u32,
    pub building_number: u32,
    pub building: u32,
    pub sub_building: u32,
    pub households: u32,
    pub concatenation: u8,
    pub po_box: String,
    pub indicator: u8,
    pub reason: u32,
    pub new_postcode: String,
    pub follower: Option<Follower>,
}

impl Default for View {
    /// An inserted small user at AB1 9ZZ without organisation, all keys but
    /// the address key zero.
    fn default() -> View {
        View {
            date: 20_110_901,
            time: 101_501,
            outward: "AB1".to_string(),
            inward: "9ZZ".to_string(),
            suffix: "1A".to_string(),
            postcode_type: b'S',
            address_key: 1,
            organisation_key: 0,
            letter: b'I',
            locality: 0,
            thoroughfare: 0,
            descriptor: 0,
            dependent_thoroughfare: 0,
            dependent_descriptor: 0,
            building_number: 0,
            building: 0,
            sub_building: 0,
            households: 1,
            concatenation: b' ',
            po_box: String::new(),
            indicator: b' ',
            reason: 1,
            new_postcode: String::new(),
            follower: None,
        }
    }
}

impl View {
    /// The view as a small user with an organisation.
    pub fn small_user(self, key: u32, organisation: &str, department: &str) -> View {
        View {
            postcode_type: b'S',
            organisation_key: key,
            indicator: b'Y',
            ..self.with_follower(2, organisation, department)
        }
    }

    /// The view as a large user.
    pub fn large_user(self, organisation: &str, department: &str) -> View {
        View {
            postcode_type: b'L',
            ..self.with_follower(3, organisation, department)
        }
    }

    fn with_follower(self, record_type: u8, organisation: &str, department: &str) -> View {
        View {
            follower: Some(Follower {
                record_type,
                organisation: organisation.to_string(),
                department: department.to_string(),
            }),
            ..self
        }
    }

    /// The seven keys in offset order.
    pub fn keys(&self) -> [u32; 7] {
        [
            self.locality,
            self.thoroughfare,
            self.descriptor,
            self.dependent_thoroughfare,
            self.dependent_descriptor,
            self.building,
            self.sub_building,
        ]
    }

    /// Whether the view is live.
    pub fn is_live(&self) -> bool {
        self.letter == b'I' || self.letter == b'C'
    }

    /// The 42 bytes with which the view's record, or its follower's, begins.
    fn front(&self, record_type: u8) -> Record {
        let mut record = Record::default();
        record.number(self.date, 8);
        record.number(self.time, 6);
        record.text(&self.outward, 4);
        record.text(&self.inward, 3);
        record.text(&self.suffix, 2);
        record.bytes(&[self.postcode_type]);
        record.number(self.address_key, 8);
        record.number(self.organisation_key, 8);
        record.bytes(&[self.letter]);
        record.number(u32::from(record_type), 1);
        record
    }

    /// The type 1 record, 168 bytes.
    pub fn record(&self) -> Vec<u8> {
        let mut record = self.front(1);
        record.number(self.locality, 8);
        record.number(self.thoroughfare, 8);
        record.number(self.descriptor, 8);
        record.number(self.dependent_thoroughfare, 8);
        record.number(self.dependent_descriptor, 8);
        record.number(self.building_number, 4);
        record.number(self.building, 8);
        record.number(self.sub_building, 8);
        record.number(self.households, 4);
        record.bytes(&[self.concatenation]);
        record.text(&self.po_box, 6);
        record.bytes(&[self.indicator]);
        record.number(self.reason, 2);
        record.text(&self.new_postcode, 7);
        record.filled_to(168)
    }

    /// The record in a Mainfile set's address file, 88 bytes.
    pub fn address_record(&self) -> Vec<u8> {
        let mut record = Record::default();
        record.text(&self.outward, 4);
        record.text(&self.inward, 3);
        record.number(self.address_key, 8);
        record.number(self.locality, 6);
        record.number(self.thoroughfare, 8);
        record.number(self.descriptor, 4);
        record.number(self.dependent_thoroughfare, 8);
        record.number(self.dependent_descriptor, 4);
        record.number(self.building_number, 4);
        record.number(self.building, 8);
        record.number(self.sub_building, 8);
        record.number(self.households, 4);
        record.number(self.organisation_key, 8);
        record.bytes(&[self.postcode_type, self.concatenation]);
        record.text(&self.suffix, 2);
        record.bytes(&[self.indicator]);
        record.text(&self.po_box, 6);
        record.filled_to(88)
    }

    /// The view's record and its follower's.
    pub fn records(&self) -> Vec<Vec<u8>> {
        let mut records = vec![self.record()];
        if let Some(follower) = &self.follower {
            let mut record = self.front(follower.record_type);
            record.text(&follower.organisation, 60);
            record.text(&follower.department, 60);
            records.push(record.filled_to(168));
        }
        records
    }
}

/// A table file of these rows, in the order given.
pub fn table_file(rows: &[TableRow]) -> Vec<u8> {
    let records: Vec<Vec<u8>> = rows.iter().map(TableRow::record).collect();
    table_file_of(&records)
}

/// A point file of these views and their followers, in the order given.
pub fn point_file(views: &[View]) -> Vec<u8> {
    let records: Vec<Vec<u8>> = views.iter().flat_map(View::records).collect();
    point_file_of(&records)
}

/// A table file of these records between a header and a trailer.
pub fn table_file_of(records: &[Vec<u8>]) -> Vec<u8> {
    TABLE_FRAME.around(records)
}

/// A point file of these records between a header and a trailer.
pub fn point_file_of(records: &[Vec<u8>]) -> Vec<u8> {
    POINT_FRAME.around(records)
}

/// The file of a Mainfile set (1 to 7) that has these records between a header
/// and a trailer.
pub fn main_file_of(file: u8, records: &[Vec<u8>]) -> Vec<u8> {
    MAIN_FRAMES[usize::from(file) - 1].around(records)
}

/// How a file is laid out around its records.
pub(super) struct Frame {
    /// The file's number in a refusal.
    pub file: u8,
    pub record: usize,
    pub most_records: usize,
    /// How many zero bytes a header begins with, and a trailer bytes 255.
    pub identifier: usize,
    /// How many digits stand behind these: 0 in a header, 9 in a trailer.
    pub digits: usize,
    pub name: &'static str,
}

pub(super) static TABLE_FRAME: Frame = Frame {
    file: 1,
    record: 169,
    most_records: 20_000,
    identifier: 9,
    digits: 0,
    name: "CHANGES1",
};

pub(super) static POINT_FRAME: Frame = Frame {
    file: 2,
    record: 168,
    most_records: 20_000,
    identifier: 14,
    digits: 0,
    name: "CHANGES2",
};

/// The files of a Mainfile set.
pub(super) static MAIN_FRAMES: [Frame; 7] = [
    Frame::main(1, 151, 0, "LOCALITY"),
    Frame::main(2, 68, 0, "THOROUGH"),
    Frame::main(3, 30, 0, "THDESCRI"),
    Frame::main(4, 58, 0, "BUILDING"),
    Frame::main(5, 38, 0, "SUBBUILD"),
    Frame::main(6, 153, 0, "ORGANISA"),
    Frame::main(7, 88, 7, "ADDRESS "),
];

impl Frame {
    const fn main(file: u8, record: usize, identifier: usize, name: &'static str) -> Frame {
        Frame {
            file,
            record,
            most_records: 1_000_000,
            identifier,
            digits: 8,
            name,
        }
    }

    /// Where the name or the count stands.
    pub fn front(&self) -> usize {
        self.identifier + self.digits
    }

    /// A file of these records between a header and a trailer.
    pub fn around(&self, records: &[Vec<u8>]) -> Vec<u8> {
        let mut header = Record::default();
        header.bytes(&vec![0; self.identifier]);
        header.bytes(&vec![b'0'; self.digits]);
        header.text(self.name, 8);
        header.text("Y11M09", 6);
        let mut trailer = Record::default();
        trailer.bytes(&vec![255; self.identifier]);
        trailer.bytes(&vec![b'9'; self.digits]);
        trailer.number(records.len() as u32 + 2, 8);
        let mut file = header.filled_to(self.record);
        file.extend(records.concat());
        file.extend(trailer.filled_to(self.record));
        file
    }

    /// Puts spaces into the identifiers of some ends of a file.
    fn space(&self, file: &mut [u8], ends: &[End]) {
        for end in ends {
            let start = match end {
                End::Header => 0,
                End::Trailer => file.len() - self.record,
            };
            file[start..][..self.identifier].fill(b' ');
        }
    }
}

/// The first record of a file, or the last.
#[derive(Clone, Copy, Debug, PartialEq, Eq)]
pub enum End {
    Header,
    Trailer,
}

impl End {
    /// Every choice of ends that has one of them.
    pub const CHOICES: [&[End]; 3] = [
        &[End::Header],
        &[End::Trailer],
        &[End::Header, End::Trailer],
    ];

    /// One of these choices.
    pub fn chosen(rng: &mut Rng) -> &'static [End] {
        rng.pick::<&[End]>(&End::CHOICES)
    }
}

/// Puts spaces into the identifiers of some ends of a table file, as files that
/// somebody edited have them.
pub fn space_table(file: &mut [u8], ends: &[End]) {
    TABLE_FRAME.space(file, ends);
}

/// The same for a point file.
pub fn space_points(file: &mut [u8], ends: &[End]) {
    POINT_FRAME.space(file, ends);
}

/// A text in a field of that width: padded with spaces, or cut.
pub fn padded(text: &str, width: usize) -> Vec<u8> {
    let mut field = text.as_bytes().to_vec();
    field.resize(width, b' ');
    field
}

/// A record that is written field by field.
#[derive(Default)]
struct Record(Vec<u8>);

impl Record {
    fn bytes(&mut self, bytes: &[u8]) {
        self.0.extend(bytes);
    }

    fn text(&mut self, text: &str, width: usize) {
        self.bytes(&padded(text, width));
    }

    /// A number with leading zeros; one with more digits keeps the last ones.
    fn number(&mut self, number: u32, width: usize) {
        let digits = format!("{number:0>width$}");
        self.bytes(&digits.as_bytes()[digits.len() - width..]);
    }

    /// Filler ends each record.
    fn filled_to(mut self, length: usize) -> Vec<u8> {
        self.0.resize(length, b' ');
        self.0
    }
}
