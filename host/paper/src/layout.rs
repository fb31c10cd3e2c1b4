//! Document 01, "Record layouts", and the guide's chapter 5 for a Mainfile set:
//! every width, in one place. A field is given as the range of bytes at which
//! it stands in its record, counted from 0.

use std::ops::Range;

/// Where a field stands in its record.
pub type Field = Range<usize>;

/// A file has at least a header and a trailer.
pub const FEWEST_RECORDS: usize = 2;

/// A table or point file has at most this many records, header and trailer
/// included.
pub const MOST_RECORDS: usize = 20_000;

/// The same for a file of a Mainfile set (document 02, No. 5).
pub const MOST_MAIN_RECORDS: usize = 1_000_000;

/// How many bytes a field has.
pub const fn width(field: &Field) -> usize {
    field.end - field.start
}

/// What is particular to a file: all else about header, trailer and sequence
/// is the same for all.
#[derive(Clone)]
pub struct FileRules {
    /// The file's number in a refusal: 1 table, 2 points; 1 to 7 in a Mainfile
    /// set.
    pub file: u8,
    /// Bytes of a record.
    pub record: usize,
    /// The most records, header and trailer included.
    pub most_records: usize,
    /// In the header zero bytes or spaces, in the trailer bytes 255 or spaces;
    /// no bytes in the files of rows of a Mainfile set.
    pub identifier: Field,
    /// Behind the identifier: digits 0 in the header, 9 in the trailer; no
    /// bytes in a table or point file.
    pub digits: Field,
    /// Behind these, in the header.
    pub file_identifier: Field,
    /// What stands in the file identifier.
    pub name: &'static [u8],
    /// Behind these, in the trailer.
    pub count: Field,
    /// The fields by which each record is above the one before, in the order in
    /// which they count.
    pub sequence: &'static [Field],
}

impl FileRules {
    /// The same for a file of any length, as it is before it is cut into parts.
    pub fn of_any_length(&self) -> FileRules {
        FileRules {
            most_records: usize::MAX,
            ..self.clone()
        }
    }
}

/// The table file, Changes1.
pub static TABLE: FileRules = FileRules {
    file: 1,
    record: 169,
    most_records: MOST_RECORDS,
    identifier: 0..9,
    digits: 9..9,
    file_identifier: 9..17,
    name: b"CHANGES1",
    count: 9..17,
    sequence: &[table::SEQUENCE],
};

/// The point file, Changes2.
pub static POINTS: FileRules = FileRules {
    file: 2,
    record: 168,
    most_records: MOST_RECORDS,
    identifier: 0..14,
    digits: 14..14,
    file_identifier: 14..22,
    name: b"CHANGES2",
    count: 14..22,
    sequence: &[point::SEQUENCE],
};

/// How many files a Mainfile set has.
pub const MAIN_FILES: usize = 7;

/// The files of a Mainfile set in document 02's order: locality, thoroughfare,
/// descriptor, building, sub building, organisation, address.
pub static MAIN: [FileRules; MAIN_FILES] = [
    row_file(1, 151, b"LOCALITY", &[main::LOCALITY_KEY]),
    row_file(2, 68, b"THOROUGH", &[main::KEY]),
    row_file(3, 30, b"THDESCRI", &[main::DESCRIPTOR_KEY]),
    row_file(4, 58, b"BUILDING", &[main::KEY]),
    row_file(5, 38, b"SUBBUILD", &[main::KEY]),
    row_file(6, 153, b"ORGANISA", &[main::ORGANISATION_TYPE, main::KEY]),
    FileRules {
        file: 7,
        record: 88,
        most_records: MOST_MAIN_RECORDS,
        identifier: 0..7,
        digits: 7..15,
        file_identifier: 15..23,
        name: b"ADDRESS ",
        count: 15..23,
        sequence: &[
            address::OUTWARD,
            address::INWARD,
            address::ADDRESS_KEY,
            address::ORGANISATION_KEY,
        ],
    },
];

/// A file of a Mainfile set that has rows: its header and trailer begin with
/// eight digits.
const fn row_file(
    file: u8,
    record: usize,
    name: &'static [u8],
    sequence: &'static [Field],
) -> FileRules {
    FileRules {
        file,
        record,
        most_records: MOST_MAIN_RECORDS,
        identifier: 0..0,
        digits: 0..8,
        file_identifier: 8..16,
        name,
        count: 8..16,
        sequence,
    }
}

/// Where the record of a view has what a label and a pack take from it.
pub struct ViewFields {
    /// The amendment letter; a Mainfile set has none.
    pub letter: Option<Field>,
    pub outward: Field,
    pub inward: Field,
    pub suffix: Field,
    pub postcode_type: Field,
    pub address_key: Field,
    pub organisation_key: Field,
    pub building_number: Field,
    pub concatenation: Field,
    pub po_box: Field,
    pub indicator: Field,
    /// Locality, thoroughfare, descriptor, dependent thoroughfare, its
    /// descriptor, building name, sub building.
    pub keys: [Field; 7],
}

/// The fields of a view of a point file.
pub static POINT_FIELDS: ViewFields = ViewFields {
    letter: Some(point::LETTER),
    outward: point::OUTWARD,
    inward: point::INWARD,
    suffix: point::SUFFIX,
    postcode_type: point::POSTCODE_TYPE,
    address_key: point::ADDRESS_KEY,
    organisation_key: point::ORGANISATION_KEY,
    building_number: point::BUILDING_NUMBER,
    concatenation: point::CONCATENATION,
    po_box: point::PO_BOX,
    indicator: point::INDICATOR,
    keys: [
        point::LOCALITY,
        point::THOROUGHFARE,
        point::DESCRIPTOR,
        point::DEPENDENT_THOROUGHFARE,
        point::DEPENDENT_DESCRIPTOR,
        point::BUILDING_NAME,
        point::SUB_BUILDING_NAME,
    ],
};

/// The fields of a view of a Mainfile set.
pub static ADDRESS_FIELDS: ViewFields = ViewFields {
    letter: None,
    outward: address::OUTWARD,
    inward: address::INWARD,
    suffix: address::SUFFIX,
    postcode_type: address::POSTCODE_TYPE,
    address_key: address::ADDRESS_KEY,
    organisation_key: address::ORGANISATION_KEY,
    building_number: address::BUILDING_NUMBER,
    concatenation: address::CONCATENATION,
    po_box: address::PO_BOX,
    indicator: address::INDICATOR,
    keys: [
        address::LOCALITY,
        address::THOROUGHFARE,
        address::DESCRIPTOR,
        address::DEPENDENT_THOROUGHFARE,
        address::DEPENDENT_DESCRIPTOR,
        address::BUILDING_NAME,
        address::SUB_BUILDING_NAME,
    ],
};

/// A record of the table file between header and trailer.
pub mod table {
    use super::Field;

    pub const TYPE: Field = 0..1;
    pub const KEY: Field = 1..9;
    pub const DATE: Field = 9..17;
    pub const TIME: Field = 17..23;
    pub const LETTER: Field = 23..24;

    /// What a row stands for: its type and key.
    pub const NAME: Field = 0..9;
    /// What the sequence is over: all of these.
    pub const SEQUENCE: Field = 0..24;

    /// Type 1, locality, behind a filler of 45.
    pub const POST_TOWN: Field = 69..99;
    pub const DEPENDENT_LOCALITY: Field = 99..134;
    pub const DOUBLE_DEPENDENT_LOCALITY: Field = 134..169;

    /// Type 2, thoroughfare.
    pub const THOROUGHFARE: Field = 24..84;
    /// Type 3, descriptor; the abbreviation behind it is not read.
    pub const DESCRIPTOR: Field = 24..44;
    /// Type 4, building name.
    pub const BUILDING_NAME: Field = 24..74;
    /// Type 5, sub building name.
    pub const SUB_BUILDING_NAME: Field = 24..54;
}

/// A record of the point file between header and trailer.
pub mod point {
    use super::Field;

    pub const DATE: Field = 0..8;
    pub const TIME: Field = 8..14;
    pub const OUTWARD: Field = 14..18;
    pub const INWARD: Field = 18..21;
    pub const SUFFIX: Field = 21..23;
    pub const POSTCODE_TYPE: Field = 23..24;
    pub const ADDRESS_KEY: Field = 24..32;
    pub const ORGANISATION_KEY: Field = 32..40;
    pub const LETTER: Field = 40..41;
    pub const TYPE: Field = 41..42;

    /// What a delivery point is known by: postcode type, address key and
    /// organisation key (document 02, No. 10).
    pub const DELIVERY_POINT: Field = 23..40;
    /// The bytes that a follower has from its owner.
    pub const OWNED: Field = 0..41;
    /// What the sequence is over: all of these.
    pub const SEQUENCE: Field = 0..42;

    /// Type 1, a view.
    pub const LOCALITY: Field = 42..50;
    pub const THOROUGHFARE: Field = 50..58;
    pub const DESCRIPTOR: Field = 58..66;
    pub const DEPENDENT_THOROUGHFARE: Field = 66..74;
    pub const DEPENDENT_DESCRIPTOR: Field = 74..82;
    pub const BUILDING_NUMBER: Field = 82..86;
    pub const BUILDING_NAME: Field = 86..94;
    pub const SUB_BUILDING_NAME: Field = 94..102;
    pub const HOUSEHOLDS: Field = 102..106;
    pub const CONCATENATION: Field = 106..107;
    pub const PO_BOX: Field = 107..113;
    pub const INDICATOR: Field = 113..114;
    pub const REASON: Field = 114..116;

    /// Types 2 and 3, a follower.
    pub const ORGANISATION: Field = 42..102;
    pub const DEPARTMENT: Field = 102..162;
}

/// A row of a Mainfile set: a record of one of its first six files between
/// header and trailer.
pub mod main {
    use super::Field;

    /// The key of a thoroughfare, building, sub building or organisation.
    pub const KEY: Field = 0..8;

    /// Locality; two fillers, 30 and 15, stand behind its key.
    pub const LOCALITY_KEY: Field = 0..6;
    pub const POST_TOWN: Field = 51..81;
    pub const DEPENDENT_LOCALITY: Field = 81..116;
    pub const DOUBLE_DEPENDENT_LOCALITY: Field = 116..151;

    pub const THOROUGHFARE: Field = 8..68;

    /// Descriptor; the abbreviation behind its text is not read.
    pub const DESCRIPTOR_KEY: Field = 0..4;
    pub const DESCRIPTOR: Field = 4..24;

    pub const BUILDING_NAME: Field = 8..58;
    pub const SUB_BUILDING_NAME: Field = 8..38;

    /// Organisation; a filler of 24 ends it.
    pub const ORGANISATION_TYPE: Field = 8..9;
    pub const ORGANISATION: Field = 9..69;
    pub const DEPARTMENT: Field = 69..129;
}

/// A record of a Mainfile set's address file between header and trailer.
pub mod address {
    use super::Field;

    pub const OUTWARD: Field = 0..4;
    pub const INWARD: Field = 4..7;
    pub const ADDRESS_KEY: Field = 7..15;
    pub const LOCALITY: Field = 15..21;
    pub const THOROUGHFARE: Field = 21..29;
    pub const DESCRIPTOR: Field = 29..33;
    pub const DEPENDENT_THOROUGHFARE: Field = 33..41;
    pub const DEPENDENT_DESCRIPTOR: Field = 41..45;
    pub const BUILDING_NUMBER: Field = 45..49;
    pub const BUILDING_NAME: Field = 49..57;
    pub const SUB_BUILDING_NAME: Field = 57..65;
    pub const HOUSEHOLDS: Field = 65..69;
    pub const ORGANISATION_KEY: Field = 69..77;
    pub const POSTCODE_TYPE: Field = 77..78;
    pub const CONCATENATION: Field = 78..79;
    pub const SUFFIX: Field = 79..81;
    pub const INDICATOR: Field = 81..82;
    pub const PO_BOX: Field = 82..88;
}

/// Places in a book (document 02, No. 10): in a slot from its own start, the
/// count from the book's.
pub mod book {
    use super::Field;

    /// How many slots a book has, and bytes of a slot and of a book.
    pub const SLOTS: usize = 256;
    pub const SLOT: usize = 338;
    pub const LENGTH: usize = 86_530;

    pub const PLACE: Field = 0..2;
    pub const VIEW: Field = 2..170;
    pub const FOLLOWER: Field = 170..338;

    /// Behind the slots.
    pub const COUNT: Field = SLOTS * SLOT..LENGTH;
}

/// Places in a pack: the trailer's fields from its own start; of a point the
/// postcode from its own start, and the fields behind postcode and suffix from
/// where these begin.
pub mod pack {
    use super::Field;

    /// What an edition has of its own; all else is the same in every edition.
    pub struct Edition {
        /// The edition byte, the last byte of a pack.
        pub number: u8,
        /// Bytes of a trailer.
        pub trailer: usize,
        /// Where the suffix stands in a point, if it has one.
        pub suffix: Option<Field>,
        /// Where the rest of a point stands, behind postcode and suffix.
        pub rest: Field,
        /// Where the counts of the sectors stand in the trailer, if it has them.
        pub counts: Option<Field>,
    }

    impl Edition {
        /// Bytes of a point.
        pub fn point(&self) -> usize {
            self.rest.end
        }
    }

    /// Document 01's edition: a point has 57 bytes.
    const FIRST: Edition = Edition {
        number: 1,
        trailer: 21,
        suffix: None,
        rest: 7..57,
        counts: None,
    };

    /// Document 02, No. 6: "Each point grows from 57 to 59 bytes, the suffix
    /// standing after the postcode, and the edition byte is 2."
    const SECOND: Edition = Edition {
        number: 2,
        trailer: 21,
        suffix: Some(7..9),
        rest: 9..59,
        counts: None,
    };

    /// Document 02, No. 7: "Put ten counts of 4 bytes into the trailer, for
    /// inward digits 0 to 9, in front of the edition byte, which becomes 3. The
    /// trailer is then 61 bytes".
    const THIRD: Edition = Edition {
        number: 3,
        trailer: 61,
        counts: Some(20..60),
        ..SECOND
    };

    /// The editions that open.
    pub static EDITIONS: [Edition; 3] = [FIRST, SECOND, THIRD];

    /// "Demands 2 and 3 read edition 3 from here."
    pub static BUILT: Edition = THIRD;

    /// How many sectors a code has, one for each inward digit.
    pub const SECTORS: usize = 10;
    /// Bytes of the count of a sector.
    pub const COUNT: usize = 4;

    pub const ROW_COUNT: Field = 0..4;
    pub const POINTS_START: Field = 4..8;
    pub const POINT_COUNT: Field = 8..12;
    pub const OUTWARD: Field = 12..16;
    pub const LENGTH: Field = 16..20;

    pub const POINT_OUTWARD: Field = 0..4;
    pub const POINT_INWARD: Field = 4..7;

    /// Behind postcode and suffix.
    pub const POSTCODE_TYPE: Field = 0..1;
    pub const ADDRESS_KEY: Field = 1..5;
    pub const ORGANISATION_KEY: Field = 5..9;
    pub const BUILDING_NUMBER: Field = 9..11;
    pub const CONCATENATION: Field = 11..12;
    pub const PO_BOX: Field = 12..18;
    pub const OFFSETS: Field = 18..50;
    pub const OFFSET: usize = 4;

    /// The offset that means absent.
    pub const ABSENT: u32 = 4_294_967_295;
}
