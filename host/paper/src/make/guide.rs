//! The printed examples of the Programmers' Guide (source document 001),
//! chapters 1, 3 and 8.
//!
//! Read here otherwise than the guide's text shows:
//!
//! - Tables 5, 6, 26, 27b, 27d, 31b and 32a show a letter O for the digit 0 in
//!   a postcode or the reverse (`P014 1UX`, `0X14 4PG`, `RH6 OHP`, `ME16 OLP`,
//!   `S023 9AP`). Such codes are malformed; the examples have `PO14 1UX`,
//!   `OX14 4PG`, `RH6 0HP`, `ME16 0LP` and `SO23 9AP`. The same for `P014 3XH`.
//! - Table 24 (exception indicator iv: `UNIT 1-3` and the like before the
//!   street) and Table 27c (`FLOWER HOUSE 189A` split in two): document 01 has
//!   three indicators and splits no text, so that such a building name has a
//!   line of its own. The examples expect this. Table 24's small letters are
//!   written as capitals, since a text with small letters is malformed.
//! - Tables 19 and 20 have no example. Table 15 and 16 are postcodes only.

use super::{Pair, TableRow, View};

/// The fields of an example, absent where empty, and the lines expected.
#[derive(Clone, Debug)]
pub struct Example {
    pub table: &'static str,
    pub organisation: &'static str,
    pub po_box: &'static str,
    pub sub_building: &'static str,
    pub building: &'static str,
    pub number: u32,
    pub concatenated: bool,
    pub dependent_thoroughfare: &'static str,
    pub thoroughfare: &'static str,
    pub dependent_locality: &'static str,
    pub town: &'static str,
    pub postcode: &'static str,
    pub expected: &'static [&'static str],
}

/// An example without any field.
const EMPTY: Example = Example {
    table: "",
    organisation: "",
    po_box: "",
    sub_building: "",
    building: "",
    number: 0,
    concatenated: false,
    dependent_thoroughfare: "",
    thoroughfare: "",
    dependent_locality: "",
    town: "",
    postcode: "",
    expected: &[],
};

impl Example {
    /// The expected lines as a label.
    pub fn label(&self) -> String {
        let lines = self.expected.iter();
        lines.map(|line| format!("{line}\n")).collect()
    }

    /// The files of this example alone. Thoroughfares are whole names or split
    /// into name and descriptor; an organisation is a small or a large user.
    pub fn files(&self, split: bool, large: bool) -> Pair {
        let (rows, view) = self.parts(0, split, large);
        Pair::new(rows, vec![view])
    }

    /// The rows, each under the first or the second key above `base`, and the
    /// view.
    fn parts(&self, base: u32, split: bool, large: bool) -> (Vec<TableRow>, View) {
        let (first, second) = (base + 1, base + 2);
        let town = TableRow::locality(first, self.town, self.dependent_locality, "");
        let mut rows = Rows(vec![town]);
        let (thoroughfare, descriptor) = rows.add_street(self.thoroughfare, first, split);
        let dependent = rows.add_street(self.dependent_thoroughfare, second, split);
        let (outward, inward) = self.postcode.split_once(' ').unwrap_or_default();
        let view = View {
            outward: outward.to_string(),
            inward: inward.to_string(),
            locality: first,
            thoroughfare,
            descriptor,
            dependent_thoroughfare: dependent.0,
            dependent_descriptor: dependent.1,
            building_number: self.number,
            building: rows.add(self.building, first, TableRow::building),
            sub_building: rows.add(self.sub_building, first, TableRow::sub_building),
            concatenation: if self.concatenated { b'Y' } else { b' ' },
            po_box: self.po_box.to_string(),
            ..View::default()
        };
        let view = match (large, self.organisation) {
            (true, name) => view.large_user(name, ""),
            (false, "") => view,
            (false, name) => view.small_user(10_003, name, ""),
        };
        (rows.0, view)
    }
}

/// The rows of an example.
struct Rows(Vec<TableRow>);

impl Rows {
    /// The key of a row, 0 where the text is empty.
    fn add(&mut self, text: &str, key: u32, row: fn(u32, &str) -> TableRow) -> u32 {
        if text.is_empty() {
            return 0;
        }
        self.0.push(row(key, text));
        key
    }

    /// The keys of a thoroughfare and its descriptor; whole names have none.
    fn add_street(&mut self, text: &str, key: u32, split: bool) -> (u32, u32) {
        match text.rsplit_once(' ') {
            Some((name, descriptor)) if split => (
                self.add(name, key, TableRow::thoroughfare),
                self.add(descriptor, key, TableRow::descriptor),
            ),
            _ => (self.add(text, key, TableRow::thoroughfare), 0),
        }
    }
}

/// The examples of chapter 3 whose lines are those that the guide prints:
/// Tables 21 to 32b without 24 and 27c.
pub fn examples() -> Vec<&'static Example> {
    [
        TABLES_21_TO_23_EXCEPTION_RULE_INDICATORS,
        TABLES_25_TO_26_RULES_1_AND_2,
        TABLES_27A_TO_28_RULES_3_AND_4,
        TABLES_29A_AND_29B_RULE_5,
        TABLES_30_TO_31B_RULE_6,
        TABLES_32A_AND_32B_RULE_7,
    ]
    .into_iter()
    .flatten()
    .collect()
}

/// One pair of files with a view for each of these examples, in their order.
/// Thoroughfares are split, and organisations are small users.
pub fn pair() -> Pair {
    let mut rows = Vec::new();
    let mut views = Vec::new();
    for (index, example) in (1..).zip(examples()) {
        let (own_rows, view) = example.parts(10 * index, true, false);
        rows.extend(own_rows);
        views.push(View {
            address_key: index,
            time: index,
            ..view
        });
    }
    Pair::new(rows, views)
}

/// Chapter 1: names, PO boxes and premises.
pub const CHAPTER_1_NAMES_BOXES_AND_PREMISES: &[Example] = &[
    Example {
        table: "1",
        sub_building: "(SMITH)",
        building: "ROSE COTTAGE",
        thoroughfare: "PACKHOUSE LANE",
        town: "BIRMINGHAM",
        postcode: "B39 0DH",
        expected: &[
            "(SMITH)",
            "ROSE COTTAGE",
            "PACKHOUSE LANE",
            "BIRMINGHAM",
            "B39 0DH",
        ],
        ..EMPTY
    },
    Example {
        table: "2",
        building: "(HYNES)",
        thoroughfare: "CROMPTON ROAD",
        town: "BRADLEY HEATH",
        postcode: "S64 5BB",
        expected: &["(HYNES)", "CROMPTON ROAD", "BRADLEY HEATH", "S64 5BB"],
        ..EMPTY
    },
    Example {
        table: "3",
        number: 16,
        thoroughfare: "VIXEN ROAD",
        town: "BRADOCK",
        postcode: "KT6 5BT",
        expected: &["16 VIXEN ROAD", "BRADOCK", "KT6 5BT"],
        ..EMPTY
    },
    Example {
        table: "4",
        organisation: "KATH'S CAKES",
        building: "VICTORIA HOUSE",
        thoroughfare: "HIGH STREET",
        town: "PORTSMOUTH",
        postcode: "PO1 1AF",
        expected: &[
            "KATH'S CAKES",
            "VICTORIA HOUSE",
            "HIGH STREET",
            "PORTSMOUTH",
            "PO1 1AF",
        ],
        ..EMPTY
    },
    Example {
        table: "5",
        organisation: "ROBINSONS",
        po_box: "61",
        town: "FAREHAM",
        postcode: "PO14 1UX",
        expected: &["ROBINSONS", "PO BOX 61", "FAREHAM", "PO14 1UX"],
        ..EMPTY
    },
    Example {
        table: "6",
        po_box: "22",
        town: "FAREHAM",
        postcode: "PO14 3XH",
        expected: &["PO BOX 22", "FAREHAM", "PO14 3XH"],
        ..EMPTY
    },
    Example {
        table: "8",
        sub_building: "FLAT 1",
        building: "HOLLY HOUSE",
        thoroughfare: "OAK AVENUE",
        dependent_locality: "BIDDENDEN",
        town: "ASHFORD",
        postcode: "TN27 8BT",
        expected: &[
            "FLAT 1",
            "HOLLY HOUSE",
            "OAK AVENUE",
            "BIDDENDEN",
            "ASHFORD",
            "TN27 8BT",
        ],
        ..EMPTY
    },
    Example {
        table: "9",
        sub_building: "FLAT 20",
        building: "VICTORIA HOUSE",
        number: 15,
        thoroughfare: "THE STREET",
        town: "CHRISTCHURCH",
        postcode: "BH23 6AA",
        expected: &[
            "FLAT 20",
            "VICTORIA HOUSE",
            "15 THE STREET",
            "CHRISTCHURCH",
            "BH23 6AA",
        ],
        ..EMPTY
    },
];

/// Chapter 1: a thoroughfare, and none.
pub const CHAPTER_1_THOROUGHFARES_AND_NONE: &[Example] = &[
    Example {
        table: "12",
        number: 16,
        thoroughfare: "ANGELICA WAY",
        town: "EMSWORTH",
        postcode: "NR25 7HG",
        expected: &["16 ANGELICA WAY", "EMSWORTH", "NR25 7HG"],
        ..EMPTY
    },
    Example {
        table: "13",
        building: "THE MANOR",
        dependent_locality: "NORWOOD",
        town: "HORLEY",
        postcode: "RH6 0HP",
        expected: &["THE MANOR", "NORWOOD", "HORLEY", "RH6 0HP"],
        ..EMPTY
    },
];

/// Chapter 3: building names that are numeric-like.
pub const TABLES_21_TO_23_EXCEPTION_RULE_INDICATORS: &[Example] = &[
    Example {
        table: "21",
        building: "1-2",
        thoroughfare: "NURSERY LANE",
        dependent_locality: "PENN",
        town: "HIGH WYCOMBE",
        postcode: "HP10 8LS",
        expected: &["1-2 NURSERY LANE", "PENN", "HIGH WYCOMBE", "HP10 8LS"],
        ..EMPTY
    },
    Example {
        table: "22",
        building: "12A",
        thoroughfare: "UPPERKIRKGATE",
        town: "ABERDEEN",
        postcode: "AB10 1BA",
        expected: &["12A UPPERKIRKGATE", "ABERDEEN", "AB10 1BA"],
        ..EMPTY
    },
    Example {
        table: "23",
        building: "K",
        thoroughfare: "PORTLAND ROAD",
        town: "DORKING",
        postcode: "RH4 1EW",
        expected: &["K PORTLAND ROAD", "DORKING", "RH4 1EW"],
        ..EMPTY
    },
];

/// Chapter 3: an organisation alone, and a number alone.
pub const TABLES_25_TO_26_RULES_1_AND_2: &[Example] = &[
    Example {
        table: "25 (and 14)",
        organisation: "LEDA ENGINEERING LTD",
        dependent_locality: "APPLEFORD",
        town: "ABINGDON",
        postcode: "OX14 4PG",
        expected: &["LEDA ENGINEERING LTD", "APPLEFORD", "ABINGDON", "OX14 4PG"],
        ..EMPTY
    },
    Example {
        table: "26",
        number: 1,
        thoroughfare: "ACACIA AVENUE",
        town: "ABINGDON",
        postcode: "OX14 4PG",
        expected: &["1 ACACIA AVENUE", "ABINGDON", "OX14 4PG"],
        ..EMPTY
    },
];

/// Chapter 3: a building name, without and with a number; 27c is apart.
pub const TABLES_27A_TO_28_RULES_3_AND_4: &[Example] = &[
    Example {
        table: "27a (and 11)",
        building: "1A",
        dependent_thoroughfare: "SEASTONE COURT",
        thoroughfare: "STATION ROAD",
        town: "HOLT",
        postcode: "NR25 7HG",
        expected: &["1A SEASTONE COURT", "STATION ROAD", "HOLT", "NR25 7HG"],
        ..EMPTY
    },
    Example {
        table: "27b",
        building: "THE MANOR",
        thoroughfare: "UPPER HILL",
        town: "HORLEY",
        postcode: "RH6 0HP",
        expected: &["THE MANOR", "UPPER HILL", "HORLEY", "RH6 0HP"],
        ..EMPTY
    },
    Example {
        table: "27d",
        organisation: "JAMES VILLA HOLIDAYS",
        building: "CENTRE 30",
        thoroughfare: "ST. LAURENCE AVENUE",
        town: "GRAFTON",
        postcode: "ME16 0LP",
        expected: &[
            "JAMES VILLA HOLIDAYS",
            "CENTRE 30",
            "ST. LAURENCE AVENUE",
            "GRAFTON",
            "ME16 0LP",
        ],
        ..EMPTY
    },
    Example {
        table: "28",
        building: "VICTORIA HOUSE",
        number: 15,
        thoroughfare: "THE STREET",
        town: "CHRISTCHURCH",
        postcode: "BH23 6AA",
        expected: &[
            "VICTORIA HOUSE",
            "15 THE STREET",
            "CHRISTCHURCH",
            "BH23 6AA",
        ],
        ..EMPTY
    },
];

/// Chapter 3: a sub building and a number.
pub const TABLES_29A_AND_29B_RULE_5: &[Example] = &[
    Example {
        table: "29a",
        sub_building: "FLAT 1",
        number: 12,
        thoroughfare: "LIME TREE AVENUE",
        town: "BRISTOL",
        postcode: "BS8 4AB",
        expected: &["FLAT 1", "12 LIME TREE AVENUE", "BRISTOL", "BS8 4AB"],
        ..EMPTY
    },
    Example {
        table: "29b",
        sub_building: "A",
        number: 12,
        concatenated: true,
        thoroughfare: "HIGH STREET NORTH",
        dependent_locality: "COOMBE BISSETT",
        town: "SALISBURY",
        postcode: "SP5 4NA",
        expected: &[
            "12A HIGH STREET NORTH",
            "COOMBE BISSETT",
            "SALISBURY",
            "SP5 4NA",
        ],
        ..EMPTY
    },
];

/// Chapter 3: a sub building and a building name.
pub const TABLES_30_TO_31B_RULE_6: &[Example] = &[
    Example {
        table: "30",
        sub_building: "10B",
        building: "BARRY JACKSON TOWER",
        thoroughfare: "ESTONE WALK",
        town: "BIRMINGHAM",
        postcode: "B6 5BA",
        expected: &[
            "10B BARRY JACKSON TOWER",
            "ESTONE WALK",
            "BIRMINGHAM",
            "B6 5BA",
        ],
        ..EMPTY
    },
    Example {
        table: "31a (and 10)",
        sub_building: "CARETAKERS FLAT",
        building: "110-114",
        thoroughfare: "HIGH STREET WEST",
        town: "BRISTOL",
        postcode: "BS1 2AW",
        expected: &[
            "CARETAKERS FLAT",
            "110-114 HIGH STREET WEST",
            "BRISTOL",
            "BS1 2AW",
        ],
        ..EMPTY
    },
    Example {
        table: "31b",
        sub_building: "STABLES FLAT",
        building: "THE MANOR",
        thoroughfare: "UPPER HILL",
        town: "HORLEY",
        postcode: "RH6 0HP",
        expected: &[
            "STABLES FLAT",
            "THE MANOR",
            "UPPER HILL",
            "HORLEY",
            "RH6 0HP",
        ],
        ..EMPTY
    },
];

/// Chapter 3: a sub building, a building name and a number.
pub const TABLES_32A_AND_32B_RULE_7: &[Example] = &[
    Example {
        table: "32a",
        sub_building: "2B",
        building: "THE TOWER",
        number: 27,
        thoroughfare: "JOHN STREET",
        town: "WINCHESTER",
        postcode: "SO23 9AP",
        expected: &["2B THE TOWER", "27 JOHN STREET", "WINCHESTER", "SO23 9AP"],
        ..EMPTY
    },
    Example {
        table: "32b",
        sub_building: "BASEMENT FLAT",
        building: "VICTORIA HOUSE",
        number: 15,
        thoroughfare: "THE STREET",
        town: "CORYTON",
        postcode: "BP23 6AA",
        expected: &[
            "BASEMENT FLAT",
            "VICTORIA HOUSE",
            "15 THE STREET",
            "CORYTON",
            "BP23 6AA",
        ],
        ..EMPTY
    },
];

/// Chapter 3, with the lines that document 01 decides and the guide does not print.
pub const TABLES_24_AND_27C_AS_DOCUMENT_01_DECIDES: &[Example] = &[
    Example {
        table: "24, 1",
        organisation: "THE TAMBOURINE WAREHOUSE",
        building: "UNIT 1-3",
        dependent_thoroughfare: "INDUSTRIAL ESTATE",
        thoroughfare: "TAME ROAD",
        town: "LONDON",
        postcode: "E6 7HS",
        expected: &[
            "THE TAMBOURINE WAREHOUSE",
            "UNIT 1-3",
            "INDUSTRIAL ESTATE",
            "TAME ROAD",
            "LONDON",
            "E6 7HS",
        ],
        ..EMPTY
    },
    Example {
        table: "24, 2",
        organisation: "QUIRKY CANDLES LTD",
        building: "STALL 4-5",
        thoroughfare: "MARKET SQUARE",
        town: "LIVERPOOL",
        postcode: "L8 1LH",
        expected: &[
            "QUIRKY CANDLES LTD",
            "STALL 4-5",
            "MARKET SQUARE",
            "LIVERPOOL",
            "L8 1LH",
        ],
        ..EMPTY
    },
    Example {
        table: "24, 3",
        organisation: "THE FUDGE FACTORY",
        building: "UNIT 1A",
        thoroughfare: "DYCE INDUSTRIAL PARK",
        dependent_locality: "DYCE",
        town: "GLASGOW",
        postcode: "G21 7EZ",
        expected: &[
            "THE FUDGE FACTORY",
            "UNIT 1A",
            "DYCE INDUSTRIAL PARK",
            "DYCE",
            "GLASGOW",
            "G21 7EZ",
        ],
        ..EMPTY
    },
    Example {
        table: "24, 4",
        organisation: "FIONA'S FLOWERS",
        building: "REAR OF 5A",
        thoroughfare: "HIGH STREET",
        town: "GATESHEAD",
        postcode: "NE8 1BH",
        expected: &[
            "FIONA'S FLOWERS",
            "REAR OF 5A",
            "HIGH STREET",
            "GATESHEAD",
            "NE8 1BH",
        ],
        ..EMPTY
    },
    Example {
        table: "24, 5",
        organisation: "PLATINUM FINANCE",
        building: "SUITE 1-3",
        thoroughfare: "STATION ROAD",
        town: "MUSSELBURGH",
        postcode: "EH21 7PB",
        expected: &[
            "PLATINUM FINANCE",
            "SUITE 1-3",
            "STATION ROAD",
            "MUSSELBURGH",
            "EH21 7PB",
        ],
        ..EMPTY
    },
    Example {
        table: "27c",
        organisation: "S D ALCOTT FLORISTS",
        building: "FLOWER HOUSE 189A",
        thoroughfare: "PYE GREEN ROAD",
        town: "CANNOCK",
        postcode: "WS11 5SB",
        expected: &[
            "S D ALCOTT FLORISTS",
            "FLOWER HOUSE 189A",
            "PYE GREEN ROAD",
            "CANNOCK",
            "WS11 5SB",
        ],
        ..EMPTY
    },
];

/// Chapter 8: a sub building after the number.
pub const CHAPTER_8_NOTE_L: &[Example] = &[Example {
    table: "chapter 8, note (l); town and postcode are ours",
    sub_building: "A",
    number: 12,
    concatenated: true,
    thoroughfare: "SMITH STREET",
    town: "HOLT",
    postcode: "NR25 7HG",
    expected: &["12A SMITH STREET", "HOLT", "NR25 7HG"],
    ..EMPTY
}];
