//! Packs made by hand of each edition, each with one field at a limit: the last
//! value that opens, or the first that is refused.

use paper::make::{full_draft, outward, Edition, PackDraft, PackPoint, PackRow, Rng, EDITIONS};
use std::fmt::Debug;
use std::ops::RangeInclusive;
use std::sync::LazyLock;

/// One field of a pack at a limit.
pub struct Limit {
    pub edition: Edition,
    pub name: String,
    /// The step of the pack check that refuses it; 0 where it opens.
    pub step: u64,
    change: Change,
}

type Redraft = Box<dyn Fn(&mut PackDraft) + Send + Sync>;

/// What is changed: the draft of [`full_draft`], or bytes of the pack.
enum Change {
    Draft(Redraft),
    /// An offset of the first point, by its reference.
    Offset(usize, u32),
    /// A number of the trailer, by its place in it.
    Trailer(usize, u32),
    /// The counts of sectors, each by its digit, to which a number is added.
    Counts(&'static [(usize, u32)]),
    /// The edition byte.
    Edition(u8),
    /// So many bytes less in front.
    Cut(usize),
}

/// Every limit of every field in every edition.
pub static ALL: LazyLock<Vec<Limit>> =
    LazyLock::new(|| EDITIONS.into_iter().flat_map(limits_of).collect());

fn limits_of(edition: Edition) -> Vec<Limit> {
    let parts = [
        texts, codes, postcodes, marks, numbers, offsets, rows, trailers, editions, counts,
    ];
    parts.into_iter().flat_map(|part| part(edition)).collect()
}

/// The pack of a limit, in a code of its own and among other points.
pub fn pack(rng: &mut Rng, limit: &Limit) -> Vec<u8> {
    let edition = limit.edition;
    let mut draft = full_draft(edition);
    recode(&mut draft, &outward(rng));
    for _ in 0..rng.below(8) {
        let point = rng.pick(&draft.points).clone();
        draft.points.push(point);
    }
    if let Change::Draft(change) = &limit.change {
        change(&mut draft);
    }
    let place = rng.below(draft.points.len());
    draft.points.rotate_right(place);
    let mut pack = draft.bytes();
    let (point, end) = (draft.points_start() + edition.point * place, pack.len());
    let (offsets, trailer) = (point + edition.offsets(), end - edition.trailer);
    match &limit.change {
        Change::Draft(_) => {}
        Change::Offset(reference, offset) => put(&mut pack, offsets + 4 * reference, *offset),
        Change::Trailer(at, number) => put(&mut pack, trailer + at, *number),
        Change::Counts(added) => added.iter().for_each(|(digit, number)| {
            let count = draft.counts()[*digit].wrapping_add(*number);
            put(&mut pack, trailer + 20 + 4 * digit, count);
        }),
        Change::Edition(number) => pack[end - 1] = *number,
        Change::Cut(bytes) => drop(pack.drain(..bytes.min(&end))),
    }
    pack
}

fn put(pack: &mut [u8], at: usize, number: u32) {
    pack[at..at + 4].copy_from_slice(&number.to_be_bytes());
}

/// The draft as one of another code.
fn recode(draft: &mut PackDraft, code: &[u8]) {
    draft.outward = code.to_vec();
    let points = draft.points.iter_mut();
    points.for_each(|point| point.outward = code.to_vec());
}

fn limit(edition: Edition, name: impl Into<String>, step: u64, change: Change) -> Limit {
    Limit {
        edition,
        name: name.into(),
        step,
        change,
    }
}

fn redraft(
    edition: Edition,
    name: impl Into<String>,
    step: u64,
    change: impl Fn(&mut PackDraft) + Send + Sync + 'static,
) -> Limit {
    limit(edition, name, step, Change::Draft(Box::new(change)))
}

/// A step, or 0 where it is not broken.
fn unless(sound: bool, step: u64) -> u64 {
    if sound {
        0
    } else {
        step
    }
}

/// Bytes at both sides of each limit of what a text may have.
const BYTES: [u8; 8] = [31, 32, b'a' - 1, b'a', b'z', b'z' + 1, 126, 127];

fn is_text_byte(byte: u8) -> bool {
    (32..=126).contains(&byte) && !byte.is_ascii_lowercase()
}

/// The texts of rows: row of the draft, text, width, and the step that refuses
/// an empty one.
const TEXTS: [(usize, usize, usize, u64); 9] = [
    (0, 0, 30, 2),
    (0, 1, 35, 2), // A double dependent locality without a dependent one.
    (0, 2, 35, 0),
    (2, 0, 60, 2),
    (4, 0, 20, 2),
    (6, 0, 50, 2),
    (7, 0, 30, 2),
    (8, 0, 60, 3), // A small user whose organisation has no name.
    (8, 1, 60, 0),
];

fn texts(edition: Edition) -> Vec<Limit> {
    let mut limits = Vec::new();
    for (row, index, width, empty) in TEXTS {
        let mut add = |step, text: Vec<u8>| {
            let name = format!(
                "row {row}, text {index}: {:?}",
                String::from_utf8_lossy(&text)
            );
            let change = move |draft: &mut PackDraft| draft.rows[row].texts[index] = text.clone();
            limits.push(redraft(edition, name, step, change));
        };
        add(empty, Vec::new());
        add(0, b"A".to_vec());
        add(0, vec![b'9'; width]);
        add(2, vec![b'9'; width + 1]);
        add(2, b" A".to_vec());
        add(2, b"A ".to_vec());
        for byte in BYTES {
            add(unless(is_text_byte(byte), 2), vec![b'A', byte, b'A']);
        }
    }
    limits
}

/// The letters of a postcode with their neighbours, and the digits.
const LETTERS: RangeInclusive<u8> = b'@'..=b'[';
const DIGITS: RangeInclusive<u8> = b'/'..=b':';

fn codes(edition: Edition) -> Vec<Limit> {
    let code = |code: [u8; 4], sound: bool| {
        let name = format!("code {:?}", String::from_utf8_lossy(&code));
        let change = move |draft: &mut PackDraft| recode(draft, &code);
        redraft(edition, name, unless(sound, 1), change)
    };
    let mut limits = Vec::new();
    for byte in LETTERS {
        let letter = byte.is_ascii_uppercase();
        limits.push(code(
            [byte, b'1', b' ', b' '],
            letter && !b"QVX".contains(&byte),
        ));
        limits.push(code(
            [b'A', byte, b'1', b' '],
            letter && !b"IZ".contains(&byte),
        ));
        limits.push(code(
            [b'W', b'1', byte, b' '],
            letter && !b"IZ".contains(&byte),
        ));
        let third = letter && !b"ILOQZ".contains(&byte);
        limits.push(code([b'E', b'C', b'1', byte], third));
    }
    for byte in DIGITS {
        let digit = byte.is_ascii_digit();
        limits.push(code([b'S', b'W', byte, b'Y'], digit));
        limits.push(code([b'A', b'B', b'1', byte], digit));
    }
    limits.push(redraft(edition, "a point of another code", 3, |draft| {
        recode(draft, b"AB1 ");
        draft.points[0].outward = b"AB2 ".to_vec();
    }));
    limits
}

/// A field of the first point at each of these values, sound or not by a rule.
fn field<T: Copy + Send + Sync + Debug + 'static>(
    edition: Edition,
    name: &str,
    values: impl IntoIterator<Item = T>,
    is_sound: impl Fn(T) -> bool,
    set: impl Fn(&mut PackPoint, T) + Copy + Send + Sync + 'static,
) -> Vec<Limit> {
    let limit = |value| {
        let name = format!("{name}: {value:?}");
        redraft(edition, name, unless(is_sound(value), 3), move |draft| {
            set(&mut draft.points[0], value)
        })
    };
    values.into_iter().map(limit).collect()
}

/// A byte of a point: its name, the values that are tried, which of them are sound,
/// and where it stands.
type Byte = (
    &'static str,
    RangeInclusive<u8>,
    fn(&u8) -> bool,
    fn(&mut PackPoint) -> &mut u8,
);

fn is_inward_letter(byte: &u8) -> bool {
    byte.is_ascii_uppercase() && !b"CIKMOV".contains(byte)
}

const INWARD: [Byte; 3] = [
    ("inward", DIGITS, u8::is_ascii_digit, |point| {
        &mut point.inward[0]
    }),
    ("inward, second", LETTERS, is_inward_letter, |point| {
        &mut point.inward[1]
    }),
    ("inward, third", LETTERS, is_inward_letter, |point| {
        &mut point.inward[2]
    }),
];

const SUFFIX: [Byte; 2] = [
    ("suffix", DIGITS, u8::is_ascii_digit, |point| {
        &mut point.suffix[0]
    }),
    ("suffix, second", LETTERS, u8::is_ascii_uppercase, |point| {
        &mut point.suffix[1]
    }),
];

/// The inward code of a point, and its suffix where the edition has one.
fn postcodes(edition: Edition) -> Vec<Limit> {
    let suffix = SUFFIX.into_iter().filter(|_| edition.has_suffix());
    let limits = |(name, values, is_sound, place): Byte| {
        let is_sound = move |byte| is_sound(&byte);
        field(edition, name, values, is_sound, move |point, byte| {
            *place(point) = byte
        })
    };
    INWARD.into_iter().chain(suffix).flat_map(limits).collect()
}

/// The marks of a point, and its PO box.
fn marks(edition: Edition) -> Vec<Limit> {
    let types = [b'K', b'L', b'M', b'R', b'S', b'T'];
    let marks = [b' ' - 1, b' ', b' ' + 1, b'X', b'Y', b'Z', b'y'];
    let boxes = BYTES.map(|byte| [b'A', byte, b'A', b' ', b' ', b' ']);
    let whole = [*b"      ", *b"999999", *b" 99999", *b"     9"];
    let is_box = |text: [u8; 6]| {
        let begins = text[0] != b' ' || text == [b' '; 6];
        begins && text.iter().all(|byte| is_text_byte(*byte))
    };
    let parts = [
        field(
            edition,
            "type",
            types,
            |byte| b"LS".contains(&byte),
            |point, byte| point.postcode_type = byte,
        ),
        field(
            edition,
            "mark",
            marks,
            |byte| b" Y".contains(&byte),
            |point, byte| point.concatenation = byte,
        ),
        field(
            edition,
            "box",
            boxes.into_iter().chain(whole),
            is_box,
            |point, text| point.po_box = text.to_vec(),
        ),
    ];
    parts.into_iter().flatten().collect()
}

/// The numbers of a point. A small user without a key has no organisation row.
fn numbers(edition: Edition) -> Vec<Limit> {
    let keys = [0, 1, 99_999_999, 100_000_000, u32::MAX];
    let numbers = [0, 1, 9_999, 10_000, u16::MAX];
    let is_key = |key| key < 100_000_000;
    let is_used_key = |key| (1..100_000_000).contains(&key);
    let parts = [
        field(edition, "address key", keys, is_key, |point, key| {
            point.address_key = key
        }),
        field(
            edition,
            "organisation key",
            keys,
            is_used_key,
            |point, key| point.organisation_key = key,
        ),
        field(
            edition,
            "building number",
            numbers,
            |number| number < 10_000,
            |point, number| point.building_number = number,
        ),
    ];
    parts.into_iter().flatten().collect()
}

/// For each reference of a point its row's start, the bytes beside it, no row at
/// all, and the ends of the rows.
fn offsets(edition: Edition) -> Vec<Limit> {
    let draft = full_draft(edition);
    let starts = draft.offsets();
    let end = draft.points_start() as u32;
    // Without its locality, street, the street's name behind a descriptor, or
    // its organisation the point is not sound.
    let may_be_absent = [false, false, true, false, true, true, true, false];
    let mut limits = Vec::new();
    for (reference, row) in draft.points[0].rows.iter().enumerate() {
        let start = starts[row.expect("all rows are there")];
        let mut add = |sound, offset: u32| {
            let name = format!("offset {reference}: {offset}");
            let change = Change::Offset(reference, offset);
            limits.push(limit(edition, name, unless(sound, 3), change));
        };
        add(true, start);
        add(false, start + 1);
        add(false, start.wrapping_sub(1).min(u32::MAX - 2));
        add(may_be_absent[reference], u32::MAX);
        add(false, u32::MAX - 1);
        add(false, end - 1);
        add(false, end);
    }
    limits
}

fn rows(edition: Edition) -> Vec<Limit> {
    let last = |name: &str, step, row_type: u8, texts: &'static [&'static [u8]]| {
        redraft(edition, name, step, move |draft| {
            let texts = texts.iter().map(|text| text.to_vec()).collect();
            draft.rows.push(PackRow { row_type, texts });
        })
    };
    let first = |name: &str, row_type: u8| {
        redraft(edition, name, 2, move |draft| {
            draft.rows[0].row_type = row_type
        })
    };
    vec![
        last("a row of type 6 more", 0, 6, &[b"A", b""]),
        last("a row of type 6 with nothing", 0, 6, &[b"", b""]),
        last("a row of type 7", 2, 7, &[b"A", b""]),
        last("a row of type 5 behind 6", 2, 5, &[b"A"]),
        last("a row of one text less", 2, 6, &[b"A"]),
        last("a row of one text more", 2, 6, &[b"A", b"A", b"A"]),
        last("a row of no text", 2, 6, &[]),
        first("a first row of type 0", 0),
        first("a first row of type 2", 2),
        redraft(edition, "no row at all", 0, |draft| {
            draft.rows.clear();
            draft.points.clear();
        }),
    ]
}

fn trailers(edition: Edition) -> Vec<Limit> {
    let mut limits = Vec::new();
    // Row count, points start, point count and length, by their place.
    for (at, step) in [(0, 2), (4, 1), (8, 1), (16, 1)] {
        for number in [0, 1, u32::MAX] {
            let name = format!("trailer at {at}: {number}");
            let change = Change::Trailer(at, number);
            limits.push(limit(edition, name, step, change));
        }
    }
    limits.push(limit(edition, "a byte less", 1, Change::Cut(1)));
    limits.push(limit(edition, "no byte", 1, Change::Cut(usize::MAX)));
    limits
}

/// The edition byte: those that there are, those beside them, and the last.
fn editions(edition: Edition) -> Vec<Limit> {
    let numbers = 0..=EDITIONS.len() as u8 + 1;
    let changed = |number| {
        let step = unless(number == edition.number, 1);
        let name = format!("edition byte {number}");
        limit(edition, name, step, Change::Edition(number))
    };
    numbers.chain([u8::MAX]).map(changed).collect()
}

/// What is added to the counts of sectors: nothing, or what makes one of them
/// wrong, or two of them whose sum stays right.
const COUNTS: [&[(usize, u32)]; 10] = [
    &[],
    &[(0, 1)],
    &[(0, u32::MAX)],
    &[(4, 1)],
    &[(4, 1 << 31)],
    &[(9, 1)],
    &[(9, u32::MAX)],
    &[(0, 1), (9, u32::MAX)],
    &[(0, u32::MAX), (1, 1)],
    &[(4, 1), (5, u32::MAX)],
];

fn counts(edition: Edition) -> Vec<Limit> {
    let counts = COUNTS.into_iter().filter(|_| edition.has_counts());
    let changed = |added: &'static [(usize, u32)]| {
        let name = format!("counts with {added:?} more");
        limit(
            edition,
            name,
            unless(added.is_empty(), 4),
            Change::Counts(added),
        )
    };
    counts.map(changed).collect()
}
