//! Document 01, "The label": the lines that are printed from the elements of
//! an address. Printing knows nothing of keys, files or packs.

use crate::address::{
    Texts, BUILDING_NAME, DEPENDENT_DESCRIPTOR, DEPENDENT_THOROUGHFARE, DESCRIPTOR, LOCALITY,
    ORGANISATION, REFERENCES, SUB_BUILDING_NAME, THOROUGHFARE,
};
use crate::fields::numeric_like;
use crate::refusal::Refusal;

/// What a label is printed from: texts without their padding, empty where
/// absent, and the building number, zero where absent.
#[derive(Clone, Debug, Default, PartialEq, Eq)]
pub struct Elements<'a> {
    pub organisation: &'a [u8],
    pub department: &'a [u8],
    pub po_box: &'a [u8],
    pub sub_building: &'a [u8],
    pub building_name: &'a [u8],
    pub building_number: u64,
    /// Whether the concatenation mark is Y.
    pub concatenated: bool,
    pub dependent_thoroughfare: &'a [u8],
    pub dependent_descriptor: &'a [u8],
    pub thoroughfare: &'a [u8],
    pub descriptor: &'a [u8],
    pub double_dependent_locality: &'a [u8],
    pub dependent_locality: &'a [u8],
    pub post_town: &'a [u8],
    pub outward: &'a [u8],
    pub inward: &'a [u8],
}

impl<'a> Elements<'a> {
    /// The elements that come from rows; the others are still absent.
    pub(crate) fn of_rows(rows: &[Texts<'a>; REFERENCES]) -> Elements<'a> {
        Elements {
            organisation: rows[ORGANISATION][0],
            department: rows[ORGANISATION][1],
            sub_building: rows[SUB_BUILDING_NAME][0],
            building_name: rows[BUILDING_NAME][0],
            dependent_thoroughfare: rows[DEPENDENT_THOROUGHFARE][0],
            dependent_descriptor: rows[DEPENDENT_DESCRIPTOR][0],
            thoroughfare: rows[THOROUGHFARE][0],
            descriptor: rows[DESCRIPTOR][0],
            post_town: rows[LOCALITY][0],
            dependent_locality: rows[LOCALITY][1],
            double_dependent_locality: rows[LOCALITY][2],
            ..Elements::default()
        }
    }
}

/// The lines of a label in order, without their ends; absent ones give no
/// line.
pub fn lines(elements: &Elements) -> Vec<Vec<u8>> {
    let premises = premises(elements);
    let mut lines = vec![
        elements.organisation.to_vec(),
        elements.department.to_vec(),
        po_box_line(elements.po_box),
    ];
    lines.extend(premises.lines);
    lines.extend(places(elements, &premises.front));
    lines.push(with_space(elements.outward, elements.inward));
    lines.retain(|line| !line.is_empty());
    lines
}

/// A label as bytes: each line ends with byte 10.
pub fn label_bytes(elements: &Elements) -> Vec<u8> {
    let mut bytes = Vec::new();
    for line in lines(elements) {
        bytes.extend(line);
        bytes.push(10);
    }
    bytes
}

/// Writes the whole of a label, a pack or a row into a lent buffer and answers its
/// length; bytes behind it keep their values. A shorter buffer is refused with
/// 10 and the bytes needed, and left unwritten.
pub(crate) fn lend(bytes: &[u8], out: &mut [u8]) -> Result<usize, Refusal> {
    match out.get_mut(..bytes.len()) {
        Some(room) => {
            room.copy_from_slice(bytes);
            Ok(bytes.len())
        }
        None => Err(Refusal::new(10, bytes.len() as u64)),
    }
}

/// The lines from dependent thoroughfare to post town, the front before the
/// first of them that is present.
fn places(elements: &Elements, front: &[u8]) -> Vec<Vec<u8>> {
    let mut places = vec![
        with_space(
            elements.dependent_thoroughfare,
            elements.dependent_descriptor,
        ),
        with_space(elements.thoroughfare, elements.descriptor),
        elements.double_dependent_locality.to_vec(),
        elements.dependent_locality.to_vec(),
        elements.post_town.to_vec(),
    ];
    let first = places.iter().position(|line| !line.is_empty());
    if let Some(line) = first.and_then(|first| places.get_mut(first)) {
        *line = with_space(front, line);
    }
    places
}

/// The two with one space between them, or the one that is present.
pub(crate) fn with_space(first: &[u8], second: &[u8]) -> Vec<u8> {
    let space: &[u8] = if first.is_empty() || second.is_empty() {
        b""
    } else {
        b" "
    };
    [first, space, second].concat()
}

/// `PO BOX `, then the box.
fn po_box_line(po_box: &[u8]) -> Vec<u8> {
    if po_box.is_empty() {
        Vec::new()
    } else {
        with_space(b"PO BOX", po_box)
    }
}

/// The premises lines, and what goes before the first of the lines from
/// dependent thoroughfare to post town.
struct Premises {
    lines: Vec<Vec<u8>>,
    front: Vec<u8>,
}

impl Premises {
    fn new(lines: &[&[u8]], front: &[u8]) -> Premises {
        Premises {
            lines: lines.iter().map(|line| line.to_vec()).collect(),
            front: front.to_vec(),
        }
    }
}

/// Document 01's table of premises, row by row: s the sub building, b the
/// building name, n the number.
fn premises(elements: &Elements) -> Premises {
    let s = elements.sub_building;
    let b = elements.building_name;
    let n = number_text(elements.building_number);
    let n = n.as_bytes();
    match (!s.is_empty(), !b.is_empty(), !n.is_empty()) {
        (false, false, false) => Premises::new(&[], b""),
        (false, false, true) => Premises::new(&[], n),
        (false, true, false) if numeric_like(b) => Premises::new(&[], b),
        (false, true, false) => Premises::new(&[b], b""),
        (false, true, true) => Premises::new(&[b], n),
        (true, false, true) if elements.concatenated => Premises::new(&[], &[n, s].concat()),
        (true, false, true) => Premises::new(&[s], n),
        (true, true, false) => sub_building_and_name(s, b),
        (true, true, true) if numeric_like(s) => Premises::new(&[&with_space(s, b)], n),
        (true, true, true) => Premises::new(&[s, b], n),
        // Rule 8 refuses a sub building alone before anything is printed.
        (true, false, false) => Premises::new(&[s], b""),
    }
}

/// The two rows of the table that have s and b, but no number.
fn sub_building_and_name(s: &[u8], b: &[u8]) -> Premises {
    match (numeric_like(s), numeric_like(b)) {
        (true, true) => Premises::new(&[], &with_space(s, b)),
        (true, false) => Premises::new(&[&with_space(s, b)], b""),
        (false, true) => Premises::new(&[s], b),
        (false, false) => Premises::new(&[s, b], b""),
    }
}

/// The number prints without leading zeros; zero means absent.
pub(crate) fn number_text(number: u64) -> String {
    if number == 0 {
        String::new()
    } else {
        number.to_string()
    }
}
