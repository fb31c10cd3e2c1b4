use super::Rng;

/// Texts for buildings and sub buildings: numeric-like ones, ones that only
/// look so, and ones with punctuation.
const PREMISES: [&str; 24] = [
    "1",
    "A",
    "12A",
    "5A",
    "110-114",
    "12-14A",
    "100:1",
    "K",
    "9",
    "&",
    "1A1",
    "7B",
    "A1",
    "FLAT 1",
    "12AB",
    "UNIT 12",
    "THE MANOR",
    "ST. MARY'S",
    "(HYNES)",
    "ROSE  COTTAGE",
    "CARETAKERS FLAT",
    "1/2 WAY HOUSE",
    "A12B",
    "-5-",
];

const PLACES: [&str; 12] = [
    "HARTWELL BAY",
    "QUARRY",
    "HIGH",
    "ST. LAURENCE",
    "KING'S",
    "ACACIA",
    "LOCKWOOD",
    "STOKE-ON-TRENT",
    "DYCE",
    "YE  OLDE",
    "X",
    "4TH",
];

const DESCRIPTORS: [&str; 6] = [
    "LANE",
    "STREET",
    "ROAD",
    "WAY",
    "COURT",
    "INDUSTRIAL ESTATE",
];

const ORGANISATIONS: [&str; 6] = [
    "LEDA ENGINEERING LTD",
    "KATH'S CAKES",
    "S D ALCOTT FLORISTS",
    "A",
    "3M",
    "B & B (WEST)",
];

/// A text for a building or a sub building.
pub(super) fn premises(rng: &mut Rng, width: usize) -> String {
    listed(rng, &PREMISES, width)
}

/// A text for a locality or a thoroughfare.
pub(super) fn place(rng: &mut Rng, width: usize) -> String {
    listed(rng, &PLACES, width)
}

pub(super) fn descriptor(rng: &mut Rng, width: usize) -> String {
    listed(rng, &DESCRIPTORS, width)
}

pub(super) fn organisation(rng: &mut Rng, width: usize) -> String {
    listed(rng, &ORGANISATIONS, width)
}

/// Mostly one of the list; sometimes any bytes that a text may have, up to the
/// full width.
fn listed(rng: &mut Rng, list: &[&str], width: usize) -> String {
    if rng.one_in(4) {
        any_text(rng, width)
    } else {
        rng.pick(list).to_string()
    }
}

/// A text of any allowed bytes with no space at either end, not empty.
pub(super) fn any_text(rng: &mut Rng, width: usize) -> String {
    let length = if rng.one_in(3) {
        width
    } else {
        1 + rng.below(width)
    };
    let mut text: String = (0..length).map(|_| text_byte(rng)).collect();
    if text.starts_with(' ') {
        text.replace_range(..1, "Z");
    }
    if text.ends_with(' ') {
        text.pop();
        text.push('9');
    }
    text
}

fn text_byte(rng: &mut Rng) -> char {
    loop {
        let byte = rng.within(32, 126) as u8;
        if !byte.is_ascii_lowercase() {
            return char::from(byte);
        }
    }
}

/// The contents of a PO box field, often none.
pub(super) fn po_box(rng: &mut Rng) -> String {
    match rng.below(6) {
        0 => rng
            .pick(&["61", "22", "HK860", "123456", "7 7"])
            .to_string(),
        1 => any_text(rng, 6),
        _ => String::new(),
    }
}
