//! A pack opened and its labels printed as a good C programmer would write it:
//! a table with a byte for each byte of the row area says which row starts
//! there, texts are tested eight bytes at a time, and labels are written where
//! they are to stand.

use crate::plain_label::{from, item, label, only, run, trimmed, Sheet};
use paper::fields::outward_fault;
use paper::{Elements, Refusal, Run};

/// Bytes of a point's postcode, and of what stands behind postcode and suffix.
const POSTCODE: usize = 7;
const REST: usize = 50;

/// Where the PO box stands in that, and the first offset.
const PO_BOX: usize = 12;
const OFFSETS: usize = 18;

/// Where the counts of the sectors stand in a trailer that has them.
const COUNTS: usize = 20;

/// Bytes of a point and of the trailer, by the edition byte; none where there is no
/// such edition.
fn widths_of(edition: u8) -> Option<(usize, usize)> {
    match edition {
        1 => Some((57, 21)),
        2 => Some((59, 21)),
        3 => Some((59, 61)),
        _ => None,
    }
}

/// The offset that means absent, and the types of the rows that offsets name.
const ABSENT: u32 = u32::MAX;
const KINDS: [u8; 8] = [1, 2, 3, 2, 3, 4, 5, 6];

const HIGHEST_KEY: u32 = 99_999_999;
const HIGHEST_NUMBER: u16 = 9_999;

/// The letters of an inward code.
const INWARD: [bool; 256] = letters(b"ABDEFGHJLNPQRSTUWXYZ");

const fn letters(which: &[u8]) -> [bool; 256] {
    let mut table = [false; 256];
    let mut i = 0;
    while i < which.len() {
        table[which[i] as usize] = true;
        i += 1;
    }
    table
}

/// The four bytes at a place, the most significant first.
fn number(bytes: &[u8], at: usize) -> u32 {
    u32::from_be_bytes(bytes[at..at + 4].try_into().expect("4 bytes"))
}

/// A point: its postcode, its suffix, which has no bytes in edition 1, and what
/// stands behind these.
#[derive(Clone, Copy)]
struct Point<'a> {
    postcode: &'a [u8; POSTCODE],
    suffix: &'a [u8],
    rest: &'a [u8; REST],
}

impl<'a> Point<'a> {
    fn new(bytes: &'a [u8]) -> Point<'a> {
        let (postcode, behind) = bytes.split_first_chunk().expect("a point's bytes");
        let (suffix, rest) = behind.split_last_chunk().expect("a point's bytes");
        Point {
            postcode,
            suffix,
            rest,
        }
    }

    fn building_number(self) -> u16 {
        u16::from_be_bytes([self.rest[9], self.rest[10]])
    }

    /// An offset, by its place.
    fn offset(self, n: usize) -> u32 {
        number(self.rest, OFFSETS + 4 * n)
    }
}

/// A pack, accepted: its bytes, its points, and how many each sector has. What is
/// asked of a pack is asked of this.
pub struct Pack<'a> {
    bytes: &'a [u8],
    points: &'a [u8],
    width: usize,
    sectors: [u32; 10],
}

impl<'a> Pack<'a> {
    pub fn accept(bytes: &'a [u8]) -> Result<Pack<'a>, Refusal> {
        let refused = |step| Refusal::new(11, step);
        let (start, width, trailer) = split(bytes).ok_or(refused(1))?;
        let body = bytes.len() - trailer.len();
        let kinds = row_kinds(bytes, start, number(trailer, 0)).ok_or(refused(2))?;
        let outward = number(trailer, 12);
        let mut pack = Pack {
            bytes,
            points: &bytes[start..body],
            width,
            sectors: [0; 10],
        };
        for point in pack.all() {
            if !is_sound(bytes, &kinds, outward, point) {
                return Err(refused(3));
            }
            pack.sectors[usize::from(point.postcode[4] - b'0')] += 1;
        }
        let said = trailer[COUNTS..].chunks_exact(4);
        if said
            .zip(pack.sectors)
            .any(|(said, count)| number(said, 0) != count)
        {
            return Err(refused(4));
        }
        Ok(pack)
    }

    fn all(&self) -> impl Iterator<Item = Point<'a>> {
        self.points.chunks_exact(self.width).map(Point::new)
    }

    /// How many points it has.
    pub fn points(&self) -> usize {
        self.points.len() / self.width
    }

    pub fn label(&self, k: u64, out: &mut [u8]) -> Result<usize, Refusal> {
        only(self.labels(k, 1, out))
    }

    /// The two bytes of a suffix as one number.
    pub fn suffix(&self, k: u64) -> Result<usize, Refusal> {
        let point = from(k, self.all()).next().ok_or(Refusal::new(7, 0))?;
        match *point.suffix {
            [digit, letter] => Ok(usize::from(digit) << 8 | usize::from(letter)),
            _ => Err(Refusal::new(13, 0)),
        }
    }

    /// The points of a sector.
    pub fn sector(&self, digit: u64) -> Result<usize, Refusal> {
        let place = usize::try_from(digit).ok();
        let count = place.and_then(|place| self.sectors.get(place));
        count
            .map(|count| *count as usize)
            .ok_or(Refusal::new(27, 0))
    }

    pub fn labels(&self, first: u64, count: u64, out: &mut [u8]) -> Run {
        let points = from(first, self.all());
        run(points, count, out, |point, out| {
            label(&elements(self.bytes, &point), out)
        })
    }

    pub fn list(&self, first: u64, count: u64, out: &mut [u8]) -> Run {
        let points = (first..).zip(from(first, self.all()));
        run(points, count, out, |(k, point), out| {
            let heading = |sheet: &mut Sheet| {
                sheet.put(b"point ");
                sheet.number(k);
                sheet.byte(b'\n');
            };
            item(heading, Ok(elements(self.bytes, &point)), out)
        })
    }
}

/// Step 1: where the rows end, the bytes of a point, and the trailer.
fn split(bytes: &[u8]) -> Option<(usize, usize, &[u8])> {
    let (width, trailer) = widths_of(*bytes.last()?)?;
    let body = bytes.len().checked_sub(trailer)?;
    let trailer = &bytes[body..];
    let start = number(trailer, 4) as usize;
    let count = number(trailer, 8) as usize;
    let sound = number(trailer, 16) as usize == bytes.len()
        && outward_fault(&trailer[12..16]) == 0
        && start + width * count == body;
    sound.then_some((start, width, trailer))
}

/// The top bit of each byte that may stand in no text: below 32, a small
/// letter, above 126.
fn not_text(eight: u64) -> u64 {
    const fn each(byte: u8) -> u64 {
        u64::from_ne_bytes([byte; 8])
    }
    let low = eight & each(0x7F);
    let from_32 = low + each(0x80 - 32);
    let from_97 = low + each(0x80 - 97);
    let from_123 = low + each(0x80 - 123);
    let from_127 = low + each(0x80 - 127);
    (eight | !from_32 | (from_97 & !from_123) | from_127) & each(0x80)
}

/// The eight bytes at a place, the first being the lowest.
fn eight(bytes: &[u8], at: usize) -> u64 {
    u64::from_le_bytes(bytes[at..at + 8].try_into().expect("8 bytes"))
}

/// Whether so many bytes from a place on may stand in a text. The trailer
/// stands behind every text, so that eight bytes can always be read.
fn is_text(bytes: &[u8], at: usize, length: usize) -> bool {
    let mut bad = 0;
    let mut done = 0;
    while done + 8 <= length {
        bad |= not_text(eight(bytes, at + done));
        done += 8;
    }
    let left = (length - done) as u32;
    let counted = !(u64::MAX << (8 * left));
    bad |= not_text(eight(bytes, at + done)) & counted;
    bad == 0
}

/// The place behind the text that stands at a place, if it is sound: no longer
/// than its field, with no space at either end, empty only where that is
/// allowed, and within the rows.
fn text_end(bytes: &[u8], rows: usize, at: usize, longest: usize, empty: bool) -> Option<usize> {
    if at >= rows {
        return None;
    }
    let length = usize::from(bytes[at]);
    let end = at + 1 + length;
    if length == 0 {
        return empty.then_some(end);
    }
    let sound = length <= longest
        && end <= rows
        && bytes[at + 1] != b' '
        && bytes[end - 1] != b' '
        && is_text(bytes, at + 1, length);
    sound.then_some(end)
}

/// The place behind the row that starts at a place, if it is sound.
fn row_end(bytes: &[u8], rows: usize, at: usize) -> Option<usize> {
    let text = |at, longest| text_end(bytes, rows, at, longest, false);
    let optional = |at, longest| text_end(bytes, rows, at, longest, true);
    match bytes[at] {
        1 => {
            let dependent = text(at + 1, 30)?;
            let double = optional(dependent, 35)?;
            let end = optional(double, 35)?;
            (bytes[dependent] != 0 || bytes[double] == 0).then_some(end)
        }
        2 => text(at + 1, 60),
        3 => text(at + 1, 20),
        4 => text(at + 1, 50),
        5 => text(at + 1, 30),
        6 => optional(optional(at + 1, 60)?, 60),
        _ => None,
    }
}

/// Step 2: for each byte of the row area the type of the row that starts there,
/// 0 where none does.
fn row_kinds(bytes: &[u8], rows: usize, count: u32) -> Option<Vec<u8>> {
    let mut kinds = vec![0; rows];
    let mut at = 0;
    let mut found = 0;
    let mut before = 1;
    while at < rows {
        let kind = bytes[at];
        if kind < before {
            return None;
        }
        before = kind;
        kinds[at] = kind;
        found += 1;
        at = row_end(bytes, rows, at)?;
    }
    (found == count).then_some(kinds)
}

/// Step 3, for one point.
fn is_sound(bytes: &[u8], kinds: &[u8], outward: u32, point: Point) -> bool {
    let Point { postcode, rest, .. } = point;
    number(postcode, 0) == outward
        && postcode[4].is_ascii_digit()
        && INWARD[usize::from(postcode[5])]
        && INWARD[usize::from(postcode[6])]
        && matches!(*point.suffix, [] | [b'0'..=b'9', b'A'..=b'Z'])
        && matches!(rest[0], b'S' | b'L')
        && number(rest, 1) <= HIGHEST_KEY
        && number(rest, 5) <= HIGHEST_KEY
        && point.building_number() <= HIGHEST_NUMBER
        && matches!(rest[11], b'Y' | b' ')
        && is_box(rest)
        && rows_sound(bytes, kinds, point)
}

/// Whether the PO box is blank, or a text that begins with no space.
fn is_box(rest: &[u8; REST]) -> bool {
    const SIX: u64 = (1 << 48) - 1;
    const SPACES: u64 = u64::from_ne_bytes([b' '; 8]);
    let six = eight(rest, PO_BOX) & SIX;
    if rest[PO_BOX] == b' ' {
        six == SPACES & SIX
    } else {
        not_text(six | SPACES & !SIX) == 0
    }
}

/// The rows of a point: each offset is absent or the start of a row of its
/// type, the locality is there, rule 8 holds, and so does what is said of
/// organisations.
fn rows_sound(bytes: &[u8], kinds: &[u8], point: Point) -> bool {
    let mut given = 0;
    for (n, kind) in KINDS.into_iter().enumerate() {
        let offset = point.offset(n);
        if offset != ABSENT {
            if kinds.get(offset as usize) != Some(&kind) {
                return false;
            }
            given |= 1 << n;
        }
    }
    let is_given = |n: u32| given >> n & 1 == 1;
    let broken = is_given(6) && !is_given(5) && point.building_number() == 0
        || is_given(3) && !is_given(1)
        || is_given(2) && !is_given(1)
        || is_given(4) && !is_given(3);
    let organisation = if point.rest[0] == b'L' {
        is_given(7)
    } else if number(point.rest, 5) == 0 {
        !is_given(7)
    } else {
        is_given(7) && bytes[point.offset(7) as usize + 1] != 0
    };
    is_given(0) && !broken && organisation
}

/// The n-th text of the row that an offset of a point names; none where it is
/// absent.
fn text<'a>(bytes: &'a [u8], point: Point, offset: usize, n: usize) -> &'a [u8] {
    let row = point.offset(offset);
    if row == ABSENT {
        return &[];
    }
    let mut at = row as usize + 1;
    for _ in 0..n {
        at += 1 + usize::from(bytes[at]);
    }
    &bytes[at + 1..at + 1 + usize::from(bytes[at])]
}

/// What the label of a point is printed from.
fn elements<'a>(bytes: &'a [u8], point: &Point<'a>) -> Elements<'a> {
    let text = |offset, n| text(bytes, *point, offset, n);
    Elements {
        organisation: text(7, 0),
        department: text(7, 1),
        po_box: trimmed(&point.rest[PO_BOX..OFFSETS]),
        sub_building: text(6, 0),
        building_name: text(5, 0),
        building_number: point.building_number().into(),
        concatenated: point.rest[11] == b'Y',
        dependent_thoroughfare: text(3, 0),
        dependent_descriptor: text(4, 0),
        thoroughfare: text(1, 0),
        descriptor: text(2, 0),
        double_dependent_locality: text(0, 2),
        dependent_locality: text(0, 1),
        post_town: text(0, 0),
        outward: trimmed(&point.postcode[..4]),
        inward: &point.postcode[4..],
    }
}

#[cfg(test)]
mod tests {
    use crate::plain;
    use crate::same::same_call;
    use paper::make::{damaged_packs, full_draft, pack_draft, scratch, Rng, EDITIONS};
    use ttw::calls;

    /// Asks both sides all about a pack, with buffers from none to enough.
    fn compare(pack: &[u8], what: &str) {
        let points = plain::pack(pack);
        assert_eq!(calls::pack(pack), points, "{what}");
        let last = if points >> 56 == 0 { points + 1 } else { 1 };
        for k in 0..=last {
            same_call!(what, 0, |_, _| pack_suffix(pack, k));
        }
        for digit in (0..=10).chain([b'9'.into(), 1 << 32, u64::MAX]) {
            same_call!(what, 0, |_, _| sector(pack, digit));
        }
        for room in [0, 30, 60, 90, 498, 499, 519, 520, 700] {
            for k in 0..=last {
                same_call!(what, room, |out, _| pack_label(pack, k, out));
            }
            for (first, count) in [(0, 0), (0, 1), (1, last), (2, 1), (last, 2)] {
                same_call!(what, room, |out, bytes| pack_labels(
                    pack, first, count, out, bytes
                ));
                same_call!(what, room, |out, bytes| pack_list(
                    pack, first, count, out, bytes
                ));
            }
        }
    }

    #[test]
    fn packs_that_open() {
        let mut rng = Rng::new(31);
        for edition in EDITIONS {
            compare(&full_draft(edition).bytes(), "a full pack");
        }
        for n in 0..300 {
            compare(&pack_draft(&mut rng, 8).bytes(), &format!("pack {n}"));
        }
    }

    #[test]
    fn packs_that_do_not() {
        for damaged in damaged_packs() {
            compare(&damaged.pack, &damaged.clause);
        }
    }

    #[test]
    fn scratched_packs() {
        let mut rng = Rng::new(37);
        for n in 0..1_000 {
            let mut pack = pack_draft(&mut rng, 5).bytes();
            scratch(&mut rng, &mut pack);
            compare(&pack, &format!("pack {n}"));
        }
    }
}
