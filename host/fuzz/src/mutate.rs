//! Mutations of accepted files, packs, CSV files and books: by structure, so that a
//! whole record, row, point, field or slot moves, and by bytes.

use paper::make::{scratch, Edition, Rng, BUILT, EDITIONS};

/// Mutates a file of records of that width, or leaves it as it is.
pub fn file(rng: &mut Rng, bytes: &mut Vec<u8>, width: usize) {
    for _ in 0..rng.below(3) {
        match rng.below(9) {
            0 => swap(rng, bytes, width),
            1 => remove(rng, bytes, width),
            2 => double(rng, bytes, width),
            3 => splice(rng, bytes, width),
            4 => digits(rng, bytes),
            5 => cut(rng, bytes),
            6 => identifier(rng, bytes, width),
            _ => scratch(rng, bytes),
        }
    }
    if rng.one_in(2) {
        recount(bytes, width);
    }
}

/// Any record of a file, as the place of its first byte.
fn record(rng: &mut Rng, bytes: &[u8], width: usize) -> usize {
    rng.below(bytes.len() / width) * width
}

/// Two records change places.
fn swap(rng: &mut Rng, bytes: &mut [u8], width: usize) {
    let (one, two) = (record(rng, bytes, width), record(rng, bytes, width));
    for at in 0..width.min(bytes.len()) {
        bytes.swap(one + at, two + at);
    }
}

fn remove(rng: &mut Rng, bytes: &mut Vec<u8>, width: usize) {
    let at = record(rng, bytes, width);
    bytes.drain(at..(at + width).min(bytes.len()));
}

/// A record stands twice, one behind the other.
fn double(rng: &mut Rng, bytes: &mut Vec<u8>, width: usize) {
    let at = record(rng, bytes, width);
    let copy = bytes[at..(at + width).min(bytes.len())].to_vec();
    bytes.splice(at..at, copy);
}

/// Some bytes of a record get those of another at the same place.
fn splice(rng: &mut Rng, bytes: &mut [u8], width: usize) {
    if bytes.len() < width {
        return;
    }
    let (from, to) = (record(rng, bytes, width), record(rng, bytes, width));
    let start = rng.below(width);
    let length = rng.below(width - start) + 1;
    bytes.copy_within(from + start..from + start + length, to + start);
}

/// A digit becomes another, so that keys, dates and numbers change and stay
/// well formed.
fn digits(rng: &mut Rng, bytes: &mut [u8]) {
    let places: Vec<usize> = (0..bytes.len())
        .filter(|at| bytes[*at].is_ascii_digit())
        .collect();
    if !places.is_empty() {
        bytes[*rng.pick(&places)] = *rng.pick(b"01239");
    }
}

fn cut(rng: &mut Rng, bytes: &mut Vec<u8>) {
    bytes.truncate(rng.below(bytes.len() + 1));
}

/// What the header or the trailer begins with becomes one byte, throughout or up
/// to a place.
fn identifier(rng: &mut Rng, bytes: &mut [u8], width: usize) {
    let last = bytes.len().saturating_sub(width);
    let start = *rng.pick(&[0, last]);
    let front = match rng.one_in(2) {
        true => front(width),
        false => rng.below(width),
    };
    let byte = *rng.pick(b"    \0\xff0");
    let end = bytes.len().min(start + front);
    bytes[start..end].fill(byte);
}

/// How many bytes stand before the name in a header and the count in a trailer.
fn front(width: usize) -> usize {
    match width {
        169 => 9,
        168 => 14,
        88 => 15,
        _ => 8,
    }
}

/// Puts the right count into the trailer, so that what else was changed is not
/// hidden behind refusal 3.
fn recount(bytes: &mut [u8], width: usize) {
    let records = bytes.len() / width;
    if records >= 2 && bytes.len().is_multiple_of(width) {
        let count = format!("{records:08}");
        let at = bytes.len() - width + front(width);
        bytes[at..at + 8].copy_from_slice(count.as_bytes());
    }
}

/// Mutates a pack, or leaves it as it is.
pub fn pack(rng: &mut Rng, bytes: &mut Vec<u8>) {
    for _ in 0..rng.below(3) {
        match rng.below(9) {
            0 => offset(rng, bytes),
            1 => points(rng, bytes),
            2 => insert(rng, bytes),
            3 => cut(rng, bytes),
            4 => lengthen(rng, bytes),
            5 => reedition(rng, bytes),
            6 => recounted(rng, bytes),
            _ => scratch(rng, bytes),
        }
    }
    if rng.one_in(2) {
        retrailer(bytes);
    }
}

/// Mutates a CSV file, or leaves it as it is.
pub fn csv(rng: &mut Rng, bytes: &mut Vec<u8>) {
    for _ in 0..rng.below(3) {
        match rng.below(7) {
            0 => marks(rng, bytes),
            1 => fields(rng, bytes),
            2 => cut(rng, bytes),
            3 => insert(rng, bytes),
            4 => digits(rng, bytes),
            5 => unmark(rng, bytes),
            _ => scratch(rng, bytes),
        }
    }
}

/// Bytes of a slot of a book.
const SLOT: usize = 338;

/// Mutates a book, or leaves it as it is.
pub fn book(rng: &mut Rng, bytes: &mut Vec<u8>) {
    if bytes.len() < SLOT {
        return;
    }
    for _ in 0..rng.below(3) {
        match rng.below(6) {
            0 => swap(rng, bytes, SLOT),
            1 => splice(rng, bytes, SLOT),
            2 => digits(rng, bytes),
            3 => places(rng, bytes),
            4 => cut(rng, bytes),
            _ => scratch(rng, bytes),
        }
        if bytes.len() < SLOT {
            return;
        }
    }
}

/// A place or the count grows or shrinks.
fn places(rng: &mut Rng, bytes: &mut [u8]) {
    let count = bytes.len() - 1;
    let place = record(rng, bytes, SLOT) + 1;
    let at = *rng.pick(&[count, place]);
    bytes[at] = bytes[at].wrapping_add(*rng.pick(&[1, 255]));
}

/// A byte that means something in a CSV file comes in, or two of them.
fn marks(rng: &mut Rng, bytes: &mut Vec<u8>) {
    let at = rng.below(bytes.len() + 1);
    let marks: [&[u8]; 8] = [b",", b"\"", b"\r", b"\n", b"\r\n", b"\n\r", b" ", b"  "];
    bytes.splice(at..at, rng.pick(&marks).iter().copied());
}

/// Such a byte goes.
fn unmark(rng: &mut Rng, bytes: &mut Vec<u8>) {
    let places: Vec<usize> = (0..bytes.len())
        .filter(|at| b",\r\n".contains(&bytes[*at]))
        .collect();
    if !places.is_empty() {
        bytes.remove(*rng.pick(&places));
    }
}

/// Two fields change places.
fn fields(rng: &mut Rng, bytes: &mut Vec<u8>) {
    let mut fields: Vec<Vec<u8>> = bytes
        .split(|byte| *byte == b',')
        .map(<[u8]>::to_vec)
        .collect();
    let (one, two) = (rng.below(fields.len()), rng.below(fields.len()));
    fields.swap(one, two);
    *bytes = fields.join(&b',');
}

/// The edition that a pack says, or the one that is built where there is no such
/// one.
fn edition_of(bytes: &[u8]) -> Edition {
    Edition::of(bytes).unwrap_or(BUILT)
}

/// A number of 4 bytes of a pack's trailer; 0 where there is no trailer.
fn trailer_number(bytes: &[u8], at: usize) -> usize {
    let start = bytes.len().saturating_sub(edition_of(bytes).trailer) + at;
    let field = bytes.get(start..start + 4).unwrap_or(&[0; 4]);
    field
        .iter()
        .fold(0, |number, byte| number << 8 | usize::from(*byte))
}

/// Another offset in some point: a place in the rows, absent, or near either.
fn offset(rng: &mut Rng, bytes: &mut [u8]) {
    let (start, count) = (trailer_number(bytes, 4), trailer_number(bytes, 8));
    let edition = edition_of(bytes);
    let at = start + edition.point * rng.below(count) + edition.offsets() + 4 * rng.below(8);
    let value = match rng.below(4) {
        0 => u32::MAX,
        1 => u32::MAX - 1,
        2 => start as u32,
        _ => rng.below(start + 1) as u32,
    };
    if let Some(field) = bytes.get_mut(at..at.saturating_add(4)) {
        field.copy_from_slice(&value.to_be_bytes());
    }
}

/// Two points change places.
fn points(rng: &mut Rng, bytes: &mut [u8]) {
    let (start, count) = (trailer_number(bytes, 4), trailer_number(bytes, 8));
    let width = edition_of(bytes).point;
    let one = start + width * rng.below(count);
    let two = start + width * rng.below(count);
    if one.max(two) + width <= bytes.len() {
        (0..width).for_each(|at| bytes.swap(one + at, two + at));
    }
}

fn insert(rng: &mut Rng, bytes: &mut Vec<u8>) {
    let at = rng.below(bytes.len() + 1);
    bytes.insert(at, rng.byte());
}

/// A length byte grows or shrinks.
fn lengthen(rng: &mut Rng, bytes: &mut [u8]) {
    let rows = trailer_number(bytes, 4).min(bytes.len());
    if rows > 0 {
        let at = rng.below(rows);
        bytes[at] = bytes[at].wrapping_add(*rng.pick(&[1, 255, 128]));
    }
}

/// The edition byte becomes that of another edition, or of none.
fn reedition(rng: &mut Rng, bytes: &mut [u8]) {
    if let Some(last) = bytes.last_mut() {
        *last = rng.below(EDITIONS.len() + 2) as u8;
    }
}

/// The count of a sector grows or shrinks, or one point of it is counted in
/// another, where the edition has counts.
fn recounted(rng: &mut Rng, bytes: &mut [u8]) {
    let edition = edition_of(bytes);
    let Some(trailer) = bytes.len().checked_sub(edition.trailer) else {
        return;
    };
    let mut add = |rng: &mut Rng, number: u32| {
        let at = trailer + 20 + 4 * rng.below(10);
        if let Some(field) = bytes.get_mut(at..at + 4).filter(|_| edition.has_counts()) {
            let count = u32::from_be_bytes((&*field).try_into().expect("4 bytes"));
            field.copy_from_slice(&count.wrapping_add(number).to_be_bytes());
        }
    };
    let number = *rng.pick(&[1, u32::MAX, 1 << 24]);
    add(rng, number);
    if rng.one_in(2) {
        add(rng, number.wrapping_neg());
    }
}

/// Makes length and points start true again, so that what else was changed is
/// not hidden behind step 1.
fn retrailer(bytes: &mut [u8]) {
    let length = bytes.len();
    let edition = edition_of(bytes);
    let points = edition.point * trailer_number(bytes, 8);
    if length >= edition.trailer + points {
        let start = (length - edition.trailer - points) as u32;
        let trailer = &mut bytes[length - edition.trailer..];
        trailer[4..8].copy_from_slice(&start.to_be_bytes());
        trailer[16..20].copy_from_slice(&(length as u32).to_be_bytes());
    }
}
