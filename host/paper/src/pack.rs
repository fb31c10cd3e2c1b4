//! Document 01, "The pack" and "Pack check", in every edition: opening a pack,
//! and labels, suffixes and counts of sectors asked of it. Numbers are most
//! significant byte first.

use crate::address::{
    forbidden, text_rules, TextRule, Texts, LOCALITY, NO_TEXTS, ORGANISATION, REFERENCES, ROW_TYPE,
};
use crate::fields::{inward_fault, outward_fault, suffix_fault, text_fault, trimmed, value};
use crate::label::{label_bytes, lend, Elements};
use crate::layout::pack::{self as place, Edition, EDITIONS, SECTORS};
use crate::layout::Field;
use crate::records::{mark_fault, postcode_type_fault};
use crate::refusal::Refusal;

/// The highest number that a key of 8 digits shows.
const HIGHEST_KEY: u64 = 99_999_999;
/// The highest building number.
const HIGHEST_NUMBER: u64 = 9_999;

/// The number of points of a pack, or refusal 11 with the step that failed.
pub fn open(pack: &[u8]) -> Result<usize, Refusal> {
    Ok(Pack::accept(pack)?.point_count())
}

/// Writes the label of the k-th point into `out` and answers its length. The
/// refusals are 11, 7, 10, in this order.
pub fn pack_label(pack: &[u8], k: u64, out: &mut [u8]) -> Result<usize, Refusal> {
    let point = Pack::accept(pack)?.point(k)?;
    lend(&point.label(), out)
}

/// The suffix of the k-th point as a number: its first byte times 256 plus its
/// second. The refusals are 11, 7, 13, in this order: "asking one for a suffix is
/// refused", of packs of edition 1.
pub fn pack_suffix(pack: &[u8], k: u64) -> Result<u64, Refusal> {
    let point = Pack::accept(pack)?.point(k)?;
    point.suffix().map(number).ok_or(Refusal::new(13, 0))
}

/// How many points a sector has, asked for by its inward digit. "The answer is
/// read from there and equals counting all points"; "Editions 1 and 2 still open,
/// their points walked." The refusals are 11, 27, in this order.
pub fn sector(pack: &[u8], digit: u64) -> Result<u64, Refusal> {
    let pack = Pack::accept(pack)?;
    let counts = pack.said_counts().unwrap_or_else(|| pack.counted());
    let place = usize::try_from(digit).ok();
    let count = place.and_then(|place| counts.get(place).copied());
    count.ok_or(Refusal::new(27, 0))
}

/// The points of a pack, in order.
pub(crate) fn points(pack: &[u8]) -> Result<impl Iterator<Item = Point<'_>>, Refusal> {
    Ok(Pack::accept(pack)?.all_points())
}

/// The number that these bytes show.
fn number(bytes: &[u8]) -> u64 {
    bytes
        .iter()
        .fold(0, |number, byte| number << 8 | u64::from(*byte))
}

/// A pack that has passed step 1; `accept` gives one that has passed all steps.
#[derive(Clone, Copy)]
struct Pack<'a> {
    edition: &'static Edition,
    rows: &'a [u8],
    row_count: u64,
    points: &'a [u8],
    outward: &'a [u8],
    counts: Option<&'a [u8]>,
}

impl<'a> Pack<'a> {
    fn accept(pack: &'a [u8]) -> Result<Pack<'a>, Refusal> {
        let pack = Pack::split(pack).ok_or(Refusal::new(11, 1))?;
        let row_types = pack.row_types().ok_or(Refusal::new(11, 2))?;
        if !pack.all_points().all(|point| point.is_sound(&row_types)) {
            return Err(Refusal::new(11, 3));
        }
        if !pack.has_true_counts() {
            return Err(Refusal::new(11, 4));
        }
        Ok(pack)
    }

    /// Step 1: at least 21 bytes, an edition that there is, length true, outward
    /// well formed, points start + 57 x point count + 21 equal to the length; from
    /// edition 2 on, 59 x point count; in edition 3, 61 "both times that step 1
    /// says 21".
    fn split(pack: &'a [u8]) -> Option<Pack<'a>> {
        let last = pack.last()?;
        let edition = EDITIONS.iter().find(|edition| edition.number == *last)?;
        let body_length = pack.len().checked_sub(edition.trailer)?;
        let (body, trailer) = pack.split_at(body_length);
        let points_start = number(&trailer[place::POINTS_START]);
        let point_count = number(&trailer[place::POINT_COUNT]);
        let outward = &trailer[place::OUTWARD];
        let sound = number(&trailer[place::LENGTH]) == pack.len() as u64
            && outward_fault(outward) == 0
            && points_start + edition.point() as u64 * point_count == body_length as u64;
        if !sound {
            return None;
        }
        let (rows, points) = body.split_at(points_start as usize);
        Some(Pack {
            edition,
            rows,
            row_count: number(&trailer[place::ROW_COUNT]),
            points,
            outward,
            counts: edition.counts.clone().map(|counts| &trailer[counts]),
        })
    }

    /// Step 4, where the edition has counts: what they say "equals counting all
    /// points; opening checks this".
    fn has_true_counts(self) -> bool {
        self.said_counts().is_none_or(|said| said == self.counted())
    }

    /// The counts of the sectors that the trailer says, where the edition has
    /// them.
    fn said_counts(self) -> Option<[u64; SECTORS]> {
        let mut said = [0; SECTORS];
        for (count, bytes) in said.iter_mut().zip(self.counts?.chunks_exact(place::COUNT)) {
            *count = number(bytes);
        }
        Some(said)
    }

    /// The points of each sector, by their inward digits.
    fn counted(self) -> [u64; SECTORS] {
        let mut counts = [0; SECTORS];
        for point in self.all_points() {
            let digit = &point.postcode(place::POINT_INWARD)[..1];
            if let Some(count) = counts.get_mut(value(digit) as usize) {
                *count += 1;
            }
        }
        counts
    }

    /// Step 2: the bytes before points start are exactly row-count rows, types
    /// 1 to 6 never falling. Answers for each of these bytes the type of the
    /// row that starts there, 0 where none does.
    fn row_types(self) -> Option<Vec<u8>> {
        let mut types = vec![0; self.rows.len()];
        let mut at = 0;
        let mut count = 0;
        let mut type_before = 1;
        while at < self.rows.len() {
            let row_type = self.rows[at];
            if row_type < type_before {
                return None;
            }
            types[at] = row_type;
            type_before = row_type;
            count += 1;
            at += sound_row(&self.rows[at..])?;
        }
        (count == self.row_count).then_some(types)
    }

    fn point_count(self) -> usize {
        self.points.len() / self.edition.point()
    }

    fn all_points(self) -> impl Iterator<Item = Point<'a>> {
        let bytes = self.points.chunks_exact(self.edition.point());
        bytes.map(move |bytes| Point { pack: self, bytes })
    }

    /// The k-th point, counted from 1; 7 where there is none.
    fn point(self, k: u64) -> Result<Point<'a>, Refusal> {
        let before = k.checked_sub(1).and_then(|k| usize::try_from(k).ok());
        before
            .and_then(|before| self.all_points().nth(before))
            .ok_or(Refusal::new(7, 0))
    }
}

/// The length of the row that these bytes begin with, if it is sound: a type 1
/// to 6 whose texts are sound and end inside the bytes, a double dependent
/// locality only with a dependent one.
fn sound_row(bytes: &[u8]) -> Option<usize> {
    let row_type = *bytes.first()?;
    let rules = text_rules(row_type);
    let mut texts = NO_TEXTS;
    let mut end = 1;
    for (index, rule) in rules.iter().enumerate() {
        let text = text_at(bytes, end)?;
        if !is_sound_text(text, rule) {
            return None;
        }
        texts[index] = text;
        end += 1 + text.len();
    }
    let alone = row_type == 1 && texts[1].is_empty() && !texts[2].is_empty();
    let sound = !rules.is_empty() && !alone;
    sound.then_some(end)
}

/// The text whose length byte stands at that place, if it ends inside the
/// bytes.
fn text_at(bytes: &[u8], at: usize) -> Option<&[u8]> {
    let length = usize::from(*bytes.get(at)?);
    bytes.get(at + 1..at + 1 + length)
}

/// A text of a row: well formed, no longer than its field, with no space at
/// either end, empty only where blank is allowed.
fn is_sound_text(text: &[u8], rule: &TextRule) -> bool {
    text_fault(text) == 0
        && text.len() <= rule.longest
        && !text.starts_with(b" ")
        && !text.ends_with(b" ")
        && (rule.may_be_empty || !text.is_empty())
}

/// A point of a pack that has passed step 1.
pub(crate) struct Point<'a> {
    pack: Pack<'a>,
    bytes: &'a [u8],
}

impl<'a> Point<'a> {
    /// A field of the postcode.
    fn postcode(&self, field: Field) -> &'a [u8] {
        &self.bytes[field]
    }

    /// The suffix, where the edition has one.
    fn suffix(&self) -> Option<&'a [u8]> {
        let suffix = self.pack.edition.suffix.clone()?;
        Some(&self.bytes[suffix])
    }

    /// A field behind postcode and suffix.
    fn field(&self, field: Field) -> &'a [u8] {
        &self.bytes[self.pack.edition.rest.clone()][field]
    }

    fn building_number(&self) -> u64 {
        number(self.field(place::BUILDING_NUMBER))
    }

    /// The eight row offsets; none where absent.
    fn offsets(&self) -> [Option<usize>; REFERENCES] {
        let mut offsets = [None; REFERENCES];
        let fields = self.field(place::OFFSETS).chunks_exact(place::OFFSET);
        for (offset, field) in offsets.iter_mut().zip(fields) {
            let value = number(field);
            if value != u64::from(place::ABSENT) {
                *offset = Some(value as usize);
            }
        }
        offsets
    }

    /// Step 3, for this point.
    fn is_sound(&self, row_types: &[u8]) -> bool {
        self.has_sound_fields()
            && self.has_sound_offsets(row_types)
            && forbidden(
                &self.offsets().map(|offset| offset.is_some()),
                self.building_number(),
            )
            .is_none()
            && self.has_sound_organisation()
    }

    /// Postcode well formed in the trailer's code, and a suffix with it; type,
    /// concatenation, PO box well formed; keys up to 99,999,999; number up to
    /// 9,999.
    fn has_sound_fields(&self) -> bool {
        self.postcode(place::POINT_OUTWARD) == self.pack.outward
            && inward_fault(self.postcode(place::POINT_INWARD)) == 0
            && self.suffix().is_none_or(|suffix| suffix_fault(suffix) == 0)
            && postcode_type_fault(self.field(place::POSTCODE_TYPE)) == 0
            && mark_fault(self.field(place::CONCATENATION)) == 0
            && text_fault(self.field(place::PO_BOX)) == 0
            && number(self.field(place::ADDRESS_KEY)) <= HIGHEST_KEY
            && number(self.field(place::ORGANISATION_KEY)) <= HIGHEST_KEY
            && self.building_number() <= HIGHEST_NUMBER
    }

    /// Every offset is absent or the start of a row of its type, locality
    /// present.
    fn has_sound_offsets(&self, row_types: &[u8]) -> bool {
        let offsets = self.offsets();
        let are_rows = offsets.iter().zip(ROW_TYPE).all(|(offset, row_type)| {
            offset.is_none_or(|offset| row_types.get(offset) == Some(&row_type))
        });
        are_rows && offsets[LOCALITY].is_some()
    }

    /// L has an organisation row; S has one with a name exactly when its
    /// organisation key is above zero, and otherwise none. Asked only once the
    /// offsets are sound.
    fn has_sound_organisation(&self) -> bool {
        let organisation = self.offsets()[ORGANISATION];
        if self.field(place::POSTCODE_TYPE) == b"L" {
            organisation.is_some()
        } else if number(self.field(place::ORGANISATION_KEY)) > 0 {
            organisation.is_some_and(|offset| !self.texts(offset)[0].is_empty())
        } else {
            organisation.is_none()
        }
    }

    /// The texts of the row that starts at an offset.
    fn texts(&self, offset: usize) -> Texts<'a> {
        let mut texts = NO_TEXTS;
        let row = self.pack.rows.get(offset..).unwrap_or_default();
        let row_type = row.first().copied().unwrap_or_default();
        let mut at = 1;
        for (index, _) in text_rules(row_type).iter().enumerate() {
            texts[index] = text_at(row, at).unwrap_or_default();
            at += 1 + texts[index].len();
        }
        texts
    }

    /// The label of a point of an accepted pack.
    pub fn label(&self) -> Vec<u8> {
        label_bytes(&self.elements())
    }

    /// What the label of a point is printed from.
    fn elements(&self) -> Elements<'a> {
        let rows = self
            .offsets()
            .map(|offset| offset.map_or(NO_TEXTS, |offset| self.texts(offset)));
        Elements {
            po_box: trimmed(self.field(place::PO_BOX)),
            building_number: self.building_number(),
            concatenated: self.field(place::CONCATENATION) == b"Y",
            outward: trimmed(self.postcode(place::POINT_OUTWARD)),
            inward: self.postcode(place::POINT_INWARD),
            ..Elements::of_rows(&rows)
        }
    }
}
