//! Accepted files that addresses are read from: a table file and a point file,
//! or a Mainfile set. All that is asked of either is written here once.
//!
//! Refusals come in this order: the files, 12 where a code is given, then 7, 8,
//! 9, 10, lowest detail first.

use crate::address::{forbidden, Texts, LOCALITY, NO_TEXTS, ORGANISATION, REFERENCES};
use crate::fields::{outward_fault, trimmed, value};
use crate::label::{label_bytes, lend, Elements};
use crate::layout::{Field, ViewFields};
use crate::refusal::Refusal;
use std::collections::BTreeMap;

/// Accepted files that addresses are read from.
pub(crate) trait Source<'a>: Copy {
    /// The views, numbered from 1 in file order.
    fn views(self) -> impl Iterator<Item = View<'a>>;

    /// The row that a reference of a view names, as a number of the source's
    /// own; none where there is no such row. The numbers of table rows rise by
    /// type, then key.
    fn row(self, view: &View<'a>, place: usize) -> Option<usize>;

    /// The texts of the row of that number.
    fn texts(self, place: usize, row: usize) -> Texts<'a>;

    /// The live views of an outward code in file order; 12 where the code is
    /// malformed.
    fn live_views(self, code: &'a [u8]) -> Result<impl Iterator<Item = View<'a>>, Refusal> {
        live_in(self.views(), code)
    }
}

/// A record that stands for a delivery point, in an accepted file.
pub(crate) struct View<'a> {
    pub number: u64,
    /// Its record's number in the file.
    pub at: usize,
    pub record: &'a [u8],
    pub fields: &'static ViewFields,
}

impl<'a> View<'a> {
    fn field(&self, field: &Field) -> &'a [u8] {
        &self.record[field.clone()]
    }

    /// The amendment letter, where the file has letters.
    pub fn letter(&self) -> Option<u8> {
        let letter = self.fields.letter.as_ref()?;
        Some(self.record[letter.start])
    }

    /// A view is live if its amendment letter is I or C; without letters, every
    /// view is.
    pub fn is_live(&self) -> bool {
        matches!(self.letter(), None | Some(b'I' | b'C'))
    }

    pub fn outward(&self) -> &'a [u8] {
        self.field(&self.fields.outward)
    }

    pub fn inward(&self) -> &'a [u8] {
        self.field(&self.fields.inward)
    }

    pub fn suffix(&self) -> &'a [u8] {
        self.field(&self.fields.suffix)
    }

    pub fn postcode_type(&self) -> &'a [u8] {
        self.field(&self.fields.postcode_type)
    }

    pub fn address_key(&self) -> &'a [u8] {
        self.field(&self.fields.address_key)
    }

    pub fn organisation_key(&self) -> &'a [u8] {
        self.field(&self.fields.organisation_key)
    }

    pub fn building_number(&self) -> u64 {
        value(self.field(&self.fields.building_number))
    }

    pub fn concatenation(&self) -> &'a [u8] {
        self.field(&self.fields.concatenation)
    }

    pub fn po_box(&self) -> &'a [u8] {
        self.field(&self.fields.po_box)
    }

    /// The small user organisation indicator.
    pub fn indicator(&self) -> &'a [u8] {
        self.field(&self.fields.indicator)
    }

    /// The key that names the row of a reference other than the organisation.
    pub fn key(&self, place: usize) -> &'a [u8] {
        self.field(&self.fields.keys[place])
    }

    /// Which references the view has: keys that aren't zero, and the
    /// organisation where it needs one.
    fn present(&self) -> [bool; REFERENCES] {
        let mut present = [needs_organisation(self.record, self.fields); REFERENCES];
        for (place, present) in present[..ORGANISATION].iter_mut().enumerate() {
            *present = value(self.key(place)) > 0;
        }
        present
    }
}

/// S with an organisation key above zero and L need an organisation, S with key
/// zero has none. The small user indicator doesn't count here.
pub(crate) fn needs_organisation(record: &[u8], fields: &ViewFields) -> bool {
    record[fields.postcode_type.clone()] == *b"L"
        || value(&record[fields.organisation_key.clone()]) > 0
}

/// A code is given as 4 bytes, padded; another length is malformed: 12.
fn check_code(code: &[u8]) -> Result<(), Refusal> {
    if outward_fault(code) == 0 {
        Ok(())
    } else {
        Err(Refusal::new(12, 0))
    }
}

/// Those of these views that are live and of that outward code; 12 where the
/// code is malformed.
pub(crate) fn live_in<'a>(
    views: impl Iterator<Item = View<'a>>,
    code: &'a [u8],
) -> Result<impl Iterator<Item = View<'a>>, Refusal> {
    check_code(code)?;
    Ok(views.filter(move |view| view.is_live() && view.outward() == code))
}

/// The outward codes of the live ones of these views, as [`crate::codes`] writes
/// them.
pub(crate) fn codes_of<'a>(
    views: impl Iterator<Item = View<'a>>,
    out: &mut [u8],
) -> Result<usize, Refusal> {
    let mut counted: BTreeMap<&[u8], u32> = BTreeMap::new();
    for view in views.filter(View::is_live) {
        *counted.entry(view.outward()).or_default() += 1;
    }
    let needed = 8 * counted.len();
    if out.len() < needed {
        return Err(Refusal::new(10, needed as u64));
    }
    for ((code, count), entry) in counted.iter().zip(out.chunks_exact_mut(8)) {
        entry[..4].copy_from_slice(code);
        entry[4..].copy_from_slice(&count.to_be_bytes());
    }
    Ok(counted.len())
}

/// The view at that place, 1 being the first; 7 where there is none.
pub(crate) fn nth<'a>(
    views: impl Iterator<Item = View<'a>>,
    place: u64,
) -> Result<View<'a>, Refusal> {
    let mut places = 1..;
    for view in views {
        if places.next() == Some(place) {
            return Ok(view);
        }
    }
    Err(Refusal::new(7, 0))
}

/// The rows that a view refers to, by the source's numbers; none where absent.
pub(crate) type Rows = [Option<usize>; REFERENCES];

/// The rows that a view refers to. Refused with 8 where rule 8 forbids what the
/// view has together; with 9 where a key that isn't zero or a needed organisation
/// has no row, or the locality key is zero (it is looked for all the same: no row
/// has key zero).
pub(crate) fn rows_of<'a>(source: impl Source<'a>, view: &View<'a>) -> Result<Rows, Refusal> {
    let mut present = view.present();
    if let Some(rule) = forbidden(&present, view.building_number()) {
        return Err(Refusal::new(8, rule));
    }
    present[LOCALITY] = true;
    let mut rows = [None; REFERENCES];
    for place in (0..REFERENCES).filter(|place| present[*place]) {
        rows[place] = source.row(view, place);
        if rows[place].is_none() {
            return Err(Refusal::new(9, place as u64 + 1));
        }
    }
    Ok(rows)
}

/// The label of a view, or its 8 or 9.
pub(crate) fn view_label<'a>(source: impl Source<'a>, view: &View<'a>) -> Result<Vec<u8>, Refusal> {
    Ok(label_bytes(&elements_of(source, view)?))
}

/// Writes the label of the view at that place, 1 being the first, into `out` and
/// answers its length.
pub(crate) fn write_label<'a>(
    source: impl Source<'a>,
    views: impl Iterator<Item = View<'a>>,
    place: u64,
    out: &mut [u8],
) -> Result<usize, Refusal> {
    let view = nth(views, place)?;
    lend(&view_label(source, &view)?, out)
}

/// What the label of a view is printed from, or its 8 or 9.
pub(crate) fn elements_of<'a>(
    source: impl Source<'a>,
    view: &View<'a>,
) -> Result<Elements<'a>, Refusal> {
    let rows = rows_of(source, view)?;
    let mut texts = [NO_TEXTS; REFERENCES];
    for (place, row) in rows.iter().enumerate() {
        if let Some(row) = row {
            texts[place] = source.texts(place, *row);
        }
    }
    Ok(Elements {
        po_box: trimmed(view.po_box()),
        building_number: view.building_number(),
        concatenated: view.concatenation() == b"Y",
        outward: trimmed(view.outward()),
        inward: view.inward(),
        ..Elements::of_rows(&texts)
    })
}
