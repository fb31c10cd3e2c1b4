//! The calls with their answers taken apart: a value, or a refusal.

use crate::calls;

/// The longest label, and the longest row of CSV PAF.
pub const LABEL: usize = 499;

/// Bytes of a book.
pub const BOOK: usize = 86_530;

/// The refusal of a number that there is none of, the lowest of a label's own.
pub const NO_SUCH: u8 = 7;

/// The refusal of a lent buffer that is too short, the highest of a label's own;
/// its detail is the bytes needed.
pub const ROOM: u8 = 10;

/// The refusal of a view that no row of CSV PAF can carry.
const UNCARRIED: u8 = 15;

/// Why a call was refused.
#[derive(Clone, Copy, Debug, PartialEq, Eq)]
pub struct Refusal {
    /// 1 to 15, 17 to 20, 27 or 28.
    pub number: u8,
    /// The file to blame: 1 the table file, 2 the point file; of a set 1 to 7;
    /// 0 no file.
    pub file: u8,
    /// The byte of a malformed record; the field of a malformed row; the view, or
    /// the place in a book, where building a pack is refused because of one; the
    /// labels before, where a run stops.
    pub second: u64,
    /// The record, row, rule, field, step or bytes needed, by the number.
    pub detail: u64,
}

/// How far a run of labels or rows came, or a listing.
#[derive(Clone, Copy, Debug, PartialEq, Eq)]
pub struct Run {
    /// How many labels were written; of a run that stopped, the last 20 bits.
    pub labels: u64,
    /// How many bytes they take together.
    pub bytes: usize,
    /// The refusal of the label before which the run stopped.
    pub stop: Option<Refusal>,
}

/// What an answer's number says, bit by bit as the header's macros do.
pub fn answer(number: u64) -> Result<u64, Refusal> {
    let refusal = (number >> 56) as u8;
    if refusal == 0 {
        return Ok(number);
    }
    Err(Refusal {
        number: refusal,
        file: (number >> 52 & 0xF) as u8,
        second: number >> 32 & 0xF_FFFF,
        detail: number & 0xFFFF_FFFF,
    })
}

/// How many records a table file has.
pub fn table(table: &[u8]) -> Result<u64, Refusal> {
    answer(calls::table(table))
}

/// How many records a point file has.
pub fn points(points: &[u8]) -> Result<u64, Refusal> {
    answer(calls::points(points))
}

/// How many views a point file has.
pub fn views(points: &[u8]) -> Result<u64, Refusal> {
    answer(calls::views(points))
}

/// The amendment letter of a view.
pub fn letter(points: &[u8], view: u64) -> Result<char, Refusal> {
    answer(calls::letter(points, view)).map(|letter| char::from(letter as u8))
}

/// How many live views an outward code has.
pub fn live(points: &[u8], code: &[u8]) -> Result<u64, Refusal> {
    answer(calls::live(points, code))
}

/// The label of a view.
pub fn label(table: &[u8], points: &[u8], view: u64) -> Result<Vec<u8>, Refusal> {
    printed(|out| calls::label(table, points, view, out))
}

/// The outward codes with live views, rising, each with how many it has.
pub fn codes(points: &[u8]) -> Result<Vec<([u8; 4], u64)>, Refusal> {
    // No code needs more than a record.
    let mut out = vec![0; points.len()];
    let count = answer(calls::codes(points, &mut out))?;
    let entries = out.chunks_exact(8).take(count as usize);
    let number = |bytes: &[u8]| u32::from_be_bytes(bytes.try_into().expect("4 bytes"));
    let entry = |bytes: &[u8]| {
        (
            number(&bytes[..4]).to_be_bytes(),
            number(&bytes[4..]).into(),
        )
    };
    Ok(entries.map(entry).collect())
}

/// The label of the k-th live view in a code.
pub fn code_label(table: &[u8], points: &[u8], code: &[u8], k: u64) -> Result<Vec<u8>, Refusal> {
    printed(|out| calls::code_label(table, points, code, k, out))
}

/// The pack of a code. Its length is learnt from the refusal of a buffer that
/// is too short, so that no bound has to be known here; `likely` spares that
/// round where it is long enough.
pub fn build(table: &[u8], points: &[u8], code: &[u8], likely: usize) -> Result<Vec<u8>, Refusal> {
    fitting(likely, |out| calls::build(table, points, code, out))
}

/// How many points a pack has.
pub fn pack(pack: &[u8]) -> Result<u64, Refusal> {
    answer(calls::pack(pack))
}

/// The label of the k-th point of a pack.
pub fn pack_label(pack: &[u8], k: u64) -> Result<Vec<u8>, Refusal> {
    printed(|out| calls::pack_label(pack, k, out))
}

/// The suffix of the k-th point of a pack, a digit and a letter.
pub fn pack_suffix(pack: &[u8], k: u64) -> Result<String, Refusal> {
    let suffix = answer(calls::pack_suffix(pack, k))? as u16;
    Ok(suffix.to_be_bytes().map(char::from).iter().collect())
}

/// How many points of a pack are in the sector of an inward digit, 0 to 9.
pub fn sector(pack: &[u8], digit: u64) -> Result<u64, Refusal> {
    answer(calls::sector(pack, digit))
}

/// The row of a view as CSV PAF.
pub fn csv_row(table: &[u8], points: &[u8], view: u64) -> Result<Vec<u8>, Refusal> {
    printed(|out| calls::csv_row(table, points, view, out))
}

/// The rows of so many views from `first` on, one behind the other in `out`.
pub fn csv_rows(
    table: &[u8],
    points: &[u8],
    first: u64,
    count: u64,
    out: &mut [u8],
) -> Result<Run, Refusal> {
    rows_run(|bytes| calls::csv_rows(table, points, first, count, out, bytes))
}

/// How many rows a CSV file has.
pub fn csv(csv: &[u8]) -> Result<u64, Refusal> {
    answer(calls::csv(csv))
}

/// The label of a row of a CSV file.
pub fn csv_label(csv: &[u8], row: u64) -> Result<Vec<u8>, Refusal> {
    printed(|out| calls::csv_label(csv, row, out))
}

/// How many delivery points a book has.
pub fn book(book: &[u8]) -> Result<u64, Refusal> {
    answer(calls::book(book))
}

/// Does in a book what the event says whose first view has that number: the place
/// concerned.
pub fn book_event(book: &mut [u8], points: &[u8], view: u64) -> Result<u64, Refusal> {
    answer(calls::book_event(book, points, view))
}

/// Moves places 1, 2 and so on into the first slots of a book: how many there are.
pub fn book_tidy(book: &mut [u8]) -> Result<u64, Refusal> {
    answer(calls::book_tidy(book))
}

/// How many delivery points of an outward code are present in a book.
pub fn book_live(book: &[u8], code: &[u8]) -> Result<u64, Refusal> {
    answer(calls::book_live(book, code))
}

/// The label of a place of a book.
pub fn book_label(book: &[u8], table: &[u8], place: u64) -> Result<Vec<u8>, Refusal> {
    printed(|out| calls::book_label(book, table, place, out))
}

/// The label of the k-th that is present in a code.
pub fn book_code_label(book: &[u8], table: &[u8], code: &[u8], k: u64) -> Result<Vec<u8>, Refusal> {
    printed(|out| calls::book_code_label(book, table, code, k, out))
}

/// The pack of a code from a book; `likely` is a length that spares a second round
/// where it is enough.
pub fn book_build(
    book: &[u8],
    table: &[u8],
    code: &[u8],
    likely: usize,
) -> Result<Vec<u8>, Refusal> {
    fitting(likely, |out| calls::book_build(book, table, code, out))
}

/// Runs and listings: so many from `first` on, written into `out`.
macro_rules! runs {
    ($(
        $(#[$doc:meta])*
        $name:ident($($read:ident),*);
    )*) => {
        $(
            $(#[$doc])*
            pub fn $name(
                $($read: &[u8],)*
                first: u64,
                count: u64,
                out: &mut [u8],
            ) -> Result<Run, Refusal> {
                run(|bytes| calls::$name($($read,)* first, count, out, bytes))
            }
        )*
    };
}

runs! {
    /// The labels of so many views from `first` on, one behind the other in `out`.
    labels(table, points);

    /// The same for the live views in a code.
    code_labels(table, points, code);

    /// So many views from `first` on, listed in `out`.
    list(table, points);

    /// The same for the live views in a code.
    code_list(table, points, code);

    /// The labels of so many points from `first` on, one behind the other in `out`.
    pack_labels(pack);

    /// So many points from `first` on, listed in `out`.
    pack_list(pack);

    /// The labels of so many rows of a CSV file from `first` on, one behind the other
    /// in `out`.
    csv_labels(csv);

    /// So many rows of a CSV file from `first` on, listed in `out`.
    csv_list(csv);

    /// The labels of so many places of a book from `first` on, one behind the other
    /// in `out`.
    book_labels(book, table);

    /// The same for those that are present in a code.
    book_code_labels(book, table, code);

    /// So many places of a book from `first` on, listed in `out`.
    book_list(book, table);

    /// The same for those that are present in a code.
    book_code_list(book, table, code);
}

/// What a run's answer says, or a listing's: a label's own refusal stops it, any other refuses
/// the whole.
pub(crate) fn run(call: impl FnOnce(&mut u64) -> u64) -> Result<Run, Refusal> {
    run_that_stops(|number| (NO_SUCH..=ROOM).contains(&number), call)
}

/// The same of a run of rows, which stops too at a view that none can carry.
pub(crate) fn rows_run(call: impl FnOnce(&mut u64) -> u64) -> Result<Run, Refusal> {
    run_that_stops(
        |number| (NO_SUCH..=ROOM).contains(&number) || number == UNCARRIED,
        call,
    )
}

fn run_that_stops(
    stops: impl FnOnce(u8) -> bool,
    call: impl FnOnce(&mut u64) -> u64,
) -> Result<Run, Refusal> {
    let mut bytes = 0;
    let (labels, stop) = match answer(call(&mut bytes)) {
        Ok(labels) => (labels, None),
        Err(why) if stops(why.number) => (why.second, Some(Refusal { second: 0, ..why })),
        Err(why) => return Err(why),
    };
    Ok(Run {
        labels,
        bytes: bytes as usize,
        stop,
    })
}

/// What a call writes that answers with its length. How much room it needs is
/// learnt from its refusal.
pub(crate) fn fitting(likely: usize, call: impl Fn(&mut [u8]) -> u64) -> Result<Vec<u8>, Refusal> {
    let mut out = vec![0; likely];
    let mut written = answer(call(&mut out));
    if let Err(Refusal {
        number: ROOM,
        detail,
        ..
    }) = written
    {
        out.resize(detail as usize, 0);
        written = answer(call(&mut out));
    }
    out.truncate(written? as usize);
    Ok(out)
}

/// The label or row that a call prints into a fresh buffer.
pub(crate) fn printed(call: impl FnOnce(&mut [u8]) -> u64) -> Result<Vec<u8>, Refusal> {
    let mut out = vec![0; LABEL];
    let length = answer(call(&mut out))?;
    out.truncate(length as usize);
    Ok(out)
}
