//! Each call of the library asked beside the second program. An answer is
//! handed back only where both give it and the lent bytes are as they were.

use paper::make::Pair;
use paper::{packed, Refusal};
use std::hint::black_box;
use ttw::calls;

/// How many bytes of a file are shown where the answers differ.
const SHOWN: usize = 8_000;

/// How many records a table file has, or its refusal.
#[track_caller]
pub fn table(table: &[u8]) -> u64 {
    let answer = lent(table, calls::table);
    let plain = paper::check_table(table).map(|records| records as u64);
    same("table", table, answer, plain)
}

/// How many records a point file has, or its refusal.
#[track_caller]
pub fn points(points: &[u8]) -> u64 {
    let answer = lent(points, calls::points);
    let plain = paper::check_points(points).map(|records| records as u64);
    same("points", points, answer, plain)
}

/// How many views a point file has, or its refusal.
#[track_caller]
pub fn views(points: &[u8]) -> u64 {
    let answer = lent(points, calls::views);
    let plain = paper::views(points).map(|views| views as u64);
    same("views", points, answer, plain)
}

/// The amendment letter of a view, or the refusal.
#[track_caller]
pub fn letter(points: &[u8], view: u64) -> u64 {
    let answer = lent(points, |points| calls::letter(points, view));
    let plain = paper::letter(points, view).map(u64::from);
    same(&format!("letter of {view}"), points, answer, plain)
}

/// How many live views an outward code has, or the refusal.
#[track_caller]
pub fn live(points: &[u8], code: &[u8]) -> u64 {
    let answer = lent(code, |code| {
        lent(points, |points| calls::live(points, code))
    });
    let plain = paper::live(points, code).map(|views| views as u64);
    same(&format!("live in {code:?}"), points, answer, plain)
}

/// The label of a view, or the refusal, with a buffer of so many bytes.
#[track_caller]
pub fn label(table: &[u8], points: &[u8], view: u64, room: usize) -> u64 {
    printed(
        &format!("label of {view} into {room} bytes"),
        points,
        room,
        |out| calls::label(table, points, view, out),
        |out| paper::label(table, points, view, out),
    )
}

/// The label of the k-th live view in a code, or the refusal, with a buffer of so many bytes.
#[track_caller]
pub fn code_label(table: &[u8], points: &[u8], code: &[u8], k: u64, room: usize) -> u64 {
    printed(
        &format!("label of {k} in {code:?} into {room} bytes"),
        points,
        room,
        |out| calls::code_label(table, points, code, k, out),
        |out| paper::code_label(table, points, code, k, out),
    )
}

/// The pack of a code, or the refusal, with a buffer of so many bytes.
#[track_caller]
pub fn build(table: &[u8], points: &[u8], code: &[u8], room: usize) -> u64 {
    let library = |out: &mut [u8]| {
        lent(table, |table| {
            lent(points, |points| {
                lent(code, |code| calls::build(table, points, code, out))
            })
        })
    };
    printed(
        &format!("pack of {code:?} into {room} bytes"),
        points,
        room,
        library,
        |out| paper::build(table, points, code, out),
    )
}

/// How many points a pack has, or its refusal.
#[track_caller]
pub fn pack(pack: &[u8]) -> u64 {
    let answer = lent(pack, calls::pack);
    let plain = paper::open(pack).map(|points| points as u64);
    same("pack", pack, answer, plain)
}

/// The label of the k-th point of a pack, or the refusal, with a buffer of so many bytes.
#[track_caller]
pub fn pack_label(pack: &[u8], k: u64, room: usize) -> u64 {
    printed(
        &format!("label of point {k} into {room} bytes"),
        pack,
        room,
        |out| lent(pack, |pack| calls::pack_label(pack, k, out)),
        |out| paper::pack_label(pack, k, out),
    )
}

/// The suffix of the k-th point of a pack, or the refusal.
#[track_caller]
pub fn pack_suffix(pack: &[u8], k: u64) -> u64 {
    let answer = lent(pack, |pack| calls::pack_suffix(pack, k));
    let plain = paper::pack_suffix(pack, k);
    same(&format!("suffix of point {k}"), pack, answer, plain)
}

/// How many points of a pack are in the sector of an inward digit, or the refusal.
#[track_caller]
pub fn sector(pack: &[u8], digit: u64) -> u64 {
    let answer = lent(pack, |pack| calls::sector(pack, digit));
    let plain = paper::sector(pack, digit);
    same(&format!("sector {digit}"), pack, answer, plain)
}

/// The label of the k-th point of a pack that was built from this pair and code. The library has to give the answer and
/// the buffer that it gives for the k-th live view of the files, beside agreeing with the second program about both.
#[track_caller]
pub fn built_label(pair: &Pair, code: &[u8], pack: &[u8], k: u64, room: usize) -> u64 {
    let (table, points) = (&pair.table, &pair.points);
    let answer = pack_label(pack, k, room);
    assert_eq!(answer, code_label(table, points, code, k, room));
    let (mut from_pack, mut from_files) = (telling(room), telling(room));
    calls::pack_label(pack, k, &mut from_pack[..room]);
    calls::code_label(table, points, code, k, &mut from_files[..room]);
    assert!(
        *black_box(&from_pack) == *black_box(&from_files),
        "label of {k} in {code:?} into {room} bytes: pack and files print differently"
    );
    answer
}

/// Bytes behind a lent buffer that no call may touch.
const CANARIES: usize = 24;

/// A buffer of so many telling bytes, and canaries behind it.
pub(crate) fn telling(room: usize) -> Vec<u8> {
    (0..room + CANARIES).map(|i| (i * 7 + 1) as u8).collect()
}

/// Asks both programs to print into a buffer that is full of telling bytes, and compares answer and buffer.
#[track_caller]
pub(crate) fn printed(
    call: &str,
    file: &[u8],
    room: usize,
    library: impl FnOnce(&mut [u8]) -> u64,
    plain: impl FnOnce(&mut [u8]) -> Result<usize, Refusal>,
) -> u64 {
    let (mut ours, mut theirs) = (telling(room), telling(room));
    let answer = library(&mut ours[..room]);
    let expected = plain(&mut theirs[..room]).map(|bytes| bytes as u64);
    assert!(*black_box(&ours) == theirs, "{call}: the buffers differ");
    same(call, file, answer, expected)
}

/// Makes a call that only reads these bytes, and fails where it wrote.
#[track_caller]
pub(crate) fn lent(bytes: &[u8], call: impl FnOnce(&[u8]) -> u64) -> u64 {
    let before = bytes.to_vec();
    let answer = call(bytes);
    assert!(
        *black_box(bytes) == before,
        "the call wrote into lent bytes"
    );
    answer
}

/// Fails where the library's answer isn't the second program's.
#[track_caller]
pub(crate) fn same(call: &str, file: &[u8], answer: u64, plain: Result<u64, Refusal>) -> u64 {
    assert!(
        answer == packed(plain),
        "{call}: the library answers {answer:#x}, the second program {plain:?}, for {} bytes: {}",
        file.len(),
        file[..file.len().min(SHOWN)].escape_ascii()
    );
    answer
}
