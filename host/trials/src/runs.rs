//! Runs of labels and rows and listings: the library asked beside the second program, and beside its own calls for each in
//! turn. Answer, buffer and bytes told have to be the same three times.

use crate::agree::{lent, telling};
use crate::rooms::refusal;
use paper::{packed_run, Refusal, Run};
use std::hint::black_box;
use ttw::calls;

/// Labels from number `first` on, so many, in a buffer of so many bytes.
#[derive(Clone, Copy, Debug)]
pub struct Asked {
    pub first: u64,
    pub count: u64,
    pub room: usize,
}

impl Asked {
    pub fn new(first: u64, count: u64, room: usize) -> Asked {
        Asked { first, count, room }
    }
}

/// A run over the views of a pair: its answer.
#[track_caller]
pub fn labels(table: &[u8], points: &[u8], asked: Asked) -> u64 {
    let Asked { first, count, .. } = asked;
    let library = |out: &mut [u8], bytes: &mut u64| {
        lent(table, |table| {
            lent(points, |points| {
                calls::labels(table, points, first, count, out, bytes)
            })
        })
    };
    let one = |view, out: &mut [u8]| calls::label(table, points, view, out);
    let plain = |out: &mut [u8]| paper::labels(table, points, first, count, out);
    same_thrice(asked, library, one, plain)
}

/// A run over the live views of a pair in a code: its answer.
#[track_caller]
pub fn code_labels(table: &[u8], points: &[u8], code: &[u8], asked: Asked) -> u64 {
    let Asked { first, count, .. } = asked;
    let library = |out: &mut [u8], bytes: &mut u64| {
        lent(code, |code| {
            lent(points, |points| {
                calls::code_labels(table, points, code, first, count, out, bytes)
            })
        })
    };
    let one = |k, out: &mut [u8]| calls::code_label(table, points, code, k, out);
    let plain = |out: &mut [u8]| paper::code_labels(table, points, code, first, count, out);
    same_thrice(asked, library, one, plain)
}

/// A run over the points of a pack: its answer.
#[track_caller]
pub fn pack_labels(pack: &[u8], asked: Asked) -> u64 {
    let Asked { first, count, .. } = asked;
    let library = |out: &mut [u8], bytes: &mut u64| {
        lent(pack, |pack| {
            calls::pack_labels(pack, first, count, out, bytes)
        })
    };
    let one = |k, out: &mut [u8]| calls::pack_label(pack, k, out);
    let plain = |out: &mut [u8]| paper::pack_labels(pack, first, count, out);
    same_thrice(asked, library, one, plain)
}

/// A listing of the views of a pair: its answer.
#[track_caller]
pub fn list(table: &[u8], points: &[u8], asked: Asked) -> u64 {
    let Asked { first, count, .. } = asked;
    let library = |out: &mut [u8], bytes: &mut u64| {
        lent(table, |table| {
            lent(points, |points| {
                calls::list(table, points, first, count, out, bytes)
            })
        })
    };
    let one = |view, out: &mut [u8]| {
        let line = || {
            format!(
                "view {view} {}\n",
                calls::letter(points, view) as u8 as char
            )
        };
        item(line, |room| calls::label(table, points, view, room), out)
    };
    let plain = |out: &mut [u8]| paper::list(table, points, first, count, out);
    same_thrice(asked, library, one, plain)
}

/// A listing of the live views of a pair in a code: its answer. No call tells
/// the number of such a view, so it is asked beside the second program alone.
#[track_caller]
pub fn code_list(table: &[u8], points: &[u8], code: &[u8], asked: Asked) -> u64 {
    let Asked { first, count, .. } = asked;
    let library = |out: &mut [u8], bytes: &mut u64| {
        lent(code, |code| {
            lent(points, |points| {
                calls::code_list(table, points, code, first, count, out, bytes)
            })
        })
    };
    let plain = |out: &mut [u8]| paper::code_list(table, points, code, first, count, out);
    same_twice(asked, library, plain).answer
}

/// A listing of the points of a pack: its answer.
#[track_caller]
pub fn pack_list(pack: &[u8], asked: Asked) -> u64 {
    let Asked { first, count, .. } = asked;
    let library = |out: &mut [u8], bytes: &mut u64| {
        lent(pack, |pack| {
            calls::pack_list(pack, first, count, out, bytes)
        })
    };
    let one = |k, out: &mut [u8]| {
        let line = || format!("point {k}\n");
        item(line, |room| calls::pack_label(pack, k, room), out)
    };
    let plain = |out: &mut [u8]| paper::pack_list(pack, first, count, out);
    same_thrice(asked, library, one, plain)
}

/// An item put together from a call for its label: its line, then the label or
/// its refusal. A file, a pack or a number that is refused is answered as it is.
pub(crate) fn item(
    line: impl Fn() -> String,
    label: impl Fn(&mut [u8]) -> u64,
    out: &mut [u8],
) -> u64 {
    let mut room = [0; 499];
    let answer = label(&mut room);
    let mut text = line().into_bytes();
    match refusal(answer) {
        0 => text.extend(&room[..answer as usize]),
        number @ (8 | 9) => text.extend(format!("refused {number} {}\n", answer as u32).bytes()),
        _ => return answer,
    }
    if out.len() < text.len() {
        return 10 << 56 | text.len() as u64;
    }
    out[..text.len()].copy_from_slice(&text);
    text.len() as u64
}

/// What a run leaves behind.
#[derive(PartialEq, Eq)]
pub(crate) struct Left {
    pub(crate) answer: u64,
    out: Vec<u8>,
    bytes: u64,
}

/// What stands where the bytes are told before they are.
const UNTOLD: u64 = 0xA5A5_A5A5_A5A5_A5A5;

/// What a run leaves behind that is lent telling bytes.
fn left(room: usize, run: impl FnOnce(&mut [u8], &mut u64) -> u64) -> Left {
    let (mut out, mut bytes) = (telling(room), UNTOLD);
    let answer = run(&mut out[..room], &mut bytes);
    let (out, bytes) = (black_box(out), black_box(bytes));
    Left { answer, out, bytes }
}

/// A run of labels or a listing, which only a label's own refusal stops: 7 to 10.
#[track_caller]
pub(crate) fn same_thrice(
    asked: Asked,
    library: impl FnOnce(&mut [u8], &mut u64) -> u64,
    one: impl Fn(u64, &mut [u8]) -> u64,
    plain: impl FnOnce(&mut [u8]) -> Result<Run, Refusal>,
) -> u64 {
    let ours = same_twice(asked, library, plain);
    same_in_turn(asked, ours, |number| (7..=10).contains(&number), one)
}

/// A run of rows, which 15 stops too.
#[track_caller]
pub(crate) fn rows_same_thrice(
    asked: Asked,
    library: impl FnOnce(&mut [u8], &mut u64) -> u64,
    one: impl Fn(u64, &mut [u8]) -> u64,
    plain: impl FnOnce(&mut [u8]) -> Result<Run, Refusal>,
) -> u64 {
    let ours = same_twice(asked, library, plain);
    let stops = |number| (7..=10).contains(&number) || number == 15;
    same_in_turn(asked, ours, stops, one)
}

#[track_caller]
fn same_in_turn(
    asked: Asked,
    ours: Left,
    stops: impl Fn(u64) -> bool,
    one: impl Fn(u64, &mut [u8]) -> u64,
) -> u64 {
    let turned = left(asked.room, |out, bytes| {
        in_turn(asked, stops, one, out, bytes)
    });
    same(asked, &ours, "in turn", &turned);
    ours.answer
}

#[track_caller]
pub(crate) fn same_twice(
    asked: Asked,
    library: impl FnOnce(&mut [u8], &mut u64) -> u64,
    plain: impl FnOnce(&mut [u8]) -> Result<Run, Refusal>,
) -> Left {
    let ours = left(asked.room, library);
    let plain = left(asked.room, |out, bytes| packed_run(plain(out), bytes));
    same(asked, &ours, "the second program", &plain);
    ours
}

#[track_caller]
fn same(asked: Asked, ours: &Left, other: &str, left: &Left) {
    assert!(
        left == ours,
        "{asked:?}: {:#x} with {} bytes, {other} {:#x} with {}",
        ours.answer,
        ours.bytes,
        left.answer,
        left.bytes
    );
}

/// The same labels asked for one by one, each in what is left behind those before it. What is refused with a number that
/// stops no run is refused as a whole.
fn in_turn(
    asked: Asked,
    stops: impl Fn(u64) -> bool,
    one: impl Fn(u64, &mut [u8]) -> u64,
    out: &mut [u8],
    bytes: &mut u64,
) -> u64 {
    let unlent = one(asked.first, &mut []);
    if !stops(refusal(unlent)) {
        return unlent;
    }
    *bytes = 0;
    for written in 0..asked.count {
        let answer = one(asked.first + written, &mut out[*bytes as usize..]);
        if refusal(answer) != 0 {
            return answer | written << 32;
        }
        *bytes += answer;
    }
    asked.count
}
