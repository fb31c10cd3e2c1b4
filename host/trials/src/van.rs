//! Each call of the van library, from the static library `ttwvan`, asked beside the second program. An answer is handed
//! back only where both give it and the lent bytes are as they were.

use crate::agree::printed;
use paper::mainfile::{self, Set};
use paper::van::{fold as plain_fold, fold_label};

/// A slice as C hands it over.
type Bytes = *const u8;

#[link(name = "ttwvan", kind = "static")]
extern "C" {
    fn ttwvan_fold(label: Bytes, len: usize, out: *mut u8, out_len: usize) -> u64;
    fn ttwvan_label(
        table: Bytes,
        table_len: usize,
        points: Bytes,
        points_len: usize,
        view: u64,
        out: *mut u8,
        out_len: usize,
    ) -> u64;
    fn ttwvan_code_label(
        table: Bytes,
        table_len: usize,
        points: Bytes,
        points_len: usize,
        code: Bytes,
        code_len: usize,
        k: u64,
        out: *mut u8,
        out_len: usize,
    ) -> u64;
    fn ttwvan_pack_label(pack: Bytes, len: usize, k: u64, out: *mut u8, out_len: usize) -> u64;
    fn ttwvan_main_label(
        localities: Bytes,
        localities_len: usize,
        thoroughfares: Bytes,
        thoroughfares_len: usize,
        descriptors: Bytes,
        descriptors_len: usize,
        buildings: Bytes,
        buildings_len: usize,
        subs: Bytes,
        subs_len: usize,
        organisations: Bytes,
        organisations_len: usize,
        addresses: Bytes,
        addresses_len: usize,
        view: u64,
        out: *mut u8,
        out_len: usize,
    ) -> u64;
    fn ttwvan_main_code_label(
        localities: Bytes,
        localities_len: usize,
        thoroughfares: Bytes,
        thoroughfares_len: usize,
        descriptors: Bytes,
        descriptors_len: usize,
        buildings: Bytes,
        buildings_len: usize,
        subs: Bytes,
        subs_len: usize,
        organisations: Bytes,
        organisations_len: usize,
        addresses: Bytes,
        addresses_len: usize,
        code: Bytes,
        code_len: usize,
        k: u64,
        out: *mut u8,
        out_len: usize,
    ) -> u64;
}

/// Makes a call with slices, each as its pointer and its length, then numbers, then the buffer. Each call reads the slices,
/// writes into the buffer alone and keeps nothing.
macro_rules! asked {
    ($call:ident($($slice:expr),*; $($number:expr),*; $out:expr)) => {
        // SAFETY: the pointers and the lengths are those of slices that outlive the call.
        unsafe { $call($($slice.as_ptr(), $slice.len(),)* $($number,)* $out.as_mut_ptr(), $out.len()) }
    };
}

/// Any bytes, folded into a buffer of so many.
#[track_caller]
pub fn fold(label: &[u8], room: usize) -> u64 {
    printed(
        &format!("{label:?} folded into {room} bytes"),
        label,
        room,
        |out| asked!(ttwvan_fold(label;; out)),
        |out| plain_fold(label, out),
    )
}

/// The label of a view, folded.
#[track_caller]
pub fn label(table: &[u8], points: &[u8], view: u64, room: usize) -> u64 {
    printed(
        &format!("label of {view} folded into {room} bytes"),
        points,
        room,
        |out| asked!(ttwvan_label(table, points; view; out)),
        |out| fold_label(|label| paper::label(table, points, view, label), out),
    )
}

/// The label of the k-th live view in a code, folded.
#[track_caller]
pub fn code_label(table: &[u8], points: &[u8], code: &[u8], k: u64, room: usize) -> u64 {
    printed(
        &format!("label of {k} in {code:?} folded into {room} bytes"),
        points,
        room,
        |out| asked!(ttwvan_code_label(table, points, code; k; out)),
        |out| {
            fold_label(
                |label| paper::code_label(table, points, code, k, label),
                out,
            )
        },
    )
}

/// The label of the k-th point of a pack, folded.
#[track_caller]
pub fn pack_label(pack: &[u8], k: u64, room: usize) -> u64 {
    printed(
        &format!("label of point {k} folded into {room} bytes"),
        pack,
        room,
        |out| asked!(ttwvan_pack_label(pack; k; out)),
        |out| fold_label(|label| paper::pack_label(pack, k, label), out),
    )
}

/// The label of a view of a set, folded.
#[track_caller]
pub fn main_label(set: Set, view: u64, room: usize) -> u64 {
    let [a, b, c, d, e, f, g] = set;
    printed(
        &format!("label of {view} of a set folded into {room} bytes"),
        g,
        room,
        |out| asked!(ttwvan_main_label(a, b, c, d, e, f, g; view; out)),
        |out| fold_label(|label| mainfile::label(set, view, label), out),
    )
}

/// The label of the k-th address in a code of a set, folded.
#[track_caller]
pub fn main_code_label(set: Set, code: &[u8], k: u64, room: usize) -> u64 {
    let [a, b, c, d, e, f, g] = set;
    printed(
        &format!("label of {k} in {code:?} of a set folded into {room} bytes"),
        g,
        room,
        |out| asked!(ttwvan_main_code_label(a, b, c, d, e, f, g, code; k; out)),
        |out| fold_label(|label| mainfile::code_label(set, code, k, label), out),
    )
}
