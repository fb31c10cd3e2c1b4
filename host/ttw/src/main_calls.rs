//! The calls of the static library `ttwibonal` on a Mainfile set, as
//! `include/ttwibonal.h` declares them. Each answers one number, which packs a
//! value or a refusal.

/// How many files a set has.
pub const FILES: usize = 7;

/// The seven files in their order: localities, thoroughfares, descriptors,
/// buildings, sub buildings, organisations, addresses.
pub type Set<'a> = [&'a [u8]; FILES];

/// Declares calls that take the seven files, and behind them what is named.
macro_rules! declared {
    ($($call:ident($($argument:ident: $kind:ty),*);)*) => {
        #[link(name = "ttwibonal", kind = "static")]
        extern "C" {
            $(fn $call(
                localities: *const u8,
                localities_len: usize,
                thoroughfares: *const u8,
                thoroughfares_len: usize,
                descriptors: *const u8,
                descriptors_len: usize,
                buildings: *const u8,
                buildings_len: usize,
                sub_buildings: *const u8,
                sub_buildings_len: usize,
                organisations: *const u8,
                organisations_len: usize,
                addresses: *const u8,
                addresses_len: usize,
                $($argument: $kind),*
            ) -> u64;)*
        }
    };
}

declared! {
    ttw_main();
    ttw_main_label(view: u64, out: *mut u8, out_len: usize);
    ttw_main_code_label(
        code: *const u8, code_len: usize, k: u64, out: *mut u8, out_len: usize
    );
    ttw_main_labels(first: u64, count: u64, out: *mut u8, out_len: usize, bytes: *mut u64);
    ttw_main_code_labels(
        code: *const u8, code_len: usize, first: u64, count: u64, out: *mut u8, out_len: usize,
        bytes: *mut u64
    );
    ttw_main_list(first: u64, count: u64, out: *mut u8, out_len: usize, bytes: *mut u64);
    ttw_main_code_list(
        code: *const u8, code_len: usize, first: u64, count: u64, out: *mut u8, out_len: usize,
        bytes: *mut u64
    );
    ttw_main_build(code: *const u8, code_len: usize, out: *mut u8, out_len: usize);
    ttw_main_csv_row(view: u64, out: *mut u8, out_len: usize);
    ttw_main_csv_rows(first: u64, count: u64, out: *mut u8, out_len: usize, bytes: *mut u64);
}

#[link(name = "ttwibonal", kind = "static")]
extern "C" {
    fn ttw_main_live(
        addresses: *const u8,
        addresses_len: usize,
        code: *const u8,
        code_len: usize,
    ) -> u64;
    fn ttw_main_codes(
        addresses: *const u8,
        addresses_len: usize,
        out: *mut u8,
        out_len: usize,
    ) -> u64;
}

/// Makes a call that was declared so, with the seven files and what is given
/// behind them.
macro_rules! asked {
    ($call:ident, $set:expr $(, $argument:expr)*) => {{
        let [localities, thoroughfares, descriptors, buildings, sub_buildings, organisations, addresses] =
            $set;
        // SAFETY: the pointers and the lengths are those of slices that outlive
        // the call, which keeps nothing. It only reads the seven files and the
        // code; `out` is a slice of its own and `bytes` a number of its own, both
        // lent for the call alone. Numbers may be any.
        unsafe {
            $call(
                localities.as_ptr(),
                localities.len(),
                thoroughfares.as_ptr(),
                thoroughfares.len(),
                descriptors.as_ptr(),
                descriptors.len(),
                buildings.as_ptr(),
                buildings.len(),
                sub_buildings.as_ptr(),
                sub_buildings.len(),
                organisations.as_ptr(),
                organisations.len(),
                addresses.as_ptr(),
                addresses.len(),
                $($argument),*
            )
        }
    }};
}

/// How many views a set has.
pub fn views(set: Set) -> u64 {
    asked!(ttw_main, set)
}

/// How many addresses an outward code has in an address file.
pub fn live(addresses: &[u8], code: &[u8]) -> u64 {
    // SAFETY: as above, for both slices.
    unsafe {
        ttw_main_live(
            addresses.as_ptr(),
            addresses.len(),
            code.as_ptr(),
            code.len(),
        )
    }
}

/// The outward codes of an address file, rising, written into `out`.
pub fn codes(addresses: &[u8], out: &mut [u8]) -> u64 {
    // SAFETY: as above; `out` is a slice of its own, lent for the call alone.
    unsafe {
        ttw_main_codes(
            addresses.as_ptr(),
            addresses.len(),
            out.as_mut_ptr(),
            out.len(),
        )
    }
}

/// The label of a view, printed into `out`.
pub fn label(set: Set, view: u64, out: &mut [u8]) -> u64 {
    asked!(ttw_main_label, set, view, out.as_mut_ptr(), out.len())
}

/// The label of the k-th address of a code, printed into `out`.
pub fn code_label(set: Set, code: &[u8], k: u64, out: &mut [u8]) -> u64 {
    let (room, length) = (out.as_mut_ptr(), out.len());
    asked!(
        ttw_main_code_label,
        set,
        code.as_ptr(),
        code.len(),
        k,
        room,
        length
    )
}

/// The labels of so many views from `first` on, printed into `out` one behind
/// the other; `bytes` becomes the bytes that they take.
pub fn labels(set: Set, first: u64, count: u64, out: &mut [u8], bytes: &mut u64) -> u64 {
    let (room, length) = (out.as_mut_ptr(), out.len());
    asked!(ttw_main_labels, set, first, count, room, length, bytes)
}

/// The same for the addresses of a code.
pub fn code_labels(
    set: Set,
    code: &[u8],
    first: u64,
    count: u64,
    out: &mut [u8],
    bytes: &mut u64,
) -> u64 {
    let (name, width, room, length) = (code.as_ptr(), code.len(), out.as_mut_ptr(), out.len());
    asked!(
        ttw_main_code_labels,
        set,
        name,
        width,
        first,
        count,
        room,
        length,
        bytes
    )
}

/// So many views from `first` on, each as its line and the label or the line of
/// its refusal, one behind the other in `out`; `bytes` becomes the bytes that
/// they take.
pub fn list(set: Set, first: u64, count: u64, out: &mut [u8], bytes: &mut u64) -> u64 {
    let (room, length) = (out.as_mut_ptr(), out.len());
    asked!(ttw_main_list, set, first, count, room, length, bytes)
}

/// The same for the addresses of a code.
pub fn code_list(
    set: Set,
    code: &[u8],
    first: u64,
    count: u64,
    out: &mut [u8],
    bytes: &mut u64,
) -> u64 {
    let (name, width, room, length) = (code.as_ptr(), code.len(), out.as_mut_ptr(), out.len());
    asked!(
        ttw_main_code_list,
        set,
        name,
        width,
        first,
        count,
        room,
        length,
        bytes
    )
}

/// The pack of an outward code, written into `out`.
pub fn build(set: Set, code: &[u8], out: &mut [u8]) -> u64 {
    let (room, length) = (out.as_mut_ptr(), out.len());
    asked!(ttw_main_build, set, code.as_ptr(), code.len(), room, length)
}

/// The row of a view as CSV PAF, written into `out`.
pub fn csv_row(set: Set, view: u64, out: &mut [u8]) -> u64 {
    asked!(ttw_main_csv_row, set, view, out.as_mut_ptr(), out.len())
}

/// The rows of so many views from `first` on, written into `out` one behind the
/// other; `bytes` becomes the bytes that they take.
pub fn csv_rows(set: Set, first: u64, count: u64, out: &mut [u8], bytes: &mut u64) -> u64 {
    let (room, length) = (out.as_mut_ptr(), out.len());
    asked!(ttw_main_csv_rows, set, first, count, room, length, bytes)
}
