//! The leaves, from the static library `test_leaves`, which is built for these trials alone.

#[link(name = "test_leaves", kind = "static")]
extern "C" {
    fn leaf_digits_fault(s: *const u8, len: usize) -> usize;
    fn leaf_text_fault(s: *const u8, len: usize) -> usize;
    fn leaf_filled_fault(s: *const u8, len: usize) -> usize;
    fn leaf_value(s: *const u8, len: usize) -> usize;
    fn leaf_text_length(rec: *const u8, len: usize, start: usize, end: usize) -> usize;
    fn leaf_numeric_like(s: *const u8, len: usize) -> bool;
    fn leaf_outward_fault(s: *const u8, len: usize) -> usize;
    fn leaf_inward_fault(s: *const u8, len: usize) -> usize;
    fn leaf_suffix_fault(s: *const u8, len: usize) -> usize;
}

/// A safe function over a call that takes one slice. Each call reads the slice, keeps nothing and has no `requires`.
macro_rules! over_a_slice {
    ($($name:ident: $call:ident -> $answer:ty;)*) => {
        $(pub fn $name(s: &[u8]) -> $answer {
            // SAFETY: the pointer and the length are those of a slice that outlives the call.
            unsafe { $call(s.as_ptr(), s.len()) }
        })*
    };
}

over_a_slice! {
    digits_fault: leaf_digits_fault -> usize;
    text_fault: leaf_text_fault -> usize;
    filled_fault: leaf_filled_fault -> usize;
    value: leaf_value -> usize;
    numeric_like: leaf_numeric_like -> bool;
    outward_fault: leaf_outward_fault -> usize;
    inward_fault: leaf_inward_fault -> usize;
    suffix_fault: leaf_suffix_fault -> usize;
}

/// How long the text is that a record has from `start` up to `end`.
pub fn text_length(rec: &[u8], start: usize, end: usize) -> usize {
    // SAFETY: as above; `start` and `end` may be any numbers.
    unsafe { leaf_text_length(rec.as_ptr(), rec.len(), start, end) }
}
