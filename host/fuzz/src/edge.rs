//! Slices at the edge of mapped memory.

use std::ffi::c_void;
use std::ptr;
use std::slice;

const PAGE: usize = 4096;
const NONE: i32 = 0;
const READ: i32 = 1;
const READ_AND_WRITE: i32 = 3;
const PRIVATE_AND_ANONYMOUS: i32 = 0x22;

extern "C" {
    fn mmap(
        at: *mut c_void,
        len: usize,
        prot: i32,
        flags: i32,
        file: i32,
        from: i64,
    ) -> *mut c_void;
    fn mprotect(at: *mut c_void, len: usize, prot: i32) -> i32;
    fn munmap(at: *mut c_void, len: usize) -> i32;
}

/// Which end of a slice lies against the forbidden page.
#[derive(Clone, Copy, Debug, PartialEq, Eq)]
pub enum Flush {
    AtEnd,
    AtStart,
}

impl Flush {
    pub const BOTH: [Flush; 2] = [Flush::AtEnd, Flush::AtStart];
}

/// Bytes between two pages that trap when they are touched, flush against one
/// of them.
pub struct Edge {
    /// The whole mapping, both forbidden pages included.
    mapping: *mut u8,
    mapped: usize,
    /// Where the lent bytes stand in the mapping.
    start: usize,
    length: usize,
}

/// What fills the pages around the lent bytes, so that a write there is seen.
const AROUND: u8 = 0xA5;

impl Edge {
    /// A copy of the bytes that can be read and not written.
    pub fn readable(bytes: &[u8], flush: Flush) -> Edge {
        let mut edge = Edge::writable(bytes, flush);
        edge.protect(READ);
        edge
    }

    /// A copy of the bytes that can be written.
    pub fn writable(bytes: &[u8], flush: Flush) -> Edge {
        let inner = bytes.len().div_ceil(PAGE).max(1) * PAGE;
        let mapped = inner + 2 * PAGE;
        // SAFETY: a new mapping at a place that the system chooses.
        let mapping = unsafe { mmap(ptr::null_mut(), mapped, NONE, PRIVATE_AND_ANONYMOUS, -1, 0) };
        assert!(mapping as isize != -1, "no memory for {mapped} bytes");
        let start = match flush {
            Flush::AtEnd => PAGE + inner - bytes.len(),
            Flush::AtStart => PAGE,
        };
        let mut edge = Edge {
            mapping: mapping.cast(),
            mapped,
            start,
            length: bytes.len(),
        };
        edge.protect(READ_AND_WRITE);
        edge.inner_mut().fill(AROUND);
        edge.bytes_mut().copy_from_slice(bytes);
        edge
    }

    /// Sets what may be done with the pages between the forbidden ones.
    fn protect(&mut self, allowed: i32) {
        let inner = self.mapped - 2 * PAGE;
        // SAFETY: the pages belong to this mapping, and `&mut self` says that
        // no slice of them is lent.
        let failed = unsafe { mprotect(self.mapping.add(PAGE).cast(), inner, allowed) };
        assert_eq!(failed, 0, "the pages are protected");
    }

    pub fn bytes(&self) -> &[u8] {
        // SAFETY: the bytes are mapped, readable and filled since `writable`.
        unsafe { slice::from_raw_parts(self.mapping.add(self.start), self.length) }
    }

    /// The lent bytes of a writable edge.
    pub fn bytes_mut(&mut self) -> &mut [u8] {
        // SAFETY: as above, and `&mut self` lends them once.
        unsafe { slice::from_raw_parts_mut(self.mapping.add(self.start), self.length) }
    }

    /// The lent bytes of a writable edge, 8 of them, as one number.
    pub fn number_mut(&mut self) -> &mut u64 {
        assert_eq!(self.length, 8, "the bytes of a number");
        // SAFETY: as above; both ends of a page are aligned for a number.
        unsafe { &mut *self.mapping.add(self.start).cast() }
    }

    fn inner_mut(&mut self) -> &mut [u8] {
        // SAFETY: as above, for all the pages between the forbidden ones.
        unsafe { slice::from_raw_parts_mut(self.mapping.add(PAGE), self.mapped - 2 * PAGE) }
    }

    /// Whether the bytes beside the lent ones are as they were.
    pub fn is_clean_around(&mut self) -> bool {
        let before = self.start - PAGE;
        let length = self.length;
        let inner = self.inner_mut();
        let around = inner[..before].iter().chain(&inner[before + length..]);
        around.copied().all(|byte| byte == AROUND)
    }
}

impl Drop for Edge {
    fn drop(&mut self) {
        // SAFETY: the mapping is this one's own, and no slice of it is lent.
        unsafe { munmap(self.mapping.cast(), self.mapped) };
    }
}
