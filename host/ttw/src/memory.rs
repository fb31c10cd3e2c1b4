//! Memory, or a message: where the system gives none, Rust's library would end
//! the process by a signal.

use crate::system::give_up;
use std::alloc::{GlobalAlloc, Layout, System};

#[global_allocator]
static MEMORY: OrGiveUp = OrGiveUp;

/// The system's allocator, which never answers with nothing.
struct OrGiveUp;

// SAFETY: each call is the system's with the same arguments, and its answer is
// handed on.
unsafe impl GlobalAlloc for OrGiveUp {
    unsafe fn alloc(&self, layout: Layout) -> *mut u8 {
        given(System.alloc(layout))
    }

    unsafe fn alloc_zeroed(&self, layout: Layout) -> *mut u8 {
        given(System.alloc_zeroed(layout))
    }

    unsafe fn realloc(&self, old: *mut u8, layout: Layout, size: usize) -> *mut u8 {
        given(System.realloc(old, layout, size))
    }

    unsafe fn dealloc(&self, old: *mut u8, layout: Layout) {
        System.dealloc(old, layout);
    }
}

fn given(memory: *mut u8) -> *mut u8 {
    if memory.is_null() {
        give_up();
    }
    memory
}
