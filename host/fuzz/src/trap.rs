//! Says which case touched forbidden memory, before the process dies of it.

use std::sync::atomic::{AtomicU64, Ordering};

const BUS: i32 = 7;
const SEGMENT: i32 = 11;

extern "C" {
    fn signal(number: i32, handler: extern "C" fn(i32)) -> usize;
    fn write(file: i32, bytes: *const u8, len: usize) -> isize;
    fn _exit(status: i32) -> !;
}

static CASE: AtomicU64 = AtomicU64::new(0);

/// The exit status after such a touch.
pub const TRAPPED: i32 = 3;

/// Has touches of forbidden memory told.
pub fn watch() {
    for number in [BUS, SEGMENT] {
        // SAFETY: the handler does only what a handler may: it reads a number,
        // writes and ends the process.
        unsafe { signal(number, tell) };
    }
}

/// The case that is run now.
pub fn at_case(number: u64) {
    CASE.store(number, Ordering::SeqCst);
}

/// Writes bytes that stand in no one's stack: an emulator may call a handler on
/// a stack that is not aligned.
fn put(bytes: &'static [u8]) {
    // SAFETY: the bytes are constants.
    unsafe { write(2, bytes.as_ptr(), bytes.len()) };
}

extern "C" fn tell(_: i32) {
    put(b"touched forbidden memory in case ");
    let number = CASE.load(Ordering::SeqCst);
    let mut unit = 10_000_000_000_000_000_000;
    while unit > 0 {
        let digit = (number / unit % 10) as usize;
        put(&b"0123456789"[digit..=digit]);
        unit /= 10;
    }
    put(b"\n");
    // SAFETY: it ends the process and does nothing else.
    unsafe { _exit(TRAPPED) }
}
