//! What the command asks of the system and Rust's library has no way for.

use std::ffi::{c_char, c_int, c_void, CStr};
use std::fs::File;
use std::io;
use std::os::fd::{AsFd, AsRawFd, IntoRawFd, OwnedFd};
use std::ptr;
use std::sync::atomic::{AtomicBool, AtomicPtr, Ordering};

const STANDARD_INPUT: c_int = 0;
const STANDARD_OUTPUT: c_int = 1;
const STANDARD_ERROR: c_int = 2;
/// The command of `fcntl` for how a file was opened, and the bits of its answer
/// that say whether it can be read and written.
const HOW_OPENED: c_int = 3;
const ACCESS: c_int = 3;
const READ_ONLY: c_int = 0;
const WRITE_ONLY: c_int = 1;
/// The number of the error that a file is not open, or not for that.
const NOT_OPEN: i32 = 9;
/// The signals of memory that is not there, that of a file that may not grow, and
/// what has a signal left alone or ignored.
const FAULTS: [c_int; 2] = [7, 11];
const FILE_SIZE: c_int = 25;
const DEFAULT: usize = 0;
const IGNORED: usize = 1;
/// What has `flock` take a file for one process alone, and not wait for it.
const ALONE: c_int = 2;
const AT_ONCE: c_int = 4;
/// The allocator's number for how many stores of memory there may be.
const MOST_STORES: c_int = -8;

extern "C" {
    fn _exit(status: c_int) -> !;
    fn close(file: c_int) -> c_int;
    fn fcntl(file: c_int, command: c_int, ...) -> c_int;
    fn flock(file: c_int, operation: c_int) -> c_int;
    fn getrandom(bytes: *mut c_void, length: usize, flags: u32) -> isize;
    fn mallopt(parameter: c_int, value: c_int) -> c_int;
    fn remove(path: *const c_char) -> c_int;
    fn signal(number: c_int, handler: usize) -> usize;
    fn write(file: c_int, bytes: *const c_void, length: usize) -> isize;
}

/// A number that nobody can guess.
pub fn random() -> io::Result<u64> {
    let mut bytes = [0; 8];
    // SAFETY: the bytes are this function's own, lent for the call.
    let got = unsafe { getrandom(bytes.as_mut_ptr().cast(), bytes.len(), 0) };
    if got != bytes.len() as isize {
        return Err(io::Error::last_os_error());
    }
    Ok(u64::from_ne_bytes(bytes))
}

/// Runs before Rust's library does, which before `main` already hides that
/// standard input or output is closed and ends the process where memory is short.
/// From here on a write beyond the limit of a file's size does not end it, but
/// fails as on a full disk; where an emulator plays the processor, that library
/// has it write a file too.
#[used]
#[link_section = ".init_array"]
static BEFORE_RUST: extern "C" fn() = before_rust;

extern "C" fn before_rust() {
    ask_for_standard_files();
    set_signals(&FAULTS, IGNORED);
    set_signals(&[FILE_SIZE], IGNORED);
}

/// What has to be set once Rust's library has begun: faults end the process
/// again. And all threads take from one store of memory, where a store for each
/// would ask for much more than is used.
pub fn begin() {
    set_signals(&FAULTS, DEFAULT);
    // SAFETY: it sets a number of the allocator.
    unsafe { mallopt(MOST_STORES, 1) };
}

/// Where faults are left alone, Rust's library asks for a stack to handle them
/// on, once for each thread, and ends the process by a signal if there is none.
/// That these are ignored while it looks spares it the stack.
fn set_signals(numbers: &[c_int], handler: usize) {
    for number in numbers {
        // SAFETY: no handler runs, the signals are ignored or left alone.
        unsafe { signal(*number, handler) };
    }
}

/// Whether standard input could be read, and standard output written, when the
/// process began.
static READABLE: AtomicBool = AtomicBool::new(false);
static WRITABLE: AtomicBool = AtomicBool::new(false);

/// Rust's library opens `/dev/null` in the place of a closed one: what is read
/// there is nothing, and what is printed there is lost.
fn ask_for_standard_files() {
    for (file, not_for_this, answer) in [
        (STANDARD_INPUT, WRITE_ONLY, &READABLE),
        (STANDARD_OUTPUT, READ_ONLY, &WRITABLE),
    ] {
        // SAFETY: it asks how a file was opened, if it is open at all.
        let how = unsafe { fcntl(file, HOW_OPENED) };
        let is_open = how >= 0 && how & ACCESS != not_for_this;
        answer.store(is_open, Ordering::Relaxed);
    }
}

/// Standard input. Rust's own takes one that is not for reading for an empty one.
pub fn standard_input() -> io::Result<File> {
    standard_file(&READABLE, io::stdin().as_fd().try_clone_to_owned())
}

/// Standard output. Rust's own takes a closed one for one that nobody reads.
pub fn standard_output() -> io::Result<File> {
    standard_file(&WRITABLE, io::stdout().as_fd().try_clone_to_owned())
}

fn standard_file(was_open: &AtomicBool, file: io::Result<OwnedFd>) -> io::Result<File> {
    if !was_open.load(Ordering::Relaxed) {
        return Err(io::Error::from_raw_os_error(NOT_OPEN));
    }
    file.map(File::from)
}

/// Takes an open file for this process alone, until it is closed or the process
/// ends. Where another has it, `waits` is called, and then it is waited for.
pub fn take_alone(file: &File, waits: impl FnOnce()) -> io::Result<()> {
    match take(file, ALONE | AT_ONCE) {
        Err(why) if why.kind() == io::ErrorKind::WouldBlock => waits(),
        taken => return taken,
    }
    loop {
        match take(file, ALONE) {
            Err(why) if why.kind() == io::ErrorKind::Interrupted => {}
            taken => return taken,
        }
    }
}

fn take(file: &File, operation: c_int) -> io::Result<()> {
    // SAFETY: the file is open, and lent for the call.
    match unsafe { flock(file.as_raw_fd(), operation) } {
        0 => Ok(()),
        _ => Err(io::Error::last_os_error()),
    }
}

/// Closes a file, and says whether all that was written to it was taken: some
/// systems tell it only now.
pub fn close_told(file: impl Into<OwnedFd>) -> io::Result<()> {
    let file = file.into().into_raw_fd();
    // SAFETY: the file was owned here, and nobody uses its number behind this.
    match unsafe { close(file) } {
        0 => Ok(()),
        _ => Err(io::Error::last_os_error()),
    }
}

/// The most that can stand on the disk without its name at a time: a part, or a
/// folder with the files of a set.
const MOST_STANDING: usize = 8;

/// The paths of what stands there now.
static STANDING: [AtomicPtr<c_char>; MOST_STANDING] =
    [const { AtomicPtr::new(ptr::null_mut()) }; MOST_STANDING];

/// Says what has to go where the process gives up, and in which place: the lowest
/// goes first. None is none. A path has to stay until the next one is said.
pub fn stands(place: usize, path: Option<&CStr>) {
    let path = path.map_or(ptr::null(), CStr::as_ptr);
    STANDING[place].store(path.cast_mut(), Ordering::SeqCst);
}

/// Ends the process where there is no memory, and asks for none: takes away what
/// stands, says why, status 2.
pub fn give_up() -> ! {
    const WORDS: &[u8] = b"ttw: no memory is left\n";
    for path in &STANDING {
        let path = path.load(Ordering::SeqCst);
        if !path.is_null() {
            // SAFETY: the path stays as long as it is said.
            unsafe { remove(path) };
        }
    }
    // SAFETY: the words are a constant.
    unsafe {
        write(STANDARD_ERROR, WORDS.as_ptr().cast(), WORDS.len());
        _exit(2)
    }
}
