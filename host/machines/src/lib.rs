//! Each call of the header made on each machine that the library is made for: on
//! x86-64, where this runs, and on AArch64, the handset's, under an emulator. A C
//! program, `driver.c`, makes the calls as it is told; the second program gives
//! the answers that have to come.

pub mod calls;
pub mod compare;
pub mod driver;
pub mod inputs;
pub mod kit;
