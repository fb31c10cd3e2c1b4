//! The proved library from Rust: its C calls as they are ([`calls`], and
//! [`main_calls`] for a Mainfile set), the same calls with their answers taken
//! apart ([`ask`], [`main_set`]), labels one by one out of runs ([`listing`]),
//! and refusals in plain words ([`words`]). The command `ttw` is written over
//! these; tests and measurements use the calls as they are.

pub mod ask;
pub mod calls;
pub mod listing;
pub mod main_calls;
pub mod main_set;
pub mod words;
