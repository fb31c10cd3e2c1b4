//! Packs built, opened and asked for labels, suffixes and sectors: the library against the second program, answer and
//! buffer, and both against what document 01 says.

mod accepted;
mod areas;
mod built;
mod damaged;
mod editions;
mod kept;
mod labels;
mod refused;
mod sectors;
mod suffixes;
mod worked;
