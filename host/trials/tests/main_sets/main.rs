//! The calls on a Mainfile set: the library against the second program, and both
//! against what the set was made to give.

mod accepted;
mod damaged;
mod packs;
mod rows;
mod runs;
