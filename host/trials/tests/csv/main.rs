//! CSV PAF: the library against the second program, and rows that are read back.

mod back;
mod damaged;
mod labels;
mod rows;
