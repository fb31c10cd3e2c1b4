//! CSV PAF: rows written from files, files of rows read.

mod back;
mod read;
mod samples;
mod written;
