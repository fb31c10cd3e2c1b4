//! Makers of test data: single records and whole files from plain structs,
//! random accepted pairs and Mainfile sets, damaged files, packs, CSV files, books
//! and their histories, outward codes, the guide's examples and the samples. All are
//! repeatable: the same seed gives the same bytes.
//!
//! Records are written here field by field, in the order and with the widths of
//! document 01 or of the guide's chapter 5, and not by the places that the
//! reading uses, so that a wrong width on either side is found.

mod book;
mod codes;
mod country;
mod csv;
mod damage;
mod editions;
pub mod guide;
mod pack_damage;
mod packs;
mod pairs;
mod records;
mod rng;
pub mod samples;
mod sets;
mod texts;
mod whole;

pub use book::{book, book_in, damaged_books, history, tidy_book, DamagedBook, History, Shape};
pub use codes::{bad_outward, inward, nth_suffix, outward, suffix};
pub use country::Country;
pub use csv::{csv_file, csv_rows, damaged_csv, full_csv_row, CsvRow, DamagedCsv};
pub use damage::{
    damaged_main, damaged_points, damaged_table, main_breaks, point_breaks, scratch, table_breaks,
    Break, Damaged, Place,
};
pub use editions::{Edition, BUILT, EDITIONS, FIRST, SECOND};
pub use pack_damage::{damaged_packs, DamagedPack};
pub use packs::{full_draft, pack_draft, worked_pack, PackDraft, PackPoint, PackRow};
pub use pairs::{archived, exact_pair, long_pair, pair, worked_pair, Pair};
pub use records::{
    main_file_of, padded, point_file, point_file_of, space_points, space_table, table_file,
    table_file_of, End, Follower, Organisation, TableRow, View,
};
pub use rng::Rng;
pub use sets::{exact_set, joined_key, long_file, long_set, main_set, set_of_pair, MainSet};
pub use whole::{whole_view, Change, FORBIDDEN, MISSING};
