//! Document 01 read plainly: labels and packs from a table file (Changes1) and
//! a point file (Changes2), or from a Mainfile set. This is the second program,
//! written from the documents alone, against which the proved library is tested.
//! Plain and obvious goes before clever; nothing here panics, whatever bytes and
//! numbers come in, and no call takes more than O(f log f) for files of f
//! records.
//!
//! Read it beside document 01 in this order:
//!
//! | module | document 01 |
//! |---|---|
//! | `refusal` | Numbered refusals |
//! | `layout` | Record layouts: all widths |
//! | `fields` | Well formed, Postcode: single fields; numeric-like |
//! | `records` | Well formed: whole records, header, trailer |
//! | `files` | Order of refusals, Sequence, Followers; rows and views |
//! | `unspace` | Document 02, Stop the space identifiers: a file rewritten |
//! | `address` | What views and points have in common; rule 8 |
//! | `label` | The label |
//! | `source` | Views, their rows and labels, whatever the files; refusals 7, 8, 9, 12 |
//! | `pair` | Labels asked of two files |
//! | `mainfile` | Document 02, Mainfile; layouts in the guide's chapter 5 |
//! | `runs` | Document 02, Print a street at a time |
//! | `pack`, `build` | The pack; Pack check; document 02, Suffix in the pack and How many in this sector? |
//! | `csv` | Document 02, CSV for the office; fields in the guide's chapter 20 |
//! | `book` | Document 02, Keep a running address book |
//! | `van` | Document 02, Labels for the van printer |
//! | `listing`, `report` | One run, complete; listings of many views, points or rows |
//! | [`make`] | Test data: files, damaged files, packs, CSV files, books and their histories, codes, the guide's examples, the samples |
//!
//! # Decisions
//!
//! Where document 01 is silent or can be read in two ways:
//!
//! | question | choice | reason |
//! |---|---|---|
//! | Which file do 7 to 12 blame? | none (0) | the fault lies in what was asked, or between the files |
//! | Is a date or a time a real one? | not asked | "digits throughout" is all that is said |
//! | May an address key be zero? May L have an organisation key above zero? | yes | only table keys are said not to be zero |
//! | A type 2 record with L, or a type 3 with S? | well formed; refused with 6 | no owner that has the same 41 bytes wants it |
//! | A trailer as the next record of a view that needs a follower? | the follower is missing: 6 with the view's record | its first 14 bytes are 255 or spaces, never digits |
//! | A stray record that is also malformed or out of sequence? | 4 or 5 | the order is 4, 5, 6 for each record |
//! | Text of spaces and then something? | fault at byte 1 | it isn't blank and begins with a space |
//! | A double dependent locality with a fault of its own and without a dependent one? | byte 1 | the lower byte is the first fault |
//! | A table key with a byte that isn't a digit? | that byte; byte 1 only if all digits are 0 | only a key of digits can be zero |
//! | Several forbidden letters in an outward code? | the first of them | first fault |
//! | Letters of ANA codes such as W1P? | the last is the second letter | "counting only the letters" |
//! | A record or a field of another length handed to a test? | fault at byte 1; digits and texts have any length, and an empty text is blank | a test has to answer for every input |
//! | A trailer count that isn't digits? | 3 | it isn't the number of records |
//! | Does a table row's letter matter, as D? | in the last row for a key: with B or D none is in force | document 02, A key that comes twice |
//! | Labels of views that aren't live? | printed | document 01's run prints a D view's answer |
//! | Concatenation Y with a building name, or without sub building? | no effect | the premises table names it only for s n |
//! | A department without organisation, in a large user's record? | printed on its own line | absent lines are left out one by one |
//! | A PO box in a small user's view? | printed | it is printed where it is present |
//! | Elements with a sub building alone, or without post town? | printed without refusal: the sub building as a line; a front with no line to stand before is left out | rule 8 and the checks refuse them before |
//! | Are two outward codes the same? | if their 4 bytes are | the code is given padded |
//! | Packs with unused, equal or unsorted rows, or a type 6 row used twice? | open | no step asks |
//! | Is a double dependent locality alone, or a blank in front, also step 2 in a row no point uses? | yes | step 2 is about all rows |
//! | Sums in step 1? | without wrapping at 32 bits | they are numbers |
//! | A pack of an edition that there is none of? | 11 with step 1 | document 01 has the edition in step 1 |
//! | A suffix asked of edition 1 where there is no such point? | 7 | document 02: 13 after 7 |
//! | How is a suffix answered? | as a number, most significant byte first | as numbers stand in a pack |
//! | How is a sector asked for? | by its inward digit as a number, 0 to 9; the character `9` is 57 and so refused with 27 | "inward digit above 9" |
//! | Which points does a count count? | all of the pack, by the first byte of the inward code | "equals counting all points" |
//! | When is a file longer than 300 records? | when it has more than 300 x 169 or 168 bytes | also if it isn't whole records |
//! | A run of no labels, or from number 0? | no label is asked for, so none is refused; 7 before the first, if there is to be one | "equal to asking for each in turn" |
//! | Table file refused, point file too long, or both long? | the table file's one line | "the table file first" |
//!
//! What document 02 and the guide's chapters 5 and 20 leave open about a Mainfile
//! set, about CSV PAF, about archived files and about books stands in
//! docs/READINGS.md.
//!
//! The makers and tests date the views of document 01's run themselves, since
//! it says only that view 2 is later.

mod address;
pub mod book;
pub mod build;
pub mod csv;
pub mod fields;
pub mod files;
pub mod label;
mod layout;
mod listing;
pub mod mainfile;
pub mod make;
pub mod pack;
pub mod pair;
mod records;
pub mod refusal;
pub mod report;
pub mod runs;
mod source;
mod unspace;
pub mod van;

pub use build::build;
pub use files::{check_points, check_table, codes, letter, live, point_fault, table_fault, views};
pub use label::{label_bytes, lines, Elements};
pub use listing::{code_list, list, pack_list};
pub use pack::{open, pack_label, pack_suffix, sector};
pub use pair::{code_label, label, label_of};
pub use refusal::{packed, Refusal};
pub use report::report;
pub use runs::{code_labels, labels, pack_labels, packed_run, Run};
pub use unspace::{unspace_points, unspace_table};
