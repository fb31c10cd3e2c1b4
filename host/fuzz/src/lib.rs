//! The exported calls against `ttw-paper`: what the proofs do not cover is the
//! compiler's back end and the boundary to C, and that is what is tried here.
//!
//! A case is made from a seed and a number, so that it can be run again alone.
//! Its inputs are accepted pairs, Mainfile sets, packs, CSV files and books,
//! mutated by structure and by bytes, and others that are made by hand: records
//! and rows malformed in every field, files damaged at a place, books damaged in
//! every way and kept through a month, views that cannot be printed, Changes
//! files of as many records as there may be and of one more, and for every case a
//! pack with one field at a limit, one limit of one edition after the other. Every
//! slice lies flush against memory that no one may touch, first at its end and then
//! at its start, and what a call may only read cannot be written.

pub mod book;
pub mod case;
pub mod csv;
pub mod edge;
pub mod files;
pub mod limits;
pub mod malformed;
pub mod mutate;
pub mod reached;
pub mod sets;
pub mod trap;
