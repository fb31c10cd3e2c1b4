//! Trials of the proved libraries against `ttw-paper`. The exported calls come from `ttw`, the leaves from here.

pub mod agree;
pub mod annotated;
pub mod around;
pub mod book;
pub mod c;
pub mod csv;
pub mod leaves;
pub mod main_sets;
pub mod packs;
pub mod rooms;
pub mod runs;
pub mod van;

pub use paper::make::samples;
