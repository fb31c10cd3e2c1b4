//! Prints document 01's pack byte by byte in each edition, as docs/PACK.md shows them.

use trials::annotated::{annotated, worked_packs};

fn main() {
    let pages = worked_packs().map(|pack| annotated(&pack));
    print!("{}", pages.join("\n"));
}
