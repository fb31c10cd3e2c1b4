//! The header's calls on a Mainfile set: a program that asks each of them through
//! the header's struct is compiled as C and as C++ without a warning, linked with
//! the library and run on the samples.

use paper::make::samples::MAIN_NAMES;
use std::path::Path;
use trials::c::{printed, Folder};

const PRINTED: &str = "\
views: 52
views, asked with fourteen arguments: 52
addresses in AB10: 8
codes: 3
first code: AB1  30
label 4: 41
110-114 QUARRY LANE
HARTWELL BAY
AB1 9ZZ
label 3 in AB10: 48
BAY BATTERIES
QUARRY LANE
HARTWELL BAY
AB10 9ZZ
labels from 38, 2 of them: refused 9, file 0, second 1, detail 1
STORES
QUARRY LANE
HARTWELL BAY
AB10 9ZZ
labels from 1 in AB10, 1 of them: 1
QUARRY LANE
HARTWELL BAY
AB10 9ZZ
list from 38, 2 of them: 2
view 38
STORES
QUARRY LANE
HARTWELL BAY
AB10 9ZZ
view 39
refused 9 1
list from 8 in AB10, 2 of them: refused 7, file 0, second 1, detail 0
view 38
STORES
QUARRY LANE
HARTWELL BAY
AB10 9ZZ
row 4: 58
AB1 9ZZ,HARTWELL BAY,,,QUARRY LANE,,,110-114,,,,,,S, ,1E\r
rows from 38, 2 of them: refused 9, file 0, second 1, detail 1
AB10 9ZZ,HARTWELL BAY,,,QUARRY LANE,,,,,,STORES,,,L, ,1A\r
pack without room: refused 10, file 0, second 0, detail 671
points in the pack: 8
pack of AB2: refused 9, file 0, second 39, detail 1
without sub buildings: refused 1, file 5, second 0, detail 0
";

#[test]
fn a_c_program_and_a_c_plus_plus_program_ask_every_call_about_the_samples() {
    let folder = Folder::new("main_header");
    let samples = Path::new(env!("CARGO_MANIFEST_DIR")).join("../../samples/main");
    let files = MAIN_NAMES.map(|name| samples.join(name));
    assert_eq!(printed(folder.program("main_header").args(&files)), PRINTED);
    if let Some(mut program) = folder.cpp_program("main_header") {
        assert_eq!(printed(program.args(&files)), PRINTED);
    }
}
