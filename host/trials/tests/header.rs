//! The header: a C program that uses every call of it on a pair of files, on a pack,
//! on a CSV file and on a book is compiled without a warning, linked with the library and run on
//! document 01's pair, and on its pack as it stood in edition 1.

use paper::make::{worked_pack, worked_pair, FIRST};
use trials::c::{printed, Folder};

const PRINTED: &str = "\
table: 7
points: 4
views: 2
letter 1: I
letter 2: D
letter behind the last: refused 7, file 0, second 0, detail 0
live in AB1: 1
live in DN55: 0
live in QA1: refused 12, file 0, second 0, detail 0
live in AB1 without padding: refused 12, file 0, second 0, detail 0
codes: 1
first code: AB1  1
label 1: 52
ATTIC FLAT
110-114 QUARRY LANE
HARTWELL BAY
AB1 9ZZ
label 2: refused 9, file 0, second 0, detail 6
label 1 in AB1: 52
ATTIC FLAT
110-114 QUARRY LANE
HARTWELL BAY
AB1 9ZZ
pack without room: refused 10, file 0, second 0, detail 171
pack: 171
points in the pack: 1
point 1: 52
ATTIC FLAT
110-114 QUARRY LANE
HARTWELL BAY
AB1 9ZZ
point 1 without room: refused 10, file 0, second 0, detail 52
point 2: refused 7, file 0, second 0, detail 0
suffix of point 1: 12609
suffix of point 2: refused 7, file 0, second 0, detail 0
points in sector 9: 1
points in sector 8: 0
points in sector 10: refused 27, file 0, second 0, detail 0
labels from 1, 2 of them: refused 9, file 0, second 1, detail 6
52 bytes
ATTIC FLAT
110-114 QUARRY LANE
HARTWELL BAY
AB1 9ZZ
labels from 1 in AB1, 1 of them: 1
52 bytes
ATTIC FLAT
110-114 QUARRY LANE
HARTWELL BAY
AB1 9ZZ
points from 1, 40 of them: refused 7, file 0, second 1, detail 0
52 bytes
ATTIC FLAT
110-114 QUARRY LANE
HARTWELL BAY
AB1 9ZZ
points from 1 without room: refused 10, file 0, second 0, detail 52
0 bytes
labels from 1 in no code: refused 12, file 0, second 0, detail 0
7 bytes are as they were
list from 1, 2 of them: 2
82 bytes
view 1 I
ATTIC FLAT
110-114 QUARRY LANE
HARTWELL BAY
AB1 9ZZ
view 2 D
refused 9 6
list from 2, 2 of them: refused 7, file 0, second 1, detail 0
21 bytes
view 2 D
refused 9 6
list from 2 without room: refused 10, file 0, second 0, detail 21
0 bytes
list from 1 in AB1, 9 of them: refused 7, file 0, second 1, detail 0
61 bytes
view 1 I
ATTIC FLAT
110-114 QUARRY LANE
HARTWELL BAY
AB1 9ZZ
points listed from 1, 1 of them: 1
60 bytes
point 1
ATTIC FLAT
110-114 QUARRY LANE
HARTWELL BAY
AB1 9ZZ
pack without its last byte: refused 11, file 0, second 0, detail 1
pack with another count: refused 11, file 0, second 0, detail 4
points in an older pack: 1
its point 1: 52
ATTIC FLAT
110-114 QUARRY LANE
HARTWELL BAY
AB1 9ZZ
its suffix of point 1: refused 13, file 0, second 0, detail 0
its suffix of point 2: refused 7, file 0, second 0, detail 0
its suffix without its last byte: refused 11, file 0, second 0, detail 1
its points in sector 9: 1
its points in sector 10: refused 27, file 0, second 0, detail 0
row of 1: 68
AB1 9ZZ,HARTWELL BAY,,,QUARRY LANE,,,110-114,ATTIC FLAT,,,,,S, ,1A\r
row of 1 without room: refused 10, file 0, second 0, detail 68
row of 2: refused 9, file 0, second 0, detail 6
rows from 1, 2 of them: refused 9, file 0, second 1, detail 6
68 bytes
AB1 9ZZ,HARTWELL BAY,,,QUARRY LANE,,,110-114,ATTIC FLAT,,,,,S, ,1A\r
rows in the file: 1
its label 1: 52
ATTIC FLAT
110-114 QUARRY LANE
HARTWELL BAY
AB1 9ZZ
its label 2: refused 7, file 0, second 0, detail 0
its labels from 1, 2 of them: refused 7, file 0, second 1, detail 0
52 bytes
ATTIC FLAT
110-114 QUARRY LANE
HARTWELL BAY
AB1 9ZZ
its list from 1, 1 of them: 1
58 bytes
row 1
ATTIC FLAT
110-114 QUARRY LANE
HARTWELL BAY
AB1 9ZZ
rows in no bytes: 0
rows without the last byte: refused 14, file 0, second 16, detail 1
rows without the last two: refused 14, file 0, second 17, detail 1
rows with a quote: refused 15, file 0, second 0, detail 0
empty book: 0
event in no book: refused 28, file 0, second 0, detail 0
first event: 1
first event again: refused 17, file 0, second 0, detail 0
present: 1
present in AB1: 1
label of place 1: 52
label of place 2: refused 7, file 0, second 0, detail 0
label 1 in AB1: 52
labels of 1 place: 1
labels of 2 in AB1: refused 7, file 0, second 1, detail 0
list in AB1: 1
list of 1 place: 1
place 1
ATTIC FLAT
110-114 QUARRY LANE
HARTWELL BAY
AB1 9ZZ
pack from the book: 171
event: refused 17, file 0, second 0, detail 0
event: 1
event behind the last: refused 7, file 0, second 0, detail 0
tidied: 0
book with another count: refused 28, file 0, second 0, detail 0
archived table: 7
archived points: 4
identifiers rewritten without the last byte: 0
identifiers rewritten in the table: 2
identifiers rewritten in the points: 1
identifiers rewritten once more: 0
rewritten table: 7
rewritten points: 4
empty table: refused 1, file 1, second 0, detail 0
table with another header: refused 2, file 1, second 0, detail 1
points with another letter: refused 4, file 2, second 41, detail 3
TTW_REFUSED_LENGTH 1
TTW_REFUSED_HEADER 2
TTW_REFUSED_TRAILER 3
TTW_REFUSED_RECORD 4
TTW_REFUSED_SEQUENCE 5
TTW_REFUSED_ORGANISATION 6
TTW_REFUSED_NUMBER 7
TTW_REFUSED_COMBINATION 8
TTW_REFUSED_KEY 9
TTW_REFUSED_ROOM 10
TTW_REFUSED_PACK 11
TTW_REFUSED_CODE 12
TTW_REFUSED_SUFFIX 13
TTW_REFUSED_ROW 14
TTW_REFUSED_FIELD 15
TTW_REFUSED_INSERTED_TWICE 17
TTW_REFUSED_NOT_PRESENT 18
TTW_REFUSED_CHANGE 19
TTW_REFUSED_FULL 20
TTW_REFUSED_DIGIT 27
TTW_REFUSED_BOOK 28
";

#[test]
fn a_c_program_asks_every_call_about_document_01s_pair() {
    let folder = Folder::new("header");
    let pair = worked_pair();
    let mut program = folder.program("header");
    program
        .arg(folder.file("changes1", &pair.table))
        .arg(folder.file("changes2", &pair.points))
        .arg(folder.file("older.pack", &worked_pack(FIRST)));
    assert_eq!(printed(&mut program), PRINTED);
}
