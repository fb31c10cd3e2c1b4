use super::packs::{full_draft, PackDraft, PackPoint, PackRow};
use super::{Edition, EDITIONS, FIRST};

/// A damaged pack: its edition before the damage, the clause of the pack check
/// that it breaks, and the step to which the clause belongs.
#[derive(Clone, Debug)]
pub struct DamagedPack {
    pub edition: Edition,
    pub clause: String,
    pub step: u64,
    pub pack: Vec<u8>,
}

/// For every edition and every clause of the pack check a pack, or several, that
/// breaks this clause alone.
pub fn damaged_packs() -> Vec<DamagedPack> {
    EDITIONS.into_iter().flat_map(damaged_packs_of).collect()
}

fn damaged_packs_of(edition: Edition) -> Vec<DamagedPack> {
    let full = Full(full_draft(edition));
    [
        full.damaged_trailers(),
        full.damaged_editions(),
        full.short_packs(),
        full.damaged_row_areas(),
        full.damaged_row_texts(),
        full.damaged_offsets(),
        full.damaged_point_texts(),
        full.damaged_suffixes(),
        full.damaged_point_numbers(),
        full.damaged_point_rows(),
        full.damaged_counts(),
        full.moved_counts(),
    ]
    .concat()
}

/// Where the numbers of a trailer stand in it, and the code.
const ROW_COUNT: usize = 0;
const POINTS_START: usize = 4;
const POINT_COUNT: usize = 8;
const OUTWARD: usize = 12;
const LENGTH: usize = 16;
/// In editions that have them.
const COUNTS: usize = 20;

/// Suffixes that aren't a digit and a letter A to Z.
const BAD_SUFFIXES: [&[u8; 2]; 13] = [
    b"/A",
    b":A",
    b"AA",
    b" A",
    b"\0A",
    b"1@",
    b"1[",
    b"11",
    b"1a",
    b"1 ",
    b"A1",
    b"  ",
    b"\xff\xff",
];

/// The full pack of an edition, to be damaged.
struct Full(PackDraft);

/// How it is damaged.
impl Full {
    fn damaged(&self, clause: &str, step: u64, pack: Vec<u8>) -> DamagedPack {
        let edition = self.0.edition;
        DamagedPack {
            edition,
            clause: format!("{clause} (edition {})", edition.number),
            step,
            pack,
        }
    }

    /// With bytes written over it.
    fn overwritten(&self, at: usize, bytes: &[u8]) -> Vec<u8> {
        let mut pack = self.0.bytes();
        pack[at..at + bytes.len()].copy_from_slice(bytes);
        pack
    }

    /// With bytes written over its trailer.
    fn retrailed(&self, place: usize, bytes: &[u8]) -> Vec<u8> {
        let trailer = self.0.bytes().len() - self.0.edition.trailer;
        self.overwritten(trailer + place, bytes)
    }

    /// With another number in its trailer.
    fn renumbered(&self, place: usize, number: u32) -> Vec<u8> {
        self.retrailed(place, &number.to_be_bytes())
    }

    /// With another edition byte.
    fn as_edition(&self, number: u8) -> Vec<u8> {
        self.overwritten(self.0.bytes().len() - 1, &[number])
    }

    /// After a change of its draft.
    fn redrafted(&self, change: impl Fn(&mut PackDraft)) -> Vec<u8> {
        let mut draft = self.0.clone();
        change(&mut draft);
        draft.bytes()
    }

    /// With another text in one of its rows.
    fn retexted(&self, row: usize, index: usize, text: &[u8]) -> Vec<u8> {
        self.redrafted(|draft| draft.rows[row].texts[index] = text.to_vec())
    }

    /// With another offset in its first point.
    fn reoffset(&self, reference: usize, offset: u32) -> Vec<u8> {
        let at = self.0.points_start() + self.0.edition.offsets() + 4 * reference;
        self.overwritten(at, &offset.to_be_bytes())
    }

    /// After a change of the counts that its trailer says.
    fn recounted(&self, change: impl Fn(&mut [u32; 10])) -> Vec<u8> {
        let mut counts = self.0.counts();
        change(&mut counts);
        self.retrailed(COUNTS, &counts.map(u32::to_be_bytes).concat())
    }

    /// After a change of its first point.
    fn repointed(&self, change: impl Fn(&mut PackPoint)) -> Vec<u8> {
        self.redrafted(|draft| change(&mut draft.points[0]))
    }
}

/// The clauses that are broken.
impl Full {
    /// Step 1, but for the edition.
    fn damaged_trailers(&self) -> Vec<DamagedPack> {
        let pack = self.0.bytes();
        let length = pack.len() as u32;
        let start = self.0.points_start() as u32;
        let no_view = self.redrafted(|draft| {
            draft.rows.clear();
            draft.points.clear();
        });
        let changed = |clause, place, number| {
            let pack = self.renumbered(place, number);
            self.damaged(clause, 1, pack)
        };
        let recoded = |clause, code| self.damaged(clause, 1, self.retrailed(OUTWARD, code));
        vec![
            self.damaged("no byte", 1, Vec::new()),
            self.damaged("a byte less than a trailer", 1, no_view[1..].to_vec()),
            self.damaged("a byte more in front", 1, [&[1], &pack[..]].concat()),
            self.damaged("a byte less in front", 1, pack[1..].to_vec()),
            changed("length one less", LENGTH, length - 1),
            changed("length one more", LENGTH, length + 1),
            recoded("outward in no pattern", b"1AB "),
            recoded("outward letter", b"QA1 "),
            recoded("outward not padded", b"AB1\0"),
            changed("points start one less", POINTS_START, start - 1),
            changed("points start one more", POINTS_START, start + 1),
            changed("points start highest", POINTS_START, u32::MAX),
            changed("one point less", POINT_COUNT, 2),
            changed("one point more", POINT_COUNT, 4),
            changed("point count highest", POINT_COUNT, u32::MAX),
            self.damaged("sum right in 32 bits only", 1, self.wrapped()),
        ]
    }

    /// With so many points that the sum of step 1 is right modulo 2^32 alone.
    fn wrapped(&self) -> Vec<u8> {
        let many: u32 = 100_000_000;
        let bytes = many.wrapping_mul(self.0.edition.point as u32);
        let body = (self.0.bytes().len() - self.0.edition.trailer) as u32;
        let start = body.wrapping_sub(bytes);
        self.retrailed(
            POINTS_START,
            &[start.to_be_bytes(), many.to_be_bytes()].concat(),
        )
    }

    /// Step 1: an edition that there is none of, and one whose points or trailer
    /// have another width. With the trailer of an edition whose points have another
    /// width, the rows are no more what they were: step 2.
    fn damaged_editions(&self) -> Vec<DamagedPack> {
        let edition = self.0.edition;
        let unknown = |number| {
            let clause = format!("edition {number}");
            self.damaged(&clause, 1, self.as_edition(number))
        };
        let next = EDITIONS.len() as u8 + 1;
        let numbers = [0, next, b'0' + edition.number, 255];
        let mut packs = numbers.map(unknown).to_vec();
        for other in EDITIONS.into_iter().filter(|other| *other != edition) {
            let clause = format!("widths of another edition than {}", other.number);
            packs.push(self.damaged(&clause, 1, self.as_edition(other.number)));
            if other.point != edition.point {
                let clause = format!("rows that end as in edition {}", other.number);
                packs.push(self.damaged(&clause, 2, self.restarted(other)));
            }
        }
        packs
    }

    /// As one of another edition whose sum is right.
    fn restarted(&self, other: Edition) -> Vec<u8> {
        let mut pack = self.0.body();
        let points_start = pack.len() - self.0.points.len() * other.point;
        let trailer = self.0.trailer(other, pack.len(), points_start);
        pack.extend(trailer);
        pack
    }

    /// Step 1: fewer bytes than the edition's trailer has, but as many as that of
    /// edition 1. Some end with a trailer that would do for edition 1, others with
    /// what there is room for of their own; all that they say of their length is
    /// true.
    fn short_packs(&self) -> Vec<DamagedPack> {
        let edition = self.0.edition;
        let no_view = self.redrafted(|draft| {
            draft.rows.clear();
            draft.points.clear();
        });
        let mut packs = Vec::new();
        for length in FIRST.trailer..edition.trailer {
            let mut cut = no_view[edition.trailer - length..].to_vec();
            let behind = length.checked_sub(edition.trailer - LENGTH);
            if let Some(field) = behind.and_then(|at| cut.get_mut(at..at + 4)) {
                field.copy_from_slice(&(length as u32).to_be_bytes());
            }
            packs.push(self.damaged(&format!("{length} bytes of a trailer"), 1, cut));
            let clause = format!("{length} bytes that end as in edition 1");
            packs.push(self.damaged(&clause, 1, self.ending_as_first(length)));
        }
        packs
    }

    /// So many bytes without points: rows, then a trailer of edition 1 but for the
    /// edition.
    fn ending_as_first(&self, length: usize) -> Vec<u8> {
        let row = PackRow::new(6, &["", ""]);
        let area = length - FIRST.trailer;
        let draft = PackDraft {
            edition: FIRST,
            rows: vec![row; area / 3],
            points: Vec::new(),
            outward: self.0.outward.clone(),
        };
        let mut pack = draft.body();
        pack.resize(area, 0);
        pack.extend(draft.trailer(FIRST, area, area));
        pack[length - 1] = self.0.edition.number;
        pack
    }

    /// Step 2: rows, their number and their types. The points of these packs would
    /// be sound.
    fn damaged_row_areas(&self) -> Vec<DamagedPack> {
        let last_length = self.0.points_start() - 1 - "POST ROOM".len();
        let over_the_end = self.overwritten(last_length, &["POST ROOM".len() as u8 + 1]);
        let counted = |clause, rows| self.damaged(clause, 2, self.renumbered(ROW_COUNT, rows));
        let added = |clause, row_type: u8, texts: &'static [&str]| {
            let pack = self.redrafted(|draft| draft.rows.push(PackRow::new(row_type, texts)));
            self.damaged(clause, 2, pack)
        };
        let type_0_first = self.redrafted(|draft| draft.rows[0].row_type = 0);
        vec![
            counted("one row less", 9),
            counted("one row more", 11),
            counted("no row", 0),
            counted("row count highest", u32::MAX),
            self.damaged("last text over the end", 2, over_the_end),
            added("row without text", 6, &[]),
            added("row with one text of two", 6, &["A"]),
            added("type 7", 7, &["A"]),
            added("type 7 without text", 7, &[]),
            added("type in ASCII", b'6', &["A", "B"]),
            added("type falls to 5", 5, &["A"]),
            added("type falls to 1", 1, &["A", "", ""]),
            added("type falls to 0", 0, &[]),
            self.damaged("type 0 first", 2, type_0_first),
        ]
    }

    /// Step 2: texts. Each of the nine texts is given as row, index and width.
    fn damaged_row_texts(&self) -> Vec<DamagedPack> {
        let places = [
            (0, 0, 30, false),
            (0, 1, 35, true),
            (0, 2, 35, true),
            (2, 0, 60, false),
            (4, 0, 20, false),
            (6, 0, 50, false),
            (7, 0, 30, false),
            (8, 0, 60, true),
            (8, 1, 60, true),
        ];
        let mut packs = Vec::new();
        for (row, index, width, may_be_empty) in places {
            let mut add = |clause: &str, text: &[u8]| {
                let clause = format!("{clause} in row {row}, text {index}");
                packs.push(self.damaged(&clause, 2, self.retexted(row, index, text)));
            };
            add("too long", &vec![b'A'; width + 1]);
            add("small letter", b"AbA");
            add("byte 31", b"A\x1fA");
            add("byte 127", b"A\x7f");
            add("byte 255", b"\xff");
            add("space in front", b" A");
            add("space behind", b"A ");
            add("a space alone", b" ");
            if !may_be_empty {
                add("empty", b"");
            }
        }
        packs.push(self.damaged("double without dependent", 2, self.retexted(0, 1, b"")));
        packs
    }

    /// Step 3: every offset is absent or the start of a row of its type, locality
    /// present.
    fn damaged_offsets(&self) -> Vec<DamagedPack> {
        let offsets = self.0.offsets();
        let types = [1, 2, 3, 2, 3, 4, 5, 6];
        let mut packs = vec![self.damaged("locality absent", 3, self.reoffset(0, u32::MAX))];
        for (reference, wanted) in types.into_iter().enumerate() {
            let mut add = |clause: &str, offset: u32| {
                let clause = format!("{clause} in offset {reference}");
                packs.push(self.damaged(&clause, 3, self.reoffset(reference, offset)));
            };
            for (row, offset) in self.0.rows.iter().zip(&offsets) {
                add("inside a row", offset + 1);
                if row.row_type != wanted {
                    add("row of another type", *offset);
                }
            }
            add("points start", offsets[self.0.rows.len()]);
            add("pack length", self.0.bytes().len() as u32);
            add("one below absent", u32::MAX - 1);
        }
        packs
    }

    /// Step 3: postcode, type, concatenation, PO box.
    fn damaged_point_texts(&self) -> Vec<DamagedPack> {
        let damaged = |clause, change: &dyn Fn(&mut PackPoint)| {
            self.damaged(clause, 3, self.repointed(change))
        };
        let outward = |clause, code: &[u8]| damaged(clause, &|point| point.outward = code.to_vec());
        let inward = |clause, code: &[u8]| damaged(clause, &|point| point.inward = code.to_vec());
        let po_box = |clause, text: &[u8]| damaged(clause, &|point| point.po_box = text.to_vec());
        let kind = |clause, byte| damaged(clause, &|point| point.postcode_type = byte);
        let mark = |clause, byte| damaged(clause, &|point| point.concatenation = byte);
        vec![
            outward("another code", b"AB2 "),
            outward("malformed outward", b"QA1 "),
            inward("inward without digit", b"AZZ"),
            inward("inward letter", b"9ZC"),
            inward("inward small letter", b"9zZ"),
            kind("postcode type", b'X'),
            kind("postcode type space", b' '),
            mark("concatenation", b'N'),
            mark("concatenation zero byte", 0),
            po_box("PO box begins with space", b" 1    "),
            po_box("PO box small letter", b"1a    "),
            po_box("PO box zero bytes", b"1\0\0\0\0\0"),
        ]
    }

    /// Step 3: the suffix, where the edition has one.
    fn damaged_suffixes(&self) -> Vec<DamagedPack> {
        if !self.0.edition.has_suffix() {
            return Vec::new();
        }
        let damaged = |suffix: &[u8; 2]| {
            let clause = format!("suffix {:?}", suffix.escape_ascii().to_string());
            let pack = self.repointed(|point| point.suffix = suffix.to_vec());
            self.damaged(&clause, 3, pack)
        };
        BAD_SUFFIXES.map(damaged).to_vec()
    }

    /// Step 3: keys and number.
    fn damaged_point_numbers(&self) -> Vec<DamagedPack> {
        let damaged = |clause, change: &dyn Fn(&mut PackPoint)| {
            self.damaged(clause, 3, self.repointed(change))
        };
        let address = |clause, key| damaged(clause, &|point| point.address_key = key);
        let organisation = |clause, key| damaged(clause, &|point| point.organisation_key = key);
        let building = |clause, number| damaged(clause, &|point| point.building_number = number);
        vec![
            address("address key", 100_000_000),
            address("address key highest", u32::MAX),
            organisation("organisation key", 100_000_000),
            organisation("organisation key highest", u32::MAX),
            building("number", 10_000),
            building("number highest", u16::MAX),
        ]
    }

    /// Step 3: rule 8, and which points have an organisation row.
    fn damaged_point_rows(&self) -> Vec<DamagedPack> {
        let without = |clause, references: &[usize]| {
            let pack = self.repointed(|point| {
                references
                    .iter()
                    .for_each(|place| point.rows[*place] = None)
            });
            self.damaged(clause, 3, pack)
        };
        let organised = |clause, point: usize, row| {
            let pack = self.redrafted(|draft| draft.points[point].rows[7] = row);
            self.damaged(clause, 3, pack)
        };
        let sub_building_alone = self.repointed(|point| {
            point.rows[5] = None;
            point.building_number = 0;
        });
        vec![
            self.damaged("rule 8, 1", 3, sub_building_alone),
            without("rule 8, 2", &[1, 2]),
            without("rule 8, 3, descriptor", &[1, 3, 4]),
            without("rule 8, 3, dependent descriptor", &[3]),
            organised("large user without organisation row", 1, None),
            organised("small user without organisation row", 0, None),
            organised("small user without organisation name", 0, Some(9)),
            organised("organisation row with key zero", 2, Some(8)),
            organised("nameless row with key zero", 2, Some(9)),
        ]
    }

    /// Step 4: counts of one sector, where the edition has them.
    fn damaged_counts(&self) -> Vec<DamagedPack> {
        if !self.0.edition.has_counts() {
            return Vec::new();
        }
        let mut packs = Vec::new();
        for digit in 0..10 {
            for (words, added) in [
                ("one more", 1),
                ("one less", u32::MAX),
                ("256 more", 256),
                ("2^24 more", 1 << 24),
            ] {
                let added_to = |counts: &mut [u32; 10]| {
                    counts[digit] = counts[digit].wrapping_add(added);
                };
                let clause = format!("count {words} in sector {digit}");
                packs.push(self.damaged(&clause, 4, self.recounted(added_to)));
            }
        }
        let other_digit = self.overwritten(self.0.points_start() + 4, b"8");
        packs.push(self.damaged("point in another sector", 4, other_digit));
        packs
    }

    /// Step 4: counts that together are still the points, and all of them at once.
    fn moved_counts(&self) -> Vec<DamagedPack> {
        if !self.0.edition.has_counts() {
            return Vec::new();
        }
        let all =
            |clause, change: fn(&mut [u32; 10])| self.damaged(clause, 4, self.recounted(change));
        let mut packs = vec![
            all("counts all zero", |counts| counts.fill(0)),
            all("counts one sector on", |counts| counts.rotate_right(1)),
            all("counts from sector 9 to 0", |counts| counts.reverse()),
            all("counts least significant byte first", |counts| {
                *counts = counts.map(u32::swap_bytes);
            }),
        ];
        let counts = self.0.counts();
        for (from, to) in (0..10).map(|digit| (digit, (digit + 1) % 10)) {
            let moved = |counts: &mut [u32; 10]| {
                counts[from] = counts[from].wrapping_sub(1);
                counts[to] = counts[to].wrapping_add(1);
            };
            let clause = format!("one counted in sector {to} and not in {from}");
            packs.push(self.damaged(&clause, 4, self.recounted(moved)));
            if counts[from] != counts[to] {
                let clause = format!("counts of sectors {from} and {to} changed over");
                let pack = self.recounted(|counts| counts.swap(from, to));
                packs.push(self.damaged(&clause, 4, pack));
            }
        }
        packs
    }
}
