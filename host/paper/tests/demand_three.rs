//! Demand 3 on thousands of random pairs and Mainfile sets: building is refused
//! exactly when it has to be, and otherwise gives a pack that opens and answers,
//! for every k and every buffer, what the files answer, for every k the suffix, and
//! for every sector its points.
//!
//! What is expected is worked out here from the plain rows and views that the
//! makers made the files from, and not by reading the files.

use paper::make::{joined_key, main_set, outward, pair, MainSet, Pair, Rng, TableRow, View};
use paper::{mainfile, open, pack_label, pack_suffix, sector, Refusal};
use std::collections::{BTreeMap, BTreeSet};

const ROUNDS: u64 = 4_000;
const ROW_TYPES: [u8; 7] = [1, 2, 3, 2, 3, 4, 5];

/// How often each thing was seen, so that nothing is tested in vain.
#[derive(Default, Debug)]
struct Seen {
    packs: usize,
    empty_packs: usize,
    points: usize,
    organisation_rows: usize,
    forbidden: [usize; 4],
    missing: [usize; 9],
    labels: usize,
    refused_labels: usize,
    respelt: usize,
    ended: usize,
}

/// The files that are asked.
#[derive(Clone, Copy)]
enum Files<'a> {
    Pair(&'a Pair),
    Main(&'a MainSet),
}

impl<'a> Files<'a> {
    fn build(self, code: &[u8], out: &mut [u8]) -> Result<usize, Refusal> {
        match self {
            Files::Pair(pair) => paper::build(&pair.table, &pair.points, code, out),
            Files::Main(main) => mainfile::build(main.set(), code, out),
        }
    }

    fn code_label(self, code: &[u8], k: u64, out: &mut [u8]) -> Result<usize, Refusal> {
        match self {
            Files::Pair(pair) => paper::code_label(&pair.table, &pair.points, code, k, out),
            Files::Main(main) => mainfile::code_label(main.set(), code, k, out),
        }
    }

    fn live(self, code: &[u8]) -> Result<usize, Refusal> {
        match self {
            Files::Pair(pair) => paper::live(&pair.points, code),
            Files::Main(main) => mainfile::live(&main.files[6], code),
        }
    }

    fn rows(self) -> &'a [TableRow] {
        match self {
            Files::Pair(pair) => &pair.rows,
            Files::Main(main) => &main.rows,
        }
    }

    fn views(self) -> &'a [View] {
        match self {
            Files::Pair(pair) => &pair.views,
            Files::Main(main) => &main.addresses,
        }
    }

    fn is_live(self, view: &View) -> bool {
        matches!(self, Files::Main(_)) || view.is_live()
    }

    /// What the organisation row of a view has, if it needs one.
    fn organisation(self, view: &View) -> Organisation {
        match self {
            Files::Pair(_) => view
                .follower
                .as_ref()
                .map_or(Organisation::None, |follower| {
                    Organisation::Row([follower.organisation.clone(), follower.department.clone()])
                }),
            Files::Main(main) => joined_key(view).map_or(Organisation::None, |key| {
                let mut rows = main.organisations.iter();
                let row =
                    rows.find(|row| row.postcode_type == view.postcode_type && row.key == key);
                row.map_or(Organisation::Missing, |row| {
                    Organisation::Row([row.name.clone(), row.department.clone()])
                })
            }),
        }
    }
}

/// The organisation of a view.
enum Organisation {
    None,
    Missing,
    Row([String; 2]),
}

/// A live view of a code.
struct Packed<'a> {
    number: u64,
    view: &'a View,
    organisation: Organisation,
}

/// The live views of a code.
fn packed<'a>(files: Files<'a>, code: &[u8]) -> Vec<Packed<'a>> {
    let code = String::from_utf8_lossy(code);
    (1..)
        .zip(files.views())
        .filter(|(_, view)| files.is_live(view) && view.outward == code.trim_end())
        .map(|(number, view)| Packed {
            number,
            view,
            organisation: files.organisation(view),
        })
        .collect()
}

/// The 8 or 9 of a view: its number and detail.
fn verdict(packed: &Packed, rows: &BTreeMap<(u8, u32), &TableRow>) -> Option<(u8, u64)> {
    let view = packed.view;
    if view.sub_building > 0 && view.building == 0 && view.building_number == 0 {
        return Some((8, 1));
    }
    if view.dependent_thoroughfare > 0 && view.thoroughfare == 0 {
        return Some((8, 2));
    }
    if view.descriptor > 0 && view.thoroughfare == 0 {
        return Some((8, 3));
    }
    if view.dependent_descriptor > 0 && view.dependent_thoroughfare == 0 {
        return Some((8, 3));
    }
    if view.locality == 0 {
        return Some((9, 1));
    }
    for (detail, (row_type, key)) in (1..).zip(ROW_TYPES.into_iter().zip(view.keys())) {
        if key > 0 && !rows.contains_key(&(row_type, key)) {
            return Some((9, detail));
        }
    }
    matches!(packed.organisation, Organisation::Missing).then_some((9, 8))
}

fn row_bytes(row_type: u8, texts: &[String]) -> Vec<u8> {
    let mut bytes = vec![row_type];
    for text in texts {
        bytes.push(text.len() as u8);
        bytes.extend(text.bytes());
    }
    bytes
}

/// The types and keys that these views use, each once, by type then key.
fn used_rows(views: &[Packed]) -> BTreeSet<(u8, u32)> {
    let names = |view: &View| ROW_TYPES.into_iter().zip(view.keys());
    let all = views.iter().flat_map(|packed| names(packed.view));
    all.filter(|(_, key)| *key > 0).collect()
}

/// The pack that document 01 asks for, in edition 3: the used table rows once
/// each by type then key, one row of type 6 for each packed view with an
/// organisation, the points and the trailer.
fn expected_pack(views: &[Packed], rows: &BTreeMap<(u8, u32), &TableRow>, code: &[u8]) -> Vec<u8> {
    let mut pack = Vec::new();
    let mut offsets = BTreeMap::new();
    for name in used_rows(views) {
        offsets.insert(name, pack.len() as u32);
        pack.extend(row_bytes(name.0, &rows[&name].texts));
    }
    let mut points = Vec::new();
    let mut row_count = offsets.len() as u32;
    for packed in views {
        let mut organisation = u32::MAX;
        if let Organisation::Row(texts) = &packed.organisation {
            organisation = pack.len() as u32;
            row_count += 1;
            pack.extend(row_bytes(6, texts));
        }
        points.extend(point_bytes(packed.view, code, &offsets, organisation));
    }
    let points_start = pack.len() as u32;
    let length = points_start + points.len() as u32 + 61;
    pack.extend(points);
    for number in [row_count, points_start, views.len() as u32] {
        pack.extend(number.to_be_bytes());
    }
    pack.extend(code);
    pack.extend(length.to_be_bytes());
    for digit in '0'..='9' {
        pack.extend(in_sector(views, digit).to_be_bytes());
    }
    pack.push(3);
    pack
}

/// How many of these views have an inward code that begins with this digit.
fn in_sector(views: &[Packed], digit: char) -> u32 {
    let here = |packed: &&Packed| packed.view.inward.starts_with(digit);
    views.iter().filter(here).count() as u32
}

fn point_bytes(
    view: &View,
    code: &[u8],
    offsets: &BTreeMap<(u8, u32), u32>,
    organisation: u32,
) -> Vec<u8> {
    let mut point = code.to_vec();
    point.extend(view.inward.bytes());
    point.extend(view.suffix.bytes());
    point.push(view.postcode_type);
    point.extend(view.address_key.to_be_bytes());
    point.extend(view.organisation_key.to_be_bytes());
    point.extend((view.building_number as u16).to_be_bytes());
    point.push(view.concatenation);
    point.extend(format!("{:6}", view.po_box).bytes());
    for name in ROW_TYPES.into_iter().zip(view.keys()) {
        let offset = offsets.get(&name).copied().unwrap_or(u32::MAX);
        point.extend(offset.to_be_bytes());
    }
    point.extend(organisation.to_be_bytes());
    point
}

/// A call's answer together with the whole buffer that was lent to it.
fn lent<T>(rng: &Rng, length: usize, call: impl Fn(&mut [u8]) -> T) -> (T, Vec<u8>) {
    let mut rng = rng.clone();
    let mut buffer: Vec<u8> = (0..length).map(|_| rng.byte()).collect();
    let answer = call(&mut buffer);
    (answer, buffer)
}

/// Files and pack give the same answer and the same buffer, for buffers of
/// every length around the one needed.
fn same_label(rng: &Rng, files: Files, code: &[u8], pack: &[u8], k: u64, seen: &mut Seen) {
    let from_files = |out: &mut [u8]| files.code_label(code, k, out);
    let from_pack = |out: &mut [u8]| pack_label(pack, k, out);
    let needed = from_files(&mut [0; 499]).unwrap_or(0);
    for length in [0, needed.saturating_sub(1), needed, needed + 1, 499] {
        let answer = lent(rng, length, from_files);
        assert_eq!(lent(rng, length, from_pack), answer);
        match answer.0 {
            Ok(written) => {
                assert_eq!(written, needed);
                seen.labels += 1;
            }
            Err(why) => {
                let room = Refusal {
                    number: 10,
                    file: 0,
                    second: 0,
                    detail: needed as u64,
                };
                let none = Refusal {
                    number: 7,
                    file: 0,
                    second: 0,
                    detail: 0,
                };
                assert_eq!(why, if needed > 0 { room } else { none });
                assert_eq!(answer.1, lent(rng, length, |_| ()).1);
                seen.refused_labels += 1;
            }
        }
    }
}

/// The suffix of point k is the suffix of the k-th live view; there is no other.
fn check_suffixes(pack: &[u8], views: &[Packed]) {
    let none = Err(Refusal::new(7, 0));
    for (k, packed) in (1..).zip(views) {
        let bytes = packed.view.suffix.as_bytes();
        let suffix = u64::from(bytes[0]) * 256 + u64::from(bytes[1]);
        assert_eq!(pack_suffix(pack, k), Ok(suffix), "{k}");
    }
    for k in [0, views.len() as u64 + 1, 1 << 32, u64::MAX] {
        assert_eq!(pack_suffix(pack, k), none, "{k}");
    }
}

/// The sectors have the views of their digits, and together all of them.
fn check_sectors(pack: &[u8], views: &[Packed]) {
    let counts = (0..10).map(|digit| sector(pack, digit).expect("a sector"));
    assert_eq!(counts.sum::<u64>(), views.len() as u64);
    for (number, digit) in (0..10).zip('0'..='9') {
        let expected = u64::from(in_sector(views, digit));
        assert_eq!(sector(pack, number), Ok(expected), "{digit}");
    }
    for digit in [10, b'9'.into(), 1 << 32, u64::MAX] {
        assert_eq!(sector(pack, digit), Err(Refusal::new(27, 0)), "{digit}");
    }
}

/// A pack that has to build.
fn check_pack(rng: &Rng, files: Files, code: &[u8], expected: &[u8], seen: &mut Seen) {
    let into = |out: &mut [u8]| files.build(code, out);
    let needed = expected.len();
    for length in [0, needed - 1] {
        let room = Refusal {
            number: 10,
            file: 0,
            second: 0,
            detail: needed as u64,
        };
        let (answer, buffer) = lent(rng, length, into);
        assert_eq!(answer, Err(room));
        assert_eq!(buffer, lent(rng, length, |_| ()).1);
    }
    for length in [needed, needed + 1, needed + 100] {
        let (answer, buffer) = lent(rng, length, into);
        assert_eq!(answer, Ok(needed));
        assert_eq!(&buffer[..needed], expected);
        assert_eq!(buffer[needed..], lent(rng, length, |_| ()).1[needed..]);
    }
    let count = open(expected).expect("a pack that was built opens") as u64;
    assert_eq!(files.live(code), Ok(count as usize));
    for k in (0..=count + 1).chain([u64::MAX, 1 << 32, (1 << 32) + 1]) {
        same_label(rng, files, code, expected, k, seen);
    }
    seen.packs += 1;
    seen.empty_packs += usize::from(count == 0);
    seen.points += count as usize;
}

/// The rows in force by type and key: of two for a key the map keeps the last.
fn rows_in_force<'a>(files: Files<'a>, seen: &mut Seen) -> BTreeMap<(u8, u32), &'a TableRow> {
    let mut rows: BTreeMap<(u8, u32), &TableRow> = files
        .rows()
        .iter()
        .map(|row| ((row.row_type, row.key), row))
        .collect();
    seen.respelt += files.rows().len() - rows.len();
    let keys = rows.len();
    rows.retain(|_, row| row.is_in_force());
    seen.ended += keys - rows.len();
    rows
}

fn check_code(rng: &Rng, files: Files, code: &[u8], seen: &mut Seen) {
    let rows = rows_in_force(files, seen);
    let views = packed(files, code);
    let refused = views
        .iter()
        .find_map(|packed| verdict(packed, &rows).map(|verdict| (packed.number, verdict)));
    match refused {
        Some((second, (number, detail))) => {
            let (answer, buffer) = lent(rng, 100, |out| files.build(code, out));
            assert_eq!(
                answer,
                Err(Refusal {
                    number,
                    file: 0,
                    second,
                    detail
                })
            );
            assert_eq!(buffer, lent(rng, 100, |_| ()).1);
            match number {
                8 => seen.forbidden[detail as usize] += 1,
                _ => seen.missing[detail as usize] += 1,
            }
        }
        None => {
            let expected = expected_pack(&views, &rows, code);
            let has_row = |packed: &&Packed| matches!(packed.organisation, Organisation::Row(_));
            seen.organisation_rows += views.iter().filter(has_row).count();
            check_pack(rng, files, code, &expected, seen);
            check_suffixes(&expected, &views);
            check_sectors(&expected, &views);
        }
    }
}

/// Every code of the files, and one that is perhaps none of theirs.
fn check_files(rng: &mut Rng, files: Files, seen: &mut Seen) {
    let mut codes: BTreeSet<Vec<u8>> = files
        .views()
        .iter()
        .map(|view| format!("{:4}", view.outward).into_bytes())
        .collect();
    codes.insert(outward(rng));
    for code in codes {
        check_code(rng, files, &code, seen);
    }
}

/// Fails where too little was seen; fields 1 to so many have to be missing.
fn assert_seen(seen: &Seen, fields: usize) {
    println!("{seen:?}");
    assert!(seen.packs > 4_000 && seen.empty_packs > 100 && seen.points > 4_000);
    assert!(seen.organisation_rows > 1_000);
    assert!(seen.forbidden[1..].iter().all(|count| *count > 0));
    assert!(seen.missing[1..=fields].iter().all(|count| *count > 0));
    assert!(seen.labels > 10_000 && seen.refused_labels > 10_000);
}

#[test]
fn packs_answer_what_their_pairs_answer() {
    let mut seen = Seen::default();
    for seed in 0..ROUNDS {
        let rng = &mut Rng::new(seed);
        let most_records = *rng.pick(&[2, 5, 12, 30, 60]);
        let pair = pair(rng, most_records);
        check_files(rng, Files::Pair(&pair), &mut seen);
    }
    assert_seen(&seen, 7);
    assert!(seen.respelt > 1_000 && seen.ended > 1_000);
}

#[test]
fn packs_answer_what_their_mainfile_sets_answer() {
    let mut seen = Seen::default();
    for seed in 0..ROUNDS {
        let rng = &mut Rng::new(seed);
        let most_records = *rng.pick(&[2, 5, 12, 30]);
        let set = main_set(rng, most_records);
        check_files(rng, Files::Main(&set), &mut seen);
    }
    assert_seen(&seen, 8);
}

#[test]
fn a_code_without_live_views_gives_61_bytes() {
    let pair = paper::make::worked_pair();
    let mut pack = [7; 70];
    assert_eq!(Files::Pair(&pair).build(b"DN55", &mut pack), Ok(61));
    assert_eq!(&pack[..20], b"\0\0\0\0\0\0\0\0\0\0\0\0DN55\0\0\0\x3d");
    assert_eq!((&pack[20..60], pack[60]), (&[0; 40][..], 3));
    assert_eq!(pack[61..], [7; 9]);
    assert_eq!(open(&pack[..61]), Ok(0));
}
