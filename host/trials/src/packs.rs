//! Packs for the trials: a built one as bytes, packs drafted by hand, and what both programs answer about a pack.

use crate::agree;
use crate::rooms::{label_rooms, refusal};
use paper::make::{padded, Edition, PackDraft, PackPoint, PackRow, Pair, View, BUILT};
use paper::{packed, Refusal};

/// The answer about bytes that are no pack: 11 with the first failing step.
pub fn no_pack(step: u64) -> u64 {
    packed(Err(Refusal::new(11, step)))
}

/// Every code of a pair's views, as it is given to the calls.
pub fn codes(pair: &Pair) -> Vec<Vec<u8>> {
    let views = pair.views.iter();
    let mut codes: Vec<Vec<u8>> = views.map(|view| padded(&view.outward, 4)).collect();
    codes.sort();
    codes.dedup();
    codes
}

/// The pack that the library builds for a code; none where it refuses.
pub fn built(pair: &Pair, code: &[u8]) -> Option<Vec<u8>> {
    ttw::ask::build(&pair.table, &pair.points, code, 0).ok()
}

/// Numbers that are no inward digit, also where only some of their bits are read.
pub const NO_DIGITS: [u64; 6] = [10, 57, 256, 1 << 32, (1 << 32) + 9, u64::MAX];

/// What both programs answer about a pack. Opening it, asking for a label, for a suffix and for a sector have to give the
/// same 11; the labels of an accepted pack are asked for with every number and the edge buffers, and so are its suffixes,
/// which are refused where the label is, or all of them, and its sectors, which together have all points.
#[track_caller]
pub fn ask(pack: &[u8]) -> u64 {
    let answer = agree::pack(pack);
    if refusal(answer) == 0 {
        let has_suffix = Edition::of(pack).is_some_and(Edition::has_suffix);
        for k in (0..=answer + 1).chain([1 << 32, (1 << 32) + 1, u64::MAX]) {
            let label = label_rooms(|room| agree::pack_label(pack, k, room));
            let expected = match refusal(label) {
                0 if !has_suffix => 13,
                number => number,
            };
            assert_eq!(refusal(agree::pack_suffix(pack, k)), expected, "{k}");
        }
        assert_eq!(sectors(pack).iter().sum::<u64>(), answer);
        for digit in NO_DIGITS {
            assert_eq!(agree::sector(pack, digit), 27 << 56, "{digit}");
        }
    } else {
        for (k, room) in [(0, 0), (1, 499), (u64::MAX, 60)] {
            assert_eq!(agree::pack_label(pack, k, room), answer);
            assert_eq!(agree::pack_suffix(pack, k), answer);
            assert_eq!(agree::sector(pack, k), answer);
        }
    }
    answer
}

/// How many points each sector of a pack has, which opens.
#[track_caller]
pub fn sectors(pack: &[u8]) -> [u64; 10] {
    [0, 1, 2, 3, 4, 5, 6, 7, 8, 9].map(|digit| agree::sector(pack, digit))
}

/// How many of these views each sector has, by the first byte of their inward codes.
pub fn sectors_of<'a>(views: impl Iterator<Item = &'a View>) -> [u64; 10] {
    let mut sectors = [0; 10];
    for view in views {
        let digit = view.inward.as_bytes()[0] - b'0';
        sectors[usize::from(digit)] += 1;
    }
    sectors
}

/// A view's suffix as it is told of a point.
pub fn suffix_of(view: &View) -> u64 {
    let bytes = view.suffix.bytes();
    bytes.fold(0, |number, byte| 256 * number + u64::from(byte))
}

/// A row of a pack.
pub fn row(row_type: u8, texts: &[&str]) -> PackRow {
    PackRow {
        row_type,
        texts: texts.iter().map(|text| text.as_bytes().to_vec()).collect(),
    }
}

/// A small user at AB1 9ZZ without organisation, in the locality of the first row.
pub fn resident() -> PackPoint {
    PackPoint {
        outward: b"AB1 ".to_vec(),
        inward: b"9ZZ".to_vec(),
        suffix: b"1A".to_vec(),
        postcode_type: b'S',
        address_key: 1,
        organisation_key: 0,
        building_number: 0,
        concatenation: b' ',
        po_box: b"      ".to_vec(),
        rows: [Some(0), None, None, None, None, None, None, None],
    }
}

/// A small user with an organisation in that row.
pub fn small_user(organisation: usize) -> PackPoint {
    let mut point = resident();
    point.organisation_key = 7;
    point.rows[7] = Some(organisation);
    point
}

/// A large user with an organisation in that row.
pub fn large_user(organisation: usize) -> PackPoint {
    let mut point = resident();
    point.postcode_type = b'L';
    point.rows[7] = Some(organisation);
    point
}

/// A pack for AB1 of these rows and points, sound or not, of the edition that is built.
pub fn draft(rows: &[PackRow], points: &[PackPoint]) -> PackDraft {
    PackDraft {
        edition: BUILT,
        rows: rows.to_vec(),
        points: points.to_vec(),
        outward: b"AB1 ".to_vec(),
    }
}

/// The same draft as a pack of an edition.
pub fn in_edition(draft: &PackDraft, edition: Edition) -> Vec<u8> {
    let draft = draft.clone();
    PackDraft { edition, ..draft }.bytes()
}

/// Makes the length and the points start of a trailer true again, so that what else was done to a pack isn't hidden
/// behind step 1. The number of points stays; bytes of no edition, and bytes that leave no room for the points, are left
/// as they are.
pub fn mend(pack: &mut [u8]) {
    let length = pack.len();
    let Some(edition) = Edition::of(pack).filter(|edition| edition.trailer <= length) else {
        return;
    };
    let trailer = length - edition.trailer;
    let count: [u8; 4] = pack[trailer + 8..trailer + 12].try_into().expect("4 bytes");
    let points = edition.point as u64 * u64::from(u32::from_be_bytes(count));
    if let Some(start) = (trailer as u64).checked_sub(points) {
        pack[trailer + 4..trailer + 8].copy_from_slice(&(start as u32).to_be_bytes());
        pack[trailer + 16..trailer + 20].copy_from_slice(&(length as u32).to_be_bytes());
    }
}
