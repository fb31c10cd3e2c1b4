//! The editions of a pack: what each is byte by byte, that all open and print the
//! same, and suffixes asked of them.

use paper::make::{
    full_draft, pack_draft, worked_pack, Edition, PackDraft, Rng, BUILT, EDITIONS, FIRST, SECOND,
};
use paper::{open, pack_label, pack_labels, pack_list, pack_suffix, packed, Refusal};

/// Points, labels, a run and a listing of a pack, with room for all of it.
fn said(pack: &[u8]) -> (Result<usize, Refusal>, Vec<Vec<u8>>) {
    let points = open(pack);
    let count = points.unwrap_or(0) as u64;
    let mut room = vec![0; 520 * (count as usize + 1)];
    let mut texts = Vec::new();
    for k in 0..=count + 1 {
        let label = pack_label(pack, k, &mut room);
        texts.push(format!("{label:?}").into_bytes());
        texts.push(room[..label.unwrap_or(0)].to_vec());
    }
    for ask in [pack_labels, pack_list] {
        let run = ask(pack, 1, count, &mut room).expect("a pack");
        texts.push(format!("{run:?}").into_bytes());
        texts.push(room[..run.bytes].to_vec());
    }
    (points, texts)
}

/// The same draft as a pack of an edition.
fn in_edition(draft: &PackDraft, edition: Edition) -> Vec<u8> {
    let draft = draft.clone();
    PackDraft { edition, ..draft }.bytes()
}

#[test]
fn the_worked_pack_grows_by_its_suffix() {
    let [first, second] = [FIRST, SECOND].map(worked_pack);
    assert_eq!((first.len(), second.len()), (129, 131));
    assert_eq!(second[..58], first[..58], "rows and postcode");
    assert_eq!(second[58..60], *b"1A");
    assert_eq!(second[60..129], first[58..127], "all up to the length");
    assert_eq!(
        (&first[127..], &second[129..]),
        (&b"\x81\x01"[..], &b"\x83\x02"[..])
    );
    assert_eq!(said(&first), said(&second));
}

#[test]
fn the_worked_pack_grows_by_its_counts() {
    let [second, built] = [SECOND, BUILT].map(worked_pack);
    assert_eq!((second.len(), built.len()), (131, 171));
    assert_eq!(built[..129], second[..129], "all up to the length");
    assert_eq!(built[129], 0xab);
    assert_eq!(built[130..166], [0; 36], "sectors 0 to 8");
    assert_eq!(built[166..], *b"\0\0\0\x01\x03", "sector 9, edition");
    assert_eq!(said(&second), said(&built));
}

#[test]
fn a_pack_without_points_is_a_trailer() {
    for (edition, length) in EDITIONS.into_iter().zip([21, 21, 61]) {
        let draft = PackDraft {
            edition,
            rows: Vec::new(),
            points: Vec::new(),
            outward: b"AB1 ".to_vec(),
        };
        let pack = draft.bytes();
        assert_eq!(pack.len(), length);
        assert_eq!(pack[..19], *b"\0\0\0\0\0\0\0\0\0\0\0\0AB1 \0\0\0");
        assert_eq!(usize::from(pack[19]), length);
        assert_eq!(pack[20..length - 1], vec![0; length - 21], "counts");
        assert_eq!(pack[length - 1], edition.number);
        assert_eq!(open(&pack), Ok(0));
        for k in [0, 1, u64::MAX] {
            assert_eq!(pack_suffix(&pack, k), Err(Refusal::new(7, 0)));
        }
    }
}

#[test]
fn each_edition_prints_the_same_labels_runs_and_listings() {
    let mut points = 0;
    for seed in 0..1_000 {
        let draft = pack_draft(&mut Rng::new(seed), 20);
        let [first, second, built] = EDITIONS.map(|edition| in_edition(&draft, edition));
        assert_eq!(second.len(), first.len() + 2 * draft.points.len());
        assert_eq!(built.len(), second.len() + 40);
        assert_eq!(said(&first), said(&second));
        assert_eq!(said(&second), said(&built));
        points += draft.points.len();
    }
    assert!(points > 3_000, "{points}");
}

#[test]
fn a_suffix_is_told_as_a_number_or_refused_behind_7() {
    let suffixes = [b"2B", b"0A", b"9Z"];
    for edition in EDITIONS {
        let pack = full_draft(edition).bytes();
        for (k, [digit, letter]) in (1..).zip(suffixes) {
            let told = match edition {
                FIRST => 13 << 56,
                _ => u64::from(*digit) * 256 + u64::from(*letter),
            };
            assert_eq!(packed(pack_suffix(&pack, k)), told, "{k}, {edition:?}");
        }
        for k in [0, 4, 1 << 32, (1 << 32) + 1, u64::MAX] {
            assert_eq!(packed(pack_suffix(&pack, k)), 7 << 56, "{k}, {edition:?}");
        }
    }
}

/// Suffix: digit, letter A to Z. In edition 1 there is none to be looked at.
#[test]
fn every_suffix_of_two_bytes() {
    let mut opened = 0;
    for number in 0..=u16::MAX {
        let mut draft = full_draft(BUILT);
        draft.points[2].suffix = number.to_be_bytes().to_vec();
        let sound = matches!(number.to_be_bytes(), [b'0'..=b'9', b'A'..=b'Z']);
        let expected = sound.then_some(3).ok_or(Refusal::new(11, 3));
        let pack = draft.bytes();
        assert_eq!(open(&pack), expected, "{number}");
        let told = expected.map(|_| u64::from(number));
        assert_eq!(pack_suffix(&pack, 3), told, "{number}");
        opened += usize::from(sound);
    }
    assert_eq!(opened, 260);
}

/// "A sum of numbers": with an edition byte that points and trailer do not have the
/// widths of no pack opens; one without points has those of editions 1 and 2.
#[test]
fn points_and_trailer_have_the_widths_that_the_edition_byte_says() {
    let mut tried = 0;
    for seed in 0..600 {
        let draft = pack_draft(&mut Rng::new(seed), 6);
        let mut pack = draft.bytes();
        let last = pack.len() - 1;
        for number in 0..=u8::MAX {
            pack[last] = number;
            let said = EDITIONS.iter().find(|edition| edition.number == number);
            let same = said.is_some_and(|said| {
                said.trailer == draft.edition.trailer
                    && (said.point == draft.edition.point || draft.points.is_empty())
            });
            let expected = same.then_some(draft.points.len());
            assert_eq!(open(&pack), expected.ok_or(Refusal::new(11, 1)), "{number}");
            tried += usize::from(said.is_some() && !same);
        }
    }
    assert!(tried > 100, "{tried}");
}
