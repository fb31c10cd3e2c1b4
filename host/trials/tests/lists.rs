//! Listings: from every number, so many, into buffers of every length, out of files and out of packs.

use paper::make::{self, Pair, Rng};
use paper::{packed, Refusal};
use trials::around::Around;
use trials::packs::{built, codes};
use trials::rooms::refusal;
use trials::runs::{code_list, list, pack_list, Asked};
use trials::samples;
use ttw::{ask, calls};

/// Room for any item.
const ITEM: usize = 512;

/// No label stops a listing: of accepted files it is 7 or 10.
#[test]
fn every_listing_of_random_pairs() {
    let mut rng = Rng::new(301);
    let mut around = Around::new(ITEM);
    for _ in 0..60 {
        let pair = make::pair(&mut rng, 20);
        around.ask(&mut rng, pair.views.len() as u64, |asked| {
            list(&pair.table, &pair.points, asked)
        });
    }
    around.reached(&[0, 7, 10]);
}

#[test]
fn every_listing_of_every_code() {
    let mut around = Around::new(ITEM);
    around.ask_in_codes(&mut Rng::new(303), 40, |pair, code, asked| {
        code_list(&pair.table, &pair.points, code, asked)
    });
    around.reached(&[0, 7, 10, 12]);
}

#[test]
fn every_listing_of_every_pack() {
    let mut rng = Rng::new(305);
    let mut around = Around::new(ITEM);
    for _ in 0..40 {
        let pair = make::pair(&mut rng, 24);
        for code in codes(&pair) {
            let Some(mut pack) = built(&pair, &code) else {
                continue;
            };
            let points = ask::pack(&pack).expect("a pack");
            around.ask(&mut rng, points, |asked| pack_list(&pack, asked));
            pack.pop();
            around.ask(&mut rng, 1, |asked| pack_list(&pack, asked));
        }
    }
    around.reached(&[0, 7, 10, 11]);
}

/// Files that are refused are refused as a whole, whatever is asked.
#[test]
fn refused_files_refuse_the_listing() {
    let Pair { table, points, .. } = samples::pair();
    for asked in [
        Asked::new(1, 41, 41 * ITEM),
        Asked::new(0, 0, 0),
        Asked::new(99, 1, 9),
    ] {
        assert_eq!(refusal(list(&table[1..], &points, asked)), 1);
        assert_eq!(refusal(list(&table, &points[1..], asked)), 1);
        assert_eq!(refusal(code_list(&table, &points, b"QA1 ", asked)), 12);
    }
}

/// Views 35 to 39 of the samples are refused: each says so in its place, and the listing goes on.
#[test]
fn refused_views_stand_in_their_places() {
    let Pair { table, points, .. } = samples::pair();
    assert_eq!(list(&table, &points, Asked::new(35, 5, 5 * ITEM)), 5);
    let mut out = [0; 5 * ITEM];
    let mut bytes = 0;
    calls::list(&table, &points, 35, 5, &mut out, &mut bytes);
    let text = String::from_utf8(out[..bytes as usize].to_vec()).expect("text");
    let refused: Vec<&str> = text.lines().filter(|line| line.starts_with('r')).collect();
    let each = ["9 6", "9 1", "8 1", "8 2", "8 3"].map(|why| format!("refused {why}"));
    assert_eq!(refused, each);
    let end = packed(Err(Refusal {
        second: 41,
        ..Refusal::new(7, 0)
    }));
    assert_eq!(
        list(&table, &points, Asked::new(1, u64::MAX, 41 * ITEM)),
        end
    );
}

/// A line that begins with a small letter is a heading or a refusal, and no other line does.
#[test]
fn a_listing_is_taken_apart_by_its_small_letters() {
    let mut rng = Rng::new(307);
    for _ in 0..200 {
        let pair = make::pair(&mut rng, 40);
        let mut out = vec![0; ITEM * pair.views.len()];
        let listed =
            ask::list(&pair.table, &pair.points, 1, u64::MAX, &mut out).expect("a listing");
        assert_eq!(listed.labels, pair.views.len() as u64);
        let lines = out[..listed.bytes].split_inclusive(|byte| *byte == b'\n');
        let mut views = 0;
        for line in lines.filter(|line| line[0].is_ascii_lowercase()) {
            views += u64::from(line.starts_with(b"view "));
            assert!(line.starts_with(b"view ") || line.starts_with(b"refused "));
        }
        assert_eq!(views, listed.labels);
    }
}
