//! The outward codes of a point file: the library's beside the second program's,
//! and beside what is answered for each code.

use paper::make::{damaged_points, exact_pair, pair, Place, Rng};
use ttw::calls;

/// The library's answer and the second program's, each with its buffer of so many
/// telling bytes.
fn both(points: &[u8], room: usize) -> (u64, u64) {
    let telling: Vec<u8> = (0..room).map(|at| at as u8 ^ 0x5A).collect();
    let (mut ours, mut plain) = (telling.clone(), telling);
    let answers = (
        calls::codes(points, &mut ours),
        paper::packed(paper::codes(points, &mut plain).map(|count| count as u64)),
    );
    assert_eq!(ours, plain, "{room} bytes");
    answers
}

#[test]
fn the_codes_are_those_of_the_second_program() {
    let mut rng = Rng::new(15);
    for _ in 0..60 {
        let pair = pair(&mut rng, 60);
        let codes = paper::codes(&pair.points, &mut [0; 4_000]).expect("codes");
        for room in [
            0,
            7,
            8 * codes,
            (8 * codes).saturating_sub(1),
            8 * codes + 9,
        ] {
            let (ours, plain) = both(&pair.points, room);
            assert_eq!(ours, plain, "{room} bytes");
        }
    }
}

#[test]
fn a_damaged_file_is_refused_first() {
    let mut rng = Rng::new(16);
    for place in Place::ALL {
        for number in 1..=6 {
            if let Some(damaged) = damaged_points(&mut rng, number, place) {
                for room in [0, 4_000] {
                    let (ours, plain) = both(&damaged.file, room);
                    assert_eq!(ours, plain, "{number} {place:?}");
                    assert_eq!(ours >> 56, u64::from(number));
                }
            }
        }
    }
}

#[test]
fn each_code_has_the_live_views_that_are_answered_for_it() {
    let pair = exact_pair(&mut Rng::new(17), 2_000, 5_000);
    let listed = ttw::ask::codes(&pair.points).expect("codes");
    assert!(listed.windows(2).all(|two| two[0].0 < two[1].0));
    let live = |code: &[u8; 4]| ttw::ask::live(&pair.points, code).expect("live views");
    assert!(listed
        .iter()
        .all(|(code, count)| live(code) == *count && *count > 0));
    let views = pair.views.iter().filter(|view| view.is_live()).count() as u64;
    assert_eq!(listed.iter().map(|(_, count)| count).sum::<u64>(), views);
}
