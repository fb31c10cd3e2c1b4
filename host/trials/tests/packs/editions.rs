//! The same draft as a pack of each edition: it opens alike, and prints the same labels, runs and listings.

use paper::make::{pack_draft, PackDraft, Rng, EDITIONS};
use trials::around::around;
use trials::packs::{ask, in_edition};
use trials::runs::{pack_labels, pack_list, Asked};
use ttw::ask::{self, Refusal, Run};

/// A run or a listing of a pack.
type Ask = fn(&[u8], u64, u64, &mut [u8]) -> Result<Run, Refusal>;

/// What is left behind where so many are asked for from a number on.
fn left(ask: Ask, pack: &[u8], (first, count): (u64, u64), room: usize) -> (Run, Vec<u8>) {
    let mut out = vec![7; room];
    let run = ask(pack, first, count, &mut out).expect("a pack");
    (run, out)
}

/// Fails unless all that is printed is the same in each edition: the number of points.
#[track_caller]
fn compare(rng: &mut Rng, draft: &PackDraft) -> u64 {
    let [first, others @ ..] = EDITIONS.map(|edition| in_edition(draft, edition));
    let points = ask(&first);
    for other in others {
        assert_eq!(ask(&other), points);
        for k in 0..=points + 1 {
            assert_eq!(ask::pack_label(&other, k), ask::pack_label(&first, k));
        }
        for asked in around(points) {
            let room = rng.below(520 * points as usize + 1);
            for ask in [ask::pack_labels as Ask, ask::pack_list] {
                let expected = left(ask, &first, asked, room);
                assert_eq!(left(ask, &other, asked, room), expected, "{asked:?}");
            }
        }
    }
    points
}

#[test]
fn random_drafts_print_the_same_in_each_edition() {
    let mut rng = Rng::new(107);
    let mut points = 0;
    for _ in 0..150 {
        let draft = pack_draft(&mut rng, 10);
        points += compare(&mut rng, &draft);
    }
    assert!(points > 200, "{points}");
}

#[test]
fn runs_and_listings_of_each_edition_are_the_second_programs() {
    let mut rng = Rng::new(109);
    for _ in 0..60 {
        let draft = pack_draft(&mut rng, 6);
        for edition in EDITIONS {
            let pack = in_edition(&draft, edition);
            for (first, count) in around(draft.points.len() as u64) {
                let asked = Asked::new(first, count, rng.below(900));
                pack_labels(&pack, asked);
                pack_list(&pack, asked);
            }
        }
    }
}
