//! Packs of a set: the second program's bytes, and the labels that the set gives.

use paper::make::{
    bad_outward, exact_set, main_set, outward, padded, samples, MainSet, Organisation, Rng,
    TableRow, View,
};
use paper::{packed, Refusal};
use trials::agree;
use trials::main_sets::{build, built, code_label, codes_of, live};
use trials::packs::{ask, sectors, sectors_of, suffix_of};
use trials::rooms::{pack_rooms, refusal};
use ttw::{calls, main_calls};

/// The answer to building a code, with rooms around the bytes needed.
#[track_caller]
fn build_of(made: &MainSet, code: &[u8]) -> u64 {
    pack_rooms(|room| build(made.set(), code, room))
}

/// Fails unless the sectors of a pack have the addresses of the code, and point k
/// has the suffix of the k-th of these and gives, for every k and for rooms around,
/// the label that the set gives.
#[track_caller]
fn compare_labels(made: &MainSet, code: &[u8], pack: &[u8]) {
    let of_code = |address: &&View| padded(&address.outward, 4) == code;
    let addresses = made.addresses.iter().filter(of_code);
    assert_eq!(sectors(pack), sectors_of(addresses.clone()));
    for (k, address) in (1..).zip(addresses) {
        assert_eq!(agree::pack_suffix(pack, k), suffix_of(address), "{k}");
    }
    for k in 0..=live(made.set()[6], code) + 1 {
        for room in [0, 20, 40, 60, 80, 499] {
            let answer = agree::pack_label(pack, k, room);
            assert_eq!(answer, code_label(made.set(), code, k, room));
            let (mut from_pack, mut from_set) = ([7; 499], [7; 499]);
            calls::pack_label(pack, k, &mut from_pack[..room]);
            main_calls::code_label(made.set(), code, k, &mut from_set[..room]);
            assert_eq!(from_pack, from_set);
        }
    }
}

#[test]
fn packs_of_random_sets_are_the_second_programs_and_keep_every_label() {
    let mut given = [0; 13];
    for seed in 0..150 {
        let made = main_set(&mut Rng::new(seed), 24);
        for code in codes_of(&made) {
            let answer = build_of(&made, &code);
            given[refusal(answer) as usize] += 1;
            if let Some(pack) = built(made.set(), &code) {
                assert_eq!(ask(&pack), live(made.set()[6], &code));
                compare_labels(&made, &code, &pack);
            }
        }
    }
    println!("{given:?}");
    assert!([0, 8, 9].iter().all(|number| given[*number] > 10));
}

#[test]
fn the_packs_of_the_samples() {
    let made = samples::main_set();
    for code in [b"AB1 ", b"AB10"] {
        let pack = built(made.set(), code).expect("a pack");
        compare_labels(&made, code, &pack);
    }
    let first = Refusal {
        second: 39,
        ..Refusal::new(9, 1)
    };
    assert_eq!(build_of(&made, b"AB2 "), packed(Err(first)));
}

#[test]
fn larger_sets_and_codes_without_addresses() {
    let mut rng = Rng::new(61);
    let made = exact_set(&mut rng, 800);
    for code in codes_of(&made) {
        let pack = built(made.set(), &code).expect("a pack");
        assert_eq!(agree::pack(&pack), live(made.set()[6], &code));
        assert_eq!(build_of(&made, &code), pack.len() as u64);
    }
    for _ in 0..60 {
        let code = outward(&mut rng);
        if live(made.set()[6], &code) == 0 {
            assert_eq!(build_of(&made, &code), 61);
        }
        let malformed = packed(Err(Refusal::new(12, 0)));
        assert_eq!(build_of(&made, &bad_outward(&mut rng)), malformed);
    }
    for length in (0..12).filter(|length| *length != 4) {
        let code: Vec<u8> = b"AB1 ".iter().copied().cycle().take(length).collect();
        assert_eq!(build_of(&made, &code), packed(Err(Refusal::new(12, 0))));
    }
}

/// A row of type 6 for each address with an organisation, in view order, also
/// where two share one.
#[test]
fn a_shared_organisation_stands_once_for_each_address() {
    let view = |address_key| View {
        address_key,
        locality: 1,
        ..View::default()
    };
    let shared = |address_key| View {
        organisation_key: 7,
        ..view(address_key)
    };
    let large = View {
        postcode_type: b'L',
        organisation_key: 7,
        ..view(3)
    };
    let made = MainSet::new(
        vec![TableRow::locality(1, "HOLT", "", "")],
        vec![
            Organisation::new(b'S', 7, "LEDA", ""),
            Organisation::new(b'L', 3, "", ""),
        ],
        vec![shared(1), view(2), large, shared(4)],
    );
    let pack = built(made.set(), b"AB1 ").expect("a pack");
    let rows = b"\x01\x04HOLT\0\0\x06\x04LEDA\0\x06\0\0\x06\x04LEDA\0";
    assert!(pack.starts_with(rows), "{}", pack.escape_ascii());
    assert_eq!(pack.len(), rows.len() + 4 * 59 + 61);
    let of_large = &pack[rows.len() + 2 * 59..][..59];
    assert_eq!(of_large[7..18], *b"1AL\0\0\0\x03\0\0\0\x07");
    compare_labels(&made, b"AB1 ", &pack);
}

/// A fault of an address: what it does to a sound one, and the 8 or 9 with the
/// detail.
type Fault = (u8, u64, fn(&mut View));

const FAULTS: [Fault; 14] = [
    (8, 1, |view| {
        view.building = 0;
        view.building_number = 0;
    }),
    (8, 2, |view| {
        view.thoroughfare = 0;
        view.descriptor = 0;
    }),
    (8, 3, |view| {
        view.thoroughfare = 0;
        view.dependent_thoroughfare = 0;
        view.dependent_descriptor = 0;
    }),
    (8, 3, |view| view.dependent_thoroughfare = 0),
    (9, 1, |view| view.locality = 0),
    (9, 1, |view| view.locality = 2),
    (9, 2, |view| view.thoroughfare = 2),
    (9, 3, |view| view.descriptor = 2),
    (9, 4, |view| view.dependent_thoroughfare = 2),
    (9, 5, |view| view.dependent_descriptor = 2),
    (9, 6, |view| view.building = 2),
    (9, 7, |view| view.sub_building = 2),
    (9, 8, |view| view.organisation_key = 2),
    (9, 8, |view| view.postcode_type = b'L'),
];

/// A row of each type and a small user's organisation, all with key 1.
fn sound_set(addresses: Vec<View>) -> MainSet {
    let rows = vec![
        TableRow::locality(1, "HARTWELL BAY", "NORTH END", "MILL GREEN"),
        TableRow::thoroughfare(1, "QUARRY"),
        TableRow::descriptor(1, "LANE"),
        TableRow::building(1, "ROSE COTTAGE"),
        TableRow::sub_building(1, "FLAT 1"),
    ];
    let organisations = vec![Organisation::new(b'S', 1, "LEDA", "STORES")];
    MainSet::new(rows, organisations, addresses)
}

/// An address that uses every key, numbered by its address key.
fn sound(address_key: u32) -> View {
    View {
        address_key,
        organisation_key: 1,
        locality: 1,
        thoroughfare: 1,
        descriptor: 1,
        dependent_thoroughfare: 1,
        dependent_descriptor: 1,
        building: 1,
        sub_building: 1,
        ..View::default()
    }
}

fn broken(address_key: u32, fault: &Fault) -> View {
    let mut view = sound(address_key);
    fault.2(&mut view);
    view
}

fn refused(fault: &Fault, view: u64) -> u64 {
    packed(Err(Refusal {
        second: view,
        ..Refusal::new(fault.0, fault.1)
    }))
}

#[test]
fn of_two_refused_addresses_the_first_is_named() {
    for first in &FAULTS {
        for second in &FAULTS {
            let elsewhere = View {
                outward: "AB10".to_string(),
                ..broken(9, second)
            };
            let made = sound_set(vec![
                sound(11),
                sound(12),
                broken(13, first),
                broken(14, second),
                elsewhere,
            ]);
            assert_eq!(build_of(&made, b"AB1 "), refused(first, 3));
            assert_eq!(build_of(&made, b"AB10"), refused(second, 5));
        }
    }
}

/// Of one address's faults 8 comes before 9, and the lower detail first. Those of
/// rule 8 take away what another of them needs, so that only the ones of 9 are
/// joined to them.
#[test]
fn of_two_faults_of_an_address_the_lower_is_told() {
    for (place, lower) in FAULTS.iter().enumerate() {
        for higher in FAULTS[place + 1..].iter().filter(|fault| fault.0 == 9) {
            let mut view = broken(1, higher);
            lower.2(&mut view);
            let made = sound_set(vec![view]);
            assert_eq!(build_of(&made, b"AB1 "), refused(lower, 1));
        }
    }
}
