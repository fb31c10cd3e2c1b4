//! Building: every byte of the pack, every refusal with its view, buffers around the pack.

use paper::make::{self, Pair, Rng, TableRow, View};
use paper::{packed, Refusal};
use trials::agree;
use trials::packs::codes;
use trials::rooms::{pack_rooms, refusal};

/// Builds with the edge buffers: the pack's length, or the refusal.
#[track_caller]
fn build(pair: &Pair, code: &[u8]) -> u64 {
    pack_rooms(|room| agree::build(&pair.table, &pair.points, code, room))
}

#[test]
fn every_code_of_random_pairs() {
    let mut reached = [0usize; 13];
    for seed in 0..2_500 {
        let mut rng = Rng::new(seed);
        let pair = make::pair(&mut rng, 60);
        for code in codes(&pair) {
            reached[refusal(build(&pair, &code)) as usize] += 1;
        }
    }
    for number in [0, 8, 9] {
        assert!(reached[number] > 50, "{number}: {reached:?}");
    }
}

#[test]
fn a_long_pair() {
    let pair = make::exact_pair(&mut Rng::new(61), 3_000, 3_000);
    let length = build(&pair, b"AB1 ");
    assert!(refusal(length) == 0 && length > 90_000, "{length:#x}");
}

#[test]
fn a_code_with_no_live_view_gives_61_bytes() {
    let mut rng = Rng::new(67);
    let mut without_views = 0;
    for _ in 0..300 {
        let pair = make::pair(&mut rng, 30);
        let code = make::outward(&mut rng);
        if agree::live(&pair.points, &code) == 0 {
            assert_eq!(build(&pair, &code), 61);
            without_views += 1;
        }
    }
    assert!(without_views > 200, "{without_views}");
}

#[test]
fn codes_with_dead_views_alone_give_61_bytes() {
    let mut pair = broken_pair(b"BDBD", &FAULTS[0]);
    assert_eq!(build(&pair, b"AB1 "), 61);
    pair = broken_pair(b"", &FAULTS[0]);
    assert_eq!(build(&pair, b"AB1 "), 61);
}

#[test]
fn malformed_codes_and_codes_of_other_lengths_are_12() {
    let mut rng = Rng::new(71);
    let refused = packed(Err(Refusal::new(12, 0)));
    let pair = broken_pair(b"IIC", &FAULTS[0]);
    for _ in 0..400 {
        assert_eq!(build(&pair, &make::bad_outward(&mut rng)), refused);
    }
    for length in (0..40).filter(|length| *length != 4) {
        let code: Vec<u8> = b"AB1 ".iter().copied().cycle().take(length).collect();
        assert_eq!(build(&pair, &code), refused);
    }
}

/// A fault of a view: what it does to a sound view, and the 8 or 9 with the detail.
struct Fault {
    apply: fn(&mut View),
    number: u8,
    detail: u64,
}

const fn fault(number: u8, detail: u64, apply: fn(&mut View)) -> Fault {
    Fault {
        apply,
        number,
        detail,
    }
}

/// Every rule of 8, both descriptors of rule 3, every field of 9, a locality key of zero.
const FAULTS: [Fault; 12] = [
    fault(8, 1, |view| {
        view.building = 0;
        view.building_number = 0;
    }),
    fault(8, 2, |view| {
        view.thoroughfare = 0;
        view.descriptor = 0;
    }),
    fault(8, 3, |view| {
        view.thoroughfare = 0;
        view.dependent_thoroughfare = 0;
        view.dependent_descriptor = 0;
    }),
    fault(8, 3, |view| view.dependent_thoroughfare = 0),
    fault(9, 1, |view| view.locality = 0),
    fault(9, 1, |view| view.locality = 2),
    fault(9, 2, |view| view.thoroughfare = 2),
    fault(9, 3, |view| view.descriptor = 2),
    fault(9, 4, |view| view.dependent_thoroughfare = 2),
    fault(9, 5, |view| view.dependent_descriptor = 2),
    fault(9, 6, |view| view.building = 2),
    fault(9, 7, |view| view.sub_building = 2),
];

/// A row of each type, all with key 1.
fn rows() -> Vec<TableRow> {
    vec![
        TableRow::locality(1, "HARTWELL BAY", "NORTH END", "MILL GREEN"),
        TableRow::thoroughfare(1, "QUARRY"),
        TableRow::descriptor(1, "LANE"),
        TableRow::building(1, "ROSE COTTAGE"),
        TableRow::sub_building(1, "FLAT 1"),
    ]
}

/// A view that uses every key, numbered by its address key.
fn sound_view(address_key: u32, letter: u8) -> View {
    View {
        address_key,
        letter,
        locality: 1,
        thoroughfare: 1,
        descriptor: 1,
        dependent_thoroughfare: 1,
        dependent_descriptor: 1,
        building: 1,
        sub_building: 1,
        ..View::default()
    }
}

fn broken_view(address_key: u32, letter: u8, fault: &Fault) -> View {
    let mut view = sound_view(address_key, letter);
    (fault.apply)(&mut view);
    view
}

/// A view in AB1 with this fault for each of the letters, in their order.
fn broken_pair(letters: &[u8], fault: &Fault) -> Pair {
    let views = (1..).zip(letters);
    let views = views.map(|(number, letter)| broken_view(number, *letter, fault));
    Pair::new(rows(), views.collect())
}

fn refused(fault: &Fault, view: u64) -> u64 {
    packed(Err(Refusal {
        second: view,
        ..Refusal::new(fault.number, fault.detail)
    }))
}

#[test]
fn every_refusal_names_its_first_live_view() {
    for fault in &FAULTS {
        for first in 0..7 {
            let mut letters = *b"BDBDBDBD";
            letters[first] = b'I';
            letters[7] = b'C';
            let pair = broken_pair(&letters, fault);
            assert_eq!(build(&pair, b"AB1 "), refused(fault, first as u64 + 1));
        }
    }
}

/// The one that comes first in the file is named, whichever numbers and details the two have.
#[test]
fn of_two_refused_views_the_first_is_named() {
    for first in &FAULTS {
        for second in &FAULTS {
            let views = vec![
                sound_view(1, b'I'),
                broken_view(2, b'D', second),
                broken_view(3, b'C', first),
                sound_view(4, b'B'),
                broken_view(5, b'I', second),
            ];
            let pair = Pair::new(rows(), views);
            assert_eq!(build(&pair, b"AB1 "), refused(first, 3));
        }
    }
}

/// Of one view's faults 8 comes before 9, and the lower detail first. Those of rule 8 take away what another of them
/// needs, so that only the ones of 9 are joined to them.
#[test]
fn of_two_faults_of_a_view_the_lower_is_told() {
    for (place, lower) in FAULTS.iter().enumerate() {
        let behind = FAULTS[place + 1..].iter();
        for higher in behind.filter(|fault| fault.number == 9) {
            let mut view = broken_view(1, b'I', higher);
            (lower.apply)(&mut view);
            let pair = Pair::new(rows(), vec![view]);
            assert_eq!(build(&pair, b"AB1 "), refused(lower, 1));
        }
    }
}

#[test]
fn rule_2_comes_before_rule_3() {
    let view = View {
        thoroughfare: 0,
        ..sound_view(1, b'I')
    };
    let pair = Pair::new(rows(), vec![view]);
    assert_eq!(build(&pair, b"AB1 "), refused(&FAULTS[1], 1));
}

#[test]
fn dead_views_and_other_codes_have_no_say() {
    for fault in &FAULTS {
        let elsewhere = View {
            outward: "AB10".to_string(),
            ..broken_view(2, b'I', fault)
        };
        let views = vec![
            broken_view(1, b'D', fault),
            elsewhere,
            sound_view(3, b'I'),
            broken_view(4, b'B', fault),
        ];
        let pair = Pair::new(rows(), views);
        let alone = Pair::new(rows(), vec![sound_view(3, b'I')]);
        assert_eq!(build(&pair, b"AB1 "), build(&alone, b"AB1 "));
        assert_eq!(refusal(build(&alone, b"AB1 ")), 0);
        assert_eq!(
            build(&pair, b"AB10"),
            refused(fault, view_of(&pair, "AB10"))
        );
    }
}

/// The number of the one view in that code.
fn view_of(pair: &Pair, code: &str) -> u64 {
    let before = pair.views.iter().position(|view| view.outward == code);
    before.expect("a view in the code") as u64 + 1
}

#[test]
fn refused_files_come_first() {
    let pair = broken_pair(b"I", &FAULTS[0]);
    let (short_table, short_points) = (&pair.table[1..], &pair.points[1..]);
    let of_table = packed(Err(Refusal::of_file(1, 1, 0)));
    let of_points = packed(Err(Refusal::of_file(2, 1, 0)));
    for code in [b"AB1 ".as_slice(), b"QA1 ", b""] {
        for points in [&pair.points, short_points, b""] {
            let answer = pack_rooms(|room| agree::build(short_table, points, code, room));
            assert_eq!(answer, of_table);
        }
        let answer = pack_rooms(|room| agree::build(&pair.table, short_points, code, room));
        assert_eq!(answer, of_points);
    }
    assert_eq!(build(&pair, b"AB1 "), refused(&FAULTS[0], 1));
}

#[test]
fn damaged_files_come_first() {
    let mut rng = Rng::new(73);
    let mut blamed = [0usize; 3];
    for _ in 0..1_500 {
        let pair = make::pair(&mut rng, 20);
        let (mut table, mut points) = (pair.table.clone(), pair.points.clone());
        if rng.one_in(2) {
            make::scratch(&mut rng, &mut table);
        }
        make::scratch(&mut rng, &mut points);
        let code = codes(&pair).pop().unwrap_or(b"AB1 ".to_vec());
        for code in [code.as_slice(), b"ab1 "] {
            let answer = pack_rooms(|room| agree::build(&table, &points, code, room));
            if refusal(answer) != 0 {
                blamed[(answer >> 52 & 15) as usize] += 1;
            }
        }
    }
    assert!(blamed.into_iter().all(|times| times > 100), "{blamed:?}");
}
