//! Files of rows: accepted or refused, their labels, runs and listings.

use paper::csv::{check, label, labels, list};
use paper::make::{csv_file, csv_rows, damaged_csv, full_csv_row, CsvRow, Rng};
use paper::{packed, packed_run, Refusal};

/// Document 01's view 1 as a row.
const WORKED: &[u8] = b"AB1 9ZZ,HARTWELL BAY,,,QUARRY LANE,,,110-114,ATTIC FLAT,,,,,S, ,1A\r\n";

/// The label of a row as text.
fn label_of(csv: &[u8], row: u64) -> Result<String, Refusal> {
    let mut out = [0; 499];
    let length = label(csv, row, &mut out)?;
    Ok(String::from_utf8_lossy(&out[..length]).into_owned())
}

#[test]
fn an_empty_file_has_no_row() {
    assert_eq!(check(b""), Ok(0));
    assert_eq!(label_of(b"", 1), Err(Refusal::new(7, 0)));
    assert_eq!(label_of(b"", 0), Err(Refusal::new(7, 0)));
}

#[test]
fn the_worked_row() {
    assert_eq!(check(WORKED), Ok(1));
    let expected = "ATTIC FLAT\n110-114 QUARRY LANE\nHARTWELL BAY\nAB1 9ZZ\n";
    assert_eq!(label_of(WORKED, 1).as_deref(), Ok(expected));
    for row in [0, 2, u64::MAX] {
        assert_eq!(label_of(WORKED, row), Err(Refusal::new(7, 0)));
    }
    for room in 0..52 {
        let mut out = vec![7; room];
        assert_eq!(label(WORKED, 1, &mut out), Err(Refusal::new(10, 52)));
        assert_eq!(out, vec![7; room]);
    }
}

#[test]
fn random_rows_are_accepted() {
    for seed in 0..300 {
        let rng = &mut Rng::new(seed);
        let count = rng.below(9);
        let csv = csv_file(&csv_rows(rng, count));
        assert_eq!(check(&csv), Ok(count), "{}", csv.escape_ascii());
    }
    let full = full_csv_row().bytes();
    assert_eq!((check(&full), full.len()), (Ok(1), 507));
}

#[test]
fn every_damaged_file_is_refused_as_a_whole() {
    let damaged = damaged_csv(&mut Rng::new(7));
    assert!(damaged.len() > 800, "{}", damaged.len());
    for file in damaged {
        let csv = &file.csv;
        let refused = Err(file.refusal);
        assert_eq!(check(csv), refused.map(|_: u64| 0), "{}", file.what);
        let mut out = [7; 600];
        let mut bytes = 4711;
        for number in [0, 1, 2, u64::MAX] {
            assert_eq!(label(csv, number, &mut out), refused.map(|_: u64| 0));
            for run in [labels, list] {
                let told = packed_run(run(csv, number, number, &mut out), &mut bytes);
                assert_eq!(told, packed(refused), "{}", file.what);
            }
        }
        assert_eq!((out, bytes), ([7; 600], 4711));
    }
}

/// What is well formed in spite of its looks.
#[test]
fn what_is_accepted() {
    let full = full_csv_row();
    let kept: [(usize, &[u8]); 18] = [
        (2, b"A   "),
        (3, b"'"),
        (4, b""),
        (4, b"   "),
        (5, b""),
        (6, b"     "),
        (7, b""),
        (7, b"0"),
        (7, b"0000"),
        (7, b"0007"),
        (8, b"!#$%&'()*+-./:;<=>?@[\\]^_`{|}~"),
        (10, b"A B  C"),
        (11, b""),
        (12, b" "),
        (13, b""),
        (13, b"0"),
        (15, b""),
        (15, b" "),
    ];
    for (field, bytes) in kept {
        assert_eq!(check(&full.with(field, bytes).bytes()), Ok(1), "{field}");
    }
    for suffix in ["0A", "9Z"] {
        assert_eq!(check(&full.with(16, suffix.as_bytes()).bytes()), Ok(1));
    }
    for postcode in [
        "A1 1AA", "A11 1AA", "AB1 1AA", "AB11 1AA", "W1A 1AA", "EC1N 1AA",
    ] {
        assert_eq!(check(&full.with(1, postcode.as_bytes()).bytes()), Ok(1));
    }
}

/// A small user with a department needs a name; a large user does not, nor a
/// small user without one.
#[test]
fn a_department_without_an_organisation() {
    let small = full_csv_row().with(14, b"S");
    let without = small.with(12, b"  ");
    assert_eq!(check(&without.bytes()), Err(Refusal::malformed_row(1, 12)));
    assert_eq!(check(&without.with(11, b"   ").bytes()), Ok(1));
    assert_eq!(check(&without.with(14, b"L").bytes()), Ok(1));
    // Without a type, the missing field is the fault.
    let cut = without.0[..13].join(&b',');
    assert_eq!(check(&cut), Err(Refusal::malformed_row(1, 14)));
}

fn row_of(fields: &[(usize, &str)]) -> Vec<u8> {
    let empty = CsvRow(std::array::from_fn(|_| Vec::new()));
    let plain = [
        (1, "AB1 9ZZ"),
        (2, "HOLT"),
        (14, "S"),
        (15, " "),
        (16, "1A"),
    ];
    let all = plain.iter().chain(fields);
    let row = all.fold(empty, |row, (field, text)| {
        row.with(*field, text.as_bytes())
    });
    row.bytes()
}

/// The joined thoroughfare as the name, no descriptor, no concatenation.
#[test]
fn labels_of_rows() {
    let cases: [(&[(usize, &str)], &str); 8] = [
        (&[], "HOLT\nAB1 9ZZ\n"),
        (&[(7, "0012")], "12 HOLT\nAB1 9ZZ\n"),
        (&[(7, "0000"), (5, "HIGH ST  ")], "HIGH ST\nHOLT\nAB1 9ZZ\n"),
        (
            &[(7, "12"), (9, "A"), (5, "HIGH STREET")],
            "A\n12 HIGH STREET\nHOLT\nAB1 9ZZ\n",
        ),
        (
            &[(8, "12A"), (9, "FLAT 1"), (5, "HIGH"), (6, "KILN COURT")],
            "FLAT 1\n12A KILN COURT\nHIGH\nHOLT\nAB1 9ZZ\n",
        ),
        (
            &[
                (3, "NORTH END"),
                (4, "MILL GREEN"),
                (10, "70"),
                (13, "12345678"),
            ],
            "PO BOX 70\nMILL GREEN\nNORTH END\nHOLT\nAB1 9ZZ\n",
        ),
        (
            &[(11, "STORES"), (12, "BAY BATTERIES "), (15, "Y")],
            "BAY BATTERIES\nSTORES\nHOLT\nAB1 9ZZ\n",
        ),
        (&[(11, "STORES"), (14, "L")], "STORES\nHOLT\nAB1 9ZZ\n"),
    ];
    for (fields, expected) in cases {
        assert_eq!(label_of(&row_of(fields), 1).as_deref(), Ok(expected));
    }
}

/// Rules 1 and 2 by which fields are filled; rule 1 first, both before 10.
#[test]
fn forbidden_combinations() {
    let cases: [(&[(usize, &str)], u64); 5] = [
        (&[(9, "FLAT 1")], 1),
        (&[(9, "FLAT 1"), (7, "0000"), (8, "  ")], 1),
        (&[(6, "KILN COURT")], 2),
        (&[(6, "KILN COURT"), (5, "   ")], 2),
        (&[(6, "KILN COURT"), (9, "FLAT 1")], 1),
    ];
    for (fields, rule) in cases {
        let csv = row_of(fields);
        assert_eq!(check(&csv), Ok(1));
        assert_eq!(label(&csv, 1, &mut []), Err(Refusal::new(8, rule)));
    }
}

/// A listing has each row's number, then its label or its refusal.
#[test]
fn a_listing() {
    let refused = row_of(&[(9, "FLAT 1")]);
    let csv = [WORKED, &refused, &row_of(&[])].concat();
    let expected = "row 1\nATTIC FLAT\n110-114 QUARRY LANE\nHARTWELL BAY\nAB1 9ZZ\n\
        row 2\nrefused 8 1\nrow 3\nHOLT\nAB1 9ZZ\n";
    let told = |first, count, room: usize| {
        let mut out = vec![7; room];
        let mut bytes = 0;
        let answer = packed_run(list(&csv, first, count, &mut out), &mut bytes);
        let text = String::from_utf8_lossy(&out[..bytes as usize]).into_owned();
        (answer, text)
    };
    assert_eq!(told(1, 3, 200), (3, expected.to_string()));
    assert_eq!(told(1, 4, 200), (7 << 56 | 3 << 32, expected.to_string()));
    assert_eq!(told(2, 1, 18), (1, "row 2\nrefused 8 1\n".to_string()));
    assert_eq!(told(2, 1, 17), (10 << 56 | 18, String::new()));
    assert_eq!(told(0, 1, 200), (7 << 56, String::new()));
    assert_eq!(told(4, 0, 0), (0, String::new()));
}

/// Runs and listings are each row in turn, in what is left.
#[test]
fn runs_are_each_row_in_turn() {
    let mut stops = [0; 16];
    for seed in 0..120 {
        let rng = &mut Rng::new(seed);
        let count = rng.below(8);
        let csv = csv_file(&csv_rows(rng, count));
        for room in [0, rng.below(400), 520 * 8] {
            for (first, many) in [(1, 9), (0, 1), (1, 2), (rng.below(9), rng.below(9))] {
                let (first, many) = (first as u64, many as u64);
                let (mut ours, mut turned) = (vec![7; room], vec![7; room]);
                let (mut told, mut bytes) = (0, 0);
                let answer = packed_run(labels(&csv, first, many, &mut ours), &mut told);
                let mut expected = many;
                for written in 0..many {
                    match label(&csv, first + written, &mut turned[bytes..]) {
                        Ok(length) => bytes += length,
                        Err(why) => {
                            let second = written;
                            expected = Refusal { second, ..why }.packed();
                            break;
                        }
                    }
                }
                assert_eq!((answer, told), (expected, bytes as u64));
                assert!(ours == turned);
                stops[(answer >> 56) as usize] += 1;
            }
        }
    }
    for number in [0, 7, 8, 10] {
        assert!(stops[number] > 20, "{number}: {stops:?}");
    }
}

/// Of a row's number the refusal holds the last 32 bits.
#[test]
fn the_number_of_a_row_that_is_too_large() {
    let refused = Refusal::malformed_row((1 << 32) + 5, 17);
    assert_eq!(refused.packed(), 14 << 56 | 17 << 32 | 5);
}
