//! Damage of every kind to each of the seven files.

use paper::mainfile::{
    build, check, check_each, code_label, code_labels, code_list, codes, label, labels, list, live,
    views, Set, MAIN_FAULTS,
};
use paper::make::{
    damaged_main, exact_set, main_breaks, main_file_of, samples, MainSet, Organisation, Place, Rng,
    TableRow, View,
};
use paper::Refusal;

const ROUNDS: u64 = 30;

/// The bytes of a record in each file.
const WIDTHS: [usize; 7] = [151, 68, 30, 58, 38, 153, 88];

/// Where in a record the name of a header and the count of a trailer end.
const FRONTS: [usize; 7] = [16, 16, 16, 16, 16, 16, 23];

/// A set with one file, 1 to 7, replaced.
fn with_file<'a>(made: &'a MainSet, file: u8, bytes: &'a [u8]) -> Set<'a> {
    let mut set = made.set();
    set[usize::from(file) - 1] = bytes;
    set
}

/// Every call on a set that this refusal has to refuse as a whole, with lent
/// memory unwritten.
#[track_caller]
fn assert_refused(set: Set, why: Refusal) {
    let out = &mut [0xA5; 600];
    let code = b"AB1 ";
    assert_eq!(check(set), Err(why));
    assert_eq!(views(set), Err(why));
    assert_eq!(label(set, 1, out), Err(why));
    assert_eq!(code_label(set, code, 1, out), Err(why));
    assert_eq!(labels(set, 1, 2, out), Err(why));
    assert_eq!(code_labels(set, b"no code", 1, 2, out), Err(why));
    assert_eq!(list(set, 1, 2, out), Err(why));
    assert_eq!(code_list(set, code, 0, 0, out), Err(why));
    assert_eq!(build(set, code, out), Err(why));
    if why.file == 7 {
        assert_eq!(live(set[6], b"QA1 "), Err(why));
        assert_eq!(codes(set[6], out), Err(why));
    } else {
        assert!(live(set[6], code).is_ok());
    }
    assert_eq!(*out, [0xA5; 600]);
}

fn can_stand(number: u8, place: Place) -> bool {
    match number {
        1 | 2 => place == Place::First,
        3 => place == Place::Last,
        4 => !matches!(place, Place::First | Place::Last),
        _ => matches!(place, Place::Middle | Place::LastButOne),
    }
}

#[test]
fn damaged_files_give_their_refusal_at_its_place() {
    let good = samples::main_set();
    for file in 1..=7 {
        for number in 1..=6 {
            for place in Place::ALL {
                let rng = &mut Rng::new(u64::from(file * 10 + number));
                let mut reached = 0;
                for _ in 0..ROUNDS {
                    if let Some(damaged) = damaged_main(rng, file, number, place) {
                        assert_eq!(damaged.refusal.file, file);
                        assert_refused(with_file(&good, file, &damaged.file), damaged.refusal);
                        reached += 1;
                    }
                }
                let possible = number < 6 && can_stand(number, place);
                assert_eq!(reached > 0, possible, "{file} {number} {place:?}");
            }
        }
    }
}

#[test]
fn every_field_that_is_read_can_be_at_fault() {
    let records = [
        (
            1,
            TableRow::locality(8, "HOLT", "PENN", "OLD QUAY").main_record(),
        ),
        (1, TableRow::locality(8, "HOLT", "", "").main_record()),
        (2, TableRow::thoroughfare(8, "HIGH").main_record()),
        (3, TableRow::descriptor(8, "STREET").main_record()),
        (4, TableRow::building(8, "THE MANOR").main_record()),
        (5, TableRow::sub_building(8, "FLAT 1").main_record()),
        (6, Organisation::new(b'S', 8, "LEDA", "").record()),
        (6, Organisation::new(b'L', 8, "", "STORES").record()),
        (7, View::default().address_record()),
    ];
    for (file, record) in records {
        let index = usize::from(file) - 1;
        let fault = MAIN_FAULTS[index];
        let checked = |record: &[u8]| {
            let bytes = main_file_of(file, &[record.to_vec()]);
            let mut set = Set::default();
            set[index] = &bytes;
            check_each(set)[index]
        };
        assert_eq!((fault(&record), checked(&record)), (0, Ok(3)));
        for change in main_breaks(file, &record) {
            let mut broken = record.clone();
            change.apply(&mut broken);
            assert_eq!(fault(&broken), change.fault, "{file} {change:?}");
            let malformed = Refusal::malformed(file, 2, change.fault);
            assert_eq!(checked(&broken), Err(malformed));
        }
        let longer = [&record[..], b" "].concat();
        assert_eq!([fault(b""), fault(&record[1..]), fault(&longer)], [1, 1, 1]);
    }
}

#[test]
fn what_is_not_read_has_no_fault() {
    let mut made = exact_set(&mut Rng::new(5), 6);
    let unread: [&[(usize, usize)]; 7] =
        [&[(6, 51)], &[], &[(24, 30)], &[], &[], &[(129, 153)], &[]];
    for (index, file) in made.files.iter_mut().enumerate() {
        let last = file.len() - WIDTHS[index];
        file[FRONTS[index]..WIDTHS[index]].fill(b'z');
        file[last + FRONTS[index]..].fill(200);
        for (start, end) in unread[index] {
            for record in file[WIDTHS[index]..last].chunks_exact_mut(WIDTHS[index]) {
                record[*start..*end].fill(0);
            }
        }
    }
    assert_eq!(check(made.set()), Ok([6; 7]));
}

#[test]
fn a_file_cut_at_any_byte_is_1_or_3() {
    let good = exact_set(&mut Rng::new(6), 5);
    for file in 1..=7 {
        let whole = &good.files[usize::from(file) - 1];
        let width = WIDTHS[usize::from(file) - 1];
        for length in 0..whole.len() {
            let records = length / width;
            let why = if length % width == 0 && records >= 2 {
                Refusal::of_file(file, 3, records as u64)
            } else {
                Refusal::of_file(file, 1, 0)
            };
            assert_eq!(check(with_file(&good, file, &whole[..length])), Err(why));
        }
    }
}

/// What a flip of a bit in a record may come to: 2 in the header, 3 in the
/// trailer, otherwise 4 at that record and not before that byte's field, or 5 at
/// that record or the next.
#[test]
fn a_flipped_bit_is_blamed_on_its_file_and_record() {
    let good = exact_set(&mut Rng::new(7), 5);
    let mut seen = [0; 6];
    for file in 1..=7 {
        let width = WIDTHS[usize::from(file) - 1];
        let mut bytes = good.files[usize::from(file) - 1].clone();
        for at in 0..bytes.len() {
            for bit in 0..8 {
                bytes[at] ^= 1 << bit;
                let answer = check(with_file(&good, file, &bytes));
                bytes[at] ^= 1 << bit;
                let record = at as u64 / width as u64 + 1;
                let in_front = at % width < FRONTS[usize::from(file) - 1];
                match answer {
                    Ok(_) => assert!(!in_front || (2..=4).contains(&record)),
                    Err(why) => {
                        assert_eq!(why.file, file);
                        let expected = match why.number {
                            2 => in_front && record == 1,
                            3 => in_front && record == 5 && why.detail == 5,
                            4 => why.detail == record && why.second as usize <= at % width + 1,
                            5 => [record, record + 1].contains(&why.detail),
                            _ => false,
                        };
                        assert!(expected, "{why:?} at byte {at} of file {file}");
                    }
                }
                seen[answer.map_or_else(|why| usize::from(why.number), |_| 0)] += 1;
            }
        }
    }
    println!("{seen:?}");
    assert!(seen[0] > 0 && seen[1] == 0 && seen[2..].iter().all(|count| *count > 0));
}
