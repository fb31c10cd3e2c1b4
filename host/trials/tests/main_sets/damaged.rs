//! Damage of every kind to each of the seven files.

use paper::make::{
    damaged_main, exact_set, main_breaks, main_file_of, main_set, samples, scratch, Organisation,
    Place, Rng, TableRow, View,
};
use paper::{mainfile, packed, Refusal};
use trials::main_sets::{ask_all, live, views, with_file, WIDTHS};
use trials::rooms::refusal;
use ttw::main_calls;

/// Files for each refusal and place.
const ROUNDS: u64 = 8;

#[test]
fn every_refusal_of_every_file_at_every_place() {
    let good = samples::main_set();
    for file in 1..=7 {
        for number in 1..=6 {
            for place in Place::ALL {
                let rng = &mut Rng::new(u64::from(file * 10 + number));
                let mut reached = 0;
                for _ in 0..ROUNDS {
                    let Some(damaged) = damaged_main(rng, file, number, place) else {
                        continue;
                    };
                    let set = with_file(&good, file, &damaged.file);
                    let expected = packed(Err(damaged.refusal));
                    assert_eq!(ask_all(set, b"AB1 ", 1), expected);
                    assert_eq!(ask_all(set, b"no code", 0), expected);
                    assert_eq!(refusal(live(set[6], b"AB1 ")) != 0, file == 7);
                    reached += 1;
                }
                assert_eq!(
                    reached > 0,
                    number < 6 && Place::of(number).contains(&place),
                    "{file} {number} {place:?}"
                );
            }
        }
    }
}

/// Records of every file, an organisation of each type.
fn records() -> [(u8, Vec<u8>); 9] {
    let locality = |dependent, double| TableRow::locality(8, "HOLT", dependent, double);
    [
        (1, locality("PENN", "OLD QUAY").main_record()),
        (1, locality("", "").main_record()),
        (2, TableRow::thoroughfare(8, "HIGH").main_record()),
        (3, TableRow::descriptor(8, "STREET").main_record()),
        (4, TableRow::building(8, "THE MANOR").main_record()),
        (5, TableRow::sub_building(8, "FLAT 1").main_record()),
        (6, Organisation::new(b'S', 8, "LEDA", "").record()),
        (6, Organisation::new(b'L', 8, "", "STORES").record()),
        (7, View::default().address_record()),
    ]
}

#[test]
fn every_break_of_every_field_is_4_at_its_byte() {
    let good = samples::main_set();
    let mut broken = 0;
    for (file, record) in records() {
        for change in main_breaks(file, &record) {
            let mut damaged = record.clone();
            change.apply(&mut damaged);
            let bytes = main_file_of(file, &[damaged]);
            let answer = views(with_file(&good, file, &bytes));
            let malformed = Refusal::malformed(file, 2, change.fault);
            assert_eq!(answer, packed(Err(malformed)), "{file} {change:?}");
            broken += 1;
        }
    }
    println!("{broken} broken records");
    assert!(broken > 200);
}

/// Changes every byte of each file to every value, one at a time.
#[test]
fn every_byte_of_every_file_changed_to_every_value() {
    let good = exact_set(&mut Rng::new(3), 4);
    for file in 1..=7 {
        let mut given = [0; 7];
        let mut bytes = good.files[usize::from(file) - 1].clone();
        for at in 0..bytes.len() {
            let kept = bytes[at];
            for value in 0..=255 {
                bytes[at] = value;
                let answer = views(with_file(&good, file, &bytes));
                given[refusal(answer) as usize] += 1;
                assert!(refusal(answer) == 0 || answer >> 52 & 15 == u64::from(file));
            }
            bytes[at] = kept;
        }
        println!("file {file}: taken, then refusals 1 to 6: {given:?}");
        assert_eq!(given.iter().sum::<usize>(), 256 * bytes.len());
        assert!([0, 2, 3, 4, 5].iter().all(|number| given[*number] > 0));
        assert_eq!((given[1], given[6]), (0, 0));
    }
}

#[test]
fn every_file_cut_at_every_byte() {
    let good = exact_set(&mut Rng::new(6), 4);
    for (file, width) in (1..=7).zip(WIDTHS) {
        let whole = &good.files[usize::from(file) - 1];
        for length in 0..whole.len() {
            let records = length / width;
            let why = match length % width == 0 && records >= 2 {
                true => Refusal::of_file(file, 3, records as u64),
                false => Refusal::of_file(file, 1, 0),
            };
            let answer = views(with_file(&good, file, &whole[..length]));
            assert_eq!(answer, packed(Err(why)), "{file} {length}");
        }
    }
}

/// A file of spaces is whole records up to the limit, and then has no header.
#[test]
fn lengths_are_2_to_1_000_000_whole_records() {
    let good = samples::main_set();
    let spaces = vec![b' '; 153 * 1_000_001];
    for (file, width) in (1..=7).zip(WIDTHS) {
        for (bytes, number) in [
            (0, 1),
            (width, 1),
            (2 * width - 1, 1),
            (2 * width, 2),
            (2 * width + 1, 1),
            (20_001 * width, 2),
            (1_000_000 * width, 2),
            (1_000_000 * width + 1, 1),
            (1_000_001 * width, 1),
        ] {
            let set = with_file(&good, file, &spaces[..bytes]);
            let why = Refusal::of_file(file, number, u64::from(number == 2));
            // Not lent with a copy beside: these files are long.
            assert_eq!(main_calls::views(set), packed(Err(why)), "{file} {bytes}");
            assert_eq!(mainfile::views(set), Err(why));
        }
    }
}

/// Of two damaged files the lower one is told, whatever the damage.
#[test]
fn the_lower_file_is_blamed() {
    let good = samples::main_set();
    let rng = &mut Rng::new(41);
    for low in 1..=6 {
        for high in low + 1..=7 {
            for numbers in [(1, 1), (4, 1), (5, 2), (3, 4)] {
                let damaged = [(low, numbers.0), (high, numbers.1)];
                let [lower, higher] = damaged.map(|(file, number)| {
                    let place = Place::of(number)[0];
                    damaged_main(rng, file, number, place).expect("a damaged file")
                });
                let mut set = good.set();
                set[usize::from(low) - 1] = &lower.file;
                set[usize::from(high) - 1] = &higher.file;
                assert_eq!(views(set), packed(Err(lower.refusal)));
            }
        }
    }
}

#[test]
fn sets_with_a_few_bytes_damaged() {
    let mut blamed = [0; 8];
    for seed in 0..1_200 {
        let rng = &mut Rng::new(seed);
        let made = main_set(rng, 12);
        let mut files = made.files.clone();
        for _ in 0..rng.below(3) {
            let file = rng.below(7);
            scratch(rng, &mut files[file]);
        }
        let set = files.each_ref().map(Vec::as_slice);
        let answer = ask_all(set, b"AB1 ", 1 + seed % 9);
        let file = match refusal(answer) {
            0 => 0,
            _ => answer >> 52 & 15,
        };
        blamed[file as usize] += 1;
    }
    println!("accepted, then files 1 to 7: {blamed:?}");
    assert!(blamed.iter().all(|count| *count > 20), "{blamed:?}");
}

#[test]
fn bytes_that_were_never_a_set() {
    for seed in 0..200 {
        let rng = &mut Rng::new(seed);
        let good = samples::main_set();
        let file = 1 + rng.below(7);
        let length = match rng.one_in(3) {
            true => rng.below(2_000),
            false => (2 + rng.below(6)) * WIDTHS[file - 1],
        };
        let garbage: Vec<u8> = (0..length).map(|_| rng.byte()).collect();
        ask_all(with_file(&good, file as u8, &garbage), b"AB1 ", seed);
        ask_all([garbage.as_slice(); 7], &garbage[..length.min(4)], seed);
    }
}

/// Files in each other's places.
#[test]
fn files_that_change_places() {
    let good = samples::main_set();
    for one in 0..7 {
        for other in 0..7 {
            let mut set = good.set();
            set.swap(one, other);
            let answer = views(set);
            assert_eq!(refusal(answer) == 0, one == other);
            if one != other {
                assert_eq!(answer >> 52 & 15, one.min(other) as u64 + 1);
            }
        }
    }
}
