//! Lists of labels, asked for page by page: each item stands in its place, and a
//! file or a pack is checked once for a page of them.

mod support;

use paper::make::{Pair, TableRow, View};
use std::time::{Duration, Instant};
use support::{is_emulated, Folder};
use ttw::ask::{Refusal, Run};
use ttw::listing::{each_item, Item, PAGE};

/// A listing of these items from a number on, as the library has it: as many as there is room for, then 10; 7 behind the
/// last.
fn listed(items: &[String], first: u64, room: &mut [u8]) -> Run {
    let (mut labels, mut bytes, mut stop) = (0, 0, 7);
    for item in &items[first as usize - 1..] {
        if room.len() - bytes < item.len() {
            stop = 10;
            break;
        }
        room[bytes..bytes + item.len()].copy_from_slice(item.as_bytes());
        bytes += item.len();
        labels += 1;
    }
    Run {
        labels,
        bytes,
        stop: Some(refusal(stop, 0)),
    }
}

fn refusal(number: u8, detail: u64) -> Refusal {
    Refusal {
        number,
        file: 0,
        second: 0,
        detail,
    }
}

/// Takes the items apart, compares each with the one it has to be, and says how many pages were asked for.
fn pages_for(items: &[String]) -> usize {
    let (mut pages, mut expected) = (0, (1..).zip(items));
    let ask = |first, _, page: &mut [u8]| {
        pages += 1;
        Ok::<Run, ()>(listed(items, first, page))
    };
    let take = |number, Item { heading, label }: Item| {
        let rest = match label {
            Ok(label) => String::from_utf8(label.to_vec()).expect("text"),
            Err(why) => format!("refused {} {}\n", why.number, why.detail),
        };
        let item = format!("{heading}\n{rest}");
        assert_eq!(Some((number, &item)), expected.next());
        Ok(())
    };
    assert_eq!(each_item(&mut vec![0; PAGE], ask, take), Ok(()));
    assert_eq!(expected.next(), None);
    pages
}

fn item(n: usize) -> String {
    format!("view {n} I\nAB1 9ZZ\n{n} QUARRY LANE\nAB1 9ZZ\n")
}

fn refused(n: usize) -> String {
    format!("view {n} D\nrefused 9 6\n")
}

#[test]
fn items_are_told_apart_and_refused_ones_stand_in_their_places() {
    let items: Vec<String> = (1..=9).map(item).collect();
    assert_eq!(pages_for(&items), 1);
    assert_eq!(pages_for(&[]), 1);
    let all: Vec<String> = (1..=9).map(refused).collect();
    assert_eq!(pages_for(&all), 1);
    for place in [0, 4, 8] {
        let mut items = items.clone();
        items[place] = refused(place + 1);
        assert_eq!(pages_for(&items), 1);
    }
}

#[test]
fn a_long_listing_is_asked_for_page_by_page() {
    let items: Vec<String> = (1..=60_000).map(item).collect();
    let bytes: usize = items.iter().map(String::len).sum();
    let pages = pages_for(&items);
    assert!((2..=bytes / PAGE + 2).contains(&pages), "{pages}");
}

/// So many live views of AB1, in a pack of more than 1 MiB.
fn long_pair(views: u32) -> Pair {
    let mut rows = vec![TableRow::locality(1, "HARTWELL BAY", "", "")];
    let name = |key: u32| format!("{key:05} IS THE NUMBER OF THIS HOUSE OF FIFTY BYTES");
    rows.extend((1..=10_000).map(|key| TableRow::building(key, &name(key))));
    let view = |n: u32| View {
        address_key: n,
        locality: 1,
        building: n % 10_000 + 1,
        ..View::default()
    };
    Pair::new(rows, (1..=views).map(view).collect())
}

/// The second program's pack, which has to be longer than that.
fn plain_pack(pair: &Pair, length: usize) -> Vec<u8> {
    let mut pack = vec![0; pair.table.len() + pair.points.len()];
    let built = paper::build(&pair.table, &pair.points, b"AB1 ", &mut pack);
    pack.truncate(built.expect("a pack"));
    assert!(pack.len() > length, "{}", pack.len());
    pack
}

#[test]
fn a_pack_of_15_999_points_is_shown_at_once() {
    let views = 15_999;
    let pair = long_pair(views);
    let folder = Folder::with_pack(&pair);
    assert!(folder.read("AB1.pack") == plain_pack(&pair, 1 << 20));
    let mut labels = vec![0; 499 * views as usize];
    let run = paper::labels(&pair.table, &pair.points, 1, u64::from(views), &mut labels);
    labels.truncate(run.expect("labels").bytes);
    let labels = String::from_utf8(labels).expect("text");
    let mut listed = String::new();
    let each = labels.split_inclusive("AB1 9ZZ\n");
    (1..)
        .zip(each)
        .for_each(|(k, label)| listed += &format!("point {k}\n{label}"));
    let start = Instant::now();
    let shown = folder.ttw(&["show", "AB1.pack"]);
    let all = ["show", "AB1.pack", "--nth", "1", "--count", "15999"];
    let run = folder.ttw(&all);
    let of_code = folder.ttw(&["labels", "changes1", "changes2", "--code", "AB1"]);
    let taken = start.elapsed();
    assert!(shown.out == listed, "{}", shown.out.len());
    assert_eq!(shown.told, "labels printed: 15999, refused: 0\n");
    assert!(run.out == labels, "{}", run.out.len());
    assert!(of_code.out == listed.replace("point ", "AB1 number "));
    // Opened anew for each point this takes half a minute and more.
    assert!(taken < Duration::from_secs(15), "{taken:?}");
}

#[test]
fn all_views_are_listed_at_once() {
    let views = 15_999;
    let pair = long_pair(views);
    let folder = Folder::with_pair(&pair);
    let mut listing = vec![0; 512 * views as usize];
    let listed = paper::list(&pair.table, &pair.points, 1, u64::MAX, &mut listing);
    listing.truncate(listed.expect("a listing").bytes);
    let start = Instant::now();
    let all = folder.ttw(&["labels", "changes1", "changes2"]);
    let taken = start.elapsed();
    assert!(all.out.into_bytes() == listing);
    assert_eq!(all.told, "labels printed: 15999, refused: 0\n");
    // Asked for view by view this takes half a minute and more.
    assert!(taken < Duration::from_secs(10), "{taken:?}");
}

/// So many views with labels of more than 300 bytes, all of the same few rows.
fn wordy_pair(views: u32) -> Pair {
    let long = |width: usize| "WORDS ".repeat(10)[..width].trim_end().to_string();
    let rows = vec![
        TableRow::locality(1, &long(30), &long(35), &long(35)),
        TableRow::thoroughfare(1, &long(60)),
        TableRow::building(1, &long(50)),
        TableRow::sub_building(1, &long(30)),
    ];
    let view = |n: u32| View {
        address_key: n,
        locality: 1,
        thoroughfare: 1,
        dependent_thoroughfare: 1,
        building: 1,
        sub_building: 1,
        ..View::default()
    };
    Pair::new(rows, (1..=views).map(view).collect())
}

/// Beyond what a check takes a listing takes a page and little more, and not its own length. An emulator takes address
/// space of its own.
#[test]
fn a_long_listing_takes_bounded_memory() {
    if is_emulated() {
        return;
    }
    let folder = Folder::with_pair(&wordy_pair(15_999));
    let runs = |command: &str, kib: usize| {
        let line = format!("ulimit -v {kib}; exec \"$TTW\" {command} changes1 changes2 >printed");
        folder.shell(&line).status == Some(0)
    };
    let (mut least, mut enough) = (0, 1 << 20);
    while enough - least > 16 {
        let kib = (least + enough) / 2;
        if runs("check", kib) {
            enough = kib;
        } else {
            least = kib;
        }
    }
    assert!(runs("labels", enough + 2 * PAGE / 1024), "{enough} KiB");
    assert!(folder.read("printed").len() > 4 * PAGE);
}
