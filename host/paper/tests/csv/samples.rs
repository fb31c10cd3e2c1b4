//! The CSV file in `samples/rows.csv`, and the listing beside it.

use paper::csv::{check, list};
use paper::make::samples::csv;
use std::fs;
use std::path::{Path, PathBuf};

fn sample(name: &str) -> PathBuf {
    let samples = Path::new(env!("CARGO_MANIFEST_DIR")).join("../../samples");
    samples.join(name)
}

#[test]
fn the_sample_is_what_it_is_made_from() {
    let kept = fs::read(sample("rows.csv")).expect("rows.csv");
    assert!(kept == csv(), "samples/rows.csv");
    assert_eq!(check(&kept), Ok(41));
}

#[test]
fn the_listing_is_the_one_that_stands_beside() {
    let mut out = vec![0; 10_000];
    let run = list(&csv(), 1, 41, &mut out).expect("a file");
    assert_eq!((run.labels, run.stop), (41, None));
    let kept = fs::read_to_string(sample("rows-labels.txt")).expect("rows-labels.txt");
    assert_eq!(String::from_utf8_lossy(&out[..run.bytes]), kept);
    for rule in [1, 2] {
        assert!(kept.contains(&format!("\nrefused 8 {rule}\n")));
    }
}
