//! Identifiers of spaces rewritten in place.

/// Rewrites a table file: how many identifiers were spaces.
pub fn unspace_table(file: &mut [u8]) -> u64 {
    unspace::<169, 9>(file)
}

/// Rewrites a point file: how many identifiers were spaces.
pub fn unspace_points(file: &mut [u8]) -> u64 {
    unspace::<168, 14>(file)
}

fn unspace<const WIDTH: usize, const MARK: usize>(file: &mut [u8]) -> u64 {
    if !file.len().is_multiple_of(WIDTH) || file.len() < 2 * WIDTH {
        return 0;
    }
    let trailer = file.len() - WIDTH;
    rewritten::<MARK>(file, 0) + rewritten::<MARK>(&mut file[trailer..], 255)
}

/// How many identifiers a record has that were spaces and have this byte now.
fn rewritten<const MARK: usize>(record: &mut [u8], byte: u8) -> u64 {
    let spaces = record[..MARK] == [b' '; MARK];
    if spaces {
        record[..MARK].fill(byte);
    }
    u64::from(spaces)
}
