//! The outward codes of a point file.

use super::check::{is_live, point_records, views_in, MOST};
use crate::plain_label::Sheet;
use paper::Refusal;

/// The codes with live views and how many each has: gathered as numbers, which
/// rise as their bytes do, and put in order.
pub fn codes(points: &[u8], out: &mut [u8]) -> Result<usize, Refusal> {
    let records = point_records(points)?;
    let mut all = [0; MOST];
    let mut live = 0;
    for view in views_in(records).map(|place| &records[place]) {
        all[live] = u32::from_be_bytes([view[14], view[15], view[16], view[17]]);
        live += usize::from(is_live(view));
    }
    let all = &mut all[..live];
    all.sort_unstable();
    let codes = || all.chunk_by(|one, next| one == next);
    let count = codes().count();
    if out.len() < 8 * count {
        return Err(Refusal::new(10, 8 * count as u64));
    }
    let mut sheet = Sheet { out, at: 0 };
    for code in codes() {
        sheet.four(code[0]);
        sheet.four(code.len() as u32);
    }
    Ok(count)
}
