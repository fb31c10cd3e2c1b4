//! Calls that write, asked with buffers around the bytes that they need.

/// The longest label.
const LABEL: usize = 499;

/// The refusal's number of a packed answer, 0 for a value.
pub fn refusal(answer: u64) -> u64 {
    answer >> 56
}

/// A label asked for with no room, with room around the bytes needed and with room for any label: the last answer.
#[track_caller]
pub fn label_rooms(ask: impl Fn(usize) -> u64) -> u64 {
    rooms(ask, |needed| LABEL.max(needed))
}

/// A pack asked for with no room, with room around the bytes needed and with more: the last answer.
#[track_caller]
pub fn pack_rooms(ask: impl Fn(usize) -> u64) -> u64 {
    rooms(ask, |needed| needed + 300)
}

/// No byte is lent first, so that the refusal tells how many are needed. Any other refusal comes before 10, and so has to
/// be the same whatever is lent.
#[track_caller]
fn rooms(ask: impl Fn(usize) -> u64, largest: impl Fn(usize) -> usize) -> u64 {
    let unlent = ask(0);
    assert_ne!(refusal(unlent), 0, "written into no byte");
    if refusal(unlent) != 10 {
        assert_eq!(ask(largest(0)), unlent);
        return unlent;
    }
    let needed = unlent as u32 as usize;
    assert!(needed > 0, "no bytes are needed and none are enough");
    assert_eq!(ask(needed - 1), unlent);
    for room in [needed, needed + 1, largest(needed)] {
        assert_eq!(ask(room), needed as u64);
    }
    needed as u64
}
