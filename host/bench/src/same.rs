//! The library's answer beside the plain version's.

/// Asks both for what they write into a buffer of so many bytes, and fails unless
/// they answer the same, tell the same bytes and leave the same buffer.
#[track_caller]
pub fn same(
    what: &str,
    room: usize,
    library: impl FnOnce(&mut [u8], &mut u64) -> u64,
    plain: impl FnOnce(&mut [u8], &mut u64) -> u64,
) {
    let (mut ours, mut theirs) = (vec![0xA5; room], vec![0xA5; room]);
    let (mut bytes, mut others) = (7, 7);
    let answer = library(&mut ours, &mut bytes);
    let other = plain(&mut theirs, &mut others);
    assert_eq!((answer, bytes), (other, others), "{what}");
    assert!(ours == theirs, "{what}: in {room} bytes something else");
}

/// Does that for a call, with the same arguments for both.
#[cfg(test)]
macro_rules! same_call {
    ($what:expr, $room:expr, |$out:pat_param, $bytes:pat_param| $name:ident($($argument:expr),*)) => {
        crate::same::same(
            &format!("{}, {}", stringify!($name), $what),
            $room,
            |$out, $bytes| ttw::calls::$name($($argument),*),
            |$out, $bytes| crate::plain::$name($($argument),*),
        )
    };
}

#[cfg(test)]
pub(crate) use same_call;
