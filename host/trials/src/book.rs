//! Each call on a book asked beside the second program: answer, and the whole of the book and of what else is lent.

use crate::agree::{lent, printed, same, telling};
use crate::runs::{item, same_thrice, same_twice, Asked};
use paper::{book, packed, Refusal};
use std::hint::black_box;
use ttw::calls;

/// How many delivery points a book has, or the refusal.
#[track_caller]
pub fn count(book: &[u8]) -> u64 {
    let answer = lent(book, calls::book);
    same("book", book, answer, book::count(book))
}

/// Does an event in a book: the place, or the refusal.
#[track_caller]
pub fn event(book: &mut [u8], points: &[u8], view: u64) -> u64 {
    changed(
        &format!("event {view}"),
        book,
        |book| lent(points, |points| calls::book_event(book, points, view)),
        |book| book::event(book, points, view),
    )
}

/// Tidies a book: how many delivery points it has, or the refusal.
#[track_caller]
pub fn tidy(book: &mut [u8]) -> u64 {
    changed("tidy", book, calls::book_tidy, book::tidy)
}

/// Has both programs change a book, with bytes around it that have to stay. A refused call has to leave it as it was.
#[track_caller]
fn changed(
    call: &str,
    book: &mut [u8],
    library: impl FnOnce(&mut [u8]) -> u64,
    plain: impl FnOnce(&mut [u8]) -> Result<u64, Refusal>,
) -> u64 {
    let (start, length) = (telling(0), book.len());
    let mut memory = [&start, &*book, &start].concat();
    let answer = library(&mut memory[start.len()..][..length]);
    let before = book.to_vec();
    let expected = plain(book);
    assert!(expected.is_ok() || before == *book, "{call}: refused");
    let wanted = [&start, &*book, &start].concat();
    assert_eq!(answer, packed(expected), "{call}");
    assert!(*black_box(&memory) == wanted, "{call}: the books differ");
    answer
}

/// How many are present in an outward code, or the refusal.
#[track_caller]
pub fn live(book: &[u8], code: &[u8]) -> u64 {
    let answer = lent(code, |code| lent(book, |book| calls::book_live(book, code)));
    let plain = book::live(book, code);
    same(&format!("live in {code:?}"), code, answer, plain)
}

/// The label of a place, or the refusal, with a buffer of so many bytes.
#[track_caller]
pub fn label(book: &[u8], table: &[u8], place: u64, room: usize) -> u64 {
    let library = |out: &mut [u8]| {
        lent(book, |book| {
            lent(table, |table| calls::book_label(book, table, place, out))
        })
    };
    printed(
        &format!("label of place {place} into {room} bytes"),
        table,
        room,
        library,
        |out| book::label(book, table, place, out),
    )
}

/// The label of the k-th that is present in a code, or the refusal, with a buffer of so many bytes.
#[track_caller]
pub fn code_label(book: &[u8], table: &[u8], code: &[u8], k: u64, room: usize) -> u64 {
    let library = |out: &mut [u8]| {
        lent(book, |book| {
            lent(table, |table| {
                lent(code, |code| {
                    calls::book_code_label(book, table, code, k, out)
                })
            })
        })
    };
    printed(
        &format!("label of {k} in {code:?} into {room} bytes"),
        table,
        room,
        library,
        |out| book::code_label(book, table, code, k, out),
    )
}

/// The pack of a code, or the refusal, with a buffer of so many bytes.
#[track_caller]
pub fn build(book: &[u8], table: &[u8], code: &[u8], room: usize) -> u64 {
    let library = |out: &mut [u8]| {
        lent(book, |book| {
            lent(table, |table| {
                lent(code, |code| calls::book_build(book, table, code, out))
            })
        })
    };
    printed(
        &format!("pack of {code:?} into {room} bytes"),
        table,
        room,
        library,
        |out| book::build(book, table, code, out),
    )
}

/// A run of labels of places: its answer.
#[track_caller]
pub fn labels(book: &[u8], table: &[u8], asked: Asked) -> u64 {
    let Asked { first, count, .. } = asked;
    let library = |out: &mut [u8], bytes: &mut u64| {
        lent(book, |book| {
            lent(table, |table| {
                calls::book_labels(book, table, first, count, out, bytes)
            })
        })
    };
    same_thrice(
        asked,
        library,
        |place, out| calls::book_label(book, table, place, out),
        |out| book::labels(book, table, first, count, out),
    )
}

/// The same of a code.
#[track_caller]
pub fn code_labels(book: &[u8], table: &[u8], code: &[u8], asked: Asked) -> u64 {
    let Asked { first, count, .. } = asked;
    let library = |out: &mut [u8], bytes: &mut u64| {
        lent(book, |book| {
            lent(code, |code| {
                calls::book_code_labels(book, table, code, first, count, out, bytes)
            })
        })
    };
    same_thrice(
        asked,
        library,
        |k, out| calls::book_code_label(book, table, code, k, out),
        |out| book::code_labels(book, table, code, first, count, out),
    )
}

/// A listing of places: its answer.
#[track_caller]
pub fn list(book: &[u8], table: &[u8], asked: Asked) -> u64 {
    let Asked { first, count, .. } = asked;
    let library = |out: &mut [u8], bytes: &mut u64| {
        lent(book, |book| {
            lent(table, |table| {
                calls::book_list(book, table, first, count, out, bytes)
            })
        })
    };
    let one = |place, out: &mut [u8]| {
        let line = || format!("place {place}\n");
        item(
            line,
            |room| calls::book_label(book, table, place, room),
            out,
        )
    };
    let plain = |out: &mut [u8]| book::list(book, table, first, count, out);
    same_thrice(asked, library, one, plain)
}

/// The same of a code. No call tells the place of such a one, so it is asked beside the second program alone.
#[track_caller]
pub fn code_list(book: &[u8], table: &[u8], code: &[u8], asked: Asked) -> u64 {
    let Asked { first, count, .. } = asked;
    let library = |out: &mut [u8], bytes: &mut u64| {
        lent(book, |book| {
            lent(code, |code| {
                calls::book_code_list(book, table, code, first, count, out, bytes)
            })
        })
    };
    let plain = |out: &mut [u8]| book::code_list(book, table, code, first, count, out);
    same_twice(asked, library, plain).answer
}

/// Every call on a book and a table file but those that change it; the answer to how many there are. What is no book has to
/// be the same refusal from each, whatever is asked.
#[track_caller]
pub fn ask(book: &[u8], table: &[u8], code: &[u8], place: u64) -> u64 {
    let answer = count(book);
    let others = [
        live(book, code),
        label(book, table, place, 499),
        code_label(book, table, code, place, 499),
        labels(book, table, Asked::new(place, 3, 700)),
        code_labels(book, table, code, Asked::new(place, 3, 700)),
        list(book, table, Asked::new(place, 3, 700)),
        code_list(book, table, code, Asked::new(u64::MAX, u64::MAX, 0)),
        build(book, table, code, 3_000),
    ];
    if answer >> 56 != 0 {
        assert_eq!(others, [answer; 8]);
    }
    answer
}

/// The same and those that change it, of bytes that are no book.
#[track_caller]
pub fn is_none(bytes: &[u8], table: &[u8], points: &[u8], code: &[u8], number: u64) {
    let refused = packed(Err(Refusal::new(28, 0)));
    assert_eq!(ask(bytes, table, code, number), refused);
    let mut changed = bytes.to_vec();
    assert_eq!(event(&mut changed, points, number), refused);
    assert_eq!(tidy(&mut changed), refused);
}
