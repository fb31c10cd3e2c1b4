//! Every exported call, of the library and of the plain version.

use crate::input::{Input, CODE, LABEL, ROUND};
use crate::{bare_pass, bare_walk, plain, MOST_RATIO, MOST_ROWS};
use ttw::calls;

/// A call on an input; `room` is a buffer that holds the input's pack, and so
/// the labels of a round, and `bytes` where a run tells its bytes.
pub type Question = fn(&Input, room: &mut [u8], bytes: &mut u64) -> u64;

/// A call and the same call of the plain version. What they answer, tell and
/// write has to be the same.
pub struct Call {
    pub name: &'static str,
    pub library: Question,
    pub plain: Question,
    /// How many times the plain version it may take.
    pub most: f64,
    /// What the call looks at, where it is one pass over a file.
    pub pass: Option<Pass>,
}

/// One pass over a file: its bytes, a bare pass over them, and how many of these it
/// may take.
#[derive(Clone, Copy)]
pub struct Pass {
    pub file: fn(&Input) -> &[u8],
    pub bare: fn(&[u8]) -> u64,
    pub most: f64,
}

const fn call(name: &'static str, library: Question, plain: Question) -> Call {
    Call {
        name,
        library,
        plain,
        most: MOST_RATIO,
        pass: None,
    }
}

/// A call of both sides with the same arguments.
macro_rules! both {
    (|$input:pat_param, $room:pat_param, $bytes:pat_param| $name:ident($($argument:expr),*)) => {
        call(
            concat!("ttw_", stringify!($name)),
            |$input, $room, $bytes| calls::$name($($argument),*),
            |$input, $room, $bytes| plain::$name($($argument),*),
        )
    };
}

/// Every call that the header declares, in its order, but those that rewrite a file,
/// which are too short to be timed alone, and those on a book, which has one size:
/// letter and label of the last
/// view, the label of the code's first live view, the pack of the code, label and
/// suffix of its last point, its last sector; runs and listings of the last views,
/// of the code's first, and of the last points; row and rows of the last views, and
/// of the file of all rows how many there are, the label of the last, labels and
/// listing of the last ones.
pub const CALLS: [Call; 25] = [
    Call {
        pass: Some(Pass {
            file: Input::table,
            bare: bare_pass,
            most: 3.0,
        }),
        ..both!(|i, _, _| table(i.table()))
    },
    Call {
        pass: Some(Pass {
            file: Input::points,
            bare: bare_pass,
            most: 4.0,
        }),
        ..both!(|i, _, _| points(i.points()))
    },
    both!(|i, _, _| views(i.points())),
    both!(|i, _, _| letter(i.points(), i.last_view)),
    both!(|i, _, _| live(i.points(), CODE)),
    both!(|i, room, _| codes(i.points(), room)),
    both!(|i, room, _| label(i.table(), i.points(), i.last_view, &mut room[..LABEL])),
    both!(|i, room, _| code_label(i.table(), i.points(), CODE, 1, &mut room[..LABEL])),
    both!(|i, room, bytes| labels(i.table(), i.points(), i.first_view(), ROUND, room, bytes)),
    both!(|i, room, bytes| code_labels(i.table(), i.points(), CODE, 1, ROUND, room, bytes)),
    both!(|i, room, bytes| list(i.table(), i.points(), i.first_view(), ROUND, room, bytes)),
    both!(|i, room, bytes| code_list(i.table(), i.points(), CODE, 1, ROUND, room, bytes)),
    both!(|i, room, _| build(i.table(), i.points(), CODE, room)),
    both!(|i, _, _| pack(&i.pack)),
    both!(|i, room, _| pack_label(&i.pack, i.last_point, &mut room[..LABEL])),
    both!(|i, _, _| pack_suffix(&i.pack, i.last_point)),
    both!(|i, _, _| sector(&i.pack, 9)),
    both!(|i, room, bytes| pack_labels(&i.pack, i.first_point(), ROUND, room, bytes)),
    both!(|i, room, bytes| pack_list(&i.pack, i.first_point(), ROUND, room, bytes)),
    Call {
        most: MOST_ROWS,
        ..both!(|i, room, _| csv_row(
            &i.carried.table,
            &i.carried.points,
            i.last_view,
            &mut room[..LABEL]
        ))
    },
    Call {
        most: MOST_ROWS,
        ..both!(|i, room, bytes| csv_rows(
            &i.carried.table,
            &i.carried.points,
            i.first_view(),
            ROUND,
            room,
            bytes
        ))
    },
    Call {
        pass: Some(Pass {
            file: Input::csv,
            bare: bare_walk,
            most: 4.0,
        }),
        ..both!(|i, _, _| csv(i.csv()))
    },
    both!(|i, room, _| csv_label(i.csv(), i.last_view, &mut room[..LABEL])),
    both!(|i, room, bytes| csv_labels(i.csv(), i.first_view(), ROUND, room, bytes)),
    both!(|i, room, bytes| csv_list(i.csv(), i.first_view(), ROUND, room, bytes)),
];
