//! The calls of the static library `ttwibonal`, as `include/ttwibonal.h`
//! declares them. Each answers one number, which packs a value or a refusal.

/// Declares calls and wraps each in a safe function of the same arguments: the
/// slices that it reads, numbers, the slice that it writes, and where it tells the
/// bytes. To the library a slice is a pointer and a length.
macro_rules! calls {
    ($(
        $(#[$doc:meta])*
        $name:ident = $symbol:ident($($read:ident),*) ($($number:ident),*) ($($out:ident)?) ($($bytes:ident)?);
    )*) => {
        #[link(name = "ttwibonal", kind = "static")]
        extern "C" {
            $(fn $symbol(
                $($read: *const u8, _: usize,)*
                $($number: u64,)*
                $($out: *mut u8, _: usize,)?
                $($bytes: *mut u64,)?
            ) -> u64;)*
        }
        $(
            $(#[$doc])*
            pub fn $name(
                $($read: &[u8],)*
                $($number: u64,)*
                $($out: &mut [u8],)?
                $($bytes: &mut u64,)?
            ) -> u64 {
                // SAFETY: each pointer and length are those of a slice that outlives
                // the call, which keeps nothing. It only reads the first ones; what it
                // writes is of its own, lent for the call alone. Numbers may be any.
                unsafe {
                    $symbol(
                        $($read.as_ptr(), $read.len(),)*
                        $($number,)*
                        $($out.as_mut_ptr(), $out.len(),)?
                        $($bytes,)?
                    )
                }
            }
        )*
    };
}

calls! {
    /// How many records a table file has.
    table = ttw_table(table) () () ();

    /// How many records a point file has.
    points = ttw_points(points) () () ();

    /// Rewrites the identifiers of a table file that are spaces throughout: how many
    /// they were.
    unspace_table = ttw_unspace_table() () (file) ();

    /// The same for a point file.
    unspace_points = ttw_unspace_points() () (file) ();

    /// How many views a point file has.
    views = ttw_views(points) () () ();

    /// The amendment letter of a view, counted from 1.
    letter = ttw_letter(points) (view) () ();

    /// How many live views an outward code has.
    live = ttw_live(points, code) () () ();

    /// The outward codes with live views, rising, written into `out`.
    codes = ttw_codes(points) () (out) ();

    /// The label of a view, printed into `out`.
    label = ttw_label(table, points) (view) (out) ();

    /// The label of the k-th live view in a code, printed into `out`.
    code_label = ttw_code_label(table, points, code) (k) (out) ();

    /// The labels of so many views from `first` on, printed into `out` one behind
    /// the other; `bytes` becomes the bytes that they take.
    labels = ttw_labels(table, points) (first, count) (out) (bytes);

    /// The same for the live views in a code.
    code_labels = ttw_code_labels(table, points, code) (first, count) (out) (bytes);

    /// So many views from `first` on, each as its line and the label or the line of
    /// its refusal, one behind the other in `out`; `bytes` becomes the bytes that
    /// they take.
    list = ttw_list(table, points) (first, count) (out) (bytes);

    /// The same for the live views in a code.
    code_list = ttw_code_list(table, points, code) (first, count) (out) (bytes);

    /// The pack of an outward code, written into `out`.
    build = ttw_build(table, points, code) () (out) ();

    /// How many points a pack has.
    pack = ttw_pack(pack) () () ();

    /// The label of the k-th point of a pack, printed into `out`.
    pack_label = ttw_pack_label(pack) (k) (out) ();

    /// The suffix of the k-th point of a pack, its first byte times 256 plus its
    /// second.
    pack_suffix = ttw_pack_suffix(pack) (k) () ();

    /// How many points of a pack are in the sector of an inward digit, 0 to 9.
    sector = ttw_sector(pack) (digit) () ();

    /// The labels of so many points from `first` on, printed into `out` one behind
    /// the other; `bytes` becomes the bytes that they take.
    pack_labels = ttw_pack_labels(pack) (first, count) (out) (bytes);

    /// So many points from `first` on, each as its line and the label, one behind
    /// the other in `out`; `bytes` becomes the bytes that they take.
    pack_list = ttw_pack_list(pack) (first, count) (out) (bytes);

    /// The row of a view as CSV PAF, written into `out`.
    csv_row = ttw_csv_row(table, points) (view) (out) ();

    /// The rows of so many views from `first` on, written into `out` one behind the
    /// other; `bytes` becomes the bytes that they take.
    csv_rows = ttw_csv_rows(table, points) (first, count) (out) (bytes);

    /// How many rows a CSV file has.
    csv = ttw_csv(csv) () () ();

    /// The label of a row of a CSV file, counted from 1, printed into `out`.
    csv_label = ttw_csv_label(csv) (row) (out) ();

    /// The labels of so many rows from `first` on, printed into `out` one behind the
    /// other; `bytes` becomes the bytes that they take.
    csv_labels = ttw_csv_labels(csv) (first, count) (out) (bytes);

    /// So many rows from `first` on, each as its line and the label or the line of
    /// its refusal, one behind the other in `out`; `bytes` becomes the bytes that
    /// they take.
    csv_list = ttw_csv_list(csv) (first, count) (out) (bytes);

    /// How many delivery points a book has.
    book = ttw_book(book) () () ();

    /// Moves places 1, 2 and so on into the first slots of a book: how many there
    /// are.
    book_tidy = ttw_book_tidy() () (book) ();

    /// How many delivery points of an outward code are present in a book.
    book_live = ttw_book_live(book, code) () () ();

    /// The label of a place of a book, printed into `out`.
    book_label = ttw_book_label(book, table) (place) (out) ();

    /// The label of the k-th that is present in a code, printed into `out`.
    book_code_label = ttw_book_code_label(book, table, code) (k) (out) ();

    /// The labels of so many places from `first` on, printed into `out` one behind
    /// the other; `bytes` becomes the bytes that they take.
    book_labels = ttw_book_labels(book, table) (first, count) (out) (bytes);

    /// The same for those that are present in a code.
    book_code_labels = ttw_book_code_labels(book, table, code) (first, count) (out) (bytes);

    /// So many places from `first` on, each as its line and the label or the line of
    /// its refusal, one behind the other in `out`; `bytes` becomes the bytes that
    /// they take.
    book_list = ttw_book_list(book, table) (first, count) (out) (bytes);

    /// The same for those that are present in a code.
    book_code_list = ttw_book_code_list(book, table, code) (first, count) (out) (bytes);

    /// The pack of an outward code of a book, written into `out`.
    book_build = ttw_book_build(book, table, code) () (out) ();
}

#[link(name = "ttwibonal", kind = "static")]
extern "C" {
    fn ttw_book_event(
        book: *mut u8,
        book_len: usize,
        points: *const u8,
        points_len: usize,
        view: u64,
    ) -> u64;
}

/// Does in a book what the event says whose first view has that number: the place
/// concerned.
pub fn book_event(book: &mut [u8], points: &[u8], view: u64) -> u64 {
    // SAFETY: both are slices that outlive the call, which keeps nothing; the one
    // that it writes is lent for the call alone. The number may be any.
    unsafe {
        ttw_book_event(
            book.as_mut_ptr(),
            book.len(),
            points.as_ptr(),
            points.len(),
            view,
        )
    }
}
