/* Ttwibonal: reads Royal Mail's Changes files and Mainfile sets, prints labels and cuts packs for handsets; writes and
 * reads CSV PAF; keeps an address book over the months.
 *
 * A slice is a pointer and a length; a length of 0 takes any pointer, null too. `bytes`, where a call takes it, is the
 * place of a number and may not be null. Every call may be made with any bytes and any numbers, and has nothing to check
 * beforehand. Nothing is kept between calls and nothing is shared, so calls may run on several threads at once, on the
 * same slices too where they only read them. No call writes into the slices that it only reads, asks the system for
 * memory, or opens a file. What a call writes (`out`, `file`, `*bytes`, the `book` of an event or
 * of tidying) may overlap nothing else that it is lent.
 *
 * Stack: a call on files takes less than 2,048 bytes, labels and listings from files less than 4,096, opening a pack,
 * labels, listings, a suffix or a sector from a pack less than 80 KiB, building a pack or listing codes less than 192 KiB.
 * A call on a Mainfile set takes what that call on a pair of files does, but labels and listings from a set take less than
 * 6,144 bytes, and building a pack from a set takes less than 1 MiB. Rows of CSV PAF take what labels from the same files
 * do, and a call on a CSV file less than 4,096 bytes. A call on a book takes less than 8,192 bytes, but tidying one less
 * than 96 KiB and building a pack from one less than 192 KiB. A thread that makes such a call needs its stack sized for
 * that.
 *
 * Each call answers one number. Take it apart with the macros below and never compare whole words: later calls fill bits
 * that are 0 today.
 *
 *     uint64_t answer = ttw_table(table, table_len);
 *     if (TTW_REFUSAL(answer) != 0)
 *         printf("refused %u, detail %lu\n", (unsigned)TTW_REFUSAL(answer), (unsigned long)TTW_DETAIL(answer));
 *     else
 *         printf("%lu records\n", (unsigned long)TTW_VALUE(answer));
 */
#ifndef TTWIBONAL_H
#define TTWIBONAL_H

#include <stddef.h>
#include <stdint.h>

#ifdef __cplusplus
extern "C" {
#endif

/* The version of this header and of the library that it came with. */
#define TTW_VERSION "0.2.0"
/* The longest label in bytes: its lines, each ended by byte 10. */
#define TTW_LABEL_MAX 499
/* The longest row of CSV PAF in bytes that is written, its end counted. */
#define TTW_CSV_ROW_MAX 499
/* The bytes of a book, and how many delivery points it has room for. */
#define TTW_BOOK_LEN 86530
#define TTW_BOOK_SLOTS 256

/* The refusal's number, 0 where there is a value. It has a name, one of enum ttw_refused. */
#define TTW_REFUSAL(answer) ((answer) >> 56)
/* The file to blame: 1 the table file, 2 the point file, 0 no file. Of a Mainfile set 1 to 7, in the order of struct
 * ttw_main. */
#define TTW_FILE(answer) (((answer) >> 52) & 15u)
/* The refusal's second detail: the byte for 4, the field for 14, the view where building gives 8 or 9 (from a book the
 * place), the labels, rows or items written where a run or a listing stops, otherwise 0. */
#define TTW_SECOND(answer) (((answer) >> 32) & 0xFFFFFu)
/* The refusal's detail. */
#define TTW_DETAIL(answer) ((answer) & 0xFFFFFFFFu)
/* The value, where the refusal's number is 0. */
#define TTW_VALUE(answer) ((answer) & 0xFFFFFFFFFFFFFFu)

/* A name for each refusal's number. What its details are stands below, where the calls that give it are; what to do
 * about it says docs/REFUSALS.md. */
enum ttw_refused {
    TTW_REFUSED_LENGTH = 1,
    TTW_REFUSED_HEADER = 2,
    TTW_REFUSED_TRAILER = 3,
    TTW_REFUSED_RECORD = 4,
    TTW_REFUSED_SEQUENCE = 5,
    TTW_REFUSED_ORGANISATION = 6,
    TTW_REFUSED_NUMBER = 7,
    TTW_REFUSED_COMBINATION = 8,
    TTW_REFUSED_KEY = 9,
    TTW_REFUSED_ROOM = 10,
    TTW_REFUSED_PACK = 11,
    TTW_REFUSED_CODE = 12,
    TTW_REFUSED_SUFFIX = 13,
    TTW_REFUSED_ROW = 14,
    TTW_REFUSED_FIELD = 15,
    TTW_REFUSED_INSERTED_TWICE = 17,
    TTW_REFUSED_NOT_PRESENT = 18,
    TTW_REFUSED_CHANGE = 19,
    TTW_REFUSED_FULL = 20,
    TTW_REFUSED_DIGIT = 27,
    TTW_REFUSED_BOOK = 28
};

/* Refusals of a file, in the order in which they are tried (the detail is the record's number, counted from 1):
 *   1 the length is not 2 to 20,000 whole records (detail 0)
 *   2 the header is malformed (1)
 *   3 the trailer's identifier or count is wrong (the last record)
 *   then record by record
 *   4 the record is malformed (the second detail is the byte of the record at which its first fault stands, counted
 *     from 1, the fields being tried in record order)
 *   5 it is not above the record before
 *   6 a follower is missing (the type 1 is named), or stray (it is named itself)
 */

/* How many records a table file (Changes1) has. Refusals: 1 to 5, file 1. */
uint64_t ttw_table(const uint8_t *table, size_t table_len);

/* How many records a point file (Changes2, Single Changes) has. Refusals: 1 to 6, file 2. */
uint64_t ttw_points(const uint8_t *points, size_t points_len);

/* Archived files. Files that somebody edited, or that came on an old CD-Rom, have spaces for the identifiers of header and
 * trailer. They are accepted as they are. Rewriting makes zero bytes of such an identifier in the header and bytes 255 in
 * the trailer, in place, and leaves every other byte as it was; a file that is not two or more whole records stays as it is,
 * and one of more than 20,000 records is rewritten too. What was accepted is accepted then, with the same labels, and what
 * was refused is refused alike. Header and trailer alone are read, so that the two of them, one behind the other, are
 * rewritten as the file is (docs/calls/unspace.md, `in_parts`).
 *
 *     uint64_t rewritten = TTW_VALUE(ttw_unspace_table(table, table_len));
 *     printf("%lu of 2 identifiers were spaces\n", (unsigned long)rewritten);
 */

/* Rewrites a table file: how many identifiers were spaces, 0, 1 or 2. No refusal. */
uint64_t ttw_unspace_table(uint8_t *file, size_t len);

/* Rewrites a point file: how many identifiers were spaces, 0, 1 or 2. No refusal. */
uint64_t ttw_unspace_points(uint8_t *file, size_t len);

/* How many views a point file has. Refusals: 1 to 6, file 2. */
uint64_t ttw_views(const uint8_t *points, size_t points_len);

/* The amendment letter of a view, counted from 1: 'B', 'C', 'D' or 'I'. Refusals: 1 to 6, file 2; then 7, no such
 * view. */
uint64_t ttw_letter(const uint8_t *points, size_t points_len, uint64_t view);

/* How many live views an outward code has. The code is 4 bytes, padded with spaces. Refusals: 1 to 6, file 2; then 12,
 * the code is malformed. */
uint64_t ttw_live(const uint8_t *points, size_t points_len, const uint8_t *code, size_t code_len);

/* The outward codes that have live views, rising, written into `out`: each its 4 bytes, padded with spaces, and then how
 * many live views it has in 4 bytes, the most significant first. The value is how many codes there are, and each takes 8
 * bytes; what stands behind them in `out` is as it was. Refusals: 1 to 6, file 2; then 10, `out` is shorter than that (the
 * bytes needed). A refused call leaves all of `out` as it was. */
uint64_t ttw_codes(const uint8_t *points, size_t points_len, uint8_t *out, size_t out_len);

/* Labels, one at a time. `out` is the one slice that is written: a refused call leaves all of it as it was, an accepted
 * one everything behind the bytes that it wrote. A label has at most TTW_LABEL_MAX bytes.
 * Refusals, in this order: the table file's (file 1), the point file's (file 2), 12 where a code is given, then
 *   7 no such view
 *   8 a forbidden combination (1 sub building without name or number, 2 dependent thoroughfare without thoroughfare,
 *     3 descriptor without its own name)
 *   9 a key has no row in force (none at all, or the last for it has the letter B or D), or the locality key is zero (the
 *     field, 1 to 7: locality, thoroughfare, descriptor, dependent thoroughfare, its descriptor, building name, sub
 *     building)
 *  10 `out` is shorter than the label (the bytes needed)
 */

/* The label of a view, counted from 1: how many bytes were written. */
uint64_t ttw_label(const uint8_t *table, size_t table_len, const uint8_t *points, size_t points_len, uint64_t view,
                   uint8_t *out, size_t out_len);

/* The label of the k-th live view in an outward code, k counted from 1 in file order: how many bytes were written. */
uint64_t ttw_code_label(const uint8_t *table, size_t table_len, const uint8_t *points, size_t points_len,
                        const uint8_t *code, size_t code_len, uint64_t k, uint8_t *out, size_t out_len);

/* Runs of labels. `count` labels are written into `out` one behind the other, equal to asking for each in turn: label
 * `first` in the whole of `out`, the next one in what is left behind it, and so on. `*bytes`, a number of its own that no
 * slice holds, becomes how many bytes they take together, and what stands behind these in `out` is as it was. The value
 * is how many labels were written: `count`.
 *
 * A run stops before the first label that is refused or does not fit in what is left. The answer is then that label's
 * own refusal, 7 to 10 as above (for 10 the bytes that this label needs), and the second detail is how many labels were
 * written before it, modulo 1,048,576. These stay, and `*bytes` counts them.
 *
 * Refused as a whole, in this order: the table file's refusals (file 1), the point file's (file 2), 12 where a code is
 * given; a pack's 11. Then neither `out` nor `*bytes` is written, whatever `first` and `count` are.
 *
 *     uint8_t out[40 * TTW_LABEL_MAX];
 *     uint64_t bytes = 0;
 *     uint64_t answer = ttw_labels(table, table_len, points, points_len, 1, 40, out, sizeof out, &bytes);
 *     fwrite(out, 1, bytes, stdout);
 *     if (TTW_REFUSAL(answer) == TTW_REFUSED_KEY)
 *         printf("%lu labels, then a key has no row in force\n", (unsigned long)TTW_SECOND(answer));
 */

/* The labels of `count` views from view `first` on, counted from 1: how many labels were written. */
uint64_t ttw_labels(const uint8_t *table, size_t table_len, const uint8_t *points, size_t points_len, uint64_t first,
                    uint64_t count, uint8_t *out, size_t out_len, uint64_t *bytes);

/* The labels of `count` live views in an outward code from the `first` on, counted from 1 in file order: how many labels
 * were written. */
uint64_t ttw_code_labels(const uint8_t *table, size_t table_len, const uint8_t *points, size_t points_len,
                         const uint8_t *code, size_t code_len, uint64_t first, uint64_t count, uint8_t *out,
                         size_t out_len, uint64_t *bytes);

/* Listings. `count` items are written into `out` one behind the other, each asked for in what is left behind those before
 * it. An item is the line `view N L`, where N is the view's number in the file, counted from 1, and L its amendment
 * letter; then the label, or the line `refused n d` with the label's refusal, 8 or 9, and its detail. Each line ends with
 * byte 10. `*bytes` becomes how many bytes the items take together, and what stands behind these in `out` is as it was.
 * The value is how many items were written: `count`.
 *
 * A listing goes on behind a refused label. It stops with 7 where no such view is left, and with 10 before the first item
 * that does not fit in what is left (the bytes that this item needs); the second detail is how many items were written
 * before it, modulo 1,048,576. These stay, and `*bytes` counts them. What refuses the whole, and what is written then, is as
 * for runs. 512 bytes hold any item of a file, 520 any of a pack.
 *
 * No text has a small letter, so a line that begins with one is never a label's: `v` begins an item (`p` of a
 * pack), `r` is the line of a refusal, and every other line is one of the label behind such a line.
 *
 *     static uint8_t out[1 << 16];
 *     uint64_t bytes = 0, first = 1, answer;
 *     do {
 *         answer = ttw_list(table, table_len, points, points_len, first, UINT64_MAX, out, sizeof out, &bytes);
 *         fwrite(out, 1, bytes, stdout);
 *         first += TTW_SECOND(answer);
 *     } while (TTW_REFUSAL(answer) == TTW_REFUSED_ROOM);
 */

/* `count` views from view `first` on, counted from 1: how many items were written. */
uint64_t ttw_list(const uint8_t *table, size_t table_len, const uint8_t *points, size_t points_len, uint64_t first,
                  uint64_t count, uint8_t *out, size_t out_len, uint64_t *bytes);

/* `count` live views in an outward code from the `first` on, counted from 1 in file order: how many items were written.
 * N is the view's number in the file here too. */
uint64_t ttw_code_list(const uint8_t *table, size_t table_len, const uint8_t *points, size_t points_len,
                       const uint8_t *code, size_t code_len, uint64_t first, uint64_t count, uint8_t *out,
                       size_t out_len, uint64_t *bytes);

/* Packs. A pack holds the labels of the live views in one outward code, and needs no file beside it: its k-th point has
 * the label that ttw_code_label gives for the k-th live view of the files that it was built from. Its last byte is its
 * edition. Packs of edition 3 are built, whose points have a delivery point suffix too, and which say how many points
 * each sector has. Those of editions 1 and 2 open and print the same labels. They do not say that number, so that the
 * points are counted for it, and those of edition 1 have no suffixes.
 *
 *     uint64_t answer = ttw_pack_label(pack, pack_len, 1, label, sizeof label);
 *     if (TTW_REFUSAL(answer) == 0)
 *         fwrite(label, 1, TTW_VALUE(answer), stdout);
 */

/* The pack of an outward code, written into `out`: how many bytes were written. The code is 4 bytes, padded with spaces;
 * one with no live view gives a pack of 61 bytes. A refused call leaves all of `out` as it was, an accepted one
 * everything behind the pack.
 * Refusals, in this order: the table file's (file 1), the point file's (file 2), 12 the code is malformed, then
 *   8 or 9 as for labels, of the first live view in the code that has one; the second detail is the view's number
 *  10 `out` is shorter than the pack (the bytes needed: lend no bytes to learn how many)
 */
uint64_t ttw_build(const uint8_t *table, size_t table_len, const uint8_t *points, size_t points_len,
                   const uint8_t *code, size_t code_len, uint8_t *out, size_t out_len);

/* How many points a pack has. Refusal: 11, these bytes are no pack (the first step that fails: 1 trailer, which is one of
 * editions 1, 2 and 3; 2 rows; 3 points; 4 the counts of the sectors). */
uint64_t ttw_pack(const uint8_t *pack, size_t pack_len);

/* The label of the k-th point of a pack, k counted from 1, printed into `out` as by the label calls: how many bytes were
 * written. Refusals, in this order: 11 as above, 7 no such point, 10 `out` is shorter than the label (the bytes
 * needed). */
uint64_t ttw_pack_label(const uint8_t *pack, size_t pack_len, uint64_t k, uint8_t *out, size_t out_len);

/* The delivery point suffix of the k-th point of a pack, k counted from 1, a digit and a letter: the value is the first
 * byte times 256 plus the second, so that `1A` is 12609. Refusals, in this order: 11 as above, 7 no such point, 13 a pack
 * of this edition has no suffix (detail 0).
 *
 *     uint64_t answer = ttw_pack_suffix(pack, pack_len, 1);
 *     if (TTW_REFUSAL(answer) == 0)
 *         printf("%c%c\n", (int)(TTW_VALUE(answer) / 256), (int)(TTW_VALUE(answer) % 256));
 */
uint64_t ttw_pack_suffix(const uint8_t *pack, size_t pack_len, uint64_t k);

/* How many points of a pack are in a sector, those whose inward code begins with that digit: of a pack of AB1, digit 9
 * is sector AB1 9. The digit is a number, 0 to 9, and no character. A pack of edition 3 says it; of an older one the
 * points are counted. Refusals, in this order: 11 as above, 27 the digit is above 9 (detail 0).
 *
 *     uint64_t answer = ttw_sector(pack, pack_len, 9);
 *     if (TTW_REFUSAL(answer) == 0)
 *         printf("%lu points\n", (unsigned long)TTW_VALUE(answer));
 */
uint64_t ttw_sector(const uint8_t *pack, size_t pack_len, uint64_t digit);

/* The labels of `count` points of a pack from point `first` on, counted from 1: how many labels were written. It is a
 * run of labels as above, refused as a whole with 11, and stops with 7 or 10. */
uint64_t ttw_pack_labels(const uint8_t *pack, size_t pack_len, uint64_t first, uint64_t count, uint8_t *out,
                         size_t out_len, uint64_t *bytes);

/* `count` points of a pack from point `first` on, counted from 1: how many items were written. It is a listing as above,
 * whose items are the line `point K`, K being the point's number, and the label; refused as a whole with 11, and stops
 * with 7 or 10. */
uint64_t ttw_pack_list(const uint8_t *pack, size_t pack_len, uint64_t first, uint64_t count, uint8_t *out,
                       size_t out_len, uint64_t *bytes);

/* Mainfile. A set is seven files, laid out as the Programmers' Guide's chapter 5 has them, without line ends:
 *
 *   no.  file          bytes of a record  its header says
 *   1    localities    151                LOCALITY
 *   2    thoroughfares  68                THOROUGH
 *   3    descriptors    30                THDESCRI
 *   4    buildings      58                BUILDING
 *   5    sub buildings  38                SUBBUILD
 *   6    organisations 153                ORGANISA
 *   7    addresses      88                ADDRESS
 *
 * A view is an address, numbered from 1 in file order, and each is live. A small user with an organisation key above zero
 * has the organisation of type S with that key, a large user the organisation of type L with its address key. Labels are
 * printed, and packs written, by the rules that hold for a pair of files.
 *
 * Refusals of the files, in the order in which they are tried: file 1 wholly, then file 2, up to file 7, and of each
 *   1 the length is not 2 to 1,000,000 whole records (detail 0)
 *   2 the header is malformed (1)
 *   3 the trailer's identifier or count is wrong (the last record)
 *   then record by record
 *   4 the record is malformed (the second detail is the byte, as above)
 *   5 it is not above the record before: by its key in files 1 to 5, by type and key in file 6, by postcode, address key and
 *     organisation key in file 7, all compared as bytes
 * There is no 6. Then, for a label and in this order, 12 where a code is given, 7, 8, 9 and 10 as above. A key has a row in
 * force where its file has the row; and 9 has one more field, the last:
 *   8 the address is a large user, or a small user with an organisation key above zero, and its organisation has no row
 *
 * Each call takes the seven files, a pointer and a length each, in this order. Who keeps them in a struct ttw_main asks the
 * call of the same name with _of behind it, which takes a pointer to that. In C++ too it is called struct ttw_main: ttw_main
 * alone is the call.
 *
 *     struct ttw_main set;
 *     set.localities = localities;
 *     set.localities_len = localities_len;
 *     and so on up to
 *     set.addresses_len = addresses_len;
 *     uint64_t answer = ttw_main_of(&set);
 *     if (TTW_REFUSAL(answer) != 0)
 *         printf("file %u is refused\n", (unsigned)TTW_FILE(answer));
 */

/* A Mainfile set: its files in their order, each with its length in bytes. */
struct ttw_main {
    const uint8_t *localities;
    size_t localities_len;
    const uint8_t *thoroughfares;
    size_t thoroughfares_len;
    const uint8_t *descriptors;
    size_t descriptors_len;
    const uint8_t *buildings;
    size_t buildings_len;
    const uint8_t *sub_buildings;
    size_t sub_buildings_len;
    const uint8_t *organisations;
    size_t organisations_len;
    const uint8_t *addresses;
    size_t addresses_len;
};

/* How many views a set has. Refusals: 1 to 5, files 1 to 7. */
uint64_t ttw_main(const uint8_t *localities, size_t localities_len, const uint8_t *thoroughfares,
                  size_t thoroughfares_len, const uint8_t *descriptors, size_t descriptors_len,
                  const uint8_t *buildings, size_t buildings_len, const uint8_t *sub_buildings,
                  size_t sub_buildings_len, const uint8_t *organisations, size_t organisations_len,
                  const uint8_t *addresses, size_t addresses_len);

/* How many addresses an outward code has, asked of the address file alone. The code is 4 bytes, padded with spaces.
 * Refusals: 1 to 5, file 7; then 12, the code is malformed. */
uint64_t ttw_main_live(const uint8_t *addresses, size_t addresses_len, const uint8_t *code, size_t code_len);

/* The outward codes of the address file, asked of it alone, written into `out` as ttw_codes writes them. Refusals: 1 to 5,
 * file 7; then 10, `out` is shorter than that (the bytes needed). A refused call leaves all of `out` as it was. */
uint64_t ttw_main_codes(const uint8_t *addresses, size_t addresses_len, uint8_t *out, size_t out_len);

/* Labels, runs and listings of a set are what they are of a pair of files, and write what those do. An item of a listing
 * begins with the line `view N`: there is no letter. 512 bytes hold any item. */

/* The label of a view, counted from 1: how many bytes were written. */
uint64_t ttw_main_label(const uint8_t *localities, size_t localities_len, const uint8_t *thoroughfares,
                        size_t thoroughfares_len, const uint8_t *descriptors, size_t descriptors_len,
                        const uint8_t *buildings, size_t buildings_len, const uint8_t *sub_buildings,
                        size_t sub_buildings_len, const uint8_t *organisations, size_t organisations_len,
                        const uint8_t *addresses, size_t addresses_len, uint64_t view, uint8_t *out, size_t out_len);

/* The label of the k-th address of an outward code, k counted from 1 in file order: how many bytes were written. */
uint64_t ttw_main_code_label(const uint8_t *localities, size_t localities_len, const uint8_t *thoroughfares,
                             size_t thoroughfares_len, const uint8_t *descriptors, size_t descriptors_len,
                             const uint8_t *buildings, size_t buildings_len, const uint8_t *sub_buildings,
                             size_t sub_buildings_len, const uint8_t *organisations, size_t organisations_len,
                             const uint8_t *addresses, size_t addresses_len, const uint8_t *code, size_t code_len,
                             uint64_t k, uint8_t *out, size_t out_len);

/* The labels of `count` views from view `first` on, counted from 1: how many labels were written. */
uint64_t ttw_main_labels(const uint8_t *localities, size_t localities_len, const uint8_t *thoroughfares,
                         size_t thoroughfares_len, const uint8_t *descriptors, size_t descriptors_len,
                         const uint8_t *buildings, size_t buildings_len, const uint8_t *sub_buildings,
                         size_t sub_buildings_len, const uint8_t *organisations, size_t organisations_len,
                         const uint8_t *addresses, size_t addresses_len, uint64_t first, uint64_t count, uint8_t *out,
                         size_t out_len, uint64_t *bytes);

/* The labels of `count` addresses of an outward code from the `first` on, counted from 1 in file order: how many labels
 * were written. */
uint64_t ttw_main_code_labels(const uint8_t *localities, size_t localities_len, const uint8_t *thoroughfares,
                              size_t thoroughfares_len, const uint8_t *descriptors, size_t descriptors_len,
                              const uint8_t *buildings, size_t buildings_len, const uint8_t *sub_buildings,
                              size_t sub_buildings_len, const uint8_t *organisations, size_t organisations_len,
                              const uint8_t *addresses, size_t addresses_len, const uint8_t *code, size_t code_len,
                              uint64_t first, uint64_t count, uint8_t *out, size_t out_len, uint64_t *bytes);

/* `count` views from view `first` on, counted from 1: how many items were written. */
uint64_t ttw_main_list(const uint8_t *localities, size_t localities_len, const uint8_t *thoroughfares,
                       size_t thoroughfares_len, const uint8_t *descriptors, size_t descriptors_len,
                       const uint8_t *buildings, size_t buildings_len, const uint8_t *sub_buildings,
                       size_t sub_buildings_len, const uint8_t *organisations, size_t organisations_len,
                       const uint8_t *addresses, size_t addresses_len, uint64_t first, uint64_t count, uint8_t *out,
                       size_t out_len, uint64_t *bytes);

/* `count` addresses of an outward code from the `first` on, counted from 1 in file order: how many items were written. N
 * is the view's number in the file here too. */
uint64_t ttw_main_code_list(const uint8_t *localities, size_t localities_len, const uint8_t *thoroughfares,
                            size_t thoroughfares_len, const uint8_t *descriptors, size_t descriptors_len,
                            const uint8_t *buildings, size_t buildings_len, const uint8_t *sub_buildings,
                            size_t sub_buildings_len, const uint8_t *organisations, size_t organisations_len,
                            const uint8_t *addresses, size_t addresses_len, const uint8_t *code, size_t code_len,
                            uint64_t first, uint64_t count, uint8_t *out, size_t out_len, uint64_t *bytes);

/* The pack of an outward code, written into `out` as ttw_build writes it: how many bytes were written. Each address with
 * an organisation has a row for it of its own, also where two share one.
 * Refusals, in this order: the files', 12 the code is malformed, then
 *   8 or 9 as for labels, of the first address of the code that has one; the second detail is the view's number
 *  10 `out` is shorter than the pack (the bytes needed: lend no bytes to learn how many)
 */
uint64_t ttw_main_build(const uint8_t *localities, size_t localities_len, const uint8_t *thoroughfares,
                        size_t thoroughfares_len, const uint8_t *descriptors, size_t descriptors_len,
                        const uint8_t *buildings, size_t buildings_len, const uint8_t *sub_buildings,
                        size_t sub_buildings_len, const uint8_t *organisations, size_t organisations_len,
                        const uint8_t *addresses, size_t addresses_len, const uint8_t *code, size_t code_len,
                        uint8_t *out, size_t out_len);

/* CSV PAF, as the Programmers' Guide's chapter 20 has it. A row is sixteen fields with commas between them, ended by CR LF;
 * nothing is quoted, and there is no header:
 *
 *   no.  field                        most bytes     no.  field               most bytes
 *   1    postcode                     8              9    sub building name   30
 *   2    post town                    30             10   PO box              6
 *   3    dependent locality           35             11   department          60
 *   4    double dependent locality    35             12   organisation        60
 *   5    thoroughfare and descriptor  80             13   UDPRN               8
 *   6    the same, dependent          80             14   postcode type       1
 *   7    building number              4              15   indicator           1
 *   8    building name                50             16   suffix              2
 *
 * Rows are written from a pair of files or a set, and a file of rows is read; docs/CSV.md has examples. A row that was
 * written and is read back prints the label of its view, but where the concatenation mark counts, for which a row has no
 * field: where it is Y, sub building and number are present and a building name is not.
 */

/* The rows of views, live or not. The postcode is outward code, space, inward code; a name and its descriptor have one space
 * between them; the number has no leading zeros, and is empty where it is zero; the UDPRN is empty.
 *
 * Refusals, in this order: the files' and 7, 8, 9 as for labels, then
 *  15 a row cannot carry the view (detail 0): a text has a comma or a double quote, or a thoroughfare has more than 80 bytes
 *     with its descriptor
 *  10 `out` is shorter than the row (the bytes needed, at most TTW_CSV_ROW_MAX)
 */

/* The row of a view, counted from 1: how many bytes were written. */
uint64_t ttw_csv_row(const uint8_t *table, size_t table_len, const uint8_t *points, size_t points_len, uint64_t view,
                     uint8_t *out, size_t out_len);

/* The rows of `count` views from view `first` on, counted from 1: how many rows were written. It is a run as above, of rows
 * and not of labels; 15 stops it too. All that have one:
 *
 *     static uint8_t out[1 << 16];
 *     uint64_t bytes = 0, first = 1, answer;
 *     for (;;) {
 *         answer = ttw_csv_rows(table, table_len, points, points_len, first, 1000, out, sizeof out, &bytes);
 *         if (TTW_FILE(answer) != 0)
 *             break;
 *         fwrite(out, 1, bytes, stdout);
 *         first += TTW_REFUSAL(answer) == 0 ? TTW_VALUE(answer) : TTW_SECOND(answer);
 *         if (TTW_REFUSAL(answer) == TTW_REFUSED_NUMBER)
 *             break;
 *         if (TTW_REFUSAL(answer) != 0 && TTW_REFUSAL(answer) != TTW_REFUSED_ROOM)
 *             fprintf(stderr, "view %lu has no row\n", (unsigned long)first++);
 *     }
 */
uint64_t ttw_csv_rows(const uint8_t *table, size_t table_len, const uint8_t *points, size_t points_len, uint64_t first,
                      uint64_t count, uint8_t *out, size_t out_len, uint64_t *bytes);

/* The same of a Mainfile set. */
uint64_t ttw_main_csv_row(const uint8_t *localities, size_t localities_len, const uint8_t *thoroughfares,
                          size_t thoroughfares_len, const uint8_t *descriptors, size_t descriptors_len,
                          const uint8_t *buildings, size_t buildings_len, const uint8_t *sub_buildings,
                          size_t sub_buildings_len, const uint8_t *organisations, size_t organisations_len,
                          const uint8_t *addresses, size_t addresses_len, uint64_t view, uint8_t *out,
                          size_t out_len);

uint64_t ttw_main_csv_rows(const uint8_t *localities, size_t localities_len, const uint8_t *thoroughfares,
                           size_t thoroughfares_len, const uint8_t *descriptors, size_t descriptors_len,
                           const uint8_t *buildings, size_t buildings_len, const uint8_t *sub_buildings,
                           size_t sub_buildings_len, const uint8_t *organisations, size_t organisations_len,
                           const uint8_t *addresses, size_t addresses_len, uint64_t first, uint64_t count,
                           uint8_t *out, size_t out_len, uint64_t *bytes);

/* A CSV file is rows and nothing else; one of no bytes has none, and is accepted. Only a comma, CR LF or the end of the file
 * ends a field. Its refusals, each over the whole file, no file to blame:
 *  14 a row is malformed: of the first such row its number, counted from 1, and as second detail its first malformed field.
 *     A row that ends before field i is malformed at field i; at field 17 where anything but CR LF stands behind field 16, be
 *     it one field more or the end of the file
 *  15 a field of any row is longer than the table above says, its trailing spaces counted, or has a double quote (detail 0).
 *     A field that is malformed too counts for 14
 * Well formed is: postcode, postcode type, indicator (or nothing) and suffix as they are written; number and UDPRN digits or
 * nothing; the others texts as in the files, whose trailing spaces are padding. The post town is not blank; a double
 * dependent locality needs a dependent one; a small user with a department needs an organisation, else field 12 is
 * malformed.
 *
 * A row prints the label of its fields, without concatenation mark. Its refusals, behind those of the file: 7 no such row, 8
 * a forbidden combination, 1 or 2 as above, 10 as above.
 *
 * Numbers that are larger than their bits: of a file of 4 GiB or more the row in 14 is told modulo 4,294,967,296, and as in
 * any run or listing what was written before a stop modulo 1,048,576. Who asks for at most 1,048,575 rows a call always
 * learns how many they were.
 *
 *     uint64_t answer = ttw_csv(csv, csv_len);
 *     if (TTW_REFUSAL(answer) == TTW_REFUSED_ROW)
 *         printf("row %lu, field %u\n", (unsigned long)TTW_DETAIL(answer), (unsigned)TTW_SECOND(answer));
 */

/* How many rows a CSV file has. Refusals: 14, 15. */
uint64_t ttw_csv(const uint8_t *csv, size_t csv_len);

/* The label of a row, counted from 1: how many bytes were written. */
uint64_t ttw_csv_label(const uint8_t *csv, size_t csv_len, uint64_t row, uint8_t *out, size_t out_len);

/* The labels of `count` rows from row `first` on, counted from 1: how many labels were written. It is a run of labels as
 * above, refused as a whole with 14 or 15, and stops with 7, 8 or 10. */
uint64_t ttw_csv_labels(const uint8_t *csv, size_t csv_len, uint64_t first, uint64_t count, uint8_t *out, size_t out_len,
                        uint64_t *bytes);

/* `count` rows from row `first` on, counted from 1: how many items were written. It is a listing as above, whose items are
 * the line `row N`, N being the row's number, then the label or the line `refused 8 d`; refused as a whole with 14 or 15,
 * and stops with 7 or 10. A line that begins with `ro` begins an item, one with `re` is the line of a refusal. 512 bytes
 * hold any item of a file below 4 GiB. */
uint64_t ttw_csv_list(const uint8_t *csv, size_t csv_len, uint64_t first, uint64_t count, uint8_t *out, size_t out_len,
                      uint64_t *bytes);

/* The address book. A book joins the months: it holds up to TTW_BOOK_SLOTS delivery points with their records, and is kept
 * by the events of point files. It has TTW_BOOK_LEN bytes, which the caller keeps; all zeros is the empty book. Numbers are
 * most significant byte first.
 *
 *   256 slots of 338 bytes, each:
 *     place 2      0 where the slot is free, otherwise 1 up to the count, each once
 *     view 168     its record as it stood in the point file, letter I or C
 *     follower 168 the record of its organisation, zeros where it needs none
 *   count 2        how many delivery points there are
 *
 * A free slot is zeros throughout. A delivery point is known by postcode type, address key and organisation key, bytes 24 to
 * 40 of its record counted from 1, and stands once. Places say the order: that in which the delivery points were inserted.
 * What is no book is refused with
 *  28 these bytes are no book: another length or count, other places, a byte in a free slot, a view that is malformed or not
 *     live, a follower that is malformed, missing or stray, or a delivery point twice (detail 0, no file)
 * Bytes that nobody reads, fillers and new postcodes, may be any, and are kept.
 */

/* How many delivery points a book has. Refusal: 28. */
uint64_t ttw_book(const uint8_t *book, size_t book_len);

/* Does in a book what an event says, which is named by its first view in a point file, counted from 1: I adds the delivery
 * point in the lowest free slot, with the place behind the last; D removes it, and later places fall by one; B and the C of
 * the same delivery point, which has to be the next view, replace its records, and it keeps its place. The value is the
 * place concerned, for D the one that it had. A refused call leaves all of the book as it was. Refusals, in this order: 28;
 * the point file's, 1 to 6 (file 2); then, with no file and detail 0,
 *   7 no such view
 *  19 the view is a C, or a B whose next view is not the C of the same delivery point
 *  17 I, and the delivery point is present
 *  18 D or B, and it is not present
 *  20 I, and all slots are in use
 *
 * A month, event by event; the C behind a B is no event of its own:
 *
 *     static uint8_t book[TTW_BOOK_LEN];
 *     uint64_t answer = ttw_views(points, points_len);
 *     if (TTW_REFUSAL(answer) != 0)
 *         return answer;
 *     uint64_t views = TTW_VALUE(answer);
 *     for (uint64_t view = 1; view <= views; view++) {
 *         answer = ttw_book_event(book, sizeof book, points, points_len, view);
 *         if (TTW_REFUSAL(answer) != 0)
 *             printf("view %lu: refused %u\n", (unsigned long)view, (unsigned)TTW_REFUSAL(answer));
 *         if (TTW_REFUSAL(answer) != TTW_REFUSED_CHANGE && TTW_VALUE(ttw_letter(points, points_len, view)) == 'B')
 *             view++;
 *     }
 */
uint64_t ttw_book_event(uint8_t *book, size_t book_len, const uint8_t *points, size_t points_len, uint64_t view);

/* Moves places 1, 2 and so on into the first slots, in this order, and zeros into the others: how many delivery points there
 * are. What the book means stays. Refusal: 28. */
uint64_t ttw_book_tidy(uint8_t *book, size_t book_len);

/* How many delivery points of an outward code are present. The code is 4 bytes, padded with spaces. Refusals: 28; then 12,
 * the code is malformed. */
uint64_t ttw_book_live(const uint8_t *book, size_t book_len, const uint8_t *code, size_t code_len);

/* Labels, runs, listings and packs from a book and a table file are those of a pair of files whose live views are what is
 * present, in the order of the places, a place standing for the view's number. Refusals, in this order: 28, the table
 * file's (file 1), 12 where a code is given, then as from a pair. */

/* The label of a place, counted from 1: how many bytes were written. */
uint64_t ttw_book_label(const uint8_t *book, size_t book_len, const uint8_t *table, size_t table_len, uint64_t place,
                        uint8_t *out, size_t out_len);

/* The label of the k-th that is present in an outward code, k counted from 1 in the order of the places: how many bytes were
 * written. */
uint64_t ttw_book_code_label(const uint8_t *book, size_t book_len, const uint8_t *table, size_t table_len,
                             const uint8_t *code, size_t code_len, uint64_t k, uint8_t *out, size_t out_len);

/* The labels of `count` places from place `first` on: how many labels were written. It is a run of labels as above, refused
 * as a whole with 28 or by the table file. */
uint64_t ttw_book_labels(const uint8_t *book, size_t book_len, const uint8_t *table, size_t table_len, uint64_t first,
                         uint64_t count, uint8_t *out, size_t out_len, uint64_t *bytes);

/* The labels of `count` that are present in an outward code from the `first` on: how many labels were written. */
uint64_t ttw_book_code_labels(const uint8_t *book, size_t book_len, const uint8_t *table, size_t table_len,
                              const uint8_t *code, size_t code_len, uint64_t first, uint64_t count, uint8_t *out,
                              size_t out_len, uint64_t *bytes);

/* `count` places from place `first` on: how many items were written. It is a listing as above, whose items are the line
 * `place N`, then the label or the line `refused n d`; `p` begins an item. 512 bytes hold any item. */
uint64_t ttw_book_list(const uint8_t *book, size_t book_len, const uint8_t *table, size_t table_len, uint64_t first,
                       uint64_t count, uint8_t *out, size_t out_len, uint64_t *bytes);

/* `count` that are present in an outward code from the `first` on: how many items were written. N is the place in the book
 * here too. */
uint64_t ttw_book_code_list(const uint8_t *book, size_t book_len, const uint8_t *table, size_t table_len,
                            const uint8_t *code, size_t code_len, uint64_t first, uint64_t count, uint8_t *out,
                            size_t out_len, uint64_t *bytes);

/* The pack of an outward code, written into `out` as ttw_build writes it, its points in the order of the places: how many
 * bytes were written. Where 8 or 9 is given the second detail is the place. */
uint64_t ttw_book_build(const uint8_t *book, size_t book_len, const uint8_t *table, size_t table_len,
                        const uint8_t *code, size_t code_len, uint8_t *out, size_t out_len);

/* The fourteen arguments of a set, for the calls above. */
#define TTW_MAIN_FILES(set)                                                                                  \
    (set)->localities, (set)->localities_len, (set)->thoroughfares, (set)->thoroughfares_len,                \
        (set)->descriptors, (set)->descriptors_len, (set)->buildings, (set)->buildings_len,                  \
        (set)->sub_buildings, (set)->sub_buildings_len, (set)->organisations, (set)->organisations_len,      \
        (set)->addresses, (set)->addresses_len

/* The same calls, asked of a struct. */
static inline uint64_t ttw_main_of(const struct ttw_main *set)
{
    return ttw_main(TTW_MAIN_FILES(set));
}

static inline uint64_t ttw_main_live_of(const struct ttw_main *set, const uint8_t *code, size_t code_len)
{
    return ttw_main_live(set->addresses, set->addresses_len, code, code_len);
}

static inline uint64_t ttw_main_codes_of(const struct ttw_main *set, uint8_t *out, size_t out_len)
{
    return ttw_main_codes(set->addresses, set->addresses_len, out, out_len);
}

static inline uint64_t ttw_main_label_of(const struct ttw_main *set, uint64_t view, uint8_t *out, size_t out_len)
{
    return ttw_main_label(TTW_MAIN_FILES(set), view, out, out_len);
}

static inline uint64_t ttw_main_code_label_of(const struct ttw_main *set, const uint8_t *code, size_t code_len,
                                              uint64_t k, uint8_t *out, size_t out_len)
{
    return ttw_main_code_label(TTW_MAIN_FILES(set), code, code_len, k, out, out_len);
}

static inline uint64_t ttw_main_labels_of(const struct ttw_main *set, uint64_t first, uint64_t count, uint8_t *out,
                                          size_t out_len, uint64_t *bytes)
{
    return ttw_main_labels(TTW_MAIN_FILES(set), first, count, out, out_len, bytes);
}

static inline uint64_t ttw_main_code_labels_of(const struct ttw_main *set, const uint8_t *code, size_t code_len,
                                               uint64_t first, uint64_t count, uint8_t *out, size_t out_len,
                                               uint64_t *bytes)
{
    return ttw_main_code_labels(TTW_MAIN_FILES(set), code, code_len, first, count, out, out_len, bytes);
}

static inline uint64_t ttw_main_list_of(const struct ttw_main *set, uint64_t first, uint64_t count, uint8_t *out,
                                        size_t out_len, uint64_t *bytes)
{
    return ttw_main_list(TTW_MAIN_FILES(set), first, count, out, out_len, bytes);
}

static inline uint64_t ttw_main_code_list_of(const struct ttw_main *set, const uint8_t *code, size_t code_len,
                                             uint64_t first, uint64_t count, uint8_t *out, size_t out_len,
                                             uint64_t *bytes)
{
    return ttw_main_code_list(TTW_MAIN_FILES(set), code, code_len, first, count, out, out_len, bytes);
}

static inline uint64_t ttw_main_build_of(const struct ttw_main *set, const uint8_t *code, size_t code_len, uint8_t *out,
                                         size_t out_len)
{
    return ttw_main_build(TTW_MAIN_FILES(set), code, code_len, out, out_len);
}

static inline uint64_t ttw_main_csv_row_of(const struct ttw_main *set, uint64_t view, uint8_t *out, size_t out_len)
{
    return ttw_main_csv_row(TTW_MAIN_FILES(set), view, out, out_len);
}

static inline uint64_t ttw_main_csv_rows_of(const struct ttw_main *set, uint64_t first, uint64_t count, uint8_t *out,
                                            size_t out_len, uint64_t *bytes)
{
    return ttw_main_csv_rows(TTW_MAIN_FILES(set), first, count, out, out_len, bytes);
}

#ifdef __cplusplus
}
#endif

#endif
