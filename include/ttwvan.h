/* Ttwvan: labels for the van printer, 6 lines by 36 columns. A library of its own above Ttwibonal, which links beside it:
 *
 *     cc program.c -lttwvan -lttwibonal
 *
 * What is said of slices, threads, memory and answers at the head of ttwibonal.h holds here too; take an answer apart by
 * the macros there. Stack: folding any bytes takes less than 512 bytes, a label from files less than 4,096, one from a
 * Mainfile set less than 6,144, one from a pack less than 80 KiB.
 *
 * Folding. Each line of a label is folded by itself. While it is longer than 36 bytes it breaks at the last space that has
 * 1 to 36 bytes before it, and this space is not printed; where there is none it breaks behind byte 36. What is left is
 * folded the same way. Every folded line ends with byte 10, so that a label's postcode keeps the last line to itself.
 *
 *     uint8_t lines[TTWVAN_MAX];
 *     uint64_t answer = ttwvan_pack_label(pack, pack_len, 1, lines, sizeof lines);
 *     if (TTW_REFUSAL(answer) == 0)
 *         fwrite(lines, 1, TTW_VALUE(answer), stdout);
 *     else if (TTW_REFUSAL(answer) == TTWVAN_REFUSED_LINES)
 *         puts("this label has too many lines for the printer");
 */
#ifndef TTWVAN_H
#define TTWVAN_H

#include "ttwibonal.h"

#ifdef __cplusplus
extern "C" {
#endif

/* The printer's lines and columns. */
#define TTWVAN_LINES 6
#define TTWVAN_COLUMNS 36
/* The most bytes that are written: six lines, each ended by byte 10. A label takes TTWVAN_LABEL_MAX at most. */
#define TTWVAN_MAX 222
#define TTWVAN_LABEL_MAX 194

/* The one refusal that the lower library does not have: folding gives more than 6 lines (detail 0). */
enum ttwvan_refused {
    TTWVAN_REFUSED_LINES = 21
};

/* Every call writes into `out` alone: a refused call leaves all of it as it was, an accepted one leaves what is behind the
 * lines. The value is how many bytes were written. The last refusals of every call are, in this order:
 *   21 folding gives more than 6 lines (detail 0)
 *   10 `out` is shorter than the folded lines (the bytes needed, at most 222, of a label at most 194)
 */

/* Any bytes, folded. Bytes behind the last line end count as a line. */
uint64_t ttwvan_fold(const uint8_t *label, size_t label_len, uint8_t *out, size_t out_len);

/* The label of a view, folded. Refusals: those of ttw_label but 10, then 21 and 10. */
uint64_t ttwvan_label(const uint8_t *table, size_t table_len, const uint8_t *points, size_t points_len, uint64_t view,
                      uint8_t *out, size_t out_len);

/* The label of the k-th live view in a code, folded. Refusals: those of ttw_code_label but 10, then 21 and 10. */
uint64_t ttwvan_code_label(const uint8_t *table, size_t table_len, const uint8_t *points, size_t points_len,
                           const uint8_t *code, size_t code_len, uint64_t k, uint8_t *out, size_t out_len);

/* The label of the k-th point of a pack, folded. Refusals: those of ttw_pack_label but 10, then 21 and 10. */
uint64_t ttwvan_pack_label(const uint8_t *pack, size_t pack_len, uint64_t k, uint8_t *out, size_t out_len);

/* The label of a view of a Mainfile set, folded. Refusals: those of ttw_main_label but 10, then 21 and 10. */
uint64_t ttwvan_main_label(const uint8_t *localities, size_t localities_len, const uint8_t *thoroughfares,
                           size_t thoroughfares_len, const uint8_t *descriptors, size_t descriptors_len,
                           const uint8_t *buildings, size_t buildings_len, const uint8_t *sub_buildings,
                           size_t sub_buildings_len, const uint8_t *organisations, size_t organisations_len,
                           const uint8_t *addresses, size_t addresses_len, uint64_t view, uint8_t *out, size_t out_len);

/* The label of the k-th address in a code of a Mainfile set, folded. Refusals: those of ttw_main_code_label but 10, then
 * 21 and 10. */
uint64_t ttwvan_main_code_label(const uint8_t *localities, size_t localities_len, const uint8_t *thoroughfares,
                                size_t thoroughfares_len, const uint8_t *descriptors, size_t descriptors_len,
                                const uint8_t *buildings, size_t buildings_len, const uint8_t *sub_buildings,
                                size_t sub_buildings_len, const uint8_t *organisations, size_t organisations_len,
                                const uint8_t *addresses, size_t addresses_len, const uint8_t *code, size_t code_len,
                                uint64_t k, uint8_t *out, size_t out_len);

#ifdef __cplusplus
}
#endif

#endif
