/* Asks every call of the library with an empty slice in each of its places, once with a null pointer and once with
 * another, and prints a line for each: the call, the slice, the answer's refusal, file and detail, and whether both
 * answers and all that was lent are the same. The table file, the point file, the pack, the CSV file, the book and the seven
 * files of a Mainfile set are given as arguments. */
#include "ttwibonal.h"

#include <inttypes.h>
#include <stdio.h>
#include <string.h>

#define ROOM 4096
#define KNOWN 0xA5
/* The files of a Mainfile set. */
#define FILES 7

struct slice {
    uint8_t *bytes;
    size_t length;
};

/* What a call is lent. */
struct lent {
    struct slice table, points, pack, csv, book, code, out;
    struct slice main[FILES];
    uint64_t bytes;
};

static uint8_t table[ROOM], points[ROOM], pack[ROOM], csv[ROOM], out[ROOM];
static uint8_t book[TTW_BOOK_LEN];
static uint8_t files[FILES][ROOM];
static uint8_t code[4] = {'A', 'B', '1', ' '};
/* A place of no bytes that is not null. */
static uint8_t nothing[1];

static uint64_t ask_table(struct lent *l) { return ttw_table(l->table.bytes, l->table.length); }
static uint64_t ask_points(struct lent *l) { return ttw_points(l->points.bytes, l->points.length); }
static uint64_t ask_unspace_table(struct lent *l) { return ttw_unspace_table(l->table.bytes, l->table.length); }
static uint64_t ask_unspace_points(struct lent *l) { return ttw_unspace_points(l->points.bytes, l->points.length); }
static uint64_t ask_views(struct lent *l) { return ttw_views(l->points.bytes, l->points.length); }
static uint64_t ask_letter(struct lent *l) { return ttw_letter(l->points.bytes, l->points.length, 1); }
static uint64_t ask_live(struct lent *l)
{
    return ttw_live(l->points.bytes, l->points.length, l->code.bytes, l->code.length);
}
static uint64_t ask_codes(struct lent *l)
{
    return ttw_codes(l->points.bytes, l->points.length, l->out.bytes, l->out.length);
}
static uint64_t ask_label(struct lent *l)
{
    return ttw_label(l->table.bytes, l->table.length, l->points.bytes, l->points.length, 1, l->out.bytes,
                     l->out.length);
}
static uint64_t ask_code_label(struct lent *l)
{
    return ttw_code_label(l->table.bytes, l->table.length, l->points.bytes, l->points.length, l->code.bytes,
                          l->code.length, 1, l->out.bytes, l->out.length);
}
static uint64_t ask_labels(struct lent *l)
{
    return ttw_labels(l->table.bytes, l->table.length, l->points.bytes, l->points.length, 1, 1, l->out.bytes,
                      l->out.length, &l->bytes);
}
static uint64_t ask_code_labels(struct lent *l)
{
    return ttw_code_labels(l->table.bytes, l->table.length, l->points.bytes, l->points.length, l->code.bytes,
                           l->code.length, 1, 1, l->out.bytes, l->out.length, &l->bytes);
}
static uint64_t ask_list(struct lent *l)
{
    return ttw_list(l->table.bytes, l->table.length, l->points.bytes, l->points.length, 1, 1, l->out.bytes,
                    l->out.length, &l->bytes);
}
static uint64_t ask_code_list(struct lent *l)
{
    return ttw_code_list(l->table.bytes, l->table.length, l->points.bytes, l->points.length, l->code.bytes,
                         l->code.length, 1, 1, l->out.bytes, l->out.length, &l->bytes);
}
static uint64_t ask_build(struct lent *l)
{
    return ttw_build(l->table.bytes, l->table.length, l->points.bytes, l->points.length, l->code.bytes, l->code.length,
                     l->out.bytes, l->out.length);
}
static uint64_t ask_pack(struct lent *l) { return ttw_pack(l->pack.bytes, l->pack.length); }
static uint64_t ask_pack_label(struct lent *l)
{
    return ttw_pack_label(l->pack.bytes, l->pack.length, 1, l->out.bytes, l->out.length);
}
static uint64_t ask_pack_suffix(struct lent *l) { return ttw_pack_suffix(l->pack.bytes, l->pack.length, 1); }
static uint64_t ask_sector(struct lent *l) { return ttw_sector(l->pack.bytes, l->pack.length, 9); }
static uint64_t ask_pack_labels(struct lent *l)
{
    return ttw_pack_labels(l->pack.bytes, l->pack.length, 1, 1, l->out.bytes, l->out.length, &l->bytes);
}
static uint64_t ask_pack_list(struct lent *l)
{
    return ttw_pack_list(l->pack.bytes, l->pack.length, 1, 1, l->out.bytes, l->out.length, &l->bytes);
}
static uint64_t ask_csv_row(struct lent *l)
{
    return ttw_csv_row(l->table.bytes, l->table.length, l->points.bytes, l->points.length, 1, l->out.bytes,
                       l->out.length);
}
static uint64_t ask_csv_rows(struct lent *l)
{
    return ttw_csv_rows(l->table.bytes, l->table.length, l->points.bytes, l->points.length, 1, 1, l->out.bytes,
                        l->out.length, &l->bytes);
}
static uint64_t ask_csv(struct lent *l) { return ttw_csv(l->csv.bytes, l->csv.length); }
static uint64_t ask_csv_label(struct lent *l)
{
    return ttw_csv_label(l->csv.bytes, l->csv.length, 1, l->out.bytes, l->out.length);
}
static uint64_t ask_csv_labels(struct lent *l)
{
    return ttw_csv_labels(l->csv.bytes, l->csv.length, 1, 1, l->out.bytes, l->out.length, &l->bytes);
}
static uint64_t ask_csv_list(struct lent *l)
{
    return ttw_csv_list(l->csv.bytes, l->csv.length, 1, 1, l->out.bytes, l->out.length, &l->bytes);
}
static uint64_t ask_book(struct lent *l) { return ttw_book(l->book.bytes, l->book.length); }
static uint64_t ask_book_event(struct lent *l)
{
    return ttw_book_event(l->book.bytes, l->book.length, l->points.bytes, l->points.length, 1);
}
static uint64_t ask_book_tidy(struct lent *l) { return ttw_book_tidy(l->book.bytes, l->book.length); }
static uint64_t ask_book_live(struct lent *l)
{
    return ttw_book_live(l->book.bytes, l->book.length, l->code.bytes, l->code.length);
}
static uint64_t ask_book_label(struct lent *l)
{
    return ttw_book_label(l->book.bytes, l->book.length, l->table.bytes, l->table.length, 1, l->out.bytes,
                          l->out.length);
}
static uint64_t ask_book_code_label(struct lent *l)
{
    return ttw_book_code_label(l->book.bytes, l->book.length, l->table.bytes, l->table.length, l->code.bytes,
                               l->code.length, 1, l->out.bytes, l->out.length);
}
static uint64_t ask_book_labels(struct lent *l)
{
    return ttw_book_labels(l->book.bytes, l->book.length, l->table.bytes, l->table.length, 1, 1, l->out.bytes,
                           l->out.length, &l->bytes);
}
static uint64_t ask_book_code_labels(struct lent *l)
{
    return ttw_book_code_labels(l->book.bytes, l->book.length, l->table.bytes, l->table.length, l->code.bytes,
                                l->code.length, 1, 1, l->out.bytes, l->out.length, &l->bytes);
}
static uint64_t ask_book_list(struct lent *l)
{
    return ttw_book_list(l->book.bytes, l->book.length, l->table.bytes, l->table.length, 1, 1, l->out.bytes,
                         l->out.length, &l->bytes);
}
static uint64_t ask_book_code_list(struct lent *l)
{
    return ttw_book_code_list(l->book.bytes, l->book.length, l->table.bytes, l->table.length, l->code.bytes,
                              l->code.length, 1, 1, l->out.bytes, l->out.length, &l->bytes);
}
static uint64_t ask_book_build(struct lent *l)
{
    return ttw_book_build(l->book.bytes, l->book.length, l->table.bytes, l->table.length, l->code.bytes, l->code.length,
                          l->out.bytes, l->out.length);
}

/* The set as the header's struct has it. */
static struct ttw_main set_of(const struct lent *l)
{
    struct ttw_main set = {l->main[0].bytes, l->main[0].length, l->main[1].bytes, l->main[1].length, l->main[2].bytes,
                           l->main[2].length, l->main[3].bytes, l->main[3].length, l->main[4].bytes, l->main[4].length,
                           l->main[5].bytes, l->main[5].length, l->main[6].bytes, l->main[6].length};

    return set;
}
static uint64_t ask_main(struct lent *l)
{
    struct ttw_main set = set_of(l);

    return ttw_main_of(&set);
}
static uint64_t ask_main_live(struct lent *l)
{
    struct ttw_main set = set_of(l);

    return ttw_main_live_of(&set, l->code.bytes, l->code.length);
}
static uint64_t ask_main_codes(struct lent *l)
{
    struct ttw_main set = set_of(l);

    return ttw_main_codes_of(&set, l->out.bytes, l->out.length);
}
static uint64_t ask_main_label(struct lent *l)
{
    struct ttw_main set = set_of(l);

    return ttw_main_label_of(&set, 1, l->out.bytes, l->out.length);
}
static uint64_t ask_main_code_label(struct lent *l)
{
    struct ttw_main set = set_of(l);

    return ttw_main_code_label_of(&set, l->code.bytes, l->code.length, 1, l->out.bytes, l->out.length);
}
static uint64_t ask_main_labels(struct lent *l)
{
    struct ttw_main set = set_of(l);

    return ttw_main_labels_of(&set, 1, 1, l->out.bytes, l->out.length, &l->bytes);
}
static uint64_t ask_main_code_labels(struct lent *l)
{
    struct ttw_main set = set_of(l);

    return ttw_main_code_labels_of(&set, l->code.bytes, l->code.length, 1, 1, l->out.bytes, l->out.length, &l->bytes);
}
static uint64_t ask_main_list(struct lent *l)
{
    struct ttw_main set = set_of(l);

    return ttw_main_list_of(&set, 1, 1, l->out.bytes, l->out.length, &l->bytes);
}
static uint64_t ask_main_code_list(struct lent *l)
{
    struct ttw_main set = set_of(l);

    return ttw_main_code_list_of(&set, l->code.bytes, l->code.length, 1, 1, l->out.bytes, l->out.length, &l->bytes);
}
static uint64_t ask_main_build(struct lent *l)
{
    struct ttw_main set = set_of(l);

    return ttw_main_build_of(&set, l->code.bytes, l->code.length, l->out.bytes, l->out.length);
}
static uint64_t ask_main_csv_row(struct lent *l)
{
    struct ttw_main set = set_of(l);

    return ttw_main_csv_row_of(&set, 1, l->out.bytes, l->out.length);
}
static uint64_t ask_main_csv_rows(struct lent *l)
{
    struct ttw_main set = set_of(l);

    return ttw_main_csv_rows_of(&set, 1, 1, l->out.bytes, l->out.length, &l->bytes);
}

/* A call, and the letters of the slices that it takes: table, points, pack (k), CSV file (v), book, code, out; the files of
 * a set by their numbers. */
static const struct call {
    const char *name;
    uint64_t (*ask)(struct lent *);
    const char *slices;
} calls[] = {
    {"ttw_table", ask_table, "t"},
    {"ttw_points", ask_points, "p"},
    {"ttw_unspace_table", ask_unspace_table, "t"},
    {"ttw_unspace_points", ask_unspace_points, "p"},
    {"ttw_views", ask_views, "p"},
    {"ttw_letter", ask_letter, "p"},
    {"ttw_live", ask_live, "pc"},
    {"ttw_codes", ask_codes, "po"},
    {"ttw_label", ask_label, "tpo"},
    {"ttw_code_label", ask_code_label, "tpco"},
    {"ttw_labels", ask_labels, "tpo"},
    {"ttw_code_labels", ask_code_labels, "tpco"},
    {"ttw_list", ask_list, "tpo"},
    {"ttw_code_list", ask_code_list, "tpco"},
    {"ttw_build", ask_build, "tpco"},
    {"ttw_pack", ask_pack, "k"},
    {"ttw_pack_label", ask_pack_label, "ko"},
    {"ttw_pack_suffix", ask_pack_suffix, "k"},
    {"ttw_sector", ask_sector, "k"},
    {"ttw_pack_labels", ask_pack_labels, "ko"},
    {"ttw_pack_list", ask_pack_list, "ko"},
    {"ttw_csv_row", ask_csv_row, "tpo"},
    {"ttw_csv_rows", ask_csv_rows, "tpo"},
    {"ttw_csv", ask_csv, "v"},
    {"ttw_csv_label", ask_csv_label, "vo"},
    {"ttw_csv_labels", ask_csv_labels, "vo"},
    {"ttw_csv_list", ask_csv_list, "vo"},
    {"ttw_book", ask_book, "b"},
    {"ttw_book_event", ask_book_event, "bp"},
    {"ttw_book_tidy", ask_book_tidy, "b"},
    {"ttw_book_live", ask_book_live, "bc"},
    {"ttw_book_label", ask_book_label, "bto"},
    {"ttw_book_code_label", ask_book_code_label, "btco"},
    {"ttw_book_labels", ask_book_labels, "bto"},
    {"ttw_book_code_labels", ask_book_code_labels, "btco"},
    {"ttw_book_list", ask_book_list, "bto"},
    {"ttw_book_code_list", ask_book_code_list, "btco"},
    {"ttw_book_build", ask_book_build, "btco"},
    {"ttw_main", ask_main, "1234567"},
    {"ttw_main_live", ask_main_live, "7c"},
    {"ttw_main_codes", ask_main_codes, "7o"},
    {"ttw_main_label", ask_main_label, "1234567o"},
    {"ttw_main_code_label", ask_main_code_label, "1234567co"},
    {"ttw_main_labels", ask_main_labels, "1234567o"},
    {"ttw_main_code_labels", ask_main_code_labels, "1234567co"},
    {"ttw_main_list", ask_main_list, "1234567o"},
    {"ttw_main_code_list", ask_main_code_list, "1234567co"},
    {"ttw_main_build", ask_main_build, "1234567co"},
    {"ttw_main_csv_row", ask_main_csv_row, "1234567o"},
    {"ttw_main_csv_rows", ask_main_csv_rows, "1234567o"},
};

static struct slice *slice_of(struct lent *lent, char letter)
{
    switch (letter) {
    case 't':
        return &lent->table;
    case 'p':
        return &lent->points;
    case 'k':
        return &lent->pack;
    case 'v':
        return &lent->csv;
    case 'b':
        return &lent->book;
    case 'c':
        return &lent->code;
    case 'o':
        return &lent->out;
    default:
        return &lent->main[letter - '1'];
    }
}

static struct lent whole;

/* The answer with one slice empty at a place; `bytes` becomes what the call leaves there. */
static uint64_t ask_empty(const struct call *call, char letter, uint8_t *at, uint64_t *bytes)
{
    struct lent lent = whole;
    struct slice *slice = slice_of(&lent, letter);
    uint64_t answer;

    slice->bytes = at;
    slice->length = 0;
    answer = call->ask(&lent);
    *bytes = lent.bytes;
    return answer;
}

/* Whether no call wrote into the memory that was lent. */
static int is_untouched(void)
{
    size_t i;

    for (i = 0; i < ROOM; i++)
        if (out[i] != KNOWN)
            return 0;
    return nothing[0] == KNOWN;
}

static void say(const struct call *call, char letter)
{
    uint64_t bytes = 0;
    uint64_t other_bytes = 1;
    uint64_t answer = ask_empty(call, letter, NULL, &bytes);
    uint64_t other = ask_empty(call, letter, nothing, &other_bytes);

    printf("%s %c: %" PRIu64 " %" PRIu64 " %" PRIu64 "%s\n", call->name, letter, TTW_REFUSAL(answer), TTW_FILE(answer),
           TTW_DETAIL(answer), answer == other && bytes == other_bytes && is_untouched() ? "" : ", not the same");
}

/* Reads a whole file of at most so many bytes; one that cannot be read is empty, and its calls tell. */
static struct slice load(const char *path, uint8_t *bytes, size_t room)
{
    struct slice file = {bytes, 0};
    FILE *from = fopen(path, "rb");

    if (from == NULL)
        return file;
    file.length = fread(bytes, 1, room, from);
    fclose(from);
    return file;
}

int main(int argc, char **argv)
{
    size_t i;
    const char *letter;

    if (argc != 6 + FILES)
        return 2;
    memset(out, KNOWN, sizeof out);
    memset(nothing, KNOWN, sizeof nothing);
    whole.table = load(argv[1], table, sizeof table);
    whole.points = load(argv[2], points, sizeof points);
    whole.pack = load(argv[3], pack, sizeof pack);
    whole.csv = load(argv[4], csv, sizeof csv);
    whole.book = load(argv[5], book, sizeof book);
    for (i = 0; i < FILES; i++)
        whole.main[i] = load(argv[6 + i], files[i], sizeof files[i]);
    whole.code.bytes = code;
    whole.code.length = sizeof code;
    whole.out.bytes = out;
    whole.out.length = sizeof out;
    whole.bytes = 7;
    for (i = 0; i < sizeof calls / sizeof calls[0]; i++)
        for (letter = calls[i].slices; *letter != '\0'; letter++)
            say(&calls[i], *letter);
    return 0;
}
