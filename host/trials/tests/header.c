/* Asks every call of the library on a pair of files, on a pack, on a CSV file and on a book about those
 * that it is given or that are made of them, and prints what it answers, taken apart by the header's macros. */
#include "ttwibonal.h"

#include <inttypes.h>
#include <stdio.h>
#include <string.h>

/* Bytes for a file; those of the worked pair are shorter. */
#define ROOM 4096
/* Bytes of a table record, and of the identifier that a header and a trailer begin with. */
#define TABLE_RECORD 169
#define TABLE_IDENTIFIER 9
/* The same of a point record, and where its amendment letter stands. */
#define POINT_RECORD 168
#define POINT_IDENTIFIER 14
#define LETTER 40
/* How far from the end of a pack the last byte of its counts stands. */
#define LAST_COUNT 2
/* A byte of the post town in the row of the worked pair. */
#define IN_TOWN 9

/* Reads a whole file of less than ROOM bytes. Answers its length, 0 where it
 * can't be read. */
static size_t read_file(const char *path, uint8_t *bytes)
{
    FILE *file = fopen(path, "rb");
    size_t length;

    if (file == NULL)
        return 0;
    length = fread(bytes, 1, ROOM, file);
    fclose(file);
    return length < ROOM ? length : 0;
}

static void say(const char *what, uint64_t answer)
{
    if (TTW_REFUSAL(answer) != 0)
        printf("%s: refused %" PRIu64 ", file %" PRIu64 ", second %" PRIu64 ", detail %" PRIu64 "\n", what,
               TTW_REFUSAL(answer), TTW_FILE(answer), TTW_SECOND(answer), TTW_DETAIL(answer));
    else
        printf("%s: %" PRIu64 "\n", what, TTW_VALUE(answer));
}

static void say_letters(const uint8_t *points, size_t length)
{
    uint64_t views = TTW_VALUE(ttw_views(points, length));
    uint64_t view;

    for (view = 1; view <= views; view++)
        printf("letter %" PRIu64 ": %c\n", view, (int)TTW_VALUE(ttw_letter(points, length, view)));
    say("letter behind the last", ttw_letter(points, length, views + 1));
}

static void say_codes(const uint8_t *points, size_t length)
{
    uint8_t listed[160];
    const uint8_t codes[3][4] = {{'A', 'B', '1', ' '}, {'D', 'N', '5', '5'}, {'Q', 'A', '1', ' '}};

    say("live in AB1", ttw_live(points, length, codes[0], sizeof codes[0]));
    say("live in DN55", ttw_live(points, length, codes[1], sizeof codes[1]));
    say("live in QA1", ttw_live(points, length, codes[2], sizeof codes[2]));
    say("live in AB1 without padding", ttw_live(points, length, codes[0], 3));
    say("codes", ttw_codes(points, length, listed, sizeof listed));
    printf("first code: %.4s %d\n", (const char *)listed, listed[7]);
}

static void say_label(const char *what, const uint8_t *label, uint64_t answer)
{
    say(what, answer);
    if (TTW_REFUSAL(answer) == 0)
        fwrite(label, 1, (size_t)TTW_VALUE(answer), stdout);
}

static void say_run(const char *what, const uint8_t *labels, uint64_t answer, uint64_t bytes)
{
    say(what, answer);
    printf("%" PRIu64 " bytes\n", bytes);
    fwrite(labels, 1, (size_t)bytes, stdout);
}

/* Runs of labels that come to their end, that stop, and that are refused as a whole. */
static void say_runs(const uint8_t *table, size_t table_length, const uint8_t *points, size_t points_length,
                     const uint8_t *pack, size_t pack_length)
{
    const uint8_t code[4] = {'A', 'B', '1', ' '};
    uint8_t labels[2 * TTW_LABEL_MAX];
    uint64_t bytes = 0;
    uint64_t answer;

    answer = ttw_labels(table, table_length, points, points_length, 1, 2, labels, sizeof labels, &bytes);
    say_run("labels from 1, 2 of them", labels, answer, bytes);
    answer = ttw_code_labels(table, table_length, points, points_length, code, sizeof code, 1, 1, labels, sizeof labels,
                             &bytes);
    say_run("labels from 1 in AB1, 1 of them", labels, answer, bytes);
    answer = ttw_pack_labels(pack, pack_length, 1, 40, labels, sizeof labels, &bytes);
    say_run("points from 1, 40 of them", labels, answer, bytes);
    answer = ttw_pack_labels(pack, pack_length, 1, 40, labels, 51, &bytes);
    say_run("points from 1 without room", labels, answer, bytes);
    bytes = 7;
    say("labels from 1 in no code",
        ttw_code_labels(table, table_length, points, points_length, code, 0, 1, 1, labels, sizeof labels, &bytes));
    printf("%" PRIu64 " bytes are as they were\n", bytes);
}

/* Listings that stop, of the files and of the pack. */
static void say_lists(const uint8_t *table, size_t table_length, const uint8_t *points, size_t points_length,
                      const uint8_t *pack, size_t pack_length)
{
    const uint8_t code[4] = {'A', 'B', '1', ' '};
    uint8_t listed[2 * 512];
    uint64_t bytes = 0;
    uint64_t answer;

    answer = ttw_list(table, table_length, points, points_length, 1, 2, listed, sizeof listed, &bytes);
    say_run("list from 1, 2 of them", listed, answer, bytes);
    answer = ttw_list(table, table_length, points, points_length, 2, 2, listed, 21, &bytes);
    say_run("list from 2, 2 of them", listed, answer, bytes);
    answer = ttw_list(table, table_length, points, points_length, 2, 2, listed, 20, &bytes);
    say_run("list from 2 without room", listed, answer, bytes);
    answer = ttw_code_list(table, table_length, points, points_length, code, sizeof code, 1, 9, listed, sizeof listed,
                           &bytes);
    say_run("list from 1 in AB1, 9 of them", listed, answer, bytes);
    answer = ttw_pack_list(pack, pack_length, 1, 1, listed, sizeof listed, &bytes);
    say_run("points listed from 1, 1 of them", listed, answer, bytes);
}

/* A label from the files and from the pack that is built from them, with room and without. */
static void say_labels(const uint8_t *table, size_t table_length, const uint8_t *points, size_t points_length)
{
    const uint8_t code[4] = {'A', 'B', '1', ' '};
    uint8_t label[TTW_LABEL_MAX];
    uint8_t pack[ROOM];
    uint64_t built;

    say_label("label 1", label, ttw_label(table, table_length, points, points_length, 1, label, sizeof label));
    say("label 2", ttw_label(table, table_length, points, points_length, 2, label, sizeof label));
    say_label("label 1 in AB1", label,
              ttw_code_label(table, table_length, points, points_length, code, sizeof code, 1, label, sizeof label));
    say("pack without room", ttw_build(table, table_length, points, points_length, code, sizeof code, pack, 0));
    built = ttw_build(table, table_length, points, points_length, code, sizeof code, pack, sizeof pack);
    say("pack", built);
    say("points in the pack", ttw_pack(pack, (size_t)TTW_VALUE(built)));
    say_label("point 1", label, ttw_pack_label(pack, (size_t)TTW_VALUE(built), 1, label, sizeof label));
    say("point 1 without room", ttw_pack_label(pack, (size_t)TTW_VALUE(built), 1, label, 1));
    say("point 2", ttw_pack_label(pack, (size_t)TTW_VALUE(built), 2, label, sizeof label));
    say("suffix of point 1", ttw_pack_suffix(pack, (size_t)TTW_VALUE(built), 1));
    say("suffix of point 2", ttw_pack_suffix(pack, (size_t)TTW_VALUE(built), 2));
    say("points in sector 9", ttw_sector(pack, (size_t)TTW_VALUE(built), 9));
    say("points in sector 8", ttw_sector(pack, (size_t)TTW_VALUE(built), 8));
    say("points in sector 10", ttw_sector(pack, (size_t)TTW_VALUE(built), 10));
    say_runs(table, table_length, points, points_length, pack, (size_t)TTW_VALUE(built));
    say_lists(table, table_length, points, points_length, pack, (size_t)TTW_VALUE(built));
    say("pack without its last byte", ttw_pack(pack, (size_t)TTW_VALUE(built) - 1));
    pack[TTW_VALUE(built) - LAST_COUNT]++;
    say("pack with another count", ttw_pack(pack, (size_t)TTW_VALUE(built)));
}

/* A pack of edition 1: its label is printed, it has no suffix, and its points are counted. */
static void say_older(const uint8_t *pack, size_t length)
{
    uint8_t label[TTW_LABEL_MAX];

    say("points in an older pack", ttw_pack(pack, length));
    say_label("its point 1", label, ttw_pack_label(pack, length, 1, label, sizeof label));
    say("its suffix of point 1", ttw_pack_suffix(pack, length, 1));
    say("its suffix of point 2", ttw_pack_suffix(pack, length, 2));
    say("its suffix without its last byte", ttw_pack_suffix(pack, length - 1, 1));
    say("its points in sector 9", ttw_sector(pack, length, 9));
    say("its points in sector 10", ttw_sector(pack, length, 10));
}

/* The rows of the files, and what they say as a file of their own, whole, without its last byte and with a quote. */
static void say_csv(const uint8_t *table, size_t table_length, const uint8_t *points, size_t points_length)
{
    uint8_t csv[2 * TTW_CSV_ROW_MAX];
    uint8_t out[2 * 512];
    uint64_t bytes = 0;
    uint64_t answer = ttw_csv_row(table, table_length, points, points_length, 1, csv, sizeof csv);
    size_t length = (size_t)TTW_VALUE(answer);

    say_label("row of 1", csv, answer);
    say("row of 1 without room", ttw_csv_row(table, table_length, points, points_length, 1, csv, length - 1));
    say("row of 2", ttw_csv_row(table, table_length, points, points_length, 2, csv, sizeof csv));
    answer = ttw_csv_rows(table, table_length, points, points_length, 1, 2, csv, sizeof csv, &bytes);
    say_run("rows from 1, 2 of them", csv, answer, bytes);
    say("rows in the file", ttw_csv(csv, length));
    say_label("its label 1", out, ttw_csv_label(csv, length, 1, out, sizeof out));
    say("its label 2", ttw_csv_label(csv, length, 2, out, sizeof out));
    answer = ttw_csv_labels(csv, length, 1, 2, out, sizeof out, &bytes);
    say_run("its labels from 1, 2 of them", out, answer, bytes);
    answer = ttw_csv_list(csv, length, 1, 1, out, sizeof out, &bytes);
    say_run("its list from 1, 1 of them", out, answer, bytes);
    say("rows in no bytes", ttw_csv(csv, 0));
    say("rows without the last byte", ttw_csv(csv, length - 1));
    say("rows without the last two", ttw_csv(csv, length - 2));
    csv[IN_TOWN] = '"';
    say("rows with a quote", ttw_csv(csv, length));
}

/* The month, event by event as the header shows it: each with its answer. */
static void say_events(uint8_t *book, size_t book_length, const uint8_t *points, size_t points_length)
{
    uint64_t view, views, answer;

    answer = ttw_views(points, points_length);
    if (TTW_REFUSAL(answer) != 0) {
        say("views", answer);
        return;
    }
    views = TTW_VALUE(answer);
    for (view = 1; view <= views; view++) {
        answer = ttw_book_event(book, book_length, points, points_length, view);
        say("event", answer);
        if (TTW_REFUSAL(answer) != TTW_REFUSED_CHANGE && TTW_VALUE(ttw_letter(points, points_length, view)) == 'B')
            view++;
    }
    say("event behind the last", ttw_book_event(book, book_length, points, points_length, views + 1));
}

/* What a book says with a table file. */
static void say_book_labels(const uint8_t *book, size_t book_length, const uint8_t *table, size_t table_length)
{
    const uint8_t code[4] = {'A', 'B', '1', ' '};
    uint8_t out[ROOM];
    uint64_t bytes = 0;

    say("present in AB1", ttw_book_live(book, book_length, code, sizeof code));
    say("label of place 1", ttw_book_label(book, book_length, table, table_length, 1, out, sizeof out));
    say("label of place 2", ttw_book_label(book, book_length, table, table_length, 2, out, sizeof out));
    say("label 1 in AB1",
        ttw_book_code_label(book, book_length, table, table_length, code, sizeof code, 1, out, sizeof out));
    say("labels of 1 place", ttw_book_labels(book, book_length, table, table_length, 1, 1, out, sizeof out, &bytes));
    say("labels of 2 in AB1", ttw_book_code_labels(book, book_length, table, table_length, code, sizeof code, 1, 2, out,
                                                   sizeof out, &bytes));
    say("list in AB1", ttw_book_code_list(book, book_length, table, table_length, code, sizeof code, 1, 1, out,
                                          sizeof out, &bytes));
    say("list of 1 place", ttw_book_list(book, book_length, table, table_length, 1, 1, out, sizeof out, &bytes));
    fwrite(out, 1, bytes, stdout);
    say("pack from the book",
        ttw_book_build(book, book_length, table, table_length, code, sizeof code, out, sizeof out));
}

/* An empty book kept by the events of the point file, and asked. */
static void say_book(const uint8_t *table, size_t table_length, const uint8_t *points, size_t points_length)
{
    static uint8_t book[TTW_BOOK_LEN];

    say("empty book", ttw_book(book, sizeof book));
    say("event in no book", ttw_book_event(book, sizeof book - 1, points, points_length, 1));
    say("first event", ttw_book_event(book, sizeof book, points, points_length, 1));
    say("first event again", ttw_book_event(book, sizeof book, points, points_length, 1));
    say("present", ttw_book(book, sizeof book));
    say_book_labels(book, sizeof book, table, table_length);
    say_events(book, sizeof book, points, points_length);
    say("tidied", ttw_book_tidy(book, sizeof book));
    book[TTW_BOOK_LEN - 1] = 1;
    say("book with another count", ttw_book(book, sizeof book));
}

/* Files that somebody edited, and these rewritten. */
static void say_archived(uint8_t *table, size_t table_length, uint8_t *points, size_t points_length)
{
    memset(table, ' ', TABLE_IDENTIFIER);
    memset(table + table_length - TABLE_RECORD, ' ', TABLE_IDENTIFIER);
    memset(points + points_length - POINT_RECORD, ' ', POINT_IDENTIFIER);
    say("archived table", ttw_table(table, table_length));
    say("archived points", ttw_points(points, points_length));
    say("identifiers rewritten without the last byte", ttw_unspace_table(table, table_length - 1));
    say("identifiers rewritten in the table", ttw_unspace_table(table, table_length));
    say("identifiers rewritten in the points", ttw_unspace_points(points, points_length));
    say("identifiers rewritten once more", ttw_unspace_table(table, table_length));
    say("rewritten table", ttw_table(table, table_length));
    say("rewritten points", ttw_points(points, points_length));
}

#define SAY_NAME(name) printf("%s %d\n", #name, name)

/* The names of the refusals, each with its number. */
static void say_names(void)
{
    SAY_NAME(TTW_REFUSED_LENGTH);
    SAY_NAME(TTW_REFUSED_HEADER);
    SAY_NAME(TTW_REFUSED_TRAILER);
    SAY_NAME(TTW_REFUSED_RECORD);
    SAY_NAME(TTW_REFUSED_SEQUENCE);
    SAY_NAME(TTW_REFUSED_ORGANISATION);
    SAY_NAME(TTW_REFUSED_NUMBER);
    SAY_NAME(TTW_REFUSED_COMBINATION);
    SAY_NAME(TTW_REFUSED_KEY);
    SAY_NAME(TTW_REFUSED_ROOM);
    SAY_NAME(TTW_REFUSED_PACK);
    SAY_NAME(TTW_REFUSED_CODE);
    SAY_NAME(TTW_REFUSED_SUFFIX);
    SAY_NAME(TTW_REFUSED_ROW);
    SAY_NAME(TTW_REFUSED_FIELD);
    SAY_NAME(TTW_REFUSED_INSERTED_TWICE);
    SAY_NAME(TTW_REFUSED_NOT_PRESENT);
    SAY_NAME(TTW_REFUSED_CHANGE);
    SAY_NAME(TTW_REFUSED_FULL);
    SAY_NAME(TTW_REFUSED_DIGIT);
    SAY_NAME(TTW_REFUSED_BOOK);
}

int main(int argc, char **argv)
{
    static uint8_t table[ROOM];
    static uint8_t points[ROOM];
    static uint8_t older[ROOM];
    size_t table_length, points_length, older_length;

    if (argc != 4)
        return 2;
    table_length = read_file(argv[1], table);
    points_length = read_file(argv[2], points);
    older_length = read_file(argv[3], older);
    say("table", ttw_table(table, table_length));
    say("points", ttw_points(points, points_length));
    say("views", ttw_views(points, points_length));
    say_letters(points, points_length);
    say_codes(points, points_length);
    say_labels(table, table_length, points, points_length);
    say_older(older, older_length);
    say_csv(table, table_length, points, points_length);
    say_book(table, table_length, points, points_length);
    say_archived(table, table_length, points, points_length);
    say("empty table", ttw_table(table, 0));
    table[0] = 'X';
    say("table with another header", ttw_table(table, table_length));
    points[2 * POINT_RECORD + LETTER] = 'X';
    say("points with another letter", ttw_points(points, points_length));
    say_names();
    return 0;
}
