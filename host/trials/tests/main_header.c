/* Asks every call on a Mainfile set about the seven files that it is given, through the calls that take the header's
 * struct, and prints what each answers. It is compiled as C and as C++. */
#include "ttwibonal.h"

#include <inttypes.h>
#include <stdio.h>

/* Bytes for a file; those of the samples are shorter. */
#define ROOM 8192
#define FILES 7

static uint8_t files[FILES][ROOM];
static size_t lengths[FILES];
static uint8_t out[ROOM];

/* Reads a whole file of less than ROOM bytes. Answers its length, 0 where it can't be read. */
static size_t read_file(const char *path, uint8_t *bytes)
{
    FILE *file = fopen(path, "rb");
    size_t length;

    if (file == NULL)
        return 0;
    length = fread(bytes, 1, ROOM, file);
    fclose(file);
    return length < ROOM ? length : 0;
}

static void say(const char *what, uint64_t answer)
{
    if (TTW_REFUSAL(answer) != 0)
        printf("%s: refused %" PRIu64 ", file %" PRIu64 ", second %" PRIu64 ", detail %" PRIu64 "\n", what,
               TTW_REFUSAL(answer), TTW_FILE(answer), TTW_SECOND(answer), TTW_DETAIL(answer));
    else
        printf("%s: %" PRIu64 "\n", what, TTW_VALUE(answer));
}

/* An answer with the bytes that were written. */
static void say_bytes(const char *what, uint64_t answer, uint64_t bytes)
{
    say(what, answer);
    fwrite(out, 1, (size_t)bytes, stdout);
}

static struct ttw_main set_of_files(void)
{
    struct ttw_main set;

    set.localities = files[0];
    set.localities_len = lengths[0];
    set.thoroughfares = files[1];
    set.thoroughfares_len = lengths[1];
    set.descriptors = files[2];
    set.descriptors_len = lengths[2];
    set.buildings = files[3];
    set.buildings_len = lengths[3];
    set.sub_buildings = files[4];
    set.sub_buildings_len = lengths[4];
    set.organisations = files[5];
    set.organisations_len = lengths[5];
    set.addresses = files[6];
    set.addresses_len = lengths[6];
    return set;
}

static void say_labels(const struct ttw_main *set, const uint8_t *code, size_t code_len)
{
    uint64_t answer = ttw_main_label_of(set, 4, out, sizeof out);
    uint64_t bytes = 7;

    say_bytes("label 4", answer, TTW_VALUE(answer));
    answer = ttw_main_code_label_of(set, code, code_len, 3, out, sizeof out);
    say_bytes("label 3 in AB10", answer, TTW_VALUE(answer));
    answer = ttw_main_labels_of(set, 38, 2, out, sizeof out, &bytes);
    say_bytes("labels from 38, 2 of them", answer, bytes);
    answer = ttw_main_code_labels_of(set, code, code_len, 1, 1, out, sizeof out, &bytes);
    say_bytes("labels from 1 in AB10, 1 of them", answer, bytes);
    answer = ttw_main_list_of(set, 38, 2, out, sizeof out, &bytes);
    say_bytes("list from 38, 2 of them", answer, bytes);
    answer = ttw_main_code_list_of(set, code, code_len, 8, 2, out, sizeof out, &bytes);
    say_bytes("list from 8 in AB10, 2 of them", answer, bytes);
}

static void say_rows(const struct ttw_main *set)
{
    uint64_t answer = ttw_main_csv_row_of(set, 4, out, sizeof out);
    uint64_t bytes = 7;

    say_bytes("row 4", answer, TTW_VALUE(answer));
    answer = ttw_main_csv_rows_of(set, 38, 2, out, sizeof out, &bytes);
    say_bytes("rows from 38, 2 of them", answer, bytes);
}

static void say_packs(const struct ttw_main *set, const uint8_t *code, size_t code_len)
{
    const uint8_t refused[4] = {'A', 'B', '2', ' '};
    uint64_t answer;

    say("pack without room", ttw_main_build_of(set, code, code_len, out, 0));
    answer = ttw_main_build_of(set, code, code_len, out, sizeof out);
    say("points in the pack", ttw_pack(out, (size_t)TTW_VALUE(answer)));
    say("pack of AB2", ttw_main_build_of(set, refused, sizeof refused, out, sizeof out));
}

int main(int argc, char **argv)
{
    const uint8_t code[4] = {'A', 'B', '1', '0'};
    struct ttw_main set;
    int i;

    if (argc != 1 + FILES)
        return 2;
    for (i = 0; i < FILES; i++)
        lengths[i] = read_file(argv[1 + i], files[i]);
    set = set_of_files();
    say("views", ttw_main_of(&set));
    say("views, asked with fourteen arguments", ttw_main(TTW_MAIN_FILES(&set)));
    say("addresses in AB10", ttw_main_live_of(&set, code, sizeof code));
    say("codes", ttw_main_codes_of(&set, out, sizeof out));
    printf("first code: %.4s %d\n", (const char *)out, out[7]);
    say_labels(&set, code, sizeof code);
    say_rows(&set);
    say_packs(&set, code, sizeof code);
    set.sub_buildings_len = 0;
    say("without sub buildings", ttw_main_of(&set));
    return 0;
}
