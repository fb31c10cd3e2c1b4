/* What a handset does with a pack: loads it, prints the label of a point or of many, or says why it cannot.
 *
 *     handset AB1.pack        how many points the pack has, and how many in each sector
 *     handset AB1.pack 3      the label of point 3, and its suffix
 *     handset AB1.pack 3 40   the labels of 40 points, from point 3 on
 *
 * Exit status: 0 done, 1 refused, 2 could not. */
#include "ttwibonal.h"

#include <errno.h>
#include <inttypes.h>
#include <stdio.h>
#include <stdlib.h>
#include <string.h>

/* Labels for which there is always room at a time. */
#define ROUND 40
/* No pack of a pair of files comes near this length. */
#define LONGEST_PACK (64L << 20)

enum { DONE = 0, REFUSED = 1, COULD_NOT = 2 };

struct pack {
    uint8_t *bytes;
    size_t length;
};

/* Reads an open file. For an empty one malloc may answer null, which the library takes with a length of 0. */
static int read_pack(FILE *file, struct pack *pack)
{
    long length;

    if (fseek(file, 0, SEEK_END) != 0 || (length = ftell(file)) < 0 || length > LONGEST_PACK)
        return 0;
    rewind(file);
    pack->length = (size_t)length;
    pack->bytes = malloc(pack->length);
    if (pack->bytes == NULL && pack->length > 0)
        return 0;
    return fread(pack->bytes, 1, pack->length, file) == pack->length;
}

static int load(const char *path, struct pack *pack)
{
    FILE *file;
    int loaded;

    errno = 0;
    file = fopen(path, "rb");
    if (file == NULL)
        return 0;
    loaded = read_pack(file, pack);
    fclose(file);
    return loaded;
}

/* A message about a file. A byte of its name that could steer a terminal is shown as \x1b. */
static void complain(const char *path, const char *why)
{
    const char *at;

    fputs("handset: cannot load ", stderr);
    for (at = path; *at != '\0'; at++)
        fprintf(stderr, *at >= ' ' && *at <= '~' ? "%c" : "\\x%02x", (unsigned char)*at);
    fprintf(stderr, ": %s\n", why);
}

/* The refusals that a handset can meet, in words for its screen. */
static int say_refusal(uint64_t answer)
{
    static const char *const parts[] = {"end", "rows", "points", "counts"};

    switch (TTW_REFUSAL(answer)) {
    case TTW_REFUSED_NUMBER:
        puts("This pack has no point of that number.");
        break;
    case TTW_REFUSED_PACK:
        printf("This pack is damaged: its %s. Load it again.\n", parts[(TTW_DETAIL(answer) - 1) & 3]);
        break;
    default:
        printf("Refused with %" PRIu64 ".\n", TTW_REFUSAL(answer));
    }
    return REFUSED;
}

/* The sectors that have points: of a pack of AB1, sector 9 is AB1 9. */
static int say_sectors(const struct pack *pack)
{
    uint64_t digit;

    for (digit = 0; digit <= 9; digit++) {
        uint64_t answer = ttw_sector(pack->bytes, pack->length, digit);

        if (TTW_REFUSAL(answer) != 0)
            return say_refusal(answer);
        if (TTW_VALUE(answer) != 0)
            printf("sector %" PRIu64 ": %" PRIu64 "\n", digit, TTW_VALUE(answer));
    }
    return DONE;
}

static int say_points(const struct pack *pack)
{
    uint64_t answer = ttw_pack(pack->bytes, pack->length);

    if (TTW_REFUSAL(answer) != 0)
        return say_refusal(answer);
    printf("points: %" PRIu64 "\n", TTW_VALUE(answer));
    return say_sectors(pack);
}

/* The suffix that the grid form asks for. A pack of edition 1 has none, and its labels are as good without. */
static int say_suffix(const struct pack *pack, uint64_t k)
{
    uint64_t answer = ttw_pack_suffix(pack->bytes, pack->length, k);

    if (TTW_REFUSAL(answer) == TTW_REFUSED_SUFFIX) {
        puts("suffix: none in this pack, which is of an older edition");
        return DONE;
    }
    if (TTW_REFUSAL(answer) != 0)
        return say_refusal(answer);
    printf("suffix: %c%c\n", (int)(TTW_VALUE(answer) / 256), (int)(TTW_VALUE(answer) % 256));
    return DONE;
}

static int say_label(const struct pack *pack, uint64_t k)
{
    uint8_t label[TTW_LABEL_MAX];
    uint64_t answer = ttw_pack_label(pack->bytes, pack->length, k, label, sizeof label);

    if (TTW_REFUSAL(answer) != 0)
        return say_refusal(answer);
    fwrite(label, 1, (size_t)TTW_VALUE(answer), stdout);
    return say_suffix(pack, k);
}

/* As many labels at a time as there is room for: behind those written, the next are asked for in an empty buffer. */
static int say_labels(const struct pack *pack, uint64_t first, uint64_t count)
{
    static uint8_t labels[ROUND * TTW_LABEL_MAX];
    uint64_t answer;

    do {
        uint64_t bytes = 0;

        answer = ttw_pack_labels(pack->bytes, pack->length, first, count, labels, sizeof labels, &bytes);
        fwrite(labels, 1, (size_t)bytes, stdout);
        first += TTW_SECOND(answer);
        count -= TTW_SECOND(answer);
    } while (TTW_REFUSAL(answer) == TTW_REFUSED_ROOM);
    return TTW_REFUSAL(answer) == 0 ? DONE : say_refusal(answer);
}

/* Whether a text is a number and nothing else. */
static int read_number(const char *text, uint64_t *number)
{
    char *end;

    errno = 0;
    *number = strtoumax(text, &end, 10);
    return errno == 0 && text[0] >= '0' && text[0] <= '9' && *end == '\0';
}

/* The label of a point with its suffix, the labels of many, or how many there are, by what is given. */
static int say(const struct pack *pack, int given, uint64_t k, uint64_t count)
{
    switch (given) {
    case 1:
        return say_points(pack);
    case 2:
        return say_label(pack, k);
    default:
        return say_labels(pack, k, count);
    }
}

int main(int argc, char **argv)
{
    struct pack pack = {NULL, 0};
    uint64_t k = 0;
    uint64_t count = 0;
    int status;

    if (argc < 2 || argc > 4 || (argc > 2 && !read_number(argv[2], &k)) ||
        (argc > 3 && !read_number(argv[3], &count))) {
        fputs("usage: handset PACK [NUMBER [COUNT]] (ttwibonal " TTW_VERSION ")\n", stderr);
        return COULD_NOT;
    }
    if (!load(argv[1], &pack)) {
        complain(argv[1], errno != 0 ? strerror(errno) : "no file of a pack's length");
        free(pack.bytes);
        return COULD_NOT;
    }
    status = say(&pack, argc - 1, k, count);
    free(pack.bytes);
    /* An error of an earlier write is kept by ferror alone, one of the last by fclose. */
    if (ferror(stdout) != 0 || fclose(stdout) != 0) {
        fputs("handset: cannot print\n", stderr);
        return COULD_NOT;
    }
    return status;
}
