/* What the handset with the van printer does: loads a pack and prints its labels, folded, or says why it cannot.
 *
 *     van AB1.pack     the labels of all points, a line of dashes between two
 *     van AB1.pack 3   the label of point 3
 *
 * Exit status: 0 done, 1 a label was refused, 2 could not. */
#include "ttwvan.h"

#include <errno.h>
#include <inttypes.h>
#include <stdio.h>
#include <stdlib.h>
#include <string.h>

/* No pack of a pair of files comes near this length. */
#define LONGEST_PACK (64L << 20)

enum { DONE = 0, REFUSED = 1, COULD_NOT = 2 };

struct pack {
    uint8_t *bytes;
    size_t length;
};

/* Reads an open file. For an empty one malloc may answer null, which the library takes with a length of 0. */
static int read_pack(FILE *file, struct pack *pack)
{
    long length;

    if (fseek(file, 0, SEEK_END) != 0 || (length = ftell(file)) < 0 || length > LONGEST_PACK)
        return 0;
    rewind(file);
    pack->length = (size_t)length;
    pack->bytes = malloc(pack->length);
    if (pack->bytes == NULL && pack->length > 0)
        return 0;
    return fread(pack->bytes, 1, pack->length, file) == pack->length;
}

static int load(const char *path, struct pack *pack)
{
    FILE *file;
    int loaded;

    errno = 0;
    file = fopen(path, "rb");
    if (file == NULL)
        return 0;
    loaded = read_pack(file, pack);
    fclose(file);
    return loaded;
}

/* A label that is too long for the printer is told, and the others are printed all the same. */
static int say_refusal(uint64_t answer)
{
    switch (TTW_REFUSAL(answer)) {
    case TTWVAN_REFUSED_LINES:
        puts("This label has more than 6 lines.");
        break;
    case TTW_REFUSED_NUMBER:
        puts("This pack has no point of that number.");
        break;
    case TTW_REFUSED_PACK:
        puts("This pack is damaged. Load it again.");
        break;
    default:
        printf("Refused with %" PRIu64 ".\n", TTW_REFUSAL(answer));
    }
    return REFUSED;
}

static int say_label(const struct pack *pack, uint64_t k)
{
    uint8_t lines[TTWVAN_LABEL_MAX];
    uint64_t answer = ttwvan_pack_label(pack->bytes, pack->length, k, lines, sizeof lines);

    if (TTW_REFUSAL(answer) != 0)
        return say_refusal(answer);
    fwrite(lines, 1, (size_t)TTW_VALUE(answer), stdout);
    return DONE;
}

/* Both libraries are asked: the lower one how many points there are, this one for the label of each. */
static int say_all(const struct pack *pack)
{
    uint64_t points = ttw_pack(pack->bytes, pack->length);
    uint64_t k;
    int status = DONE;

    if (TTW_REFUSAL(points) != 0)
        return say_refusal(points);
    for (k = 1; k <= TTW_VALUE(points); k++) {
        if (k > 1)
            puts("------------------------------------");
        status |= say_label(pack, k);
    }
    return status;
}

/* Whether a text is a number and nothing else. */
static int read_number(const char *text, uint64_t *number)
{
    char *end;

    errno = 0;
    *number = strtoumax(text, &end, 10);
    return errno == 0 && text[0] >= '0' && text[0] <= '9' && *end == '\0';
}

int main(int argc, char **argv)
{
    struct pack pack = {NULL, 0};
    uint64_t k = 0;
    int status;

    if (argc < 2 || argc > 3 || (argc > 2 && !read_number(argv[2], &k))) {
        fputs("usage: van PACK [NUMBER]\n", stderr);
        return COULD_NOT;
    }
    if (!load(argv[1], &pack)) {
        fprintf(stderr, "van: cannot load the pack: %s\n", errno != 0 ? strerror(errno) : "no file of a pack's length");
        free(pack.bytes);
        return COULD_NOT;
    }
    status = argc == 2 ? say_all(&pack) : say_label(&pack, k);
    free(pack.bytes);
    /* An error of an earlier write is kept by ferror alone, one of the last by fclose. */
    if (ferror(stdout) != 0 || fclose(stdout) != 0) {
        fputs("van: cannot print\n", stderr);
        return COULD_NOT;
    }
    return status;
}
