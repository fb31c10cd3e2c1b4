/* Makes the calls of the header as it is told on standard input, and answers on standard output what each left behind.
 * It is compiled for each machine that the library is made for.
 *
 * Numbers have 8 bytes, the lowest first, as both machines keep them; a slice is its length and its bytes. A call is
 * told as the slice of its name; 0 where all that is lent lies flush against forbidden memory at its end, 1 where at
 * its start; how many slices there are to read, and these; how many numbers, and these; how many slices to write, and
 * these. It is answered by its answer, the bytes of stack that it took, and the slices to write as it left them. */
#define _DEFAULT_SOURCE
#include "ttwibonal.h"

#include <stdio.h>
#include <stdlib.h>
#include <string.h>
#include <sys/mman.h>
#include <ucontext.h>
#include <unistd.h>

/* Every call of the header, one line for each. */
#define CALLS(CALL)                                                                           \
    CALL(ttw_table, READ(0))                                                                  \
    CALL(ttw_points, READ(0))                                                                 \
    CALL(ttw_unspace_table, WRITE(0))                                                         \
    CALL(ttw_unspace_points, WRITE(0))                                                        \
    CALL(ttw_views, READ(0))                                                                  \
    CALL(ttw_letter, READ(0), NUMBER(0))                                                      \
    CALL(ttw_live, READ(0), READ(1))                                                          \
    CALL(ttw_codes, READ(0), WRITE(0))                                                        \
    CALL(ttw_label, READ(0), READ(1), NUMBER(0), WRITE(0))                                    \
    CALL(ttw_code_label, READ(0), READ(1), READ(2), NUMBER(0), WRITE(0))                      \
    CALL(ttw_labels, READ(0), READ(1), NUMBER(0), NUMBER(1), WRITE(0), TELL(1))               \
    CALL(ttw_code_labels, READ(0), READ(1), READ(2), NUMBER(0), NUMBER(1), WRITE(0), TELL(1)) \
    CALL(ttw_list, READ(0), READ(1), NUMBER(0), NUMBER(1), WRITE(0), TELL(1))                 \
    CALL(ttw_code_list, READ(0), READ(1), READ(2), NUMBER(0), NUMBER(1), WRITE(0), TELL(1))   \
    CALL(ttw_build, READ(0), READ(1), READ(2), WRITE(0))                                      \
    CALL(ttw_pack, READ(0))                                                                   \
    CALL(ttw_pack_label, READ(0), NUMBER(0), WRITE(0))                                        \
    CALL(ttw_pack_suffix, READ(0), NUMBER(0))                                                 \
    CALL(ttw_sector, READ(0), NUMBER(0))                                                      \
    CALL(ttw_pack_labels, READ(0), NUMBER(0), NUMBER(1), WRITE(0), TELL(1))                   \
    CALL(ttw_pack_list, READ(0), NUMBER(0), NUMBER(1), WRITE(0), TELL(1))                     \
    CALL(ttw_main, SET)                                                                       \
    CALL(ttw_main_live, READ(0), READ(1))                                                     \
    CALL(ttw_main_codes, READ(0), WRITE(0))                                                   \
    CALL(ttw_main_label, SET, NUMBER(0), WRITE(0))                                            \
    CALL(ttw_main_code_label, SET, READ(7), NUMBER(0), WRITE(0))                              \
    CALL(ttw_main_labels, SET, NUMBER(0), NUMBER(1), WRITE(0), TELL(1))                       \
    CALL(ttw_main_code_labels, SET, READ(7), NUMBER(0), NUMBER(1), WRITE(0), TELL(1))         \
    CALL(ttw_main_list, SET, NUMBER(0), NUMBER(1), WRITE(0), TELL(1))                         \
    CALL(ttw_main_code_list, SET, READ(7), NUMBER(0), NUMBER(1), WRITE(0), TELL(1))           \
    CALL(ttw_main_build, SET, READ(7), WRITE(0))                                              \
    CALL(ttw_csv_row, READ(0), READ(1), NUMBER(0), WRITE(0))                                  \
    CALL(ttw_csv_rows, READ(0), READ(1), NUMBER(0), NUMBER(1), WRITE(0), TELL(1))             \
    CALL(ttw_main_csv_row, SET, NUMBER(0), WRITE(0))                                          \
    CALL(ttw_main_csv_rows, SET, NUMBER(0), NUMBER(1), WRITE(0), TELL(1))                     \
    CALL(ttw_csv, READ(0))                                                                    \
    CALL(ttw_csv_label, READ(0), NUMBER(0), WRITE(0))                                         \
    CALL(ttw_csv_labels, READ(0), NUMBER(0), NUMBER(1), WRITE(0), TELL(1))                    \
    CALL(ttw_csv_list, READ(0), NUMBER(0), NUMBER(1), WRITE(0), TELL(1))                      \
    CALL(ttw_book, READ(0))                                                                   \
    CALL(ttw_book_event, WRITE(0), READ(0), NUMBER(0))                                        \
    CALL(ttw_book_tidy, WRITE(0))                                                             \
    CALL(ttw_book_live, READ(0), READ(1))                                                     \
    CALL(ttw_book_label, READ(0), READ(1), NUMBER(0), WRITE(0))                               \
    CALL(ttw_book_code_label, READ(0), READ(1), READ(2), NUMBER(0), WRITE(0))                 \
    CALL(ttw_book_labels, READ(0), READ(1), NUMBER(0), NUMBER(1), WRITE(0), TELL(1))          \
    CALL(ttw_book_code_labels, READ(0), READ(1), READ(2), NUMBER(0), NUMBER(1), WRITE(0),     \
         TELL(1))                                                                             \
    CALL(ttw_book_list, READ(0), READ(1), NUMBER(0), NUMBER(1), WRITE(0), TELL(1))            \
    CALL(ttw_book_code_list, READ(0), READ(1), READ(2), NUMBER(0), NUMBER(1), WRITE(0),       \
         TELL(1))                                                                             \
    CALL(ttw_book_build, READ(0), READ(1), READ(2), WRITE(0))

/* What these lines are made of: a slice to read or to write, the seven files of a Mainfile set, a number, a place for a
 * number. */
#define READ(i) told->reads[i].bytes, told->reads[i].length
#define SET READ(0), READ(1), READ(2), READ(3), READ(4), READ(5), READ(6)
#define WRITE(i) told->writes[i].bytes, told->writes[i].length
#define NUMBER(i) told->numbers[i]
#define TELL(i) (uint64_t *)(void *)told->writes[i].bytes

/* Bytes that no one has written. */
#define UNTOUCHED 0xA5

/* Bytes of some pages of their own, between two that are forbidden. */
struct slice {
    uint8_t *bytes;
    size_t length;
    uint8_t *pages;
    size_t room;
};

#define MOST 16

struct told {
    uint64_t read_count, number_count, write_count;
    struct slice reads[MOST], writes[MOST];
    uint64_t numbers[MOST];
};

/* One function for each call, and the list of them. */
#define MAKE(name, ...) \
    static uint64_t make_##name(const struct told *told) { return name(__VA_ARGS__); }
#define ENTRY(name, ...) {#name, make_##name},
CALLS(MAKE)
static const struct call {
    const char *name;
    uint64_t (*make)(const struct told *told);
} calls[] = {CALLS(ENTRY)};

static void need(int so, const char *what)
{
    if (so)
        return;
    fprintf(stderr, "driver: %s\n", what);
    exit(2);
}

static void take(void *to, size_t length) { need(fread(to, 1, length, stdin) == length, "the input ends too early"); }

static uint64_t take_number(void)
{
    uint64_t number;

    take(&number, sizeof number);
    return number;
}

static uint64_t take_count(void)
{
    uint64_t count = take_number();

    need(count <= MOST, "too much is lent");
    return count;
}

static void give(const void *from, size_t length)
{
    need(fwrite(from, 1, length, stdout) == length, "the output cannot be written");
}

static size_t page(void) { return (size_t)sysconf(_SC_PAGESIZE); }

static void protect(const struct slice *slice, int allowed)
{
    need(mprotect(slice->pages, slice->room, allowed) == 0, "memory cannot be protected");
}

static struct slice lend(uint64_t at_start, size_t length)
{
    struct slice slice = {NULL, length, NULL, (length / page() + 1) * page()};
    uint8_t *mapping = mmap(NULL, slice.room + 2 * page(), PROT_NONE, MAP_PRIVATE | MAP_ANONYMOUS, -1, 0);

    need(mapping != MAP_FAILED, "there is no memory");
    slice.pages = mapping + page();
    slice.bytes = slice.pages + (at_start ? 0 : slice.room - length);
    protect(&slice, PROT_READ | PROT_WRITE);
    memset(slice.pages, UNTOUCHED, slice.room);
    return slice;
}

static uint64_t take_slices(uint64_t at_start, struct slice *slices, int allowed)
{
    uint64_t count = take_count();

    for (uint64_t i = 0; i < count; i++) {
        slices[i] = lend(at_start, take_number());
        take(slices[i].bytes, slices[i].length);
        protect(&slices[i], allowed);
    }
    return count;
}

/* The bytes beside a slice have to be as they were. */
static void look_around(const struct slice *slice)
{
    const uint8_t *at = slice->pages;

    for (; at < slice->pages + slice->room; at++) {
        if (at == slice->bytes)
            at += slice->length;
        need(at == slice->pages + slice->room || *at == UNTOUCHED, "a byte beside a slice was written");
    }
}

static void give_back(uint64_t count, const struct slice *slices)
{
    for (uint64_t i = 0; i < count; i++) {
        look_around(&slices[i]);
        give(slices[i].bytes, slices[i].length);
    }
}

static void end_slices(uint64_t count, const struct slice *slices)
{
    for (uint64_t i = 0; i < count; i++)
        need(munmap(slices[i].pages - page(), slices[i].room + 2 * page()) == 0, "memory cannot be given back");
}

static const struct call *take_call(void)
{
    char name[64] = "";
    uint64_t length = take_number();

    need(length < sizeof name, "a name is too long");
    take(name, length);
    for (size_t i = 0; i < sizeof calls / sizeof *calls; i++)
        if (strcmp(calls[i].name, name) == 0)
            return &calls[i];
    fprintf(stderr, "driver: there is no call %s\n", name);
    exit(2);
}

/* The stack on which a call runs, in words: more than the 1 MiB that the header allows. */
#define STACK ((size_t)160 << 10)
#define UNTOUCHED_WORD 0xA5A5A5A5A5A5A5A5u
static _Alignas(65536) uint64_t stack[STACK];

/* So many bytes below its caller are left alone before a call, and count as taken. */
#define OWN 256

static struct work {
    const struct call *call;
    struct told told;
    uint64_t answer;
    uint64_t taken;
} work;

/* Makes the call with nothing but known bytes below it, and looks how far down they have changed. */
static void work_on(void)
{
    volatile uint8_t caller = 0;
    uintptr_t here = (uintptr_t)&caller;
    const uint64_t *low = stack;

    memset(stack, UNTOUCHED, here - OWN - (uintptr_t)stack);
    work.answer = work.call->make(&work.told);
    while (*low == UNTOUCHED_WORD)
        low++;
    work.taken = here - (uintptr_t)low;
}

static void run_on_stack(void)
{
    static ucontext_t back, context;

    need(getcontext(&context) == 0, "there is no context");
    context.uc_stack.ss_sp = stack;
    context.uc_stack.ss_size = sizeof stack;
    context.uc_link = &back;
    makecontext(&context, work_on, 0);
    need(swapcontext(&back, &context) == 0, "the context is not changed");
}

static void make_call(void)
{
    struct told *told = &work.told;
    uint64_t at_start;

    work.call = take_call();
    at_start = take_number();
    told->read_count = take_slices(at_start, told->reads, PROT_READ);
    told->number_count = take_count();
    take(told->numbers, told->number_count * sizeof *told->numbers);
    told->write_count = take_slices(at_start, told->writes, PROT_READ | PROT_WRITE);
    run_on_stack();
    give(&work.answer, sizeof work.answer);
    give(&work.taken, sizeof work.taken);
    give_back(told->write_count, told->writes);
    end_slices(told->read_count, told->reads);
    end_slices(told->write_count, told->writes);
}

int main(void)
{
    int next;

    while ((next = getchar()) != EOF) {
        ungetc(next, stdin);
        make_call();
        need(fflush(stdout) == 0, "the output cannot be written");
    }
    return 0;
}
