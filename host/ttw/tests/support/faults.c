/* Faults for the tests of ttw. Loaded in front of the C library, it writes down the calls that a file's safety hangs on
 * and has those fail that the environment names:
 *
 *   FAULTS_LOG=FILE                     each such call becomes a line of this file
 *   FAULTS_FAIL=CALL FIRST LAST ERROR   of the calls of that name the FIRST to the LAST fail with this error number;
 *                                       `memory` is what is asked for while a part stands
 *   FAULTS_SPOIL=TEXT AT BYTE           byte AT of a file with this in its name is written as this one
 *   FAULTS_FILE=TEXT                    with FAULTS_FAIL: counted are calls on files with this in their name alone
 *   FAULTS_PLACE=KIND TIMES             before the first so many creations of a part something stands in its place:
 *                                       link (to the file `victim`) or fifo
 *   FAULTS_PID=NUMBER                   the process has this number
 *   FAULTS_MEMORY=BYTES                 the program has no more memory than this at a time
 */
#define _GNU_SOURCE
#include <dlfcn.h>
#include <errno.h>
#include <fcntl.h>
#include <limits.h>
#include <link.h>
#include <malloc.h>
#include <pthread.h>
#include <stdarg.h>
#include <stdint.h>
#include <stdio.h>
#include <stdlib.h>
#include <string.h>
#include <sys/stat.h>
#include <unistd.h>

/* A hang is a failure too. */
#define SECONDS 60

/* The function of that name behind this one. */
#define REAL(name) ((__typeof__(&name))dlsym(RTLD_NEXT, #name))

extern void *__libc_malloc(size_t size);
extern void *__libc_calloc(size_t count, size_t size);
extern void *__libc_realloc(void *old, size_t size);
extern void *__libc_memalign(size_t alignment, size_t size);
extern void __libc_free(void *old);

static char failing[32];
static int first, last, error, seen;
static char place[8];
static int places;
static char spoiled[32], spoilt;
static off_t spoiled_at;
/* How much memory the program may have, 0 for any, and how much it has. */
static size_t memory, taken;
static int part_stands;
/* Where the program's own code stands. */
static uintptr_t code_start, code_end;

/* The first object is the program itself. */
static int find_code(struct dl_phdr_info *object, size_t size, void *unused)
{
    int i;

    (void)size;
    (void)unused;
    for (i = 0; i < object->dlpi_phnum; i++)
        if (object->dlpi_phdr[i].p_type == PT_LOAD && (object->dlpi_phdr[i].p_flags & PF_X) != 0) {
            code_start = object->dlpi_addr + object->dlpi_phdr[i].p_vaddr;
            code_end = code_start + object->dlpi_phdr[i].p_memsz;
        }
    return 1;
}

__attribute__((constructor)) static void read_environment(void)
{
    const char *fail = getenv("FAULTS_FAIL");
    const char *placed = getenv("FAULTS_PLACE");
    const char *most = getenv("FAULTS_MEMORY");
    const char *spoil = getenv("FAULTS_SPOIL");

    dl_iterate_phdr(find_code, NULL);
    if (fail != NULL && sscanf(fail, "%31s %d %d %d", failing, &first, &last, &error) != 4)
        abort();
    if (placed != NULL && sscanf(placed, "%7s %d", place, &places) != 2)
        abort();
    if (spoil != NULL && sscanf(spoil, "%31s %ld %c", spoiled, &spoiled_at, &spoilt) != 3)
        abort();
    memory = most == NULL ? 0 : strtoul(most, NULL, 10);
    alarm(SECONDS);
}

static void say(const char *format, ...)
{
    const char *log = getenv("FAULTS_LOG");
    char line[3 * PATH_MAX];
    va_list values;
    int file, length;

    if (log == NULL)
        return;
    va_start(values, format);
    length = vsnprintf(line, sizeof line, format, values);
    va_end(values);
    file = REAL(open64)(log, O_WRONLY | O_CREAT | O_APPEND, 0666);
    if (file < 0 || REAL(write)(file, line, (size_t)length) != length)
        abort();
    REAL(close)(file);
}

/* The last part of a path. */
static const char *base(const char *path)
{
    const char *slash = strrchr(path, '/');

    return slash == NULL || slash[1] == '\0' ? path : slash + 1;
}

/* The name of an open file. */
static const char *name_of(int file)
{
    static _Thread_local char name[PATH_MAX];
    char link[64];
    ssize_t length;

    snprintf(link, sizeof link, "/proc/self/fd/%d", file);
    length = readlink(link, name, sizeof name - 1);
    name[length < 0 ? 0 : length] = '\0';
    return base(name);
}

/* Whether this call is one that fails. */
static int fails(const char *call, const char *name)
{
    const char *text = getenv("FAULTS_FILE");
    int turn;

    if (strcmp(call, failing) != 0 || (text != NULL && strstr(name, text) == NULL))
        return 0;
    turn = __sync_add_and_fetch(&seen, 1);
    if (turn < first || turn > last)
        return 0;
    errno = error;
    return 1;
}

/* Puts something where a part is about to be created. */
static void occupy(const char *path)
{
    if (places-- <= 0)
        return;
    if (strcmp(place, "link") == 0 ? symlink("victim", path) != 0 : mkfifo(path, 0666) != 0)
        abort();
    say("placed %s\n", base(path));
}

int open64(const char *path, int flags, ...)
{
    va_list values;
    mode_t mode = 0;

    if ((flags & O_CREAT) != 0) {
        va_start(values, flags);
        mode = va_arg(values, mode_t);
        va_end(values);
        occupy(path);
        say("create %s %s %o\n", base(path), (flags & O_EXCL) != 0 ? "exclusive" : "shared", mode);
    }
    if (fails("open", base(path)))
        return -1;
    part_stands |= (flags & O_EXCL) != 0;
    return REAL(open64)(path, flags, mode);
}

/* Writes bytes of which one is another. */
static ssize_t write_spoiled(int file, const void *bytes, size_t length, size_t at)
{
    char *copy = __libc_malloc(length);
    ssize_t written;

    memcpy(copy, bytes, length);
    copy[at] = spoilt;
    written = REAL(write)(file, copy, length);
    __libc_free(copy);
    return written;
}

ssize_t write(int file, const void *bytes, size_t length)
{
    off_t start;

    if (failing[0] == 'w' && fails("write", name_of(file)))
        return -1;
    if (spoiled[0] != '\0' && strstr(name_of(file), spoiled) != NULL) {
        start = lseek(file, 0, SEEK_CUR);
        if (start <= spoiled_at && spoiled_at < start + (off_t)length)
            return write_spoiled(file, bytes, length, (size_t)(spoiled_at - start));
    }
    return REAL(write)(file, bytes, length);
}

int fsync(int file)
{
    say("sync %s\n", name_of(file));
    return fails("fsync", name_of(file)) ? -1 : REAL(fsync)(file);
}

int rename(const char *from, const char *to)
{
    say("rename %s %s\n", base(from), base(to));
    return fails("rename", base(to)) ? -1 : REAL(rename)(from, to);
}

int fchown(int file, uid_t owner, gid_t group)
{
    say("owner %s %d %d\n", name_of(file), (int)owner, (int)group);
    return fails("fchown", name_of(file)) ? -1 : REAL(fchown)(file, owner, group);
}

int close(int file)
{
    if (failing[0] == 'c' && fails("close", name_of(file))) {
        REAL(close)(file);
        errno = error;
        return -1;
    }
    return REAL(close)(file);
}

pid_t getpid(void)
{
    const char *number = getenv("FAULTS_PID");

    return number == NULL ? REAL(getpid)() : (pid_t)atoi(number);
}

int pthread_create(pthread_t *thread, const pthread_attr_t *attributes, void *(*start)(void *), void *given)
{
    return fails("thread", "") ? error : REAL(pthread_create)(thread, attributes, start, given);
}

/* Memory is refused to the program alone: the C library itself gives up where it gets none for a thread's own data. */
static int is_refused(void *caller, size_t size)
{
    uintptr_t at = (uintptr_t)caller;
    int is_more = memory != 0 && taken + size > memory;

    if (at < code_start || at >= code_end || !(is_more || (part_stands && fails("memory", ""))))
        return 0;
    say("no memory\n");
    errno = ENOMEM;
    return 1;
}

/* Counts memory that was given. */
static void *given(void *piece)
{
    __sync_add_and_fetch(&taken, malloc_usable_size(piece));
    return piece;
}

/* Counts memory that goes back. */
static void *going(void *piece)
{
    __sync_sub_and_fetch(&taken, malloc_usable_size(piece));
    return piece;
}

void *malloc(size_t size)
{
    return is_refused(__builtin_return_address(0), size) ? NULL : given(__libc_malloc(size));
}

void *calloc(size_t count, size_t size)
{
    return is_refused(__builtin_return_address(0), count * size) ? NULL : given(__libc_calloc(count, size));
}

void *realloc(void *old, size_t size)
{
    return is_refused(__builtin_return_address(0), size) ? NULL : given(__libc_realloc(going(old), size));
}

int posix_memalign(void **piece, size_t alignment, size_t size)
{
    if (is_refused(__builtin_return_address(0), size))
        return ENOMEM;
    *piece = given(__libc_memalign(alignment, size));
    return *piece == NULL ? ENOMEM : 0;
}

void free(void *old)
{
    __libc_free(going(old));
}
