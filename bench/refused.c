/*
 * Refuses or shortens calls of a program to the C library, for `refused.py`. It is preloaded:
 *
 *     cc -O2 -shared -fPIC refused.c -o refused.so
 *     REFUSED_KIND=memory REFUSED_FIRST=7 REFUSED_LAST=7 LD_PRELOAD=./refused.so PROGRAM
 *
 * The environment says what is refused:
 *
 *     REFUSED_KIND    memory, open, read, write, close or sync; none where it isn't given
 *     REFUSED_FIRST   the number of the first such call that is refused, from 1
 *     REFUSED_LAST    that of the last one
 *     REFUSED_ERROR   the error number that it gives; 0 for none: then a read or write moves fewer bytes than it was
 *                     asked to, and any other call is made as it was asked
 *     REFUSED_BYTES   how many bytes such a read or write moves at most; 0 is a write that takes nothing
 *     REFUSED_THEN    where it isn't 0, each such call after the last one fails with this error number
 *     REFUSED_COUNTS  a file of at least `sizeof(struct counts)` bytes, in which the calls are counted
 *
 * Calls are counted from where the object is set up, which is before `main`. The real memory is that of glibc
 * (`__libc_malloc` and so on); the other calls go to the system by their numbers. One thread is assumed.
 */
#define _GNU_SOURCE
#include <errno.h>
#include <fcntl.h>
#include <stdarg.h>
#include <stdint.h>
#include <stdlib.h>
#include <string.h>
#include <sys/mman.h>
#include <sys/syscall.h>
#include <sys/types.h>
#include <unistd.h>

enum kind { MEMORY, OPEN, READ, WRITE, CLOSE, SYNC, KINDS };

/* What the first refused call was about. */
enum place { NO_PLACE, OF_MEMORY, OF_LOAD, OF_SAVE, OF_OUTPUT, OF_ERRORS };

struct counts {
    uint64_t calls[KINDS];
    uint64_t refused;
    uint64_t place;
};

static const char *const NAMES[KINDS] = {"memory", "open", "read", "write", "close", "sync"};
static struct counts own, *counts = &own;
static int kind = KINDS, error, then;
static uint64_t first, last, most;

void *__libc_malloc(size_t size);
void *__libc_calloc(size_t count, size_t size);
void *__libc_realloc(void *block, size_t size);
void *__libc_memalign(size_t align, size_t size);

static uint64_t number(const char *name)
{
    const char *text = getenv(name);
    return text ? strtoull(text, NULL, 10) : 0;
}

static void map_counts(const char *name)
{
    int file = name ? syscall(SYS_openat, AT_FDCWD, name, O_RDWR | O_CLOEXEC) : -1;
    if (file < 0)
        return;
    void *shared = mmap(NULL, sizeof *counts, PROT_READ | PROT_WRITE, MAP_SHARED, file, 0);
    if (shared != MAP_FAILED)
        counts = shared;
    syscall(SYS_close, file);
}

__attribute__((constructor)) static void set_up(void)
{
    const char *name = getenv("REFUSED_KIND");
    map_counts(getenv("REFUSED_COUNTS"));
    memset(counts, 0, sizeof *counts);
    first = number("REFUSED_FIRST");
    last = number("REFUSED_LAST");
    error = (int)number("REFUSED_ERROR");
    most = number("REFUSED_BYTES");
    then = (int)number("REFUSED_THEN");
    for (int k = 0; name && k < KINDS; k++)
        if (strcmp(name, NAMES[k]) == 0)
            kind = k;
}

/* What a call on an open file is about. */
static enum place place_of(int file)
{
    if (file == 1)
        return OF_OUTPUT;
    if (file == 2)
        return OF_ERRORS;
    long flags = syscall(SYS_fcntl, file, F_GETFL);
    return (flags & O_ACCMODE) == O_RDONLY ? OF_LOAD : OF_SAVE;
}

/* Counts a call; answers -1 where it is to be made as it was asked, else the error number for it. */
static int refusal(enum kind of, enum place place)
{
    uint64_t n = ++counts->calls[of];
    if ((int)of != kind || n < first || (n > last && !then))
        return -1;
    if (counts->refused++ == 0)
        counts->place = place;
    return n > last ? then : error;
}

static int is_refused(enum kind of, enum place place)
{
    int with = refusal(of, place);
    if (with > 0)
        errno = with;
    return with > 0;
}

static int no_memory(void)
{
    int with = refusal(MEMORY, OF_MEMORY);
    if (with >= 0)
        errno = ENOMEM;
    return with >= 0;
}

void *malloc(size_t size) { return no_memory() ? NULL : __libc_malloc(size); }

void *calloc(size_t count, size_t size) { return no_memory() ? NULL : __libc_calloc(count, size); }

void *realloc(void *block, size_t size) { return no_memory() ? NULL : __libc_realloc(block, size); }

void *memalign(size_t align, size_t size) { return no_memory() ? NULL : __libc_memalign(align, size); }

void *aligned_alloc(size_t align, size_t size) { return memalign(align, size); }

int posix_memalign(void **block, size_t align, size_t size)
{
    void *made = memalign(align, size);
    if (made)
        *block = made;
    return made ? 0 : ENOMEM;
}

/* How many bytes a read or write is to move, of `count`; -1 where it is to fail. */
static ssize_t room(enum kind of, int file, size_t count)
{
    int with = refusal(of, place_of(file));
    if (with > 0)
        errno = with;
    return with > 0 ? -1 : (ssize_t)(with == 0 && most < count ? most : count);
}

ssize_t read(int file, void *bytes, size_t count)
{
    ssize_t some = room(READ, file, count);
    return some < 0 ? -1 : syscall(SYS_read, file, bytes, some);
}

ssize_t write(int file, const void *bytes, size_t count)
{
    ssize_t some = room(WRITE, file, count);
    return some < 0 ? -1 : syscall(SYS_write, file, bytes, some);
}

ssize_t __write(int file, const void *bytes, size_t count) __attribute__((alias("write")));

static int opened(int folder, const char *name, int flags, mode_t mode)
{
    if (is_refused(OPEN, (flags & O_ACCMODE) == O_RDONLY ? OF_LOAD : OF_SAVE))
        return -1;
    return (int)syscall(SYS_openat, folder, name, flags, mode);
}

static mode_t mode_of(int flags, va_list rest) { return flags & O_CREAT ? va_arg(rest, mode_t) : 0; }

int open(const char *name, int flags, ...)
{
    va_list rest;
    va_start(rest, flags);
    mode_t mode = mode_of(flags, rest);
    va_end(rest);
    return opened(AT_FDCWD, name, flags, mode);
}

int open64(const char *name, int flags, ...) __attribute__((alias("open")));

int openat(int folder, const char *name, int flags, ...)
{
    va_list rest;
    va_start(rest, flags);
    mode_t mode = mode_of(flags, rest);
    va_end(rest);
    return opened(folder, name, flags, mode);
}

int openat64(int folder, const char *name, int flags, ...) __attribute__((alias("openat")));

/* The file is closed in any case, as Linux does it. */
int close(int file)
{
    int is_bad = is_refused(CLOSE, place_of(file)), with = errno;
    int answer = (int)syscall(SYS_close, file);
    if (is_bad)
        errno = with;
    return is_bad ? -1 : answer;
}

int fsync(int file) { return is_refused(SYNC, place_of(file)) ? -1 : (int)syscall(SYS_fsync, file); }

int fdatasync(int file) { return is_refused(SYNC, place_of(file)) ? -1 : (int)syscall(SYS_fdatasync, file); }
