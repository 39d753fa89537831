/* A library that is loaded before the C library and refuses what a program asks of it: what, is said by `refusing.py`. */
#define _GNU_SOURCE
#include <dlfcn.h>
#include <errno.h>
#include <pthread.h>
#include <stdatomic.h>
#include <stdlib.h>
#include <string.h>
#include <sys/mman.h>
#include <sys/syscall.h>
#include <unistd.h>

enum kind { ALLOCATION, START, READ, WRITE, DRAW, KINDS };
enum how { FAIL, INTERRUPT, NOTHING, ONE_BYTE };

/* What the run that started the program reads afterwards, in a file that it gave. */
static struct counts {
    atomic_long asked[KINDS], refused, bytes_read, bytes_written;
} *counts;

static enum kind kind = KINDS;
static enum how how;
static long first;
static int later_too, all_one_byte;

extern void *__libc_malloc(size_t size);
extern void *__libc_calloc(size_t count, size_t size);
extern void *__libc_realloc(void *old, size_t size);

static long number(const char *name)
{
    const char *text = getenv(name);
    return text ? atol(text) : 0;
}

/* Nothing is counted before this runs, as the program is loaded. */
__attribute__((constructor)) static void begin(void)
{
    void *found = mmap(NULL, 4096, PROT_READ | PROT_WRITE, MAP_SHARED, (int)number("REFUSING_COUNTS"), 0);
    kind = (enum kind)number("REFUSING_KIND");
    how = (enum how)number("REFUSING_HOW");
    first = number("REFUSING_FIRST");
    later_too = (int)number("REFUSING_LATER");
    all_one_byte = (int)number("REFUSING_ONE_BYTE");
    if (found != MAP_FAILED)
        counts = found;
}

/* Whether this one is to be refused. */
static int refused(enum kind asked)
{
    if (!counts)
        return 0;
    long at = atomic_fetch_add(&counts->asked[asked], 1) + 1;
    if (asked != kind || !first || at < first || (at > first && !later_too))
        return 0;
    atomic_fetch_add(&counts->refused, 1);
    return 1;
}

static void *memory(void *given)
{
    if (!given)
        errno = ENOMEM;
    return given;
}

void *malloc(size_t size)
{
    return memory(refused(ALLOCATION) ? NULL : __libc_malloc(size));
}

void *calloc(size_t count, size_t size)
{
    return memory(refused(ALLOCATION) ? NULL : __libc_calloc(count, size));
}

void *realloc(void *old, size_t size)
{
    return memory(refused(ALLOCATION) ? NULL : __libc_realloc(old, size));
}

int pthread_create(pthread_t *thread, const pthread_attr_t *attributes, void *(*body)(void *), void *given)
{
    static int (*create)(pthread_t *, const pthread_attr_t *, void *(*)(void *), void *);
    if (!create)
        create = dlsym(RTLD_NEXT, "pthread_create");
    return refused(START) ? EAGAIN : create(thread, attributes, body, given);
}

int getentropy(void *bytes, size_t size)
{
    if (refused(DRAW)) {
        errno = EIO;
        return -1;
    }
    return syscall(SYS_getrandom, bytes, size, 0) == (long)size ? 0 : -1;
}

/* How many bytes a read or a write may move, or -1 where it is refused, with `*answer` in its place. */
static ssize_t room(enum kind asked, size_t size, ssize_t *answer)
{
    if (!refused(asked))
        return all_one_byte && size > 1 ? 1 : (ssize_t)size;
    if (how == ONE_BYTE)
        return size > 1 ? 1 : (ssize_t)size;
    *answer = how == NOTHING ? 0 : -1;
    errno = how == INTERRUPT ? EINTR : EIO;
    return -1;
}

ssize_t read(int file, void *bytes, size_t size)
{
    ssize_t answer = 0;
    ssize_t most = room(READ, size, &answer);
    if (most < 0)
        return answer;
    answer = syscall(SYS_read, file, bytes, (size_t)most);
    if (counts && answer > 0)
        atomic_fetch_add(&counts->bytes_read, answer);
    return answer;
}

ssize_t write(int file, const void *bytes, size_t size)
{
    ssize_t answer = 0;
    ssize_t most = room(WRITE, size, &answer);
    if (most < 0)
        return answer;
    answer = syscall(SYS_write, file, bytes, (size_t)most);
    if (counts && answer > 0)
        atomic_fetch_add(&counts->bytes_written, answer);
    return answer;
}
