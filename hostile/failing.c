/* Loaded before the C library's: one allocation, read or write fails, or each read and write moves one byte.
   HOSTILE_ALLOC=N, HOSTILE_READ=N, HOSTILE_WRITE=N: the N-th such call fails (from 1). HOSTILE_SHORT=1: reads and writes of one byte.
   HOSTILE_COUNT=FILE: at the end the numbers of allocations, reads of standard input and writes of standard output are written there. */
#define _GNU_SOURCE
#include <dlfcn.h>
#include <errno.h>
#include <fcntl.h>
#include <stdio.h>
#include <stdlib.h>
#include <string.h>
#include <sys/uio.h>
#include <unistd.h>

static unsigned long allocations, reads, writes;

static unsigned long number(const char *name)
{
    const char *text = getenv(name);
    return text ? strtoul(text, 0, 10) : 0;
}

static int refused(void)
{
    static unsigned long at = -1UL;
    if (at == -1UL)
        at = number("HOSTILE_ALLOC");
    return ++allocations == at;
}

extern void *__libc_malloc(size_t);
extern void *__libc_calloc(size_t, size_t);
extern void *__libc_realloc(void *, size_t);
extern void *__libc_memalign(size_t, size_t);

void *malloc(size_t n) { return refused() ? (errno = ENOMEM, NULL) : __libc_malloc(n); }
void *calloc(size_t n, size_t m) { return refused() ? (errno = ENOMEM, NULL) : __libc_calloc(n, m); }
void *realloc(void *p, size_t n) { return refused() ? (errno = ENOMEM, NULL) : __libc_realloc(p, n); }
void *aligned_alloc(size_t a, size_t n) { return refused() ? (errno = ENOMEM, NULL) : __libc_memalign(a, n); }
int posix_memalign(void **p, size_t a, size_t n)
{
    if (refused())
        return ENOMEM;
    *p = __libc_memalign(a, n);
    return *p ? 0 : ENOMEM;
}

static ssize_t (*next_read)(int, void *, size_t);
static ssize_t (*next_write)(int, const void *, size_t);

static void find(void)
{
    if (!next_read) {
        next_read = dlsym(RTLD_NEXT, "read");
        next_write = dlsym(RTLD_NEXT, "write");
    }
}

ssize_t read(int fd, void *buf, size_t n)
{
    find();
    if (fd == 0 && ++reads == number("HOSTILE_READ"))
        return errno = EIO, -1;
    if (fd == 0 && n > 1 && getenv("HOSTILE_SHORT"))
        n = 1;
    return next_read(fd, buf, n);
}

ssize_t write(int fd, const void *buf, size_t n)
{
    find();
    if (fd == 1 && ++writes == number("HOSTILE_WRITE"))
        return errno = EIO, -1;
    if (fd == 1 && n > 1 && getenv("HOSTILE_SHORT"))
        n = 1;
    return next_write(fd, buf, n);
}

__attribute__((destructor)) static void tell(void)
{
    const char *file = getenv("HOSTILE_COUNT");
    if (!file)
        return;
    find();
    char line[100];
    int n = snprintf(line, sizeof line, "%lu %lu %lu\n", allocations, reads, writes);
    int fd = open(file, O_WRONLY | O_CREAT | O_TRUNC, 0600);
    if (fd >= 0 && n > 0) {
        if (next_write(fd, line, n) != n)
            _exit(99);
        close(fd);
    }
}
