/* Makes one allocation, read or write of a program fail, or all from one on. Loaded before the C library.

   FAULT_ALLOC, FAULT_READ, FAULT_WRITE: the number of the call that fails, from 1; with a + behind it, all from it on.
   FAULT_MOST: how many bytes a read or a write moves at most.
   FAULT_TELL: the descriptor to which the numbers of allocations, reads and writes are written in the end. */

#define _GNU_SOURCE
#include <dlfcn.h>
#include <errno.h>
#include <stdio.h>
#include <stdlib.h>
#include <unistd.h>

struct call { const char *name; long first, last, count; };

static struct call allocs = {"FAULT_ALLOC", 0, 0, 0}, reads = {"FAULT_READ", 0, 0, 0}, writes = {"FAULT_WRITE", 0, 0, 0};
static size_t most = (size_t)-1;
static int tell = -1;
static void *(*real_malloc)(size_t), *(*real_realloc)(void *, size_t);
static ssize_t (*real_read)(int, void *, size_t), (*real_write)(int, const void *, size_t);

static void begin_call(struct call *c) {
    const char *said = getenv(c->name);
    char *end;
    c->count = 0;
    if (!said) return;
    c->first = strtol(said, &end, 10);
    c->last = *end == '+' ? __LONG_MAX__ : c->first;
}

__attribute__((constructor)) static void begin(void) {
    real_malloc = dlsym(RTLD_NEXT, "malloc");
    real_realloc = dlsym(RTLD_NEXT, "realloc");
    real_read = dlsym(RTLD_NEXT, "read");
    real_write = dlsym(RTLD_NEXT, "write");
    if (getenv("FAULT_MOST")) most = (size_t)strtol(getenv("FAULT_MOST"), 0, 10);
    if (getenv("FAULT_TELL")) tell = (int)strtol(getenv("FAULT_TELL"), 0, 10);
    begin_call(&allocs);
    begin_call(&reads);
    begin_call(&writes);
}

__attribute__((destructor)) static void end(void) {
    if (tell >= 0) dprintf(tell, "%ld %ld %ld\n", allocs.count, reads.count, writes.count);
}

static int fails(struct call *c, int how) {
    long n = ++c->count;
    if (n < c->first || n > c->last) return 0;
    errno = how;
    return 1;
}

void *malloc(size_t size) {
    if (!real_malloc) real_malloc = dlsym(RTLD_NEXT, "malloc");
    return fails(&allocs, ENOMEM) ? 0 : real_malloc(size);
}

void *realloc(void *from, size_t size) {
    if (!real_realloc) real_realloc = dlsym(RTLD_NEXT, "realloc");
    return fails(&allocs, ENOMEM) ? 0 : real_realloc(from, size);
}

ssize_t read(int from, void *to, size_t size) {
    return fails(&reads, EIO) ? -1 : real_read(from, to, size < most ? size : most);
}

/* Standard error isn't counted, so that the line of a fault can be seen. */
ssize_t write(int to, const void *from, size_t size) {
    if (to == 1 && fails(&writes, EIO)) return -1;
    return real_write(to, from, to == 1 && size > most ? most : size);
}
