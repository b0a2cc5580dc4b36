// Stands before the C library of the program under test: lets the numbered request for memory fail, the numbered open or read, or the numbered write.
// The numbers come from the environment: FAIL_MEMORY, FAIL_READ, FAIL_WRITE. How many calls there were is written into the file CALLS.
#define _GNU_SOURCE
#include <dlfcn.h>
#include <errno.h>
#include <fcntl.h>
#include <stdarg.h>
#include <stdio.h>
#include <stdlib.h>
#include <unistd.h>

static long memory_calls, read_calls, write_calls;
static long failing_memory, failing_read, failing_write;
static void *(*real_malloc)(size_t);
static void *(*real_realloc)(void *, size_t);
static ssize_t (*real_read)(int, void *, size_t);
static ssize_t (*real_write)(int, const void *, size_t);
static int (*real_open)(const char *, int, ...);

static long number(const char *name) {
    const char *text = getenv(name);
    return text ? atol(text) : 0;
}

__attribute__((constructor)) static void begin(void) {
    real_realloc = dlsym(RTLD_NEXT, "realloc");
    real_read = dlsym(RTLD_NEXT, "read");
    real_write = dlsym(RTLD_NEXT, "write");
    real_open = dlsym(RTLD_NEXT, "open");
    failing_memory = number("FAIL_MEMORY");
    failing_read = number("FAIL_READ");
    failing_write = number("FAIL_WRITE");
    memory_calls = 0;
}

static int fails(long *calls, long failing, int error) {
    if (++*calls != failing) return 0;
    errno = error;
    return 1;
}

void *malloc(size_t size) {
    if (!real_malloc) real_malloc = dlsym(RTLD_NEXT, "malloc");
    return fails(&memory_calls, failing_memory, ENOMEM) ? NULL : real_malloc(size);
}

void *realloc(void *old, size_t size) {
    if (!real_realloc) real_realloc = dlsym(RTLD_NEXT, "realloc");
    return fails(&memory_calls, failing_memory, ENOMEM) ? NULL : real_realloc(old, size);
}

ssize_t read(int file, void *bytes, size_t size) {
    return fails(&read_calls, failing_read, EIO) ? -1 : real_read(file, bytes, size);
}

ssize_t write(int file, const void *bytes, size_t size) {
    return fails(&write_calls, failing_write, EIO) ? -1 : real_write(file, bytes, size);
}

int open(const char *path, int flags, ...) {
    va_list rest;
    va_start(rest, flags);
    int mode = va_arg(rest, int);
    va_end(rest);
    return fails(&read_calls, failing_read, EIO) ? -1 : real_open(path, flags, mode);
}

__attribute__((destructor)) static void end(void) {
    long memory = memory_calls, reads = read_calls, writes = write_calls;
    failing_memory = failing_read = failing_write = 0;
    const char *path = getenv("CALLS");
    FILE *out = path ? fopen(path, "w") : NULL;
    if (!out) return;
    fprintf(out, "%ld %ld %ld\n", memory, reads, writes);
    fclose(out);
}
