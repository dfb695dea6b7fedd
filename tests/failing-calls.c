/* Stands between a program and the C library, and has one call fail. tests/run-failing-calls preloads it.
 *
 * FAILING_CALL is `allocation`, `read` or `write`, and FAILING_AT says which call of that kind fails, counted from 1. Or it is
 * `room`, and there is room for FAILING_AT bytes. Only reads of standard input count, and writes to standard output. At the end
 * the file FAILING_COUNTS gets how many allocations, reads and writes there were.
 */
#define _GNU_SOURCE
#include <dlfcn.h>
#include <errno.h>
#include <limits.h>
#include <stdio.h>
#include <stdlib.h>
#include <string.h>
#include <unistd.h>

enum call { ALLOCATION, READ, WRITE, CALLS };

static const char *const names[CALLS] = {"allocation", "read", "write"};
static long made[CALLS];
static long failing_at[CALLS];
static long room = LONG_MAX;

static void *(*real_malloc)(size_t);
static void *(*real_realloc)(void *, size_t);
static ssize_t (*real_read)(int, void *, size_t);
static ssize_t (*real_write)(int, const void *, size_t);

static void begin(void) {
    const char *name = getenv("FAILING_CALL");
    const char *at = getenv("FAILING_AT");
    real_realloc = dlsym(RTLD_NEXT, "realloc");
    real_read = dlsym(RTLD_NEXT, "read");
    real_write = dlsym(RTLD_NEXT, "write");
    for (int call = 0; call < CALLS; call++)
        if (name && at && strcmp(name, names[call]) == 0)
            failing_at[call] = atol(at);
    if (name && at && strcmp(name, "room") == 0)
        room = atol(at);
    real_malloc = dlsym(RTLD_NEXT, "malloc");
}

/* Counts a call, and says whether it is the one that fails. */
static int fails(enum call call, int error) {
    made[call]++;
    if (made[call] != failing_at[call])
        return 0;
    errno = error;
    return 1;
}

void *malloc(size_t size) {
    if (!real_malloc)
        begin();
    return fails(ALLOCATION, ENOMEM) ? NULL : real_malloc(size);
}

void *realloc(void *old, size_t size) {
    if (!real_malloc)
        begin();
    return fails(ALLOCATION, ENOMEM) ? NULL : real_realloc(old, size);
}

ssize_t read(int file, void *bytes, size_t size) {
    if (!real_malloc)
        begin();
    return file == STDIN_FILENO && fails(READ, EIO) ? -1 : real_read(file, bytes, size);
}

ssize_t write(int file, const void *bytes, size_t size) {
    if (!real_malloc)
        begin();
    if (file != STDOUT_FILENO)
        return real_write(file, bytes, size);
    if (fails(WRITE, EIO))
        return -1;
    if (room == 0) {
        errno = ENOSPC;
        return -1;
    }
    ssize_t gone = real_write(file, bytes, (long)size < room ? size : (size_t)room);
    room -= gone > 0 ? gone : 0;
    return gone;
}

__attribute__((destructor)) static void tell(void) {
    long counts[CALLS];
    memcpy(counts, made, sizeof counts);
    memset(failing_at, 0, sizeof failing_at);
    const char *path = getenv("FAILING_COUNTS");
    FILE *file = path ? fopen(path, "w") : NULL;
    if (!file)
        return;
    fprintf(file, "%ld %ld %ld\n", counts[ALLOCATION], counts[READ], counts[WRITE]);
    fclose(file);
}
