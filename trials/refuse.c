/* Loaded before the C library (LD_PRELOAD), this refuses allocations of the program that is run.
 *
 *   REFUSE_AT=N     the Nth call of malloc, calloc or realloc answers NULL
 *   REFUSE_FROM=N   so do that one and all after it
 *   REFUSE_LOG=F    at the end F gets a line: how many calls were made, how many before the first
 *                   file was created, and how many before the last
 *
 * Calls are counted from 1. realloc to nothing and free are never refused. */
#define _GNU_SOURCE
#include <dlfcn.h>
#include <errno.h>
#include <fcntl.h>
#include <stdarg.h>
#include <stdio.h>
#include <stdlib.h>
#include <string.h>
#include <unistd.h>

extern void *__libc_malloc(size_t);
extern void *__libc_calloc(size_t, size_t);
extern void *__libc_realloc(void *, size_t);

static long calls, at_first_created = -1, at_last_created = -1, refuse_at, refuse_from;
static int is_set;

static long number(const char *name) {
    const char *text = getenv(name);
    return text ? atol(text) : 0;
}

static int is_refused(void) {
    if (!is_set) {
        is_set = 1;
        refuse_at = number("REFUSE_AT");
        refuse_from = number("REFUSE_FROM");
    }
    calls++;
    if (calls == refuse_at || (refuse_from && calls >= refuse_from)) {
        errno = ENOMEM;
        return 1;
    }
    return 0;
}

void *malloc(size_t size) { return is_refused() ? NULL : __libc_malloc(size); }

void *calloc(size_t count, size_t size) { return is_refused() ? NULL : __libc_calloc(count, size); }

void *realloc(void *old, size_t size) {
    if (size == 0) return __libc_realloc(old, size);
    return is_refused() ? NULL : __libc_realloc(old, size);
}

int open(const char *name, int flags, ...) {
    static int (*real)(const char *, int, ...);
    va_list rest;
    va_start(rest, flags);
    mode_t mode = (flags & O_CREAT) ? va_arg(rest, mode_t) : 0;
    va_end(rest);
    if (!real) real = (int (*)(const char *, int, ...))dlsym(RTLD_NEXT, "open");
    int made = real(name, flags, mode);
    if (made >= 0 && (flags & O_CREAT)) {
        if (at_first_created < 0) at_first_created = calls;
        at_last_created = calls;
    }
    return made;
}

__attribute__((destructor)) static void tell(void) {
    const char *name = getenv("REFUSE_LOG");
    char line[100];
    if (!name) return;
    int length = snprintf(line, sizeof line, "%ld %ld %ld\n", calls, at_first_created, at_last_created);
    int log = open(name, O_WRONLY | O_CREAT | O_TRUNC, 0644);
    if (log < 0 || write(log, line, length) != length) _exit(99);
    close(log);
}
