// Preloaded into a program, makes one call of one kind fail. REFUSE_KIND and REFUSE_AT say which one, from 1; how many such calls there
// were goes to the file REFUSE_COUNT.
#define _GNU_SOURCE
#include <dlfcn.h>
#include <errno.h>
#include <fcntl.h>
#include <stdarg.h>
#include <stdio.h>
#include <stdlib.h>
#include <string.h>
#include <unistd.h>

enum kind { NONE, MEMORY, OPEN, READ, WRITE, SHORT_READ, SHORT_WRITE };
static const char *const names[] = {"none", "memory", "open", "read", "write", "short-read", "short-write"};

static enum kind kind;
static long at, calls;

static void *(*real_malloc)(size_t);
static void *(*real_realloc)(void *, size_t);
static ssize_t (*real_read)(int, void *, size_t);
static ssize_t (*real_write)(int, const void *, size_t);
static int (*real_open)(const char *, int, ...);
static int (*real_openat)(int, const char *, int, ...);

__attribute__((constructor)) static void begin(void) {
    real_malloc = dlsym(RTLD_NEXT, "malloc");
    real_realloc = dlsym(RTLD_NEXT, "realloc");
    real_read = dlsym(RTLD_NEXT, "read");
    real_write = dlsym(RTLD_NEXT, "write");
    real_open = dlsym(RTLD_NEXT, "open");
    real_openat = dlsym(RTLD_NEXT, "openat");
    const char *name = getenv("REFUSE_KIND"), *number = getenv("REFUSE_AT");
    for (int k = NONE; name && k <= SHORT_WRITE; k++)
        if (strcmp(name, names[k]) == 0) kind = k;
    at = number ? atol(number) : 0;
}

__attribute__((destructor)) static void end(void) {
    const char *file = getenv("REFUSE_COUNT");
    long count = calls;
    kind = NONE;
    if (!file) return;
    FILE *to = fopen(file, "w");
    if (to) { fprintf(to, "%ld\n", count); fclose(to); }
}

// Whether this call is the one that fails.
static int fails(enum kind of) { return kind == of && ++calls == at; }

void *malloc(size_t size) {
    if (fails(MEMORY)) { errno = ENOMEM; return NULL; }
    return real_malloc(size);
}

void *realloc(void *old, size_t size) {
    if (fails(MEMORY)) { errno = ENOMEM; return NULL; }
    return real_realloc(old, size);
}

ssize_t read(int file, void *into, size_t size) {
    if (fails(READ)) { errno = EIO; return -1; }
    return real_read(file, into, fails(SHORT_READ) && size > 1 ? 1 : size);
}

ssize_t write(int file, const void *from, size_t size) {
    if (fails(WRITE)) { errno = EIO; return -1; }
    return real_write(file, from, fails(SHORT_WRITE) && size > 1 ? 1 : size);
}

ssize_t __write(int file, const void *from, size_t size) { return write(file, from, size); }

int open(const char *name, int flags, ...) {
    va_list rest;
    va_start(rest, flags);
    int mode = flags & O_CREAT ? va_arg(rest, int) : 0;
    va_end(rest);
    if (fails(OPEN)) { errno = EIO; return -1; }
    return real_open(name, flags, mode);
}

int openat(int folder, const char *name, int flags, ...) {
    va_list rest;
    va_start(rest, flags);
    int mode = flags & O_CREAT ? va_arg(rest, int) : 0;
    va_end(rest);
    if (fails(OPEN)) { errno = EIO; return -1; }
    return real_openat(folder, name, flags, mode);
}
