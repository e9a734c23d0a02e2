// Preloaded into mic, plants the bug at its edge that PLANTED names. scripts/test-run-cases shows that run-cases finds each.
#define _GNU_SOURCE
#include <dlfcn.h>
#include <fcntl.h>
#include <stdarg.h>
#include <stdlib.h>
#include <string.h>
#include <unistd.h>

enum { INPUT, OUTPUT, ERROR };

static const char *bug = "none";
static ssize_t (*real_read)(int, void *, size_t);
static ssize_t (*real_write)(int, const void *, size_t);
static off_t (*real_lseek)(int, off_t, int);
static int (*real_open)(const char *, int, ...);

static int is(const char *name) { return strcmp(bug, name) == 0; }

__attribute__((constructor)) static void begin(void) {
    real_read = dlsym(RTLD_NEXT, "read");
    real_write = dlsym(RTLD_NEXT, "write");
    real_lseek = dlsym(RTLD_NEXT, "lseek");
    real_open = dlsym(RTLD_NEXT, "open");
    if (getenv("PLANTED")) bug = getenv("PLANTED");
}

__attribute__((destructor)) static void end(void) {
    char byte;
    if (is("the rest of the input is taken")) while (real_read(INPUT, &byte, 1) > 0) continue;
    if (is("the status is always 0")) _exit(0);
    if (is("it does not end")) pause();
    if (is("it is ended by a signal")) abort();
    if (is("a file more is written")) close(real_open("more", O_WRONLY | O_CREAT, 0644));
}

// All bytes of the input, read whole at the first call, but the last one; or all of them twice.
static ssize_t read_changed(void *into, size_t size) {
    static char bytes[1 << 17];
    static ssize_t count = -1, at;
    if (count < 0) {
        ssize_t got;
        for (count = 0; (got = real_read(INPUT, bytes + count, sizeof bytes / 2 - count)) > 0; count += got) continue;
        if (is("the input is read twice")) memcpy(bytes + count, bytes, count), count *= 2;
        else if (count > 0) count--;
    }
    if ((ssize_t)size > count - at) size = count - at;
    memcpy(into, bytes + at, size);
    at += size;
    return size;
}

ssize_t read(int file, void *into, size_t size) {
    if (file == INPUT && (is("the input loses its last byte") || is("the input is read twice"))) return read_changed(into, size);
    if (file == INPUT && is("there is no input")) return 0;
    ssize_t got = real_read(file, into, size);
    if (file == INPUT && got > 0 && is("a byte of the input is changed")) *(char *)into ^= 1;
    return got < 0 && is("a failed read is the end") ? 0 : got;
}

// Writes the byte that the write before held back, and holds back the last one of these.
static ssize_t write_without_last(int file, const char *from, size_t size) {
    static char held[256];
    static int is_held[256];
    if (size == 0) return 0;
    if (is_held[file]) real_write(file, &held[file], 1);
    held[file] = from[size - 1], is_held[file] = 1;
    return real_write(file, from, size - 1) < 0 ? -1 : (ssize_t)size;
}

ssize_t write(int file, const void *from, size_t size) {
    if (file == ERROR && is("the report goes nowhere")) return size;
    if (file == ERROR && is("the report goes to the output")) file = OUTPUT;
    if ((file == OUTPUT && is("the output loses its last byte")) || (file == ERROR && is("the report loses its last byte"))
        || (file > ERROR && is("a written file loses its last byte")))
        return write_without_last(file, from, size);
    ssize_t wrote = real_write(file, from, size);
    return wrote < 0 && is("a failed write is none") ? (ssize_t)size : wrote;
}

ssize_t __write(int file, const void *from, size_t size) { return write(file, from, size); }

// Writes the byte that a file begins with once more.
static void write_again(const char *name) {
    char byte;
    int file = real_open(name, O_RDWR);
    if (pread(file, &byte, 1, 0) == 1 && pwrite(file, &byte, 1, 0) == 1) close(file);
}

off_t lseek(int file, off_t to, int whence) {
    if (file == INPUT && to != 0 && is("the rest of a file is not left")) return real_lseek(file, 0, SEEK_CUR);
    return real_lseek(file, to, whence);
}

int open(const char *name, int flags, ...) {
    va_list rest;
    va_start(rest, flags);
    int mode = flags & O_CREAT ? va_arg(rest, int) : 0;
    va_end(rest);
    if (flags & O_CREAT && is("a file is written elsewhere")) name = "elsewhere";
    if (!(flags & O_CREAT) && is("a file that is read is written")) write_again(name);
    if (!(flags & O_CREAT) && is("a file that is read is removed")) {
        int opened = real_open(name, flags);
        unlink(name);
        return opened;
    }
    return real_open(name, flags, mode);
}
