// What the toolchain's own C code defines for x86-64 alone, as far as the program `mic` calls it: memory, the number of the
// last error, and the words that the program was called with. scripts/make-arm64 links it.
#include <errno.h>
#include <stddef.h>
#include <stdint.h>
#include <stdlib.h>

// Memory: whether there is any, and where. Where there is none, the address is one that nobody uses.
struct Tried {
    uint64_t is_there;
    void *at;
};

static char nowhere[16];

static struct Tried tried(void *at) {
    struct Tried tried = {at != NULL, at ? at : nowhere};
    return tried;
}

// The C library aligns to 16 bytes, and no type of the program to more; what is, is refused.
struct Tried rattle_alloc(size_t bytes, size_t alignment) { return tried(alignment <= 16 ? malloc(bytes ? bytes : 1) : NULL); }

struct Tried rattle_realloc(void *old, size_t kept, size_t bytes, size_t alignment) {
    (void)kept;
    return tried(alignment <= 16 ? realloc(old, bytes ? bytes : 1) : NULL);
}

void rattle_dealloc(void *at) { free(at); }

int rattle_errno(void) { return errno; }
void rattle_set_errno(int number) { errno = number; }

static int word_count;
static char **words;

// The C library passes the words to each function that runs before `main`.
__attribute__((constructor)) static void keep_words(int count, char **given) {
    word_count = count;
    words = given;
}

size_t rattle_arg_count(void) { return (size_t)word_count; }

// Copies a word, and returns its length: -1 where there is no such word, -2 where it has more bytes than there is room.
intptr_t rattle_arg(size_t index, char *to, size_t room) {
    if (index >= (size_t)word_count || !words[index]) return -1;
    size_t length = 0;
    for (; words[index][length]; length++) {
        if (length == room) return -2;
        to[length] = words[index][length];
    }
    return (intptr_t)length;
}
