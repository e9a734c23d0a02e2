/* What mic1.c and mic2.c share: memory, console, files, the ends of a run and its counts.
 *
 * The console does what that of `mic` does. Written bytes are kept until there are 4,096, or the program asks for
 * input, or the run ends, and then go out by one call. A file is read ahead, and the run ends at the byte after the last
 * one that the program asked for; any other input is read byte by byte. After the end of input nothing is asked again.
 */
#ifndef MACHINE_H
#define MACHINE_H

#include <errno.h>
#include <inttypes.h>
#include <stdint.h>
#include <stdio.h>
#include <stdlib.h>
#include <string.h>
#include <unistd.h>

#define INLINED static inline __attribute__((always_inline))
#define SELDOM __attribute__((noinline, cold))
#define unlikely(it) __builtin_expect(!!(it), 0)

#if defined PLAIN || defined ALIKE
enum { BY_SHAPE = 0 };
#else
enum { BY_SHAPE = 1 };
#endif

enum {
    WORDS = 512,         /* of the control store */
    STACK_END = 0x10000, /* the first word address after the memory */
    POOL = 0x4000,
    FRAME = 0x8000,
    MOST_KEPT = 4096,
    DRIFT = 1024, /* so many cycles without a boundary end a run */
    HALTS = 0x0FF,
    FAILS = 0x0FE
};
#define CONSOLE 0xFFFFFFFDu

enum end { HALT, ERROR, BOUND, STACK_LIMIT, READ_FAULT, WRITE_FAULT, OUT_OF_MAP, ADRIFT };

/* A run: its counts as of the last boundary, or of the reset where there was none, and how it ended. No two of what a
 * boundary sets lie side by side: gcc would store them as one vector, which takes longer. */
struct run {
    uint64_t cycles;
    uint32_t at;
    uint64_t boundaries;
    uint32_t sp;
    uint64_t bound;
    uint32_t lv, refused; /* `refused` is the word address of an out-of-map access */
    enum end end;
};

static void fail(const char *what) {
    fprintf(stderr, "%s\n", what);
    exit(64);
}

/* The console. */

static unsigned char kept[MOST_KEPT];
static size_t kept_count;

/* Bytes of the input that the program did not ask for yet. */
static unsigned char ahead[1 << 16];
static size_t ahead_at, ahead_end, most_ahead;
static int input_ended;

static int flush_kept(void) {
    for (size_t done = 0; done < kept_count;) {
        ssize_t count = write(1, kept + done, kept_count - done);
        if (count < 0 && errno == EINTR) continue;
        if (count <= 0) {
            kept_count = 0;
            return 0;
        }
        done += (size_t)count;
    }
    kept_count = 0;
    return 1;
}

/* 0 where the output failed. */
static inline int give(uint32_t it) {
    if (unlikely(kept_count == MOST_KEPT) && !flush_kept()) return 0;
    kept[kept_count++] = (unsigned char)it;
    return 1;
}

/* 0 where the input failed. */
static SELDOM int read_ahead(void) {
    ssize_t count;
    if (!most_ahead) most_ahead = lseek(0, 0, SEEK_CUR) < 0 ? 1 : sizeof ahead;
    do count = read(0, ahead, most_ahead);
    while (count < 0 && errno == EINTR);
    if (count < 0) return 0;
    ahead_at = 0;
    ahead_end = (size_t)count;
    input_ended = count == 0;
    return 1;
}

/* 0 where a stream failed; `end` is then which. */
static inline int take(uint32_t *it, enum end *end) {
    if (kept_count && !flush_kept()) {
        *end = WRITE_FAULT;
        return 0;
    }
    if (unlikely(ahead_at == ahead_end) && !input_ended && !read_ahead()) {
        *end = READ_FAULT;
        return 0;
    }
    *it = input_ended ? 0 : ahead[ahead_at++];
    return 1;
}

/* Goes back to the byte after the last one that the program asked for. */
static void leave_the_rest(void) {
    if (ahead_at != ahead_end) (void)lseek(0, -(off_t)(ahead_end - ahead_at), SEEK_CUR);
}

/* Why an access outside of memory is refused. */
static enum end refusal(int is_write, uint32_t address) {
    return is_write && address < 0x80000000u ? STACK_LIMIT : OUT_OF_MAP;
}

/* The memory. With ALIKE it is in pages as that of `mic` is: a page gets a frame of its own when it is first written,
 * and until then reads the first frame, which stays 0. */
#ifdef ALIKE
enum { PAGE = 1024 };

struct memory {
    uint32_t frames[STACK_END + PAGE];
    size_t page[STACK_END / PAGE]; /* where the frame of each page begins */
    size_t made;
};

static SELDOM void add_frame(struct memory *memory, uint32_t page) {
    memory->made += PAGE;
    memory->page[page] = memory->made;
}

INLINED uint32_t word_at(const struct memory *memory, uint32_t at) {
    return memory->frames[memory->page[at / PAGE] + at % PAGE];
}

INLINED void set_word(struct memory *memory, uint32_t at, uint32_t it) {
    if (unlikely(!memory->page[at / PAGE])) add_frame(memory, at / PAGE);
    memory->frames[memory->page[at / PAGE] + at % PAGE] = it;
}
#else
struct memory {
    uint32_t words[STACK_END];
};

INLINED uint32_t word_at(const struct memory *memory, uint32_t at) { return memory->words[at]; }

INLINED void set_word(struct memory *memory, uint32_t at, uint32_t it) { memory->words[at] = it; }
#endif

/* The byte at a byte address of memory; the first of a word is its most significant. */
INLINED uint32_t byte_at(const struct memory *memory, uint32_t at) {
#if !defined ALIKE && defined __BYTE_ORDER__ && __BYTE_ORDER__ == __ORDER_LITTLE_ENDIAN__
    return ((const unsigned char *)memory->words)[at ^ 3];
#else
    return word_at(memory, at / 4) >> 8 * (3 - at % 4) & 255;
#endif
}

/* A cycle's value and its destinations, as places in a machine's list of registers.
 *
 * All operations of the ALU but AND and OR are one sum, of A inverted or not, B, and the carry into slice 0. NOT B is
 * a sum with B on the left. A bus that is not enabled reads the place that is 0.
 */
struct value {
    uint32_t invert, carry;
    uint8_t a, b, to, also; /* `to` and `also` take the value */
    uint8_t logic;          /* '&', '|' or 0 */
    uint8_t left_by, right_by;
    uint8_t others, other[7]; /* destinations after the second */
};

/* Decodes SLL8 .. INC, of eight bits; `zero` is the place that is 0. */
static void decode_alu(struct value *it, unsigned bits, uint8_t a, uint8_t b, uint8_t zero) {
    unsigned operation = bits >> 4 & 3, ena = bits >> 3 & 1, enb = bits >> 2 & 1;
    it->a = ena ? a : zero;
    it->b = enb ? b : zero;
    it->invert = bits & 2 ? UINT32_MAX : 0;
    it->carry = operation == 3 && bits & 1;
    it->left_by = bits & 128 ? 8 : 0;
    it->right_by = bits & 64 ? 1 : 0;
    if (operation == 0) it->logic = '&';
    /* Where one side of an OR is 0, it is a sum. */
    if (operation == 1 && enb && (ena || it->invert)) it->logic = '|';
    if (operation == 2) {
        it->a = it->b;
        it->b = zero;
        it->invert = UINT32_MAX;
    }
}

/* Decodes the nine bits of C, from MAR on; `sink` takes what has no destination. */
static void decode_destinations(struct value *it, unsigned c, const uint8_t places[9], uint8_t sink) {
    unsigned count = 0;
    it->to = it->also = sink;
    for (unsigned i = 0; i < 9; i++) {
        if (!(c >> i & 1)) continue;
        if (count == 0) it->to = places[i];
        if (count == 1) it->also = places[i];
        if (count > 1) it->other[it->others++] = places[i];
        count++;
    }
}

/* Whether it is more than a sum with at most two destinations. */
static int is_more(const struct value *it) {
    return it->logic || it->left_by || it->right_by || it->others;
}

/* With ALIKE a sum is that of 32 slices, as in `mic`: each hands on a carry that is made in it or passes through it. In
 * most sums none is handed on twice. */
INLINED uint32_t sum_of(uint32_t a, uint32_t b, uint32_t carry) {
#ifdef ALIKE
    uint32_t passed = a | b, made = (a & b) | (passed & carry);
    if (passed & made << 1) {
        made |= passed & made << 1, passed &= passed << 1;
        made |= passed & made << 2, passed &= passed << 2;
        made |= passed & made << 4, passed &= passed << 4;
        made |= passed & made << 8, passed &= passed << 8;
        made |= passed & made << 16;
    }
    return a ^ b ^ (made << 1 | carry);
#else
    return a + b + carry;
#endif
}

/* The value of the ALU. */
INLINED uint32_t alu_of(const struct value *it, const uint32_t *r, int more) {
    uint32_t a = r[it->a] ^ it->invert, b = r[it->b];
    if (more && it->logic) return it->logic == '&' ? a & b : a | b;
    return sum_of(a, b, it->carry);
}

/* With ALIKE, what was on the buses is kept, as in `mic`. */
struct buses {
    const void *word;
    uint32_t a, b;
};

INLINED void keep(struct buses *buses, const void *word, const struct value *it, const uint32_t *r) {
#ifdef ALIKE
    *buses = (struct buses){word, r[it->a], r[it->b]};
#else
    (void)buses, (void)word, (void)it, (void)r;
#endif
}

INLINED uint32_t shifted(const struct value *it, uint32_t alu, int more) {
    return more ? (uint32_t)((int32_t)(alu << it->left_by) >> it->right_by) : alu;
}

INLINED void store_value(const struct value *it, uint32_t *r, uint32_t c, int more) {
    r[it->to] = c;
    r[it->also] = c;
    if (more)
        for (unsigned i = 0; i < it->others; i++) r[it->other[i]] = c;
}

/* Files. */

static uint32_t four(const unsigned char *p) {
    return (uint32_t)p[0] << 24 | (uint32_t)p[1] << 16 | (uint32_t)p[2] << 8 | p[3];
}

static size_t read_all(const char *name, unsigned char *into, size_t most) {
    FILE *file = fopen(name, "rb");
    if (!file) fail("cannot read");
    size_t size = fread(into, 1, most, file);
    fclose(file);
    return size;
}

/* The 512 words of a store file that `mic micro` wrote. */
static void read_store(const char *name, const char *magic, uint64_t words[WORDS]) {
    static unsigned char bytes[4 + WORDS * 5 + 1];
    if (read_all(name, bytes, sizeof bytes) != 4 + WORDS * 5 || memcmp(bytes, magic, 4)) fail("no control store of this machine");
    for (int at = 0; at < WORDS; at++) {
        const unsigned char *p = bytes + 4 + 5 * at;
        words[at] = (uint64_t)p[0] << 32 | four(p + 1);
    }
}

static void read_image(const char *name, struct memory *memory) {
    static unsigned char bytes[1 << 20];
    size_t size = read_all(name, bytes, sizeof bytes), at = 4;
    if (size < 4 || four(bytes) != 0x1DEADFAD) fail("no image");
    while (at + 8 <= size) {
        uint32_t origin = four(bytes + at), length = four(bytes + at + 4);
        const unsigned char *p = bytes + at + 8;
        if (length > 0x10000 || at + 8 + length > size) fail("image is cut off");
        for (uint32_t i = 0; i < length; i++) {
            uint32_t word = (origin ? POOL : 0) + i / 4;
            set_word(memory, word, word_at(memory, word) | (uint32_t)p[i] << (8 * (3 - i % 4)));
        }
        at += 8 + length;
    }
}

/* `left` cycles were left before the run would have been adrift. */
INLINED void at_boundary(struct run *run, uint32_t left, uint32_t at, uint32_t sp, uint32_t lv) {
    run->cycles += DRIFT - left;
    run->boundaries++;
    run->at = at;
    run->sp = sp;
    run->lv = lv;
}

/* The first lines of the report, for a run that ended `further` cycles after its last boundary; gives the exit status. */
static int report(const struct run *run, uint64_t further) {
    static const char *const names[] = {"halt", "error", "bound", "stack-limit", "read-fault", "write-fault", "out-of-map", "adrift"};
    static const int statuses[] = {0, 1, 2, 3, 70, 71, 68, 69};
    enum end end = run->end;
    uint64_t reached = run->boundaries != 0;
    /* The last boundary's instruction is completed by these two ends alone. */
    uint64_t instructions = run->boundaries - (end == HALT || end == ERROR ? 0 : reached);
    fprintf(stderr, "end %s", names[end]);
    if (end == OUT_OF_MAP) fprintf(stderr, " at %08" PRIx32, run->refused);
    fprintf(stderr, "\ncycles %" PRIu64 " instructions %" PRIu64 "\n", run->cycles + (end == STACK_LIMIT && reached ? 0 : further), instructions);
    if (reached)
        fprintf(stderr, "boundary %" PRIu64 " at %08" PRIx32 " sp %08" PRIx32 " lv %08" PRIx32 "\n", run->cycles, run->at, run->sp, run->lv);
    else
        fprintf(stderr, "boundary none\n");
    return statuses[end];
}

#endif
