/* Mic-1 in C, as fast as we could make it: the opponent of `mic run` in this folder's comparison.
 *
 *     cc -O2 -o mic1 mic1.c                cc -O2 -DPLAIN -o mic1 mic1.c                cc -O2 -DALIKE -o mic1 mic1.c
 *     mic1 STORE ENTRY LOCALS IMAGE BOUND
 *
 * STORE is a file that `mic micro` wrote, ENTRY the address of Main1 in hexadecimal, LOCALS the number of main's
 * locals. It clocks any control store word by word, and its output, report and status are those of `mic run`.
 *
 * Each word is decoded once, when the store is loaded. The registers lie in one list, so a word's operands and
 * destinations are places in it. For each usual shape of word there is a function that clocks it with no test of its
 * control lines, and one for each of what can arrive at its edge: nothing, a word, a byte, or both. A function knows
 * what it has started, so it goes on to that function of the next word by a tail call, and nothing is tested there
 * either. The words at which a run ends, and that of a boundary, have functions of their own. What is left to test in a
 * cycle is the count of cycles since the boundary, and each address. An access outside of memory goes to a slow
 * function. Without the compiler's tail calls (-O0) the calls would fill the stack.
 *
 * With PLAIN all words are clocked by one function, which tests the decoded control lines in each cycle. With ALIKE it
 * also does what `mic` does and a run does not show: sums by 32 slices, memory in pages, and the buses are kept.
 */
#include "machine.h"

/* The places: first the codes of the B bus. Nothing is written to ZERO; SINK takes what has no destination. */
enum { MDR, PC, MBR, MBRU, SP, LV, CPP, TOS, OPC, ZERO, H, MAR, SINK, PLACES };

/* The shape of a word: its access, with whether MAR is new; its fetch, with whether PC is new; what else makes the
 * next address; and whether its value is more than a sum with at most two destinations. */
enum { NO_ACCESS, READ, READ_NEW, WRITE, WRITE_NEW, ACCESSES };
enum { NO_FETCH, FETCH_NEW, FETCH };
enum { NO_JAM, JAM_BYTE, JAM_FLAG, JAMS };
enum { SUM, MORE };

/* What arrives at the edge. */
enum { A_WORD = 1, A_BYTE = 2, ARRIVALS = 4 };

/* `left` cycles are left before a run without a boundary ends; `word` and `byte` are what arrives. */
#define STATE const struct word *w, struct machine *m, uint32_t left, uint32_t word, uint32_t byte
#define SAME w, m, left, word, byte

struct word;
struct machine;
typedef int function(STATE);

struct word {
    function *clock[ARRIVALS];
    const struct word *next;
    struct value value;
    uint16_t addr;
    uint8_t minus, zero; /* whether N and Z change the next address */
    uint8_t access, fetch, jam;
};

struct machine {
    uint32_t r[PLACES];
    struct run run;
    function *entry[ARRIVALS]; /* what clocks the word of the boundary */
    struct word store[WORDS];
    struct memory memory;
    struct buses buses;
};

static SELDOM int ended(enum end end, const struct word *w, struct machine *m, uint32_t left) {
    const uint32_t *r = m->r;
    m->run.end = flush_kept() ? end : WRITE_FAULT;
    leave_the_rest();
    int status = report(&m->run, DRIFT - left);
    fprintf(stderr, "MAR %08" PRIx32 " MDR %08" PRIx32 " PC %08" PRIx32 " MBR %02" PRIx32, r[MAR], r[MDR], r[PC], r[MBRU]);
    fprintf(stderr, " SP %08" PRIx32 " LV %08" PRIx32 " CPP %08" PRIx32 " TOS %08" PRIx32, r[SP], r[LV], r[CPP], r[TOS]);
    fprintf(stderr, " OPC %08" PRIx32 " H %08" PRIx32 " MPC %03x\n", r[OPC], r[H], (unsigned)(w - m->store));
    return status;
}

static function *const outside[ARRIVALS];

/* Clocks a word of this shape. Where `slow`, its access may be outside of memory. */
INLINED int cycle(unsigned access, unsigned fetch, unsigned jam, int more, unsigned arrives, int slow, STATE) {
    uint32_t *r = m->r, read_word = 0, read_byte = 0;
    int reads = access == READ || access == READ_NEW, writes = access == WRITE || access == WRITE_NEW, console = 0;
    if (unlikely(left == 0)) return ended(ADRIFT, w, m, left);

    uint32_t alu = alu_of(&w->value, r, more), c = shifted(&w->value, alu, more);
    keep(&m->buses, w, &w->value, r);
    uint32_t mar = access == READ_NEW || access == WRITE_NEW ? c : r[MAR];
    uint32_t pc = fetch == FETCH_NEW ? c : r[PC];
    if (access && unlikely(mar >= STACK_END)) {
        if (!slow) return outside[arrives](SAME);
        if (mar != CONSOLE) {
            m->run.refused = mar;
            return ended(refusal(writes, mar), w, m, left);
        }
        console = 1;
    }
    if (fetch && unlikely(pc / 4 >= STACK_END)) {
        m->run.refused = pc / 4;
        return ended(OUT_OF_MAP, w, m, left);
    }
    if (slow && console) {
        enum end fault = WRITE_FAULT;
        uint32_t mdr = arrives & A_WORD ? word : w->value.to == MDR || w->value.also == MDR ? c : r[MDR];
        if (writes ? !give(mdr) : !take(&read_word, &fault)) return ended(fault, w, m, left);
    }

    store_value(&w->value, r, c, more);
    if (arrives & A_WORD) r[MDR] = word;
    if (arrives & A_BYTE) {
        r[MBR] = (uint32_t)(int32_t)(int8_t)byte;
        r[MBRU] = byte;
    }
    if (writes && !console) set_word(&m->memory, mar, arrives & A_WORD ? word : r[MDR]);
    if (reads && !console) read_word = word_at(&m->memory, mar);
    if (fetch) read_byte = byte_at(&m->memory, pc);

    const struct word *next = w->next;
    if (jam == JAM_BYTE) next = &m->store[w->addr | (arrives & A_BYTE ? byte : r[MBRU])];
    if (jam == JAM_FLAG) next += 256 * ((alu >> 31 & w->minus) | ((alu == 0) & w->zero));
    return next->clock[(reads ? A_WORD : 0) | (fetch ? A_BYTE : 0)](next, m, left - 1, read_word, read_byte);
}

/* A function for each usual shape and what arrives. Of the rest, `quiet` is for MORE without access, fetch and jam, and
 * `any` clocks all words. */

#define EACH_ARRIVAL(X, A, F, J) X(A, F, J, 0) X(A, F, J, 1) X(A, F, J, 2) X(A, F, J, 3)
#define EACH_JAM(X, A, F) EACH_ARRIVAL(X, A, F, 0) EACH_ARRIVAL(X, A, F, 1) EACH_ARRIVAL(X, A, F, 2)
#define EACH_FETCH(X, A) EACH_JAM(X, A, 0) EACH_JAM(X, A, 1)
#define EACH_SHAPE(X) EACH_FETCH(X, 0) EACH_FETCH(X, 1) EACH_FETCH(X, 2) EACH_FETCH(X, 3) EACH_FETCH(X, 4)

#define DEFINED(A, F, J, R) \
    static int usual_##A##F##J##R(STATE) { return cycle(A, F, J, SUM, R, 0, SAME); }
#define LISTED(A, F, J, R) [A][F][J][R] = usual_##A##F##J##R,
#define FOR_ARRIVAL(R) \
    static int quiet_##R(STATE) { return cycle(NO_ACCESS, NO_FETCH, NO_JAM, MORE, R, 0, SAME); } \
    static int any_##R(STATE) { return cycle(w->access, w->fetch, w->jam, MORE, R, 0, SAME); } \
    static int outside_##R(STATE) { return cycle(w->access, w->fetch, w->jam, MORE, R, 1, SAME); } \
    static int boundary_##R(STATE) { \
        at_boundary(&m->run, left, m->r[PC], m->r[SP], m->r[LV]); \
        if (unlikely(m->run.cycles >= m->run.bound)) return ended(BOUND, w, m, DRIFT); \
        return m->entry[R](w, m, DRIFT, word, byte); \
    }
#define OF_EACH(NAME) {NAME##_0, NAME##_1, NAME##_2, NAME##_3}

EACH_SHAPE(DEFINED)
FOR_ARRIVAL(0)
FOR_ARRIVAL(1)
FOR_ARRIVAL(2)
FOR_ARRIVAL(3)

static function *const usual[ACCESSES][2][JAMS][ARRIVALS] = {EACH_SHAPE(LISTED)};
static function *const quiet[ARRIVALS] = OF_EACH(quiet);
static function *const any[ARRIVALS] = OF_EACH(any);
static function *const outside[ARRIVALS] = OF_EACH(outside);
static function *const boundary[ARRIVALS] = OF_EACH(boundary);

static int halts(STATE) {
    (void)word, (void)byte;
    return ended(HALT, w, m, left);
}

static int fails(STATE) {
    (void)word, (void)byte;
    return ended(ERROR, w, m, left);
}

static function *const *functions_for(const struct word *w) {
    if (!BY_SHAPE) return any;
    if (!is_more(&w->value) && w->fetch != FETCH) return usual[w->access][w->fetch][w->jam];
    return w->access || w->fetch || w->jam ? any : quiet;
}

static void decode(struct machine *m, unsigned at, uint64_t bits) {
    static const uint8_t places[9] = {MAR, MDR, PC, SP, LV, CPP, TOS, OPC, H};
    struct word *w = &m->store[at];
    unsigned c = bits >> 7 & 511, mem = bits >> 5 & 3, jam = bits >> 24 & 7, b = bits & 15;
    if (mem == 3 || (jam & 4 && jam & 3)) fail("a word of no statement");
    decode_alu(&w->value, bits >> 16 & 255, H, b < ZERO ? (uint8_t)b : ZERO, ZERO);
    decode_destinations(&w->value, c, places, SINK);
    w->addr = (uint16_t)(bits >> 27 & 511);
    w->next = &m->store[w->addr];
    w->minus = jam & 2 && w->addr < 256;
    w->zero = jam & 1 && w->addr < 256;
    w->access = mem == 1 ? c & 1 ? READ_NEW : READ : mem == 2 ? c & 1 ? WRITE_NEW : WRITE : NO_ACCESS;
    w->fetch = bits & 16 ? c & 4 ? FETCH_NEW : FETCH : NO_FETCH;
    w->jam = jam & 4 ? JAM_BYTE : jam ? JAM_FLAG : NO_JAM;
    for (unsigned i = 0; i < ARRIVALS; i++) w->clock[i] = at == HALTS ? halts : at == FAILS ? fails : functions_for(w)[i];
}

int main(int count, char **words) {
    static struct machine machine;
    static uint64_t bits[WORDS];
    struct machine *m = &machine;
    if (count != 6) fail("mic1 STORE ENTRY LOCALS IMAGE BOUND");
    read_store(words[1], "MIC1", bits);
    for (unsigned at = 0; at < WORDS; at++) decode(m, at, bits[at]);
    struct word *entry = &m->store[strtoul(words[2], NULL, 16) % WORDS];
    memcpy(m->entry, entry->clock, sizeof m->entry);
    memcpy(entry->clock, boundary, sizeof boundary);
    read_image(words[4], &m->memory);
    m->run.bound = strtoull(words[5], NULL, 10);
    m->r[PC] = UINT32_MAX;
    m->r[SP] = FRAME + (uint32_t)strtoul(words[3], NULL, 10) - 1;
    m->r[LV] = FRAME;
    m->r[CPP] = POOL;
    /* The reset is no boundary. */
    return m->entry[0](entry, m, DRIFT, 0, 0);
}
