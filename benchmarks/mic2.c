/* Mic-2 in C, as fast as we could make it: the opponent of `mic run --machine mic2` in this folder's comparison.
 *
 *     cc -O2 -o mic2 mic2.c                cc -O2 -DPLAIN -o mic2 mic2.c                cc -O2 -DALIKE -o mic2 mic2.c
 *     mic2 STORE ENTRY LOCALS IMAGE BOUND
 *
 * STORE is a file that `mic micro --machine mic2` wrote, ENTRY the address of Main1 in hexadecimal, LOCALS the number
 * of main's locals. It clocks any control store word by word, and its output, report and status are those of `mic run`.
 *
 * It is made as mic1.c is: a function for each usual shape of word and what arrives at its edge, and tail calls from
 * one to the next; or, with PLAIN or ALIKE, one function for all words. What arrives is here a word that was read, and
 * the fetch unit's pending word: none, one, or the first after a jump. The unit reads whenever at most two bytes are
 * left. So where no word is pending, the queue has three bytes or more, and no demand stalls. Where a word arrives that
 * is not the first after a jump, more than two bytes are left, and none is read. Neither is tested.
 */
#include "machine.h"

/* The places: first the codes of the buses. Nothing is written to ZERO; SINK takes what has no destination. */
enum { MDR, PC, MBR1, MBR1U, SP, LV, CPP, TOS, OPC, MBR2, MBR2U, H, ZERO, MAR, SINK, PLACES };

/* The shape of a word: its access, with whether MAR is new; how many operand bytes it names; what else makes the next
 * address; and whether its value is more than a sum with at most two destinations. */
enum { NO_ACCESS, READ, READ_NEW, WRITE, WRITE_NEW, ACCESSES };
enum { MOST_BYTES = 2 };
enum { NO_JAM, JAM_BOUNDARY, JAM_FLAG, JAMS, JAM_BYTE };
enum { SUM, MORE };

/* The unit reads the next word where so many bytes are left, or fewer. */
enum { MOST_LEFT = 2 };

/* What arrives at the edge: a word that was read, and one of the fetch unit. */
enum { A_WORD = 1, PENDING = 2, AFTER_JUMP = 4, ARRIVALS = 6 };

/* `left` cycles are left before a run without a boundary ends; `word` is what was read; the queue has `have` bytes,
 * the first of which is the lowest. */
#define STATE const struct word *w, struct machine *m, uint32_t left, uint32_t word, uint64_t queue, uint32_t have
#define SAME w, m, left, word, queue, have

struct word;
struct machine;
typedef int function(STATE);

struct word {
    function *clock[ARRIVALS];
    const struct word *next;
    struct value value;
    uint16_t addr;
    uint8_t minus, zero; /* whether N and Z change the next address */
    uint8_t access, bytes, jam, jumps;
};

struct machine {
    uint32_t r[PLACES];
    uint32_t imar;
    struct run run;
    struct word store[WORDS];
    struct memory memory;
    struct buses buses;
};

static SELDOM int ended(enum end end, STATE) {
    const uint32_t *r = m->r;
    (void)word;
    m->run.end = flush_kept() ? end : WRITE_FAULT;
    leave_the_rest();
    int status = report(&m->run, DRIFT - left);
    fprintf(stderr, "MAR %08" PRIx32 " MDR %08" PRIx32 " PC %08" PRIx32 " BYTES ", r[MAR], r[MDR], r[PC]);
    if (!have) fprintf(stderr, "-");
    for (; have; have--, queue >>= 8) fprintf(stderr, "%02x", (unsigned)(queue & 255));
    fprintf(stderr, " IMAR %08" PRIx32 " SP %08" PRIx32 " LV %08" PRIx32 " CPP %08" PRIx32, m->imar, r[SP], r[LV], r[CPP]);
    fprintf(stderr, " TOS %08" PRIx32 " OPC %08" PRIx32 " H %08" PRIx32 " MPC %03x\n", r[TOS], r[OPC], r[H], (unsigned)(w - m->store));
    return status;
}

static SELDOM int refused(enum end end, uint32_t address, STATE) {
    m->run.refused = address;
    return ended(end, SAME);
}

/* The four bytes of a word, the first of which is the lowest. */
INLINED uint32_t bytes_of(uint32_t it) {
    return it << 24 | (it & 0xFF00) << 8 | (it >> 8 & 0xFF00) | it >> 24;
}

/* What the edge appends to the queue. At most two bytes are there, and none after a jump. */
INLINED void arrive(unsigned arrives, const struct machine *m, uint64_t *queue, uint32_t *have, uint32_t *imar) {
    uint32_t skip = arrives >= AFTER_JUMP ? m->r[PC] % 4 : 0;
    if (arrives < PENDING) return;
    *queue |= (uint64_t)(bytes_of(word_at(&m->memory, *imar)) >> 8 * skip) << 8 * *have;
    *have += 4 - skip;
    *imar += 1;
}

/* A cycle whose bytes are not there: only the fetch unit's edge. What was read waits. */
INLINED int stall(unsigned arrives, STATE) {
    uint32_t imar = m->imar, came = have, pending;
    uint64_t bytes = queue;
    arrive(arrives, m, &bytes, &came, &imar);
    pending = PENDING * (came <= MOST_LEFT);
    if (unlikely(imar >= STACK_END) && pending) return refused(OUT_OF_MAP, imar, SAME);
    m->imar = imar;
    return w->clock[(arrives & A_WORD) + pending](w, m, left - 1, word, bytes, came);
}

static function *const outside[ARRIVALS];

/* Clocks a word of this shape. Where `slow`, its access may be outside of memory. */
INLINED int cycle(unsigned access, unsigned bytes, unsigned jam, int more, int jumps, unsigned arrives, int slow, STATE) {
    uint32_t *r = m->r, read_word = 0, imar = m->imar, demand = bytes + (jam == JAM_BOUNDARY || jam == JAM_BYTE);
    int reads = access == READ || access == READ_NEW, writes = access == WRITE || access == WRITE_NEW, console = 0;
    unsigned pending = 0, dispatch = queue >> 8 * bytes & 255;
    if (unlikely(left == 0)) return ended(ADRIFT, SAME);
    if (arrives >= PENDING && demand > have) return stall(arrives, SAME);

    if (bytes == 1) {
        r[MBR1] = (uint32_t)(int32_t)(int8_t)(queue & 255);
        r[MBR1U] = queue & 255;
    }
    if (bytes == 2) {
        r[MBR2U] = (queue & 255) << 8 | (queue >> 8 & 255);
        r[MBR2] = (uint32_t)(int32_t)(int16_t)r[MBR2U];
    }
    uint32_t alu = alu_of(&w->value, r, more), c = shifted(&w->value, alu, more);
    keep(&m->buses, w, &w->value, r);

    uint64_t rest = queue >> 8 * demand;
    uint32_t stay = have - demand;
    if (jumps) {
        rest = stay = 0;
        imar = c / 4;
        pending = AFTER_JUMP;
    } else {
        arrive(arrives, m, &rest, &stay, &imar);
        if (arrives < PENDING ? demand != 0 : arrives >= AFTER_JUMP) pending = PENDING * (stay <= MOST_LEFT);
    }

    uint32_t mar = access == READ_NEW || access == WRITE_NEW ? c : r[MAR];
    if (access && unlikely(mar >= STACK_END)) {
        if (!slow) return outside[arrives](SAME);
        if (mar != CONSOLE) return refused(refusal(writes, mar), mar, SAME);
        console = 1;
    }
    if (unlikely(imar >= STACK_END) && pending) return refused(OUT_OF_MAP, imar, SAME);
    if (slow && console) {
        enum end fault = WRITE_FAULT;
        uint32_t mdr = arrives & A_WORD ? word : w->value.to == MDR || w->value.also == MDR ? c : r[MDR];
        if (writes ? !give(mdr) : !take(&read_word, &fault)) return ended(fault, SAME);
    }

    store_value(&w->value, r, c, more);
    if (arrives & A_WORD) r[MDR] = word;
    if (demand && !jumps) r[PC] += demand;
    if (jumps || arrives >= PENDING) m->imar = imar;
    if (writes && !console) set_word(&m->memory, mar, arrives & A_WORD ? word : r[MDR]);
    if (reads && !console) read_word = word_at(&m->memory, mar);

    const struct word *next = w->next;
    if (jam == JAM_BOUNDARY) next = &m->store[dispatch];
    if (jam == JAM_BYTE) next = &m->store[w->addr | dispatch];
    if (jam == JAM_FLAG) next += 256 * ((alu >> 31 & w->minus) | ((alu == 0) & w->zero));
    left--;
    if (jam == JAM_BOUNDARY) {
        at_boundary(&m->run, left, r[PC] - 1, r[SP], r[LV]);
        left = DRIFT;
        if (unlikely(m->run.cycles >= m->run.bound)) return ended(BOUND, next, m, left, 0, rest, stay);
    }
    return next->clock[(reads ? A_WORD : 0) + pending](next, m, left, read_word, rest, stay);
}

/* A function for each usual shape and what arrives. Of the rest, `jump` is for a sum that goes to PC, and `quiet` for any
 * other value, both without access and jam, and the second without bytes; `any` clocks all words. */

#define EACH_ARRIVAL(X, A, B, J) X(A, B, J, 0) X(A, B, J, 1) X(A, B, J, 2) X(A, B, J, 3) X(A, B, J, 4) X(A, B, J, 5)
#define EACH_JAM(X, A, B) EACH_ARRIVAL(X, A, B, 0) EACH_ARRIVAL(X, A, B, 1) EACH_ARRIVAL(X, A, B, 2)
#define EACH_DEMAND(X, A) EACH_JAM(X, A, 0) EACH_JAM(X, A, 1) EACH_JAM(X, A, 2)
#define EACH_SHAPE(X) EACH_DEMAND(X, 0) EACH_DEMAND(X, 1) EACH_DEMAND(X, 2) EACH_DEMAND(X, 3) EACH_DEMAND(X, 4)

#define DEFINED(A, B, J, R) \
    static int usual_##A##B##J##R(STATE) { return cycle(A, B, J, SUM, 0, R, 0, SAME); }
#define LISTED(A, B, J, R) [A][B][J][R] = usual_##A##B##J##R,
#define FOR_ARRIVAL(R) \
    static int jump_##R(STATE) { return cycle(NO_ACCESS, w->bytes, NO_JAM, SUM, 1, R, 0, SAME); } \
    static int quiet_##R(STATE) { return cycle(NO_ACCESS, 0, NO_JAM, MORE, 0, R, 0, SAME); } \
    static int any_##R(STATE) { return cycle(w->access, w->bytes, w->jam, MORE, w->jumps, R, 0, SAME); } \
    static int outside_##R(STATE) { return cycle(w->access, w->bytes, w->jam, MORE, w->jumps, R, 1, SAME); }
#define OF_EACH(NAME) {NAME##_0, NAME##_1, NAME##_2, NAME##_3, NAME##_4, NAME##_5}

EACH_SHAPE(DEFINED)
FOR_ARRIVAL(0)
FOR_ARRIVAL(1)
FOR_ARRIVAL(2)
FOR_ARRIVAL(3)
FOR_ARRIVAL(4)
FOR_ARRIVAL(5)

static function *const usual[ACCESSES][MOST_BYTES + 1][JAMS][ARRIVALS] = {EACH_SHAPE(LISTED)};
static function *const jump[ARRIVALS] = OF_EACH(jump);
static function *const quiet[ARRIVALS] = OF_EACH(quiet);
static function *const any[ARRIVALS] = OF_EACH(any);
static function *const outside[ARRIVALS] = OF_EACH(outside);

static int halts(STATE) { return ended(HALT, SAME); }
static int fails(STATE) { return ended(ERROR, SAME); }

static unsigned bytes_named(unsigned code) {
    return code == MBR1 || code == MBR1U ? 1 : code == MBR2 || code == MBR2U ? 2 : 0;
}

static function *const *functions_for(const struct word *w) {
    if (!BY_SHAPE) return any;
    if (!is_more(&w->value) && !w->jumps && w->jam != JAM_BYTE) return usual[w->access][w->bytes][w->jam];
    if (w->access || w->jam) return any;
    if (w->jumps) return is_more(&w->value) ? any : jump;
    return w->bytes ? any : quiet;
}

static void decode(struct machine *m, unsigned at, uint64_t bits) {
    static const uint8_t places[9] = {MAR, MDR, PC, SP, LV, CPP, TOS, OPC, H};
    struct word *w = &m->store[at];
    unsigned c = bits >> 10 & 511, mem = bits >> 8 & 3, jam = bits >> 27 & 7, a = bits >> 4 & 15, b = bits & 15;
    unsigned bytes_a = bytes_named(a), bytes_b = bytes_named(b);
    if (mem == 3 || (jam & 4 && jam & 3) || (bytes_a && bytes_b && bytes_a != bytes_b)) fail("a word of no statement");
    decode_alu(&w->value, bits >> 19 & 255, a < ZERO ? (uint8_t)a : ZERO, b < ZERO ? (uint8_t)b : ZERO, ZERO);
    decode_destinations(&w->value, c, places, SINK);
    w->addr = (uint16_t)(bits >> 30 & 511);
    w->next = &m->store[w->addr];
    w->minus = jam & 2 && w->addr < 256;
    w->zero = jam & 1 && w->addr < 256;
    w->access = mem == 1 ? c & 1 ? READ_NEW : READ : mem == 2 ? c & 1 ? WRITE_NEW : WRITE : NO_ACCESS;
    w->bytes = (uint8_t)(bytes_a ? bytes_a : bytes_b);
    w->jam = jam & 4 ? w->addr ? JAM_BYTE : JAM_BOUNDARY : jam ? JAM_FLAG : NO_JAM;
    w->jumps = c >> 2 & 1;
    for (unsigned i = 0; i < ARRIVALS; i++) w->clock[i] = at == HALTS ? halts : at == FAILS ? fails : functions_for(w)[i];
}

int main(int count, char **words) {
    static struct machine machine;
    static uint64_t bits[WORDS];
    struct machine *m = &machine;
    if (count != 6) fail("mic2 STORE ENTRY LOCALS IMAGE BOUND");
    read_store(words[1], "MIC2", bits);
    for (unsigned at = 0; at < WORDS; at++) decode(m, at, bits[at]);
    const struct word *entry = &m->store[strtoul(words[2], NULL, 16) % WORDS];
    read_image(words[4], &m->memory);
    m->run.bound = strtoull(words[5], NULL, 10);
    m->r[SP] = FRAME + (uint32_t)strtoul(words[3], NULL, 10) - 1;
    m->r[LV] = FRAME;
    m->r[CPP] = POOL;
    /* The queue is empty, and word 0 is pending. */
    return entry->clock[AFTER_JUMP](entry, m, DRIFT, 0, 0, 0);
}
