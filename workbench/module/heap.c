// The heap of the module: the three functions that the compiled crate calls for memory, and two for the page.
//
// Memory is handed out in blocks of fixed classes of size: 16 bytes, 24, 32, 48, 64 and so on, each power of two and one
// and a half times it. A freed block waits in the list of its class. New blocks come from the end of the memory, which
// grows by the pages that are missing. Nothing else is kept, and the memory of an instance goes with it.

typedef unsigned char u8;
typedef unsigned long long u64;
typedef __UINTPTR_TYPE__ address;

enum {
    HEAD = 16,              // bytes before a block, which hold its class; so blocks begin at multiples of 16
    CLASSES = 64,
    PAGE = 65536,
    LEAST_PAGES = 16,       // by which the memory grows at least
    MOST_PAGES = 65535,     // one page less than 32-bit addresses reach, so that no end wraps to 0
};

struct Block {
    u64 class;
    struct Block *next;     // in the list of freed blocks
};

extern u8 __heap_base;      // set by the linker: the first byte after stack and constants
static address top;         // the first byte that was never handed out; 0 before the first block
static address end;         // of the memory
static struct Block *freed[CLASSES];

static u64 size_of(u64 class) {
    u64 power = 16ULL << (class >> 1);
    return class & 1 ? power + (power >> 1) : power;
}

// The smallest class whose blocks have this many bytes.
static u64 class_of(u64 bytes) {
    if (bytes <= 16) return 0;
    u64 power = 63 - __builtin_clzll(bytes - 1);
    u64 class = 2 * (power - 4) + 1;
    return size_of(class) < bytes ? class + 1 : class;
}

static address aligned(address from) { return (from + 15) & ~(address)15; }

// Whether the memory reaches this many bytes beyond `top`, if need be after it has grown.
static int reaches(u64 bytes) {
    if (!top) {
        top = aligned((address)&__heap_base);
        end = (address)__builtin_wasm_memory_size(0) * PAGE;
    }
    u64 room = end - top;
    if (bytes <= room) return 1;
    u64 pages = (bytes - room + PAGE - 1) / PAGE;
    if (pages < LEAST_PAGES) pages = LEAST_PAGES;
    if (__builtin_wasm_memory_size(0) + pages > MOST_PAGES) return 0;
    if (__builtin_wasm_memory_grow(0, (address)pages) == (address)-1) return 0;
    end += (address)pages * PAGE;
    return 1;
}

// A block of at least this many bytes, or 0 where there is no memory for it.
static u8 *take(u64 bytes) {
    if (bytes >= 1ULL << 32) return 0;
    u64 class = class_of(bytes);
    struct Block *block = freed[class];
    if (block) {
        freed[class] = block->next;
        return (u8 *)block + HEAD;
    }
    u64 whole = HEAD + ((size_of(class) + 15) & ~15ULL);
    if (!reaches(whole)) return 0;
    block = (struct Block *)top;
    top += (address)whole;
    block->class = class;
    return (u8 *)block + HEAD;
}

static struct Block *block_of(u8 *bytes) { return (struct Block *)(bytes - HEAD); }

static void give(u8 *bytes) {
    struct Block *block = block_of(bytes);
    block->next = freed[block->class];
    freed[block->class] = block;
}

// What the crate is given: whether there is memory, and where. Where there is none, the address is one that nobody uses.
struct Tried {
    u64 is_there;
    u64 at;
};

static u64 nowhere[2];

static struct Tried tried(u8 *bytes) {
    struct Tried tried = {bytes != 0, bytes ? (address)bytes : (address)nowhere};
    return tried;
}

// No type of the crate is aligned to more than 16 bytes; what is, is refused.
struct Tried rattle_alloc(u64 bytes, u64 alignment) { return tried(alignment <= 16 ? take(bytes) : 0); }

struct Tried rattle_realloc(u8 *old, u64 kept, u64 bytes, u64 alignment) {
    if (alignment > 16) return tried(0);
    if (bytes <= size_of(block_of(old)->class)) return tried(old);
    u8 *new = take(bytes);
    if (new) {
        __builtin_memcpy(new, old, (address)(kept < bytes ? kept : bytes));
        give(old);
    }
    return tried(new);
}

void rattle_dealloc(u8 *bytes) { give(bytes); }

// For the page: room for what it gives and for what comes of it.
__attribute__((export_name("host_take"))) u8 *host_take(u64 bytes) { return take(bytes); }
__attribute__((export_name("host_give"))) void host_give(u8 *bytes) { give(bytes); }
