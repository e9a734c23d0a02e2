// The four functions on 128 bits that compiled code calls by name, where the processor has none: product and shifts.
// None of them may itself multiply or shift 128 bits, since that is a call of these.

typedef unsigned long long u64;
typedef long long i64;
typedef unsigned __int128 u128;
typedef __int128 i128;

typedef union {
    u128 whole;
    struct {
        u64 low, high;
    };
} Halves;

static const u64 LOW_HALF = 0xffffffff;

// The product of the low halves is made of four products of 32 bits; the high halves add to its upper 64 bits alone.
u128 __multi3(u128 x, u128 y) {
    Halves a = {x}, b = {y}, product;
    u64 a0 = a.low & LOW_HALF, a1 = a.low >> 32, b0 = b.low & LOW_HALF, b1 = b.low >> 32;
    u64 first = a0 * b0;
    u64 second = a1 * b0 + (first >> 32);
    u64 third = a0 * b1 + (second & LOW_HALF);
    product.low = third << 32 | (first & LOW_HALF);
    product.high = a1 * b1 + (second >> 32) + (third >> 32) + a.low * b.high + a.high * b.low;
    return product.whole;
}

// Shifts by 0 to 127. A shift of 64 bits by 64 is not defined, so 0 has a case of its own.

u128 __ashlti3(u128 x, int by) {
    Halves a = {x}, shifted;
    if (by == 0) return x;
    if (by < 64) {
        shifted.low = a.low << by;
        shifted.high = a.high << by | a.low >> (64 - by);
    } else {
        shifted.low = 0;
        shifted.high = a.low << (by - 64);
    }
    return shifted.whole;
}

u128 __lshrti3(u128 x, int by) {
    Halves a = {x}, shifted;
    if (by == 0) return x;
    if (by < 64) {
        shifted.high = a.high >> by;
        shifted.low = a.low >> by | a.high << (64 - by);
    } else {
        shifted.high = 0;
        shifted.low = a.high >> (by - 64);
    }
    return shifted.whole;
}

i128 __ashrti3(i128 x, int by) {
    Halves a = {(u128)x}, shifted;
    if (by == 0) return x;
    i64 high = (i64)a.high;
    if (by < 64) {
        shifted.high = (u64)(high >> by);
        shifted.low = a.low >> by | a.high << (64 - by);
    } else {
        shifted.high = (u64)(high >> 63);
        shifted.low = (u64)(high >> (by - 64));
    }
    return (i128)shifted.whole;
}
