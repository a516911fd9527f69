// What the compiler calls for numbers of 128 bits, which this target has not: the linker takes what is called.
typedef unsigned __int128 u128;
typedef __UINT64_TYPE__ u64;

union halves {
    u128 whole;
    struct { u64 low, high; } half;
};

#ifdef __wasm__
#define NAMED(name) __##name
#else // for a test, beside the compiler's own
#define NAMED(name) tested_##name
#endif

u128 NAMED(lshrti3)(u128 number, int by) {
    union halves from = {number}, to;
    if (by == 0) return number;
    if (by >= 64) {
        to.half.low = from.half.high >> (by - 64);
        to.half.high = 0;
    } else {
        to.half.low = from.half.low >> by | from.half.high << (64 - by);
        to.half.high = from.half.high >> by;
    }
    return to.whole;
}

u128 NAMED(ashlti3)(u128 number, int by) {
    union halves from = {number}, to;
    if (by == 0) return number;
    if (by >= 64) {
        to.half.high = from.half.low << (by - 64);
        to.half.low = 0;
    } else {
        to.half.high = from.half.high << by | from.half.low >> (64 - by);
        to.half.low = from.half.low << by;
    }
    return to.whole;
}

// The product of two numbers of 64 bits, by their halves.
static u128 product(u64 a, u64 b) {
    u64 mask = 0xffffffff, a0 = a & mask, a1 = a >> 32, b0 = b & mask, b1 = b >> 32;
    u64 low = a0 * b0, middle = a1 * b0 + (low >> 32), other = a0 * b1 + (middle & mask);
    union halves found;
    found.half.low = (low & mask) | other << 32;
    found.half.high = a1 * b1 + (middle >> 32) + (other >> 32);
    return found.whole;
}

u128 NAMED(multi3)(u128 a, u128 b) {
    union halves one = {a}, other = {b}, found;
    found.whole = product(one.half.low, other.half.low);
    found.half.high += one.half.low * other.half.high + one.half.high * other.half.low;
    return found.whole;
}
