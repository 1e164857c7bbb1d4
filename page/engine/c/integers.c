// Products and shifts of 128-bit integers, for which wasm64 code calls a library.
#include "host.h"

struct halves {
    u64 low, high;
};

static struct halves halves_of(u128 whole) {
    struct halves parts;
    __builtin_memcpy(&parts, &whole, 16);
    return parts;
}

static u128 whole_of(u64 low, u64 high) {
    struct halves parts = {low, high};
    u128 whole;
    __builtin_memcpy(&whole, &parts, 16);
    return whole;
}

// The product of two 64-bit numbers, by products of their 32-bit halves.
static struct halves product(u64 a, u64 b) {
    u64 mask = 0xffffffff, a_low = a & mask, a_high = a >> 32, b_low = b & mask, b_high = b >> 32;
    u64 low = a_low * b_low, one = a_low * b_high, other = a_high * b_low;
    u64 middle = (low >> 32) + (one & mask) + (other & mask);
    struct halves all = {(middle << 32) | (low & mask), a_high * b_high + (one >> 32) + (other >> 32) + (middle >> 32)};
    return all;
}

i128 __multi3(i128 x, i128 y) {
    struct halves a = halves_of(x), b = halves_of(y), low = product(a.low, b.low);
    return whole_of(low.low, low.high + a.high * b.low + a.low * b.high);
}

i128 __ashlti3(i128 x, i32 n) {
    struct halves a = halves_of(x);
    if (n & 64) return whole_of(0, a.low << (n & 63));
    return n ? whole_of(a.low << n, (a.high << n) | (a.low >> (64 - n))) : x;
}

i128 __lshrti3(i128 x, i32 n) {
    struct halves a = halves_of(x);
    if (n & 64) return whole_of(a.high >> (n & 63), 0);
    return n ? whole_of((a.low >> n) | (a.high << (64 - n)), a.high >> n) : x;
}

i128 __ashrti3(i128 x, i32 n) {
    struct halves a = halves_of(x);
    u64 sign = (u64)((i64)a.high >> 63);
    if (n & 64) return whole_of((u64)((i64)a.high >> (n & 63)), sign);
    return n ? whole_of((a.low >> n) | (a.high << (64 - n)), (u64)((i64)a.high >> n)) : x;
}
