/* Three functions over numbers of 128 bits, which the compiler calls by these names. No proof covers them. */
#include "heap.h"

/* The product of two numbers of 128 bits. */
__int128 __multi3(__int128 a, __int128 b) {
    u64 al = (u64)a, ah = (u64)(a >> 64), bl = (u64)b, bh = (u64)(b >> 64);
    u64 a0 = al & 0xffffffff, a1 = al >> 32, b0 = bl & 0xffffffff, b1 = bl >> 32;
    u64 low = a0 * b0, one = a1 * b0, two = a0 * b1, mid = (low >> 32) + (one & 0xffffffff) + (two & 0xffffffff);
    u64 high = a1 * b1 + (one >> 32) + (two >> 32) + (mid >> 32) + al * bh + ah * bl;
    return ((__int128)high << 64) | (low & 0xffffffff) | (mid << 32);
}

/* Shifts of 128 bits by 0 to 127. */
__int128 __ashlti3(__int128 a, int n) {
    u64 low = (u64)a, high = (u64)(a >> 64);
    if (n & 64)
        return (__int128)(low << (n & 63)) << 64;
    return n ? ((__int128)((high << n) | (low >> (64 - n))) << 64) | (low << n) : a;
}

__int128 __lshrti3(__int128 a, int n) {
    u64 low = (u64)a, high = (u64)(a >> 64);
    if (n & 64)
        return (__int128)(high >> (n & 63));
    return n ? ((__int128)(high >> n) << 64) | ((high << (64 - n)) | (low >> n)) : a;
}
