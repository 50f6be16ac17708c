/* Compares the functions over 128 bits (wide.c) with the machine's own: wide.c is compiled with their names changed. */
#include <stdint.h>
#include <stdio.h>

__int128 wide_product(__int128 a, __int128 b);
__int128 wide_left(__int128 a, int n);
__int128 wide_right(__int128 a, int n);

static uint64_t state = 88172645463325252ull;

static unsigned __int128 drawn(void) {
    unsigned __int128 value = 0;
    for (int i = 0; i < 2; i++) {
        state ^= state << 13;
        state ^= state >> 7;
        state ^= state << 17;
        value = (value << 64) | state;
    }
    /* numbers of all lengths, and some of ones alone */
    unsigned __int128 cut = value >> (state % 128);
    return state % 7 ? cut : ~cut;
}

int main(void) {
    for (int i = 0; i < 2000000; i++) {
        unsigned __int128 a = drawn(), b = drawn();
        int n = (int)(drawn() % 128);
        if ((unsigned __int128)wide_product((__int128)a, (__int128)b) != a * b || (unsigned __int128)wide_left((__int128)a, n) != a << n ||
            (unsigned __int128)wide_right((__int128)a, n) != a >> n) {
            printf("not so: the %dth numbers\n", i);
            return 1;
        }
    }
    return 0;
}
