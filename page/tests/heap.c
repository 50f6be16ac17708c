/* Tests the heap of the module (heap.c) on the machine itself: blocks that are taken, changed and given back at random lie in memory, no
   two on one another, and keep their bytes. Memory is an array, so that ASan ends the program at an access beside it. */
#include "../heap.h"

#include <stdint.h>
#include <stdio.h>
#include <stdlib.h>
#include <string.h>

#define PAGE 65536ul
#define PAGES 1024ul
#define BLOCKS 600
#define TURNS 60000
#define HEAD HEAP_ALIGNMENT
#define LISTS 7
#define FEW 8
#define MANY 100

static _Alignas(16) unsigned char memory[PAGES * PAGE];
static unsigned char owned[PAGES * PAGE / 16];
static u64 pages = 1;
static struct { unsigned char *place; u64 size; unsigned char fill; } blocks[BLOCKS];
static uint64_t state = 88172645463325252ull;

u64 heap_start(void) { return (u64)memory + 40; }
u64 heap_end(void) { return (u64)memory + pages * PAGE; }

int heap_grow(u64 more) {
    if (more > PAGES - pages)
        return 0;
    pages += more;
    return 1;
}

static u64 drawn(u64 below) {
    state ^= state << 13;
    state ^= state >> 7;
    state ^= state << 17;
    return state % below;
}

static u64 drawn_size(void) {
    u64 kind = drawn(100);
    return kind < 70 ? drawn(300) : kind < 98 ? drawn(9000) : drawn(3000000);
}

static void must(int holds, const char *what) {
    if (holds)
        return;
    printf("not so: %s\n", what);
    exit(1);
}

/* Takes a block and its head from the granules of 16 bytes that are nobody's (1), or puts them back (0). */
static void own(unsigned char *place, u64 size, int is_taken) {
    must((u64)place % 16 == 0, "a block lies at a multiple of 16");
    must(place >= memory + HEAD && place + size <= memory + pages * PAGE, "a block lies in memory");
    for (u64 i = (u64)(place - memory - HEAD) / 16; i * 16 < (u64)(place - memory) + size; i++) {
        must(owned[i] != is_taken, "a block is nobody else's");
        owned[i] = (unsigned char)is_taken;
    }
}

static void fill(int i) { memset(blocks[i].place, blocks[i].fill, blocks[i].size); }

static void check(int i, u64 size) {
    for (u64 k = 0; k < size; k++)
        must(blocks[i].place[k] == blocks[i].fill, "a block has the bytes that were written");
}

static void has_room(unsigned char *place, u64 size) {
    must(heap_size(*(u64 *)(place - HEAD)) >= size + HEAD, "a block has room");
}

static int take(int i, u64 size) {
    unsigned char *place = heap_take(size);
    if (!place)
        return 0;
    has_room(place, size);
    own(place, size, 1);
    blocks[i].place = place;
    blocks[i].size = size;
    blocks[i].fill = (unsigned char)drawn(256);
    fill(i);
    return 1;
}

static void give(int i) {
    check(i, blocks[i].size);
    own(blocks[i].place, blocks[i].size, 0);
    heap_give(blocks[i].place);
    blocks[i].place = 0;
}

static int change(int i, u64 size) {
    u64 old = blocks[i].size, kept = size < old ? size : old;
    unsigned char *place = heap_change(blocks[i].place, kept, size);
    if (!place) {
        check(i, old);
        return 0;
    }
    has_room(place, size);
    own(blocks[i].place, old, 0);
    own(place, size, 1);
    blocks[i].place = place;
    blocks[i].size = size;
    check(i, kept);
    fill(i);
    return 1;
}

static void turns(u64 *refused, u64 *changed) {
    for (int turn = 0; turn < TURNS; turn++) {
        int i = (int)drawn(BLOCKS);
        if (!blocks[i].place) {
            *refused += !take(i, drawn_size());
        } else if (drawn(2)) {
            *refused += !change(i, drawn_size());
            *changed += 1;
        } else {
            give(i);
        }
    }
}

/* Lists that grow, each behind the one before it, and are given back in the end. */
static void work(void) {
    for (int i = 0; i < LISTS; i++) {
        must(take(i, 24), "there is memory");
        for (u64 size = 64; size < 40000; size += size / 2)
            must(change(i, size * (u64)(i % 3 + 1)), "there is memory");
    }
    for (int i = 0; i < LISTS; i++)
        give(i);
}

/* The same work again and again takes no more memory than after a few times. */
static void steady(void) {
    for (int i = 0; i < FEW; i++)
        work();
    u64 few = pages;
    for (int i = 0; i < MANY; i++)
        work();
    must(pages == few, "the same work takes no more memory");
}

/* On a heap that nobody used: a block that would end 16 bytes behind memory has more asked for, and the last block grows in its place. */
static void at_the_end(void) {
    int i = 0;
    u64 left;
    do {
        must(take(i, 128 - HEAD), "there is memory");
        left = (u64)memory + PAGE - (u64)(blocks[i++].place + 128 - HEAD);
    } while (left >= 128);
    must(pages == 1 && take(i, left) && pages > 1, "memory is asked for before a block ends behind it");
    must(take(i + 1, 24), "there is memory");
    unsigned char *last = blocks[i + 1].place;
    must(change(i + 1, 1000) && blocks[i + 1].place == last, "the last block grows in its place");
    for (i++; i >= 0; i--)
        give(i);
}

int main(void) {
    u64 refused = 0, changed = 0;
    at_the_end();
    steady();
    turns(&refused, &changed);
    must(refused > 0 && changed > 0, "memory was refused, and blocks changed");
    must(heap_take(1ul << 50) == 0, "what is too large is refused");
    for (int i = 0; i < BLOCKS; i++)
        if (blocks[i].place)
            give(i);
    printf("%d turns, %lu refused, %lu changed, %lu pages\n", TURNS, refused, changed, pages);
    return 0;
}
