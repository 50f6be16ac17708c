/* The heap of the module: the functions by which the library asks for memory, where there is no C library. No proof covers it.

   A block has a head of 16 bytes before it, with its class, and lies at a multiple of 16. Sizes of one class are one: up to 128 the
   multiples of 16, above that four sizes for each power of two. A block that is given back waits in the list of its class. The last
   block grows in its place where none waits that is as large; else the same work would leave ever more large blocks. Memory comes from
   `heap_grow`, which the module has from WebAssembly and the test from an array. */
#include "heap.h"

#define HEAD HEAP_ALIGNMENT
#define SMALL 128
#define FEW_CLASSES 8 /* those of the sizes up to SMALL */
#define CLASSES 160
#define LARGEST (1ul << 40)
#define PAGE 65536ul
#define LEAST_PAGES 16ul

struct head {
    u64 class;
    struct head *next;
};

static u64 top, end;
static struct head *lists[CLASSES];

/* The class of blocks with room for this many bytes, the head among them, and their size. */
static u64 class_of(u64 need, u64 *size) {
    if (need <= SMALL) {
        u64 class = (need + 15) / 16;
        *size = class * 16;
        return class;
    }
    u64 power = 63 - (u64)__builtin_clzl(need - 1); /* 2^power < need <= 2^(power + 1) */
    u64 quarter = 1ul << (power - 2);
    u64 part = (need - (1ul << power) + quarter - 1) / quarter;
    *size = (1ul << power) + part * quarter;
    return FEW_CLASSES + (power - 7) * 4 + part;
}

/* Whether memory reaches up to this place, once it has grown. */
static int reaches(u64 place) {
    if (place <= end)
        return 1;
    u64 pages = (place - end + PAGE - 1) / PAGE;
    u64 least = end / PAGE < LEAST_PAGES ? LEAST_PAGES : end / PAGE; /* as much again: engines look through all objects each time */
    u64 more = pages < least ? least : pages;
    if (!heap_grow(more)) {
        if (!heap_grow(pages))
            return 0;
        more = pages;
    }
    end += more * PAGE;
    return 1;
}

/* A block with room for n bytes, or null. */
void *heap_take(u64 n) {
    u64 size, class;
    if (n > LARGEST)
        return 0;
    class = class_of(n + HEAD, &size);
    struct head *block = lists[class];
    if (block) {
        lists[class] = block->next;
        return (char *)block + HEAD;
    }
    if (!top) {
        end = heap_end();
        top = (heap_start() + 15) & ~15ul;
    }
    if (!reaches(top + size))
        return 0;
    block = (struct head *)top;
    top += size;
    block->class = class;
    return (char *)block + HEAD;
}

/* Gives a block back. */
void heap_give(void *place) {
    struct head *block = (struct head *)((char *)place - HEAD);
    block->next = lists[block->class];
    lists[block->class] = block;
}

/* The block with room for n bytes, with the first `kept` of its bytes as they were, or null: then it is as it was. */
void *heap_change(void *place, u64 kept, u64 n) {
    struct head *block = (struct head *)((char *)place - HEAD);
    u64 size, class, old;
    if (n > LARGEST)
        return 0;
    class = class_of(n + HEAD, &size);
    old = heap_size(block->class);
    if (size <= old)
        return place;
    if (!lists[class] && (u64)block + old == top && reaches((u64)block + size)) {
        top = (u64)block + size;
        block->class = class;
        return place;
    }
    void *other = heap_take(n);
    if (!other)
        return 0;
    __builtin_memcpy(other, place, kept);
    heap_give(place);
    return other;
}

/* The size of the blocks of a class. */
u64 heap_size(u64 class) {
    if (class <= FEW_CLASSES)
        return class * 16;
    u64 above = class - FEW_CLASSES - 1, power = 7 + above / 4, part = above % 4 + 1;
    return (1ul << power) + part * (1ul << (power - 2));
}
