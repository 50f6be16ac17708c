/* What the module has beside the library: its three functions for memory over heap.c, and room for the page. No proof covers it. */
#include "heap.h"

extern unsigned char __heap_base;

u64 heap_start(void) { return (u64)&__heap_base; }

u64 heap_end(void) { return __builtin_wasm_memory_size(0) << 16; }

int heap_grow(u64 pages) { return __builtin_wasm_memory_grow(0, pages) != (u64)-1; }

/* What the library reads: whether there is a block, and the block. */
struct tried {
    u64 is_there;
    void *place;
};

static struct tried tried(void *place) { return (struct tried){place != 0, place}; }

/* A larger alignment than that of blocks is refused, as want of memory is. Of no bytes a block is made, too. */
struct tried rattle_alloc(u64 n, u64 align) { return tried(align > HEAP_ALIGNMENT ? 0 : heap_take(n)); }

struct tried rattle_realloc(void *place, u64 kept, u64 n, u64 align) {
    return tried(align > HEAP_ALIGNMENT ? 0 : heap_change(place, kept, n));
}

void rattle_dealloc(void *place) {
    if (place)
        heap_give(place);
}

/* Room for what the page passes, of zeros; null where there is no memory. */
__attribute__((export_name("page_room"))) void *page_room(u64 n) {
    void *place = heap_take(n);
    return place ? __builtin_memset(place, 0, n) : 0;
}

__attribute__((export_name("page_room_back"))) void page_room_back(void *place) { rattle_dealloc(place); }
