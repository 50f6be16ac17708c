/* The heap of the module (heap.c), and what it asks for. */
#ifndef HEAP_H
#define HEAP_H

typedef unsigned long u64;

/* Blocks lie at its multiples. */
#define HEAP_ALIGNMENT 16

void *heap_take(u64 n);
void heap_give(void *place);
void *heap_change(void *place, u64 kept, u64 n);
u64 heap_size(u64 class);

/* Where memory begins and ends at first, and pages of 64 KiB more; heap_grow answers whether they are there. */
u64 heap_start(void);
u64 heap_end(void);
int heap_grow(u64 pages);

#endif
