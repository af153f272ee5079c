/* heap.c itself over an allocator that counts, and refuses what it is told to: in the place of heap.c. */
#ifndef COUNTING_HEAP_H
#define COUNTING_HEAP_H

#include <stdatomic.h>
#include <stddef.h>

/* The blocks that are taken now, and the requests (malloc and realloc) since heap_begin. */
extern atomic_long heap_blocks, heap_requests;

/* How many requests were refused, in all. */
extern atomic_long heap_refused;

/* The bytes that the last request was for. */
extern atomic_size_t heap_size;

/* Counts requests from 1 again, and refuses those from `first` to `last` (none where first is 0). */
void heap_begin(long first, long last);

#endif
