#include "counting_heap.h"

#include <stdlib.h>

atomic_long heap_blocks, heap_requests, heap_refused;
atomic_size_t heap_size;
static long from, to;

void heap_begin(long first, long last) {
    heap_requests = 0;
    from = first;
    to = last;
}

static int refuses(size_t size) {
    heap_size = size;
    const long request = ++heap_requests;
    if (from == 0 || request < from || request > to)
        return 0;
    heap_refused++;
    return 1;
}

static void *counting_malloc(size_t size) {
    void *at = refuses(size) ? NULL : malloc(size);
    heap_blocks += at != NULL;
    return at;
}

static void *counting_realloc(void *at, size_t size) {
    return refuses(size) ? NULL : realloc(at, size);
}

static void counting_free(void *at) {
    heap_blocks -= at != NULL;
    free(at);
}

#define malloc counting_malloc
#define realloc counting_realloc
#define free counting_free
#include "../heap.c"
