/* The heap that the library calls, over the C library's or a program's own, and the numbers of pools: see pardz.h. To be linked once a
 * program. */
#include "pardz.h"

#include <stdlib.h>

/* The address that a refusal has: not NULL. */
static char nothing;

static pardz_block block(void *at) {
    pardz_block answer;
    answer.ok = at != NULL;
    answer.at = at != NULL ? at : &nothing;
    return answer;
}

/* What malloc answers is aligned to 16 bytes. */
static void *by_malloc(void *context, size_t size) {
    (void)context;
    return malloc(size);
}

static void *by_realloc(void *context, void *at, size_t size) {
    (void)context;
    return realloc(at, size);
}

static void by_free(void *context, void *at) {
    (void)context;
    free(at);
}

static const pardz_heap of_c = { by_malloc, by_realloc, by_free, NULL };
static pardz_heap heap = { by_malloc, by_realloc, by_free, NULL };

void pardz_set_heap(const pardz_heap *other) {
    heap = other != NULL ? *other : of_c;
}

pardz_block pardz_alloc(size_t size, size_t align) {
    return block(heap.allocate(heap.context, size != 0 ? size : align));
}

pardz_block pardz_realloc(void *at, size_t kept, size_t size, size_t align) {
    (void)kept;
    return block(heap.reallocate(heap.context, at, size != 0 ? size : align));
}

void pardz_dealloc(void *at) {
    heap.release(heap.context, at);
}

/* gcc and clang add atomically in each C; others do from C11 on. */
#ifdef __GNUC__
typedef uint64_t number;
#define ADD_ONE(number) __atomic_fetch_add(number, 1, __ATOMIC_RELAXED)
#else
#include <stdatomic.h>
typedef atomic_uint_fast64_t number;
#define ADD_ONE(number) atomic_fetch_add(number, 1)
#endif

uint64_t pardz_next_number(void) {
    static number next;
    return ADD_ONE(&next);
}
