/* heap.c: what it asks of malloc, realloc and free, or of a program's heap, and what it answers where they refuse; and that no number
 * comes twice, on threads that ask at once too. */
#include "../pardz.h"
#include "check.h"
#include "counting_heap.h"

#include <pthread.h>
#include <stdatomic.h>
#include <string.h>

#define THREADS 4
#define NUMBERS 500000

static int all_are(const unsigned char *bytes, size_t count, unsigned char byte) {
    for (size_t i = 0; i < count; i++)
        if (bytes[i] != byte)
            return 0;
    return 1;
}

static void blocks(void) {
    pardz_block block = pardz_alloc(24, 8);
    CHECK(block.ok == 1 && heap_blocks == 1 && heap_size == 24 && (uintptr_t)block.at % 16 == 0);
    memset(block.at, 7, 24);
    block = pardz_realloc(block.at, 24, 5000, 8);
    CHECK(block.ok == 1 && heap_blocks == 1 && heap_size == 5000 && (uintptr_t)block.at % 16 == 0);
    CHECK(all_are(block.at, 24, 7));
    memset(block.at, 8, 5000);
    heap_begin(1, 2);
    pardz_block refused = pardz_alloc(24, 8);
    CHECK(refused.ok == 0 && refused.at != NULL && heap_refused == 1);
    refused = pardz_realloc(block.at, 5000, 9000, 8);
    CHECK(refused.ok == 0 && refused.at != NULL && heap_refused == 2);
    heap_begin(0, 0);
    CHECK(heap_blocks == 1 && all_are(block.at, 5000, 8));
    pardz_dealloc(block.at);
    CHECK(heap_blocks == 0);
}

/* No bytes are a block too: the C library may answer NULL to a request for none. */
static void no_bytes(void) {
    pardz_block block = pardz_alloc(0, 8);
    CHECK(block.ok == 1 && heap_blocks == 1 && heap_size != 0);
    block = pardz_realloc(block.at, 0, 0, 8);
    CHECK(block.ok == 1 && heap_blocks == 1 && heap_size != 0);
    pardz_dealloc(block.at);
    CHECK(heap_blocks == 0);
}

/* A heap of the program's own: what it was asked for, and of whom. */
struct own {
    size_t allocated, reallocated;
    int released;
    pardz_block memory[8];
};

static void *own_allocate(void *context, size_t size) {
    struct own *own = context;
    own->allocated = size;
    return size <= sizeof own->memory ? own->memory : NULL;
}

static void *own_reallocate(void *context, void *at, size_t size) {
    struct own *own = context;
    own->reallocated = size;
    return size <= sizeof own->memory ? at : NULL;
}

static void own_release(void *context, void *at) {
    struct own *own = context;
    own->released += at == own->memory;
}

/* All three go to the heap that was set, with its context, until another one is. */
static void own_heap(void) {
    static struct own own;
    const pardz_heap heap = { own_allocate, own_reallocate, own_release, &own };
    heap_begin(0, 0);
    pardz_set_heap(&heap);
    pardz_block block = pardz_alloc(100, 16), refused = pardz_alloc(5000, 8);
    CHECK(block.ok == 1 && block.at == own.memory && refused.ok == 0 && refused.at != NULL && own.allocated == 5000);
    block = pardz_realloc(block.at, 50, 128, 16);
    CHECK(block.ok == 1 && block.at == own.memory && own.reallocated == 128 && pardz_realloc(block.at, 128, 5000, 16).ok == 0);
    pardz_dealloc(block.at);
    CHECK(own.released == 1 && pardz_alloc(0, 8).ok == 1 && own.allocated != 0 && heap_requests == 0);
    pardz_set_heap(NULL);
    block = pardz_alloc(24, 8);
    CHECK(block.ok == 1 && heap_requests == 1 && heap_blocks == 1);
    pardz_dealloc(block.at);
    CHECK(heap_blocks == 0 && own.released == 1);
}

static _Atomic unsigned char seen[THREADS * NUMBERS];
static atomic_int ready;

/* Takes numbers, once all threads are there, so many that they do so at once on a busy machine too. */
static void *take_numbers(void *unused) {
    (void)unused;
    atomic_fetch_add(&ready, 1);
    while (atomic_load(&ready) < THREADS)
        ;
    for (long i = 0; i < NUMBERS; i++) {
        uint64_t number = pardz_next_number();
        CHECK(number < THREADS * NUMBERS && atomic_exchange(&seen[number], 1) == 0);
    }
    return NULL;
}

static void next_numbers(void) {
    pthread_t threads[THREADS];
    for (int i = 0; i < THREADS; i++)
        CHECK(pthread_create(&threads[i], NULL, take_numbers, NULL) == 0);
    for (int i = 0; i < THREADS; i++)
        CHECK(pthread_join(threads[i], NULL) == 0);
}

int main(void) {
    blocks();
    no_bytes();
    own_heap();
    next_numbers();
    printf("heap: %d numbers on each of %d threads\n", NUMBERS, THREADS);
    return 0;
}
