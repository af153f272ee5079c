/* What tests of calls by a pool have in common: what no call wrote, a put that is expected to do, and a heap that holds a put up. It is
 * included behind the enum of the test's calls, of which PUT is one. */
#ifndef BY_POOL_H
#define BY_POOL_H

#include "answers.h"

#include <pthread.h>
#include <semaphore.h>

/* A reference that no call wrote. */
static const pardz_lent UNLENT = { nowhere, 99, 99, 99 };

static int is_unlent(const pardz_lent *lent) {
    return lent->at == nowhere && lent->len == 99 && lent->key == 99 && lent->lane == 99;
}

static uint64_t put(const pardz_pool *pool, uint32_t from, const char *text) {
    uint64_t key = 0;
    EXPECT(PUT, OK, pardz_pool_put(pool, from, (const uint8_t *)text, strlen(text), &key));
    return key;
}

/* A heap that holds a put up, so that its lane is had for so long. */
static sem_t held, go_on;
static int holds_up;

static void *slow(void *context, size_t size) {
    (void)context;
    if (holds_up) {
        holds_up = 0;
        sem_post(&held);
        sem_wait(&go_on);
    }
    return malloc(size);
}

static void *slow_realloc(void *context, void *at, size_t size) {
    (void)context;
    return realloc(at, size);
}

static void slow_free(void *context, void *at) {
    (void)context;
    free(at);
}

/* A put that the heap holds up. (If it asked for nothing, who waits until it is held up would wait forever.) */
static void *puts_slowly(void *pool) {
    uint64_t key = 99;
    CHECK(pardz_pool_put(pool, 0, nowhere, 8, &key) == PARDZ_OK && key != 99 && !holds_up);
    return NULL;
}

#endif
