/* Rounds of the pool's calls through pardz.h, so many on so many threads. It reads no clock: it is timed from outside.
 *
 * bench CASE THREADS ROUNDS, where CASE is
 *   get-many  a get of one of 16 own keys in turn, a read of the length, a release
 *   cycle     a put of 64 bytes and a clear
 *   calls     the same with a create, an append and a publish in place of the put
 *   any-get, any-cycle and any-calls  the same by any thread, over a pool that grows (in libpardz alone)
 *
 * Prints one number, so that the work is done. */
#include "pardz.h"

#include <pthread.h>
#include <stdio.h>
#include <stdlib.h>
#include <string.h>

#define MOST_THREADS 16
#define MANY 16

static const uint8_t BYTES[64] = { 7 };

/* (The proved library hasn't these.) */
#pragma weak pardz_grow
#pragma weak pardz_any_put
#pragma weak pardz_any_create
#pragma weak pardz_any_append
#pragma weak pardz_any_publish
#pragma weak pardz_any_get
#pragma weak pardz_any_release
#pragma weak pardz_any_clear

static pardz_pool pool = PARDZ_EMPTY;

/* A lane, on a line of the cache of its own. */
struct worker {
    _Alignas(64) pardz_lane lane;
    long rounds;
    uint64_t count;
};

static struct worker workers[MOST_THREADS];

static void must(uint32_t code) {
    if (code != PARDZ_OK) {
        fprintf(stderr, "a call answered %u\n", code);
        exit(1);
    }
}

static uint64_t put(pardz_lane *lane) {
    uint64_t key;
    must(pardz_put(lane, BYTES, sizeof BYTES, &key));
    return key;
}

static uint64_t put_by_calls(pardz_lane *lane) {
    uint64_t key;
    must(pardz_create(lane, &key));
    must(pardz_append(lane, key, BYTES, sizeof BYTES));
    must(pardz_publish(lane, key));
    return key;
}

static void *get_many(void *at) {
    struct worker *worker = at;
    uint64_t keys[MANY];
    for (int i = 0; i < MANY; i++)
        keys[i] = put(&worker->lane);
    for (long round = 0; round < worker->rounds; round++) {
        const uint8_t *bytes;
        size_t len = 0;
        must(pardz_get(&worker->lane, keys[round % MANY], &bytes, &len));
        worker->count += len;
        must(pardz_release(&worker->lane, keys[round % MANY]));
    }
    return NULL;
}

static void *cycle(void *at) {
    struct worker *worker = at;
    for (long round = 0; round < worker->rounds; round++) {
        must(pardz_clear(&worker->lane, put(&worker->lane)));
        worker->count++;
    }
    return NULL;
}

static void *calls(void *at) {
    struct worker *worker = at;
    for (long round = 0; round < worker->rounds; round++) {
        must(pardz_clear(&worker->lane, put_by_calls(&worker->lane)));
        worker->count++;
    }
    return NULL;
}

static uint64_t any_put(void) {
    uint64_t key;
    must(pardz_any_put(&pool, BYTES, sizeof BYTES, &key));
    return key;
}

static void *any_get(void *at) {
    struct worker *worker = at;
    uint64_t keys[MANY];
    for (int i = 0; i < MANY; i++)
        keys[i] = any_put();
    for (long round = 0; round < worker->rounds; round++) {
        pardz_ref ref;
        must(pardz_any_get(&pool, keys[round % MANY], &ref));
        worker->count += ref.len;
        must(pardz_any_release(&pool, &ref));
    }
    return NULL;
}

static void *any_cycle(void *at) {
    struct worker *worker = at;
    for (long round = 0; round < worker->rounds; round++) {
        must(pardz_any_clear(&pool, any_put()));
        worker->count++;
    }
    return NULL;
}

static void *any_calls(void *at) {
    struct worker *worker = at;
    for (long round = 0; round < worker->rounds; round++) {
        pardz_filling filling;
        uint64_t key;
        must(pardz_any_create(&pool, &filling));
        must(pardz_any_append(&pool, &filling, BYTES, sizeof BYTES));
        must(pardz_any_publish(&pool, &filling, &key));
        must(pardz_any_clear(&pool, key));
        worker->count++;
    }
    return NULL;
}

static const struct way {
    const char *name;
    void *(*work)(void *);
} WAYS[] = {
    { "get-many", get_many }, { "cycle", cycle },         { "calls", calls },
    { "any-get", any_get },   { "any-cycle", any_cycle }, { "any-calls", any_calls },
};

/* What a case does, if it is there. */
static void *(*way_of(const char *name))(void *) {
    for (size_t i = 0; i < sizeof WAYS / sizeof *WAYS; i++)
        if (strcmp(WAYS[i].name, name) == 0 && (i < 3 || pardz_grow != NULL))
            return WAYS[i].work;
    return NULL;
}

int main(int argc, char **argv) {
    void *(*work)(void *) = argc == 4 ? way_of(argv[1]) : NULL;
    const pardz_limits limits = PARDZ_LIMITS;
    long threads = argc == 4 ? atol(argv[2]) : 0;
    if (work == NULL || threads < 1 || threads > MOST_THREADS) {
        fprintf(stderr, "words: get-many, cycle or calls, or any-get, any-cycle or any-calls with libpardz; a number of threads up to 16, and a number of rounds\n");
        return 1;
    }
    const pardz_shape shape = { (uint32_t)threads, 32, 1, UINT32_MAX, 0 };
    pardz_lane lanes[MOST_THREADS] = { PARDZ_EMPTY };
    pthread_t running[MOST_THREADS];
    must(pardz_open(&shape, lanes, (size_t)threads));
    if (pardz_grow != NULL)
        must(pardz_grow(&limits, &pool));
    for (long i = 0; i < threads; i++) {
        workers[i].lane = lanes[i];
        workers[i].rounds = atol(argv[3]);
    }
    /* One thread needs no other. */
    if (threads == 1)
        work(&workers[0]);
    else
        for (long i = 0; i < threads; i++)
            must((uint32_t)pthread_create(&running[i], NULL, work, &workers[i]));
    uint64_t count = 0;
    for (long i = 0; i < threads; i++) {
        if (threads > 1)
            must((uint32_t)pthread_join(running[i], NULL));
        count += workers[i].count;
        lanes[i] = workers[i].lane;
    }
    pardz_census census;
    must(pardz_close_all(lanes, (size_t)threads, &census));
    if (pardz_grow != NULL)
        must(pardz_detach(&pool, &census));
    printf("%llu\n", (unsigned long long)count);
    return 0;
}
