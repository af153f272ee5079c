/* Threads that come and go hand owned references on, and outlive the pools from which these come. A life puts, owns, clears and hands on;
 * what others handed it it reads, has again in a further slot, hands on once more or gives back. Pools come and go too: each is detached
 * while others have references of it.
 *
 * hand_on ROUNDS LANES THREADS: so many rounds in all; lanes, 16 if it isn't said; threads at once, 200 if it isn't said. */
#define _XOPEN_SOURCE 600
#include "../pardz.h"
#include "lives.h"

#define WAYS 256
#define POOLS 4

/* More places in a lane than there are references at once, so that no put is refused. */
static pardz_shape shape = { 16, 64, 3, UINT32_MAX, 9 };

/* Pools that threads call, each under a lock for reading, and for writing where it is detached and attached anew. */
static struct attached {
    pthread_rwlock_t lock;
    pardz_pool pool;
} pools[POOLS];

/* What threads hand on: owned references. */
static _Atomic(pardz_owned *) ways[WAYS];

/* Of so many rounds one detaches its pool. */
static uint64_t between_detaches;

static atomic_long cleared, given_back, again, detached;

static void check_bytes(const pardz_owned *owned) {
    const uint8_t *at = NULL;
    size_t len = 0;
    CHECK(pardz_owned_bytes(owned, &at, &len) == PARDZ_OK);
    check_words(at, len);
}

static void let_go(pardz_owned *owned) {
    check_bytes(owned);
    CHECK(pardz_disown(owned) == PARDZ_OK && pardz_disown(owned) == PARDZ_EMPTY_LANE);
    atomic_fetch_add(&given_back, 1);
    free(owned);
}

/* Hands a reference on, and answers the one that stood there. */
static pardz_owned *hand_on(uint64_t seed, pardz_owned *owned) {
    return atomic_exchange(&ways[mixed(seed) % WAYS], owned);
}

/* A new reference to a key that is cleared by now. */
static pardz_owned *put_and_own(const pardz_pool *pool, uint64_t seed) {
    struct words words;
    uint64_t key = 0;
    const uint32_t from = (uint32_t)seed;
    const size_t length = fill(&words, seed);
    pardz_owned *owned = calloc(1, sizeof *owned);
    CHECK(owned != NULL && pardz_await_put(pool, from, (const uint8_t *)&words, length, &key) == PARDZ_OK);
    CHECK(pardz_await_own(pool, from + 1, key, owned) == PARDZ_OK && owned->key == key);
    CHECK(pardz_await_clear(pool, from + 2, key) == PARDZ_OK);
    atomic_fetch_add(&cleared, 1);
    return owned;
}

/* A pool's end: what others own of it stays. */
static void attach_anew(struct attached *at) {
    pardz_census census;
    pthread_rwlock_wrlock(&at->lock);
    CHECK(pardz_detach(&at->pool, &census) == PARDZ_OK && at->pool.full == 0 && census.present == 0);
    CHECK(pardz_attach(&shape, &at->pool) == PARDZ_OK);
    pthread_rwlock_unlock(&at->lock);
    atomic_fetch_add(&detached, 1);
}

/* A life has nothing of its own. */
static void *begin(void) {
    return NULL;
}

static void end(void *own) {
    (void)own;
}

static void one_round(void *own_life, uint64_t seed) {
    (void)own_life;
    struct attached *at = &pools[seed % POOLS];
    pthread_rwlock_rdlock(&at->lock);
    pardz_owned *own = put_and_own(&at->pool, seed);
    pthread_rwlock_unlock(&at->lock);
    if (seed % between_detaches == 0)
        attach_anew(at);
    pardz_owned *theirs = hand_on(seed, own);
    if (theirs == NULL)
        return;
    check_bytes(theirs);
    if (seed % 3 == 0) {
        pardz_owned *more = calloc(1, sizeof *more);
        CHECK(more != NULL && pardz_own_again(theirs, more) == PARDZ_OK && more->key == theirs->key);
        atomic_fetch_add(&again, 1);
        more = hand_on(seed + 1, more);
        if (more != NULL)
            let_go(more);
    }
    let_go(theirs);
}

int main(int argc, char **argv) {
    const long rounds = argc > 1 ? atol(argv[1]) : 20000;
    shape.lanes = argc > 2 ? (uint32_t)atol(argv[2]) : 16;
    const size_t threads = argc > 3 ? (size_t)atol(argv[3]) : 200;
    for (size_t i = 0; i < POOLS; i++)
        CHECK(pthread_rwlock_init(&pools[i].lock, NULL) == 0 && pardz_attach(&shape, &pools[i].pool) == PARDZ_OK);
    between_detaches = (uint64_t)rounds / 40 + 1;
    run(rounds, threads);
    pardz_census census;
    for (size_t i = 0; i < POOLS; i += 2)
        CHECK(pardz_detach(&pools[i].pool, &census) == PARDZ_OK);
    for (size_t way = 0; way < WAYS; way++) {
        pardz_owned *owned = atomic_exchange(&ways[way], NULL);
        if (owned != NULL)
            let_go(owned);
    }
    for (size_t i = 1; i < POOLS; i += 2) {
        CHECK(pardz_detach(&pools[i].pool, &census) == PARDZ_OK);
        CHECK(census.present + census.marked + census.filling + census.retired == 0);
        CHECK(census.free + census.unopened == shape.lanes * 64 * 7);
    }
    CHECK(atomic_load(&cleared) == rounds && atomic_load(&given_back) == rounds + atomic_load(&again));
    printf("hand_on: %ld rounds by %ld threads, %zu at once, over %u lanes, %ld times in two slots, %ld pools detached\n", rounds, atomic_load(&lives),
           threads, (unsigned)shape.lanes, atomic_load(&again), atomic_load(&detached));
    return 0;
}
