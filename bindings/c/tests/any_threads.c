/* Threads that come and go over one pool, and have nothing of it: each life puts and fills, hands on keys, fillings and references, and goes
 * on with what others handed it: it publishes, reads, clones, clears and releases. Nothing is wrong, missed or refused.
 *
 * any_threads ROUNDS LANES THREADS: so many rounds in all; in a pool of so many lanes, or in one that grows if it is 0 or isn't said; threads
 * at once, 200 if it isn't said. */
#include "../pardz.h"
#include "lives.h"

#define WAYS 64

/* More places in a lane than there are keys, fillings and references at once, so that no put is refused. */
static pardz_shape shape = { 16, 64, 6, UINT32_MAX, 9 };
static pardz_pool pool = PARDZ_EMPTY;

/* What threads hand on: keys, each cleared by who takes it out; fillings, each published or dropped; references, each released. */
static _Atomic uint64_t keys[WAYS];
static _Atomic(pardz_filling *) fillings[WAYS];
static _Atomic(pardz_ref *) refs[WAYS];

static atomic_long made, cleared, dropped;

static void *box(size_t size) {
    void *at = malloc(size);
    CHECK(at != NULL);
    return at;
}

static void begin_filling(pardz_filling *filling) {
    uint32_t code;
    while ((code = pardz_any_create(&pool, filling)) == PARDZ_BUSY)
        PARDZ_YIELD();
    CHECK(code == PARDZ_OK);
    atomic_fetch_add(&made, 1);
}

static uint64_t put(uint64_t seed) {
    struct words words;
    const size_t length = fill(&words, seed);
    uint64_t key = 0;
    uint32_t code;
    while ((code = pardz_any_put(&pool, &words, length, &key)) == PARDZ_BUSY)
        PARDZ_YIELD();
    CHECK(code == PARDZ_OK);
    atomic_fetch_add(&made, 1);
    return key;
}

static void let_go(pardz_ref *ref) {
    check_words(ref->at, ref->len);
    CHECK(pardz_any_release(&pool, ref) == PARDZ_OK && pardz_any_release(&pool, ref) == PARDZ_NO_REFERENCE);
    free(ref);
}

static void hand_on(uint64_t seed, pardz_ref *ref) {
    pardz_ref *theirs = atomic_exchange(&refs[mixed(seed) % WAYS], ref);
    if (theirs != NULL)
        let_go(theirs);
}

/* Takes over a key: it is there until it is cleared, and then for nobody new. A clone of what it found goes on. */
static void take(uint64_t seed, uint64_t key) {
    pardz_ref found, none = { NULL, 0, 0 }, *more = box(sizeof *more);
    CHECK(pardz_any_get(&pool, key, &found) == PARDZ_OK && found.key == key);
    check_words(found.at, found.len);
    CHECK(pardz_any_clear(&pool, key) == PARDZ_OK && pardz_any_clear(&pool, key) == PARDZ_GONE);
    atomic_fetch_add(&cleared, 1);
    CHECK(pardz_any_get(&pool, key, &none) == PARDZ_GONE && none.key == 0);
    CHECK(pardz_any_clone(&pool, &found, more) == PARDZ_OK && pardz_any_release(&pool, &found) == PARDZ_OK);
    hand_on(seed, more);
}

/* Goes on with a filling that another thread began: publishes it filled, or drops it. */
static void end_filling(uint64_t seed, pardz_filling *filling) {
    struct words words;
    const size_t length = fill(&words, seed);
    CHECK(pardz_any_append(&pool, filling, &words, length) == PARDZ_OK);
    if (seed % 5 == 0) {
        CHECK(pardz_any_drop(&pool, filling) == PARDZ_OK && pardz_any_drop(&pool, filling) == PARDZ_NO_FILLING);
        atomic_fetch_add(&dropped, 1);
    } else if (seed % 2 == 0) {
        uint64_t key = 0;
        CHECK(pardz_any_publish(&pool, filling, &key) == PARDZ_OK && filling->key == 0);
        take(seed, key);
    } else {
        pardz_ref *ref = box(sizeof *ref);
        CHECK(pardz_any_downgrade(&pool, filling, ref) == PARDZ_OK && pardz_any_clear(&pool, ref->key) == PARDZ_OK);
        atomic_fetch_add(&cleared, 1);
        hand_on(seed, ref);
    }
    free(filling);
}

static void one_round(void *nothing, uint64_t seed) {
    (void)nothing;
    const uint64_t other = atomic_exchange(&keys[mixed(seed) % WAYS], put(seed));
    if (other != 0)
        take(seed + 1, other);
    pardz_filling *own = box(sizeof *own);
    begin_filling(own);
    pardz_filling *theirs = atomic_exchange(&fillings[mixed(seed + 2) % WAYS], own);
    if (theirs != NULL)
        end_filling(seed + 3, theirs);
}

/* A life has nothing of its own. */
static void *begin(void) {
    return NULL;
}

static void end(void *own) {
    (void)own;
}

int main(int argc, char **argv) {
    const pardz_limits limits = PARDZ_LIMITS;
    const long rounds = argc > 1 ? atol(argv[1]) : 20000;
    shape.lanes = argc > 2 ? (uint32_t)atol(argv[2]) : 0;
    const size_t threads = argc > 3 ? (size_t)atol(argv[3]) : 200;
    CHECK((shape.lanes != 0 ? pardz_attach(&shape, &pool) : pardz_grow(&limits, &pool)) == PARDZ_OK);
    run(rounds, threads);
    for (size_t way = 0; way < WAYS; way++) {
        const uint64_t key = atomic_exchange(&keys[way], 0);
        if (key != 0)
            take(way, key);
        pardz_filling *filling = atomic_exchange(&fillings[way], NULL);
        if (filling != NULL)
            end_filling(way, filling);
    }
    for (size_t way = 0; way < WAYS; way++) {
        pardz_ref *ref = atomic_exchange(&refs[way], NULL);
        if (ref != NULL)
            let_go(ref);
    }
    pardz_census census;
    CHECK(pardz_detach(&pool, &census) == PARDZ_OK && pool.full == 0);
    CHECK(census.present + census.marked + census.filling + census.retired == 0);
    CHECK(atomic_load(&made) == 2 * rounds && atomic_load(&cleared) + atomic_load(&dropped) == 2 * rounds);
    printf("any_threads: %ld rounds by %ld threads, %zu at once, over %s, %ld fillings dropped, %u places free\n", rounds, atomic_load(&lives), threads,
           shape.lanes != 0 ? "lanes" : "a pool that grows", atomic_load(&dropped), (unsigned)census.free);
    return 0;
}
