/* Threads that come and go over one pool, far more than it has lanes, each by a slot of its own: each life puts, hands keys and references
 * on, and reads, clears and releases what others handed it. Nothing is wrong, missed or refused; where all lanes are had a thread waits.
 *
 * come_and_go ROUNDS LANES THREADS: so many rounds in all; lanes, 16 if it isn't said; threads at once, 200 if it isn't said. */
#include "../pardz.h"
#include "lives.h"

#define WAYS 64

/* More places in a lane than there are keys and references at once, so that no put is refused. */
static pardz_shape shape = { 16, 64, 5, UINT32_MAX, 9 };
static pardz_pool pool = PARDZ_EMPTY;

/* What threads hand on: keys, each cleared by who takes it out; and references, each released by who takes it out. */
static _Atomic uint64_t keys[WAYS];
static _Atomic(pardz_lent *) lents[WAYS];

static atomic_long cleared, busy;

/* A reference to a key that must be there: at first without waiting. */
static pardz_lent get(const pardz_pool *slot, uint32_t from, uint64_t key) {
    pardz_lent lent = { NULL, 0, 0, 0 };
    uint32_t code = pardz_pool_get(slot, from, key, &lent);
    if (code == PARDZ_BUSY) {
        atomic_fetch_add(&busy, 1);
        CHECK(lent.at == NULL && lent.key == 0);
        code = pardz_await_get(slot, from + 1, key, &lent);
    }
    CHECK(code == PARDZ_OK && lent.key == key && lent.lane < shape.lanes);
    check_words(lent.at, lent.len);
    return lent;
}

/* Reads the bytes of a reference once more, and gives it back. */
static void let_go(const pardz_pool *slot, pardz_lent *lent) {
    check_words(lent->at, lent->len);
    CHECK(pardz_await_release(slot, lent) == PARDZ_OK);
}

/* Takes over a key: it is there until it is cleared, and then for nobody new. */
static void take(const pardz_pool *slot, uint32_t from, uint64_t key) {
    pardz_lent lent = get(slot, from, key), none = lent;
    CHECK(pardz_await_clear(slot, from + 3, key) == PARDZ_OK);
    atomic_fetch_add(&cleared, 1);
    CHECK(pardz_await_get(slot, from + 5, key, &none) == PARDZ_GONE);
    CHECK(pardz_await_clear(slot, from + 7, key) == PARDZ_GONE);
    let_go(slot, &lent);
}

static void one_round(void *own_slot, uint64_t seed) {
    const pardz_pool *slot = own_slot;
    struct words words;
    uint64_t key = 0;
    const uint32_t from = (uint32_t)seed;
    const size_t length = fill(&words, seed);
    CHECK(pardz_await_put(slot, from, (const uint8_t *)&words, length, &key) == PARDZ_OK);
    pardz_lent *own = malloc(sizeof *own);
    CHECK(own != NULL);
    *own = get(slot, from + 1, key);
    CHECK(own->len == length && memcmp(own->at, &words, length) == 0);
    const uint64_t other = atomic_exchange(&keys[mixed(seed) % WAYS], key);
    if (other != 0)
        take(slot, from + 2, other);
    pardz_lent *theirs = atomic_exchange(&lents[mixed(seed + 1) % WAYS], own);
    if (theirs != NULL) {
        let_go(slot, theirs);
        free(theirs);
    }
}

/* A life's slot, which shares the pool. (Apart from those of others.) */
static void *begin(void) {
    pardz_pool *slot = calloc(1, 128);
    uint32_t code;
    CHECK(slot != NULL);
    while ((code = pardz_share(&pool, slot)) == PARDZ_BUSY)
        PARDZ_YIELD();
    CHECK(code == PARDZ_OK && slot->full == 1);
    return slot;
}

static void end(void *slot) {
    CHECK(pardz_unshare(slot) == PARDZ_OK && ((pardz_pool *)slot)->full == 0);
    free(slot);
}

int main(int argc, char **argv) {
    const long rounds = argc > 1 ? atol(argv[1]) : 20000;
    shape.lanes = argc > 2 ? (uint32_t)atol(argv[2]) : 16;
    const size_t threads = argc > 3 ? (size_t)atol(argv[3]) : 200;
    CHECK(pardz_attach(&shape, &pool) == PARDZ_OK && pardz_attach(&shape, &pool) == PARDZ_FULL_LANE);
    run(rounds, threads);
    for (size_t way = 0; way < WAYS; way++) {
        uint64_t key = atomic_exchange(&keys[way], 0);
        if (key != 0)
            take(&pool, (uint32_t)way, key);
        pardz_lent *lent = atomic_exchange(&lents[way], NULL);
        if (lent != NULL) {
            let_go(&pool, lent);
            CHECK(pardz_pool_release(&pool, lent) == PARDZ_NO_REFERENCE);
            free(lent);
        }
    }
    pardz_census census;
    CHECK(pardz_detach(&pool, &census) == PARDZ_OK && pool.full == 0);
    CHECK(census.present + census.marked + census.filling + census.retired == 0);
    CHECK(census.free + census.unopened == shape.lanes * 64 * 31);
    CHECK(atomic_load(&cleared) == rounds);
    printf("come_and_go: %ld rounds by %ld threads, %zu at once, over %u lanes, %ld times busy\n", rounds, atomic_load(&lives), threads,
           (unsigned)shape.lanes, atomic_load(&busy));
    return 0;
}
