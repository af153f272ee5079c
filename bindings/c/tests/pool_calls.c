/* Each code of each call by a pool and of each with an owned reference, provoked once; then that these were all. Each request for memory of
 * an attach, of a put and of an own refused in turn: a code, nothing else changed, no leak. */
#include "answers.h"
#include "counting_heap.h"

enum call { ATTACH, PUT, GET, RELEASE, CLEAR, CENSUS, DETACH, OWN, OWN_AGAIN, OWNED_BYTES, DISOWN, CALLS };

#include "by_pool.h"

/* The codes that each call can answer, as pardz.h has them. (But for the 268,435,456 references of one key, at which an own is refused.) */
static const uint32_t ALL[CALLS] = {
    [ATTACH] = BIT(OK) | BIT(MEMORY) | BIT(FULL_LANE) | BIT(SHAPE),
    [PUT] = BIT(OK) | BIT(MEMORY) | BIT(EMPTY_LANE) | BIT(FULL) | BIT(BUSY),
    [GET] = BIT(OK) | BIT(EMPTY_LANE) | BIT(GONE) | BIT(REFERENCES) | BIT(BUSY),
    [RELEASE] = BIT(OK) | BIT(EMPTY_LANE) | BIT(NO_REFERENCE) | BIT(BUSY),
    [CLEAR] = BIT(OK) | BIT(EMPTY_LANE) | BIT(GONE) | BIT(BUSY),
    [CENSUS] = BIT(OK) | BIT(EMPTY_LANE),
    [DETACH] = BIT(OK) | BIT(EMPTY_LANE) | BIT(BUSY),
    [OWN] = BIT(OK) | BIT(MEMORY) | BIT(EMPTY_LANE) | BIT(FULL_LANE) | BIT(GONE),
    [OWN_AGAIN] = BIT(OK) | BIT(EMPTY_LANE) | BIT(FULL_LANE),
    [OWNED_BYTES] = BIT(OK) | BIT(EMPTY_LANE),
    [DISOWN] = BIT(OK) | BIT(EMPTY_LANE),
};

static const pardz_shape SHAPE = { 2, 2, 2, UINT32_MAX, 7 };
static const pardz_shape ONE = { 1, 2, 1, UINT32_MAX, 7 }, THREE = { 1, 1, 2, UINT32_MAX, 7 };

/* A wrong attach leaves the slot and the heap as they were. */
static void attaches(void) {
    const pardz_shape wrong[] = { { 0, 2, 2, 1, 0 }, { 65, 2, 2, 1, 0 }, { UINT32_MAX, 2, 2, 1, 0 }, { 2, 0, 2, 1, 0 }, { 2, 3, 2, 1, 0 },
                                  { 2, 128, 2, 1, 0 }, { 2, 2, 0, 1, 0 }, { 2, 2, 17, 1, 0 }, { 2, 2, 2, 0, 0 }, { 2, 2, 2, 1, 256 } };
    pardz_pool pool = PARDZ_EMPTY;
    for (size_t i = 0; i < sizeof wrong / sizeof *wrong; i++) {
        EXPECT(ATTACH, SHAPE, pardz_attach(&wrong[i], &pool));
        CHECK(pool.full == 0 && heap_blocks == 0);
    }
    EXPECT(ATTACH, OK, pardz_attach(&SHAPE, &pool));
    void *at = pool.at;
    EXPECT(ATTACH, FULL_LANE, pardz_attach(&SHAPE, &pool));
    CHECK(pool.at == at && pool.full == 1);
    pardz_census census = NONE;
    EXPECT(DETACH, OK, pardz_detach(&pool, &census));
    CHECK(census.unopened == 12 && pool.full == 0 && heap_blocks == 0);
}

/* A slot without a pool: each call says so. */
static void empties(void) {
    pardz_pool empty = PARDZ_EMPTY;
    uint64_t key = 99;
    pardz_lent lent = UNLENT;
    pardz_census census = NONE;
    EXPECT(PUT, EMPTY_LANE, pardz_pool_put(&empty, 0, NULL, 0, &key));
    EXPECT(GET, EMPTY_LANE, pardz_pool_get(&empty, 0, 1, &lent));
    EXPECT(RELEASE, EMPTY_LANE, pardz_pool_release(&empty, &lent));
    EXPECT(CLEAR, EMPTY_LANE, pardz_pool_clear(&empty, 0, 1));
    EXPECT(CENSUS, EMPTY_LANE, pardz_pool_census(&empty, &census));
    EXPECT(DETACH, EMPTY_LANE, pardz_detach(&empty, &census));
    pardz_owned none = PARDZ_EMPTY, other = PARDZ_EMPTY;
    const uint8_t *at = nowhere;
    size_t len = 99;
    EXPECT(OWN, EMPTY_LANE, pardz_own(&empty, 0, 1, &none));
    EXPECT(OWN_AGAIN, EMPTY_LANE, pardz_own_again(&none, &other));
    EXPECT(OWNED_BYTES, EMPTY_LANE, pardz_owned_bytes(&none, &at, &len));
    EXPECT(DISOWN, EMPTY_LANE, pardz_disown(&none));
    CHECK(pardz_await_own(&empty, 0, 1, &none) == PARDZ_EMPTY_LANE && none.key == 0 && other.key == 0 && at == nowhere && len == 99);
    CHECK(pardz_await_put(&empty, 0, NULL, 0, &key) == PARDZ_EMPTY_LANE && pardz_await_get(&empty, 0, 1, &lent) == PARDZ_EMPTY_LANE);
    CHECK(pardz_await_release(&empty, &lent) == PARDZ_EMPTY_LANE && pardz_await_clear(&empty, 0, 1) == PARDZ_EMPTY_LANE);
    CHECK(key == 99 && is_unlent(&lent) && is_none(&census) && empty.full == 0);
}

/* A reference isn't released by another lane than its own, or by one that the pool doesn't have, or under another key. */
static void wrong_releases(const pardz_pool *pool, const pardz_lent *lent) {
    const uint32_t lanes[] = { 1 - lent->lane, SHAPE.lanes, UINT32_MAX };
    pardz_lent wrong = *lent;
    for (size_t i = 0; i < sizeof lanes / sizeof *lanes; i++) {
        wrong.lane = lanes[i];
        EXPECT(RELEASE, NO_REFERENCE, pardz_pool_release(pool, &wrong));
    }
    wrong = *lent;
    wrong.key = UINT64_MAX;
    EXPECT(RELEASE, NO_REFERENCE, pardz_pool_release(pool, &wrong));
}

/* References stay with the lane that a get tells, and bytes until the last is released. */
static void lends(void) {
    pardz_pool pool = PARDZ_EMPTY;
    pardz_census census;
    EXPECT(ATTACH, OK, pardz_attach(&SHAPE, &pool));
    uint64_t key = put(&pool, 0, "hello"), other = put(&pool, 3, "");
    CHECK(key != other && key >> 56 == 7);
    pardz_lent first = UNLENT, second = UNLENT, none = UNLENT;
    EXPECT(GET, OK, pardz_pool_get(&pool, 1, key, &first));
    EXPECT(GET, OK, pardz_pool_get(&pool, UINT32_MAX - 1, key, &second));
    CHECK(first.lane == 1 && second.lane == 0 && first.key == key && first.len == 5 && second.at == first.at);
    EXPECT(GET, OK, pardz_pool_get(&pool, 0, other, &none));
    CHECK(none.len == 0 && none.at == nowhere && none.key == other && none.lane == 0);
    EXPECT(CLEAR, OK, pardz_pool_clear(&pool, 0, key));
    EXPECT(CLEAR, GONE, pardz_pool_clear(&pool, 1, key));
    pardz_lent gone = UNLENT;
    EXPECT(GET, GONE, pardz_pool_get(&pool, 0, key, &gone));
    EXPECT(GET, GONE, pardz_pool_get(&pool, 0, 0, &gone));
    EXPECT(GET, GONE, pardz_pool_get(&pool, 0, UINT64_MAX, &gone));
    EXPECT(CLEAR, GONE, pardz_pool_clear(&pool, 0, UINT64_MAX));
    CHECK(is_unlent(&gone) && memcmp(first.at, "hello", 5) == 0);
    EXPECT(RELEASE, OK, pardz_pool_release(&pool, &second));
    EXPECT(RELEASE, NO_REFERENCE, pardz_pool_release(&pool, &second));
    CHECK(memcmp(first.at, "hello", 5) == 0);
    wrong_releases(&pool, &first);
    EXPECT(RELEASE, OK, pardz_pool_release(&pool, &first));
    EXPECT(RELEASE, NO_REFERENCE, pardz_pool_release(&pool, &first));
    uint64_t next = put(&pool, 0, "next");
    EXPECT(GET, OK, pardz_pool_get(&pool, 0, next, &first));
    EXPECT(CLEAR, OK, pardz_pool_clear(&pool, 0, next));
    EXPECT(DETACH, OK, pardz_detach(&pool, &census));
    CHECK(census.present == 1 && census.marked == 1 && census.free == 2 && census.unopened == 8 && heap_blocks == 0);
    EXPECT(DETACH, EMPTY_LANE, pardz_detach(&pool, &census));
}

/* The bytes of an owned reference are these. */
static void owns(const pardz_owned *owned, const char *text) {
    const uint8_t *at = nowhere;
    size_t len = 99;
    EXPECT(OWNED_BYTES, OK, pardz_owned_bytes(owned, &at, &len));
    CHECK(len == strlen(text) && (len == 0 ? at == nowhere : memcmp(at, text, len) == 0));
}

/* Owned references: beside those that a lane counts by key, in several slots, moved by plain copies, of a key that is cleared. */
static void owned(void) {
    pardz_pool pool = PARDZ_EMPTY;
    pardz_census census;
    pardz_owned first = PARDZ_EMPTY, second = PARDZ_EMPTY, empty = PARDZ_EMPTY, none = PARDZ_EMPTY;
    EXPECT(ATTACH, OK, pardz_attach(&SHAPE, &pool));
    const uint64_t key = put(&pool, 0, "mine"), other = put(&pool, 1, "");
    EXPECT(OWN, OK, pardz_own(&pool, 1, key, &first));
    CHECK(first.key == key);
    EXPECT(OWN, FULL_LANE, pardz_own(&pool, 1, other, &first));
    EXPECT(OWN, OK, pardz_own(&pool, 3, other, &empty));
    EXPECT(OWN, GONE, pardz_own(&pool, 0, UINT64_MAX, &none));
    pardz_lent lent = UNLENT;
    lent.key = key;
    for (lent.lane = 0; lent.lane < 2; lent.lane++)
        EXPECT(RELEASE, NO_REFERENCE, pardz_pool_release(&pool, &lent));
    EXPECT(OWN_AGAIN, OK, pardz_own_again(&first, &second));
    EXPECT(OWN_AGAIN, FULL_LANE, pardz_own_again(&first, &empty));
    CHECK(second.key == key && empty.key == other);
    EXPECT(CLEAR, OK, pardz_pool_clear(&pool, 0, key));
    EXPECT(OWN, GONE, pardz_own(&pool, 0, key, &none));
    EXPECT(CENSUS, OK, pardz_pool_census(&pool, &census));
    CHECK(none.key == 0 && census.marked == 1 && census.present == 1 && census.free == 2 && census.unopened == 8);
    pardz_owned moved = first;
    memset(&first, 0xff, sizeof first);
    owns(&moved, "mine");
    owns(&empty, "");
    EXPECT(DISOWN, OK, pardz_disown(&moved));
    EXPECT(DISOWN, EMPTY_LANE, pardz_disown(&moved));
    owns(&second, "mine");
    EXPECT(DISOWN, OK, pardz_disown(&second));
    EXPECT(DISOWN, OK, pardz_disown(&empty));
    EXPECT(DETACH, OK, pardz_detach(&pool, &census));
    CHECK(census.marked == 0 && census.present == 1 && census.free == 3 && heap_blocks == 0);
}

/* Owned references that outlive their pool, whose memory the last of them gives back. */
static void outlives(void) {
    pardz_pool pool = PARDZ_EMPTY;
    pardz_census census;
    pardz_owned present = PARDZ_EMPTY, marked = PARDZ_EMPTY, again = PARDZ_EMPTY;
    EXPECT(ATTACH, OK, pardz_attach(&SHAPE, &pool));
    const uint64_t keys[] = { put(&pool, 0, "present"), put(&pool, 1, "marked"), put(&pool, 0, "") };
    EXPECT(OWN, OK, pardz_own(&pool, 1, keys[0], &present));
    EXPECT(OWN, OK, pardz_own(&pool, 1, keys[1], &marked));
    EXPECT(CLEAR, OK, pardz_pool_clear(&pool, 0, keys[1]));
    EXPECT(DETACH, OK, pardz_detach(&pool, &census));
    CHECK(census.present == 2 && census.marked == 1 && census.free == 1 && census.unopened == 8 && pool.full == 0);
    EXPECT(OWN, EMPTY_LANE, pardz_own(&pool, 0, keys[0], &again));
    owns(&present, "present");
    EXPECT(DISOWN, OK, pardz_disown(&present));
    EXPECT(OWN_AGAIN, OK, pardz_own_again(&marked, &again));
    EXPECT(DISOWN, OK, pardz_disown(&marked));
    owns(&again, "marked");
    CHECK(heap_blocks != 0);
    EXPECT(DISOWN, OK, pardz_disown(&again));
    CHECK(heap_blocks == 0);
}

/* A lane's places, and its references. */
static void limits(void) {
    pardz_pool pool = PARDZ_EMPTY;
    pardz_census census;
    EXPECT(ATTACH, OK, pardz_attach(&ONE, &pool));
    uint64_t key = put(&pool, 0, "a"), other = put(&pool, 0, "b"), none = 99;
    EXPECT(PUT, FULL, pardz_pool_put(&pool, 0, nowhere, 1, &none));
    CHECK(none == 99);
    EXPECT(CLEAR, OK, pardz_pool_clear(&pool, 0, other));
    EXPECT(PUT, OK, pardz_pool_put(&pool, 0, nowhere, 1, &other));
    pardz_lent lent = UNLENT, more = UNLENT;
    for (uint32_t i = 0; i < 1048575; i++)
        EXPECT(GET, OK, pardz_pool_get(&pool, i, key, &lent));
    EXPECT(GET, REFERENCES, pardz_pool_get(&pool, 0, key, &more));
    CHECK(is_unlent(&more));
    pardz_owned owned = PARDZ_EMPTY;
    EXPECT(OWN, OK, pardz_own(&pool, 0, key, &owned));
    EXPECT(DISOWN, OK, pardz_disown(&owned));
    for (uint32_t i = 0; i < 1048575; i++)
        EXPECT(RELEASE, OK, pardz_pool_release(&pool, &lent));
    EXPECT(RELEASE, NO_REFERENCE, pardz_pool_release(&pool, &lent));
    EXPECT(DETACH, OK, pardz_detach(&pool, &census));
    CHECK(census.present == 2 && heap_blocks == 0);
}

/* A put that may wait goes on to a lane that has a place. */
static void goes_on(void) {
    pardz_pool pool = PARDZ_EMPTY;
    pardz_census census;
    uint64_t key = 99;
    EXPECT(ATTACH, OK, pardz_attach(&SHAPE, &pool));
    for (int i = 0; i < 6; i++)
        put(&pool, 0, "full");
    EXPECT(PUT, FULL, pardz_pool_put(&pool, 0, nowhere, 1, &key));
    for (int i = 0; i < 6; i++)
        CHECK(pardz_await_put(&pool, 0, nowhere, 1, &key) == PARDZ_OK);
    key = 99;
    CHECK(pardz_await_put(&pool, 0, nowhere, 1, &key) == PARDZ_FULL && key == 99);
    EXPECT(DETACH, OK, pardz_detach(&pool, &census));
    CHECK(census.present == 12 && heap_blocks == 0);
}

/* Whether a call was refused memory; then it is to be made again with memory. */
static int lacks_memory(enum call call, uint32_t code) {
    seen[call] |= 1u << code;
    if (code == PARDZ_MEMORY)
        heap_begin(0, 0);
    else
        CHECK(code == PARDZ_OK);
    return code == PARDZ_MEMORY;
}

/* A pool from attach to detach while requests from `first` to `last` are refused. Whether one was. */
static int refused(long first, long last) {
    pardz_pool pool = PARDZ_EMPTY;
    uint8_t bytes[300] = { 1 };
    uint64_t keys[6] = { 99, 99, 99, 99, 99, 99 };
    const long before = heap_refused;
    heap_begin(first, last);
    if (lacks_memory(ATTACH, pardz_attach(&SHAPE, &pool))) {
        CHECK(pool.full == 0 && heap_blocks == 0 && heap_refused > before);
        EXPECT(ATTACH, OK, pardz_attach(&SHAPE, &pool));
    }
    for (size_t i = 0; i < 6; i++)
        if (lacks_memory(PUT, pardz_pool_put(&pool, (uint32_t)i, bytes, 50 * i, &keys[i]))) {
            CHECK(keys[i] == 99 && heap_refused > before);
            EXPECT(PUT, OK, pardz_pool_put(&pool, (uint32_t)i, bytes, 50 * i, &keys[i]));
        }
    pardz_owned owned = PARDZ_EMPTY;
    if (lacks_memory(OWN, pardz_own(&pool, 1, keys[1], &owned))) {
        CHECK(owned.key == 0 && heap_refused > before);
        EXPECT(OWN, OK, pardz_own(&pool, 1, keys[1], &owned));
    }
    const long requests = heap_requests;
    pardz_lent lent = UNLENT;
    EXPECT(DISOWN, OK, pardz_disown(&owned));
    for (size_t i = 0; i < 6; i++) {
        EXPECT(GET, OK, pardz_pool_get(&pool, (uint32_t)i + 1, keys[i], &lent));
        CHECK(lent.len == 50 * i && (i == 0 || memcmp(lent.at, bytes, lent.len) == 0));
        EXPECT(CLEAR, OK, pardz_pool_clear(&pool, (uint32_t)i, keys[i]));
        EXPECT(RELEASE, OK, pardz_pool_release(&pool, &lent));
    }
    pardz_census census;
    EXPECT(DETACH, OK, pardz_detach(&pool, &census));
    CHECK(heap_requests == requests && census.free + census.unopened == 12 && heap_blocks == 0);
    return heap_refused > before;
}

static void memory(void) {
    long runs = 0;
    for (long first = 1; refused(first, first); first++)
        CHECK(++runs < 1000);
    for (long first = 1; refused(first, 1000000); first++)
        CHECK(++runs < 2000);
    CHECK(runs > 20);
    heap_begin(0, 0);
}

/* A reference is owned, and given back, while the only lane is had. */
static void needs_no_lane(const pardz_pool *pool, uint64_t key) {
    pardz_owned owned = PARDZ_EMPTY;
    EXPECT(OWN, OK, pardz_own(pool, 0, key, &owned));
    EXPECT(DISOWN, OK, pardz_disown(&owned));
}

/* Where the only lane is had, each call that needs one is busy and has done nothing. */
static void busies(void) {
    const pardz_heap heap = { slow, slow_realloc, slow_free, NULL };
    pardz_pool pool = PARDZ_EMPTY;
    pthread_t thread;
    pardz_lent lent = UNLENT, kept = UNLENT;
    pardz_census census = NONE;
    uint64_t none = 99;
    CHECK(sem_init(&held, 0, 0) == 0 && sem_init(&go_on, 0, 0) == 0);
    pardz_set_heap(&heap);
    EXPECT(ATTACH, OK, pardz_attach(&THREE, &pool));
    const uint64_t key = put(&pool, 0, "kept");
    EXPECT(GET, OK, pardz_pool_get(&pool, 0, key, &kept));
    holds_up = 1;
    CHECK(pthread_create(&thread, NULL, puts_slowly, &pool) == 0);
    sem_wait(&held);
    EXPECT(PUT, BUSY, pardz_pool_put(&pool, 0, nowhere, 8, &none));
    EXPECT(GET, BUSY, pardz_pool_get(&pool, 0, key, &lent));
    EXPECT(RELEASE, BUSY, pardz_pool_release(&pool, &kept));
    EXPECT(CLEAR, BUSY, pardz_pool_clear(&pool, 0, key));
    EXPECT(DETACH, BUSY, pardz_detach(&pool, &census));
    CHECK(none == 99 && is_unlent(&lent) && is_none(&census) && pool.full == 1);
    needs_no_lane(&pool, key);
    sem_post(&go_on);
    CHECK(pthread_join(thread, NULL) == 0);
    EXPECT(GET, OK, pardz_pool_get(&pool, 0, key, &lent));
    EXPECT(RELEASE, OK, pardz_pool_release(&pool, &kept));
    EXPECT(RELEASE, OK, pardz_pool_release(&pool, &lent));
    EXPECT(CLEAR, OK, pardz_pool_clear(&pool, 0, key));
    EXPECT(DETACH, OK, pardz_detach(&pool, &census));
    CHECK(census.present == 1 && census.free == 2);
    pardz_set_heap(NULL);
}

/* A slot that was moved by a plain copy goes on. */
static void moved(void) {
    pardz_pool pool = PARDZ_EMPTY, copy;
    pardz_census census;
    EXPECT(ATTACH, OK, pardz_attach(&SHAPE, &pool));
    const uint64_t key = put(&pool, 0, "moved");
    copy = pool;
    memset(&pool, 0xff, sizeof pool);
    EXPECT(CLEAR, OK, pardz_pool_clear(&copy, 0, key));
    EXPECT(DETACH, OK, pardz_detach(&copy, &census));
    CHECK(census.free == 2 && census.unopened == 10 && heap_blocks == 0);
}

int main(void) {
    attaches();
    empties();
    lends();
    owned();
    outlives();
    limits();
    goes_on();
    memory();
    moved();
    busies();
    CHECK(heap_blocks == 0);
    printf("pool_calls: %d pairs of a call and a code\n", check_answers(ALL, CALLS));
    return 0;
}
