/* Calls by a pool, each thread by a slot of its own: each code of each call, provoked once; then that these were all. Each request for memory
 * of an attach, a share and a put refused in turn: a code, nothing else changed, no leak. */
#include "answers.h"
#include "counting_heap.h"

enum call { ATTACH, SHARE, PUT, GET, RELEASE, CLEAR, UNSHARE, DETACH, CALLS };

#include "by_pool.h"

/* The codes that each call can answer here: a share by libpoolffi.a alone takes memory and a lane. */
static const uint32_t ALL[CALLS] = {
    [ATTACH] = BIT(OK) | BIT(MEMORY) | BIT(FULL_LANE) | BIT(SHAPE),
    [SHARE] = BIT(OK) | BIT(EMPTY_LANE) | BIT(FULL_LANE),
    [PUT] = BIT(OK) | BIT(MEMORY) | BIT(EMPTY_LANE) | BIT(FULL) | BIT(BUSY),
    [GET] = BIT(OK) | BIT(EMPTY_LANE) | BIT(GONE) | BIT(REFERENCES) | BIT(BUSY),
    [RELEASE] = BIT(OK) | BIT(EMPTY_LANE) | BIT(NO_REFERENCE) | BIT(BUSY),
    [CLEAR] = BIT(OK) | BIT(EMPTY_LANE) | BIT(GONE) | BIT(BUSY),
    [UNSHARE] = BIT(OK) | BIT(EMPTY_LANE),
    [DETACH] = BIT(OK) | BIT(EMPTY_LANE) | BIT(SHARED),
};

static const pardz_shape SHAPE = { 2, 2, 2, UINT32_MAX, 7 }, ONE = { 1, 2, 1, UINT32_MAX, 7 };

/* A wrong attach leaves the slot and the heap as they were. */
static void attaches(void) {
    const pardz_shape wrong[] = { { 0, 2, 2, 1, 0 }, { 65, 2, 2, 1, 0 }, { 2, 3, 2, 1, 0 }, { 2, 2, 17, 1, 0 }, { 2, 2, 2, 0, 0 }, { 2, 2, 2, 1, 256 } };
    pardz_pool pool = PARDZ_EMPTY;
    for (size_t i = 0; i < sizeof wrong / sizeof *wrong; i++) {
        EXPECT(ATTACH, SHAPE, pardz_attach(&wrong[i], &pool));
        CHECK(pool.full == 0 && heap_blocks == 0);
    }
    EXPECT(ATTACH, OK, pardz_attach(&SHAPE, &pool));
    void *at = pool.at;
    EXPECT(ATTACH, FULL_LANE, pardz_attach(&SHAPE, &pool));
    CHECK(pool.at == at && pool.full == 1);
    pardz_census census = NONE;
    EXPECT(DETACH, OK, pardz_detach(&pool, &census));
    CHECK(census.unopened == 12 && pool.full == 0 && heap_blocks == 0);
}

/* A slot without a pool: each call says so. */
static void empties(void) {
    pardz_pool empty = PARDZ_EMPTY, other = PARDZ_EMPTY;
    uint64_t key = 99;
    pardz_lent lent = UNLENT;
    pardz_census census = NONE;
    EXPECT(SHARE, EMPTY_LANE, pardz_share(&empty, &other));
    EXPECT(PUT, EMPTY_LANE, pardz_pool_put(&empty, 0, NULL, 0, &key));
    EXPECT(GET, EMPTY_LANE, pardz_pool_get(&empty, 0, 1, &lent));
    EXPECT(RELEASE, EMPTY_LANE, pardz_pool_release(&empty, &lent));
    EXPECT(CLEAR, EMPTY_LANE, pardz_pool_clear(&empty, 0, 1));
    EXPECT(UNSHARE, EMPTY_LANE, pardz_unshare(&empty));
    EXPECT(DETACH, EMPTY_LANE, pardz_detach(&empty, &census));
    CHECK(pardz_await_put(&empty, 0, NULL, 0, &key) == PARDZ_EMPTY_LANE && pardz_await_get(&empty, 0, 1, &lent) == PARDZ_EMPTY_LANE);
    CHECK(pardz_await_release(&empty, &lent) == PARDZ_EMPTY_LANE && pardz_await_clear(&empty, 0, 1) == PARDZ_EMPTY_LANE);
    CHECK(key == 99 && is_unlent(&lent) && is_none(&census) && empty.full == 0 && other.full == 0);
}

/* What one slot put the other finds, and releases what it got; a pool that two slots have isn't detached. */
static void shares(void) {
    pardz_pool first = PARDZ_EMPTY, second = PARDZ_EMPTY, third = PARDZ_EMPTY, moved;
    pardz_census census = NONE;
    EXPECT(ATTACH, OK, pardz_attach(&SHAPE, &first));
    const uint64_t key = put(&first, 0, "hello");
    EXPECT(SHARE, OK, pardz_share(&first, &second));
    EXPECT(SHARE, FULL_LANE, pardz_share(&first, &second));
    EXPECT(DETACH, SHARED, pardz_detach(&first, &census));
    CHECK(first.full == 1 && second.full == 1 && is_none(&census));
    const uint64_t other = put(&second, 3, "");
    CHECK(key != other && key >> 56 == 7);
    pardz_lent one = UNLENT, two = UNLENT, none = UNLENT, gone = UNLENT;
    EXPECT(GET, OK, pardz_pool_get(&second, 1, key, &one));
    EXPECT(GET, OK, pardz_pool_get(&first, UINT32_MAX - 1, key, &two));
    CHECK(one.lane == 1 && two.lane == 0 && one.key == key && one.len == 5 && two.at == one.at);
    EXPECT(GET, OK, pardz_pool_get(&first, 0, other, &none));
    CHECK(none.len == 0 && none.at == nowhere && none.key == other && none.lane == 0);
    EXPECT(CLEAR, OK, pardz_pool_clear(&second, 0, key));
    EXPECT(CLEAR, GONE, pardz_pool_clear(&first, 1, key));
    EXPECT(GET, GONE, pardz_pool_get(&first, 0, key, &gone));
    EXPECT(GET, GONE, pardz_pool_get(&second, 0, 0, &gone));
    EXPECT(GET, GONE, pardz_pool_get(&second, 0, UINT64_MAX, &gone));
    EXPECT(CLEAR, GONE, pardz_pool_clear(&second, 0, UINT64_MAX));
    CHECK(is_unlent(&gone) && memcmp(one.at, "hello", 5) == 0);
    moved = second;
    memset(&second, 0xff, sizeof second);
    EXPECT(RELEASE, OK, pardz_pool_release(&moved, &two));
    EXPECT(RELEASE, NO_REFERENCE, pardz_pool_release(&moved, &two));
    gone = one;
    gone.lane = 2;
    EXPECT(RELEASE, NO_REFERENCE, pardz_pool_release(&first, &gone));
    gone.lane = UINT32_MAX;
    EXPECT(RELEASE, NO_REFERENCE, pardz_pool_release(&first, &gone));
    gone = one;
    gone.key = UINT64_MAX;
    EXPECT(RELEASE, NO_REFERENCE, pardz_pool_release(&first, &gone));
    EXPECT(UNSHARE, OK, pardz_unshare(&moved));
    EXPECT(UNSHARE, EMPTY_LANE, pardz_unshare(&moved));
    CHECK(memcmp(one.at, "hello", 5) == 0);
    EXPECT(RELEASE, OK, pardz_pool_release(&first, &one));
    EXPECT(SHARE, OK, pardz_share(&first, &third));
    EXPECT(UNSHARE, OK, pardz_unshare(&first));
    EXPECT(CLEAR, OK, pardz_pool_clear(&third, 0, other));
    EXPECT(DETACH, OK, pardz_detach(&third, &census));
    CHECK(census.present == 0 && census.marked == 1 && census.free == 3 && census.unopened == 8 && heap_blocks == 0);
    EXPECT(DETACH, EMPTY_LANE, pardz_detach(&third, &census));
}

/* A lane's places, and its references. */
static void limits(void) {
    pardz_pool pool = PARDZ_EMPTY;
    pardz_census census;
    EXPECT(ATTACH, OK, pardz_attach(&ONE, &pool));
    uint64_t key = put(&pool, 0, "a"), other = put(&pool, 0, "b"), none = 99;
    EXPECT(PUT, FULL, pardz_pool_put(&pool, 0, nowhere, 1, &none));
    CHECK(none == 99);
    EXPECT(CLEAR, OK, pardz_pool_clear(&pool, 0, other));
    EXPECT(PUT, OK, pardz_pool_put(&pool, 0, nowhere, 1, &other));
    pardz_lent lent = UNLENT, more = UNLENT;
    for (uint32_t i = 0; i < 1048575; i++)
        EXPECT(GET, OK, pardz_pool_get(&pool, i, key, &lent));
    EXPECT(GET, REFERENCES, pardz_pool_get(&pool, 0, key, &more));
    CHECK(is_unlent(&more));
    for (uint32_t i = 0; i < 1048575; i++)
        EXPECT(RELEASE, OK, pardz_pool_release(&pool, &lent));
    EXPECT(RELEASE, NO_REFERENCE, pardz_pool_release(&pool, &lent));
    EXPECT(DETACH, OK, pardz_detach(&pool, &census));
    CHECK(census.present == 2 && heap_blocks == 0);
}

/* A pool of two slots from attach to detach while requests from `first` to `last` are refused. Whether one was. */
static int refused(long first, long last) {
    pardz_pool pool = PARDZ_EMPTY, other = PARDZ_EMPTY;
    uint8_t bytes[300] = { 1 };
    uint64_t keys[6] = { 99, 99, 99, 99, 99, 99 };
    const long before = heap_refused;
    heap_begin(first, last);
    if (pardz_attach(&SHAPE, &pool) != PARDZ_OK) {
        CHECK(pool.full == 0 && heap_blocks == 0 && heap_refused > before);
        heap_begin(0, 0);
        EXPECT(ATTACH, OK, pardz_attach(&SHAPE, &pool));
        seen[ATTACH] |= BIT(MEMORY);
    }
    const uint32_t shared = pardz_share(&pool, &other);
    if (shared != PARDZ_OK) {
        CHECK(shared == PARDZ_MEMORY && other.full == 0);
        heap_begin(0, 0);
        EXPECT(SHARE, OK, pardz_share(&pool, &other));
    }
    for (size_t i = 0; i < 6; i++) {
        const uint32_t code = pardz_pool_put(&other, (uint32_t)i, bytes, 50 * i, &keys[i]);
        if (code == PARDZ_MEMORY) {
            CHECK(keys[i] == 99);
            heap_begin(0, 0);
            EXPECT(PUT, OK, pardz_pool_put(&other, (uint32_t)i, bytes, 50 * i, &keys[i]));
            seen[PUT] |= BIT(MEMORY);
        } else
            CHECK(code == PARDZ_OK);
    }
    const long requests = heap_requests;
    pardz_lent lent = UNLENT;
    for (size_t i = 0; i < 6; i++) {
        EXPECT(GET, OK, pardz_pool_get(&pool, (uint32_t)i + 1, keys[i], &lent));
        CHECK(lent.len == 50 * i && (i == 0 || memcmp(lent.at, bytes, lent.len) == 0));
        EXPECT(CLEAR, OK, pardz_pool_clear(&other, (uint32_t)i, keys[i]));
        EXPECT(RELEASE, OK, pardz_pool_release(&other, &lent));
    }
    pardz_census census;
    EXPECT(UNSHARE, OK, pardz_unshare(&pool));
    EXPECT(DETACH, OK, pardz_detach(&other, &census));
    CHECK(heap_requests == requests && census.free + census.unopened == 12 && heap_blocks == 0);
    return heap_refused > before;
}

static void memory(void) {
    long runs = 0;
    for (long first = 1; refused(first, first); first++)
        CHECK(++runs < 1000);
    for (long first = 1; refused(first, 1000000); first++)
        CHECK(++runs < 2000);
    CHECK(runs > 20);
    heap_begin(0, 0);
}

/* Where the only lane is had, each call by another slot is busy and has done nothing. */
static void busies(void) {
    const pardz_heap heap = { slow, slow_realloc, slow_free, NULL };
    pardz_pool pool = PARDZ_EMPTY, other = PARDZ_EMPTY, third = PARDZ_EMPTY;
    pthread_t thread;
    pardz_lent lent = UNLENT, kept = UNLENT;
    pardz_census census = NONE;
    uint64_t none = 99;
    CHECK(sem_init(&held, 0, 0) == 0 && sem_init(&go_on, 0, 0) == 0);
    pardz_set_heap(&heap);
    EXPECT(ATTACH, OK, pardz_attach(&ONE, &pool));
    EXPECT(SHARE, OK, pardz_share(&pool, &other));
    const uint64_t key = put(&pool, 0, "kept");
    EXPECT(GET, OK, pardz_pool_get(&pool, 0, key, &kept));
    holds_up = 1;
    CHECK(pthread_create(&thread, NULL, puts_slowly, &other) == 0);
    sem_wait(&held);
    EXPECT(PUT, BUSY, pardz_pool_put(&pool, 0, nowhere, 8, &none));
    EXPECT(GET, BUSY, pardz_pool_get(&pool, 0, key, &lent));
    EXPECT(RELEASE, BUSY, pardz_pool_release(&pool, &kept));
    EXPECT(CLEAR, BUSY, pardz_pool_clear(&pool, 0, key));
    EXPECT(DETACH, SHARED, pardz_detach(&pool, &census));
    CHECK(none == 99 && is_unlent(&lent) && is_none(&census) && pool.full == 1);
    const uint32_t shared = pardz_share(&pool, &third);
    CHECK(shared == PARDZ_BUSY ? third.full == 0 : shared == PARDZ_OK && pardz_unshare(&third) == PARDZ_OK);
    sem_post(&go_on);
    CHECK(pthread_join(thread, NULL) == 0);
    EXPECT(RELEASE, OK, pardz_pool_release(&pool, &kept));
    EXPECT(CLEAR, OK, pardz_pool_clear(&other, 0, key));
    EXPECT(UNSHARE, OK, pardz_unshare(&other));
    EXPECT(DETACH, OK, pardz_detach(&pool, &census));
    CHECK(census.present == 1 && census.free == 1);
    pardz_set_heap(NULL);
}

int main(void) {
    attaches();
    empties();
    shares();
    limits();
    memory();
    busies();
    printf("shares: %d pairs of a call and a code\n", check_answers(ALL, CALLS));
    return 0;
}
