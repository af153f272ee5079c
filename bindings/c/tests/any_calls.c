/* Each code of each call by any thread, provoked once; then that these were all. Each request for memory of a grow, a put and a filling
 * refused in turn: a code, nothing else changed, no leak. */
#include "answers.h"
#include "counting_heap.h"

enum call { GROW, PUT, CREATE, APPEND, ROOM, WROTE, PUBLISH, DOWNGRADE, DROP, GET, CLONE, RELEASE, OWN, CLEAR, CALLS };

#include <pthread.h>

/* The codes that each call can answer, as pardz.h has them. (But for the 268,435,456 references of one key, at which a get, a clone or an
 * own is refused.) */
static const uint32_t ALL[CALLS] = {
    [GROW] = BIT(OK) | BIT(MEMORY) | BIT(FULL_LANE) | BIT(SHAPE),
    [PUT] = BIT(OK) | BIT(MEMORY) | BIT(EMPTY_LANE) | BIT(FULL) | BIT(BUSY),
    [CREATE] = BIT(OK) | BIT(MEMORY) | BIT(EMPTY_LANE) | BIT(FULL) | BIT(BUSY),
    [APPEND] = BIT(OK) | BIT(MEMORY) | BIT(EMPTY_LANE) | BIT(NO_FILLING),
    [ROOM] = BIT(OK) | BIT(MEMORY) | BIT(EMPTY_LANE) | BIT(NO_FILLING),
    [WROTE] = BIT(OK) | BIT(EMPTY_LANE) | BIT(NO_FILLING) | BIT(ROOM),
    [PUBLISH] = BIT(OK) | BIT(EMPTY_LANE) | BIT(NO_FILLING),
    [DOWNGRADE] = BIT(OK) | BIT(EMPTY_LANE) | BIT(NO_FILLING),
    [DROP] = BIT(OK) | BIT(EMPTY_LANE) | BIT(NO_FILLING),
    [GET] = BIT(OK) | BIT(EMPTY_LANE) | BIT(GONE),
    [CLONE] = BIT(OK) | BIT(EMPTY_LANE) | BIT(NO_REFERENCE),
    [RELEASE] = BIT(OK) | BIT(EMPTY_LANE) | BIT(NO_REFERENCE),
    [OWN] = BIT(OK) | BIT(MEMORY) | BIT(EMPTY_LANE) | BIT(FULL_LANE) | BIT(NO_REFERENCE),
    [CLEAR] = BIT(OK) | BIT(EMPTY_LANE) | BIT(GONE),
};

static const pardz_limits LIMITS = PARDZ_LIMITS;

/* A reference that no call wrote. */
static const pardz_ref UNREF = { nowhere, 99, 99 };

static int is_unref(const pardz_ref *ref) {
    return ref->at == nowhere && ref->len == 99 && ref->key == 99;
}

static uint64_t put(const pardz_pool *pool, const char *text) {
    uint64_t key = 0;
    EXPECT(PUT, OK, pardz_any_put(pool, text, strlen(text), &key));
    return key;
}

static void detach(pardz_pool *pool, pardz_census *census) {
    CHECK(pardz_detach(pool, census) == PARDZ_OK && pool->full == 0);
}

/* A wrong grow leaves the slot and the heap as they were. */
static void grows(void) {
    const pardz_limits wrong[] = { { 0, 1, 0, 1, 1 }, { 1, 0, 0, 1, 1 }, { 1, 1, 256, 1, 1 }, { 1, 1, 0, 0, 1 }, { 1, 1, 0, 1, 0 } };
    pardz_pool pool = PARDZ_EMPTY;
    for (size_t i = 0; i < sizeof wrong / sizeof *wrong; i++) {
        EXPECT(GROW, SHAPE, pardz_grow(&wrong[i], &pool));
        CHECK(pool.full == 0 && heap_blocks == 0);
    }
    EXPECT(GROW, OK, pardz_grow(&LIMITS, &pool));
    EXPECT(GROW, FULL_LANE, pardz_grow(&LIMITS, &pool));
    pardz_census census = NONE;
    detach(&pool, &census);
    CHECK(census.unopened == 0 && census.free == 0 && heap_blocks == 0);
}

/* A slot without a pool, a filling that ended, a reference that was released: each call says so, and writes nothing. */
static void empties(const pardz_pool *pool) {
    const pardz_pool empty = PARDZ_EMPTY;
    const pardz_pool *const pools[] = { &empty, pool };
    pardz_filling filling = { NULL, 0 };
    pardz_ref ref = { NULL, 0, 0 }, other = UNREF;
    pardz_owned owned = PARDZ_EMPTY;
    uint64_t key = 99;
    uint8_t *to = nowhere;
    EXPECT(PUT, EMPTY_LANE, pardz_any_put(&empty, NULL, 0, &key));
    EXPECT(CREATE, EMPTY_LANE, pardz_any_create(&empty, &filling));
    EXPECT(GET, EMPTY_LANE, pardz_any_get(&empty, 1, &other));
    EXPECT(CLEAR, EMPTY_LANE, pardz_any_clear(&empty, 1));
    for (int i = 0; i < 2; i++) {
        const uint32_t none = i == 0 ? PARDZ_EMPTY_LANE : PARDZ_NO_FILLING, released = i == 0 ? PARDZ_EMPTY_LANE : PARDZ_NO_REFERENCE;
        expect(APPEND, "append", none, pardz_any_append(pools[i], &filling, NULL, 0), __LINE__);
        expect(ROOM, "room", none, pardz_any_room(pools[i], &filling, 1, &to), __LINE__);
        expect(WROTE, "wrote", none, pardz_any_wrote(pools[i], &filling, 0), __LINE__);
        expect(PUBLISH, "publish", none, pardz_any_publish(pools[i], &filling, &key), __LINE__);
        expect(DOWNGRADE, "downgrade", none, pardz_any_downgrade(pools[i], &filling, &other), __LINE__);
        expect(DROP, "drop", none, pardz_any_drop(pools[i], &filling), __LINE__);
        expect(CLONE, "clone", released, pardz_any_clone(pools[i], &ref, &other), __LINE__);
        expect(RELEASE, "release", released, pardz_any_release(pools[i], &ref), __LINE__);
        expect(OWN, "own", released, pardz_any_own(pools[i], &ref, &owned), __LINE__);
    }
    CHECK(key == 99 && to == nowhere && is_unref(&other) && filling.key == 0 && ref.key == 0 && owned.key == 0);
}

/* A buffer that is filled with abcdei, and published with a reference. None finds it before. */
static pardz_ref fills(const pardz_pool *pool) {
    pardz_filling filling;
    uint8_t *to = nowhere;
    pardz_ref ref = UNREF;
    EXPECT(CREATE, OK, pardz_any_create(pool, &filling));
    const uint64_t key = filling.key;
    EXPECT(GET, GONE, pardz_any_get(pool, key, &ref));
    EXPECT(CLEAR, GONE, pardz_any_clear(pool, key));
    CHECK(is_unref(&ref));
    EXPECT(APPEND, OK, pardz_any_append(pool, &filling, "abc", 3));
    EXPECT(WROTE, ROOM, pardz_any_wrote(pool, &filling, 1));
    EXPECT(ROOM, OK, pardz_any_room(pool, &filling, 0, &to));
    CHECK(to == nowhere);
    EXPECT(ROOM, OK, pardz_any_room(pool, &filling, 5, &to));
    CHECK(memcmp(to, "\0\0\0\0\0", 5) == 0 && memcmp(to - 3, "abc", 3) == 0);
    memcpy(to, "defgh", 5);
    EXPECT(WROTE, ROOM, pardz_any_wrote(pool, &filling, 6));
    EXPECT(WROTE, OK, pardz_any_wrote(pool, &filling, 2));
    EXPECT(ROOM, OK, pardz_any_room(pool, &filling, 4, &to));
    EXPECT(APPEND, OK, pardz_any_append(pool, &filling, "i", 1));
    EXPECT(WROTE, ROOM, pardz_any_wrote(pool, &filling, 1));
    EXPECT(DOWNGRADE, OK, pardz_any_downgrade(pool, &filling, &ref));
    CHECK(filling.key == 0 && ref.key == key && ref.len == 6 && memcmp(ref.at, "abcdei", 6) == 0 && (uintptr_t)ref.at % 16 == 0);
    return ref;
}

/* References: to a key that is cleared too, cloned, copied, and of no bytes. */
static void refers(const pardz_pool *pool) {
    pardz_ref ref = fills(pool), other = UNREF, more = UNREF;
    EXPECT(GET, OK, pardz_any_get(pool, ref.key, &other));
    CHECK(other.at == ref.at && other.len == ref.len && other.key == ref.key);
    EXPECT(CLEAR, OK, pardz_any_clear(pool, ref.key));
    EXPECT(CLEAR, GONE, pardz_any_clear(pool, ref.key));
    EXPECT(GET, GONE, pardz_any_get(pool, ref.key, &more));
    EXPECT(RELEASE, OK, pardz_any_release(pool, &ref));
    EXPECT(RELEASE, NO_REFERENCE, pardz_any_release(pool, &ref));
    CHECK(is_unref(&more));
    EXPECT(CLONE, OK, pardz_any_clone(pool, &other, &more));
    EXPECT(RELEASE, OK, pardz_any_release(pool, &other));
    CHECK(more.len == 6 && memcmp(more.at, "abcdei", 6) == 0);
    pardz_owned owned = PARDZ_EMPTY;
    EXPECT(OWN, OK, pardz_any_own(pool, &more, &owned));
    EXPECT(OWN, FULL_LANE, pardz_any_own(pool, &more, &owned));
    pardz_ref copy = more;
    EXPECT(RELEASE, OK, pardz_any_release(pool, &copy));
    const uint8_t *at = nowhere;
    size_t len = 0;
    CHECK(pardz_owned_bytes(&owned, &at, &len) == PARDZ_OK && len == 6 && memcmp(at, "abcdei", 6) == 0 && pardz_disown(&owned) == PARDZ_OK);
    const uint64_t empty = put(pool, "");
    more = UNREF;
    EXPECT(GET, OK, pardz_any_get(pool, empty, &more));
    CHECK(more.at == nowhere && more.len == 0 && more.key == empty);
    EXPECT(RELEASE, OK, pardz_any_release(pool, &more));
    EXPECT(CLEAR, OK, pardz_any_clear(pool, empty));
    for (uint64_t wrong = 0; wrong < 2; wrong++) {
        EXPECT(GET, GONE, pardz_any_get(pool, wrong - 1, &more));
        EXPECT(CLEAR, GONE, pardz_any_clear(pool, wrong - 1));
        EXPECT(GET, GONE, pardz_any_get(pool, wrong, &more));
    }
}

/* A filling that is dropped gives its place back at once, and its key never names anything. */
static void drops(const pardz_pool *pool) {
    pardz_census before, after;
    pardz_filling filling;
    pardz_ref ref = UNREF;
    EXPECT(CREATE, OK, pardz_any_create(pool, &filling));
    const uint64_t key = filling.key;
    EXPECT(APPEND, OK, pardz_any_append(pool, &filling, "dropped", 7));
    CHECK(pardz_pool_census(pool, &before) == PARDZ_OK && before.filling == 1);
    EXPECT(DROP, OK, pardz_any_drop(pool, &filling));
    EXPECT(GET, GONE, pardz_any_get(pool, key, &ref));
    CHECK(pardz_pool_census(pool, &after) == PARDZ_OK && after.filling == 0 && after.free == before.free + 1);
    EXPECT(CREATE, OK, pardz_any_create(pool, &filling));
    CHECK(filling.key != key);
    uint64_t published = 0;
    const uint64_t next = filling.key;
    EXPECT(PUBLISH, OK, pardz_any_publish(pool, &filling, &published));
    CHECK(filling.key == 0 && published == next);
    EXPECT(GET, OK, pardz_any_get(pool, next, &ref));
    CHECK(ref.len == 0);
    EXPECT(RELEASE, OK, pardz_any_release(pool, &ref));
    EXPECT(CLEAR, OK, pardz_any_clear(pool, next));
}

/* What another thread does with this one's: it goes on with its filling, clones and releases its references, and clears its keys. */
struct handed {
    const pardz_pool *pool;
    pardz_filling filling;
    pardz_ref ref, more;
    uint64_t key;
};

static void *goes_on(void *argument) {
    struct handed *handed = argument;
    EXPECT(APPEND, OK, pardz_any_append(handed->pool, &handed->filling, " there", 6));
    EXPECT(PUBLISH, OK, pardz_any_publish(handed->pool, &handed->filling, &handed->key));
    EXPECT(CLONE, OK, pardz_any_clone(handed->pool, &handed->ref, &handed->more));
    EXPECT(RELEASE, OK, pardz_any_release(handed->pool, &handed->ref));
    EXPECT(CLEAR, OK, pardz_any_clear(handed->pool, handed->more.key));
    return NULL;
}

static void hands_on(const pardz_pool *pool) {
    struct handed handed = { pool, { NULL, 0 }, UNREF, UNREF, 0 };
    pthread_t thread;
    EXPECT(GET, OK, pardz_any_get(pool, put(pool, "handed"), &handed.ref));
    EXPECT(CREATE, OK, pardz_any_create(pool, &handed.filling));
    EXPECT(APPEND, OK, pardz_any_append(pool, &handed.filling, "here and", 8));
    CHECK(pthread_create(&thread, NULL, goes_on, &handed) == 0 && pthread_join(thread, NULL) == 0);
    CHECK(handed.more.len == 6 && memcmp(handed.more.at, "handed", 6) == 0);
    EXPECT(RELEASE, OK, pardz_any_release(pool, &handed.more));
    EXPECT(GET, OK, pardz_any_get(pool, handed.key, &handed.ref));
    CHECK(handed.ref.len == 14 && memcmp(handed.ref.at, "here and there", 14) == 0);
    EXPECT(RELEASE, OK, pardz_any_release(pool, &handed.ref));
    EXPECT(CLEAR, OK, pardz_any_clear(pool, handed.key));
}

/* What is done in any pool leaves nothing in it. */
static void lives(const pardz_pool *pool) {
    empties(pool);
    refers(pool);
    drops(pool);
    hands_on(pool);
    pardz_census census;
    CHECK(pardz_pool_census(pool, &census) == PARDZ_OK && census.filling + census.present + census.marked + census.retired == 0);
}

/* A pool that grows: thousands of keys; more than one slot; owned references that outlive it. Its keys have its tag. */
static void growing(void) {
    const pardz_limits seven = { UINT64_MAX, UINT32_MAX, 7, 1, UINT32_MAX };
    static uint64_t keys[5000];
    pardz_pool pool = PARDZ_EMPTY, other = PARDZ_EMPTY;
    pardz_census census = NONE;
    pardz_lent lent;
    EXPECT(GROW, OK, pardz_grow(&seven, &pool));
    lives(&pool);
    for (int i = 0; i < 5000; i++) {
        EXPECT(PUT, OK, pardz_any_put(&pool, &i, sizeof i, &keys[i]));
        CHECK(keys[i] >> 56 == 7);
    }
    CHECK(pardz_share(&pool, &other) == PARDZ_OK && pardz_detach(&pool, &census) == PARDZ_SHARED && is_none(&census));
    CHECK(pardz_unshare(&pool) == PARDZ_OK);
    CHECK(pardz_pool_put(&other, 0, NULL, 0, keys) == PARDZ_EMPTY_LANE && pardz_pool_get(&other, 3, keys[0], &lent) == PARDZ_EMPTY_LANE);
    CHECK(pardz_pool_clear(&other, 0, keys[0]) == PARDZ_EMPTY_LANE);
    lent.key = keys[0];
    lent.lane = 0;
    CHECK(pardz_pool_release(&other, &lent) == PARDZ_NO_REFERENCE);
    pardz_owned owned = PARDZ_EMPTY;
    CHECK(pardz_own(&other, 0, keys[4999], &owned) == PARDZ_OK);
    for (int i = 1; i < 5000; i++)
        EXPECT(CLEAR, OK, pardz_any_clear(&other, keys[i]));
    pardz_filling left;
    EXPECT(CREATE, OK, pardz_any_create(&other, &left));
    EXPECT(APPEND, OK, pardz_any_append(&other, &left, "left", 4));
    detach(&other, &census);
    CHECK(census.present == 1 && census.marked == 1 && census.filling == 1);
    const uint8_t *at = NULL;
    size_t len = 0;
    const int last = 4999;
    CHECK(pardz_owned_bytes(&owned, &at, &len) == PARDZ_OK && len == sizeof last && memcmp(at, &last, len) == 0);
    CHECK(pardz_disown(&owned) == PARDZ_OK);
}

/* Puts that find no places of their own: of another thread where one thread may have some; and behind the last. */
static void *has_none(void *pool) {
    uint64_t key = 99;
    pardz_filling filling = { NULL, 99 };
    EXPECT(PUT, BUSY, pardz_any_put(pool, NULL, 0, &key));
    EXPECT(CREATE, BUSY, pardz_any_create(pool, &filling));
    CHECK(key == 99 && filling.key == 99);
    return NULL;
}

static void limits(void) {
    const pardz_limits one = { 64, 1, 0, 1, UINT32_MAX };
    pardz_pool pool = PARDZ_EMPTY;
    pardz_filling filling = { NULL, 99 };
    pardz_census census;
    pthread_t thread;
    uint64_t key = 0, none = 99;
    EXPECT(GROW, OK, pardz_grow(&one, &pool));
    for (int i = 0; i < 64; i++)
        key = put(&pool, "full");
    EXPECT(PUT, FULL, pardz_any_put(&pool, NULL, 0, &none));
    EXPECT(CREATE, FULL, pardz_any_create(&pool, &filling));
    CHECK(none == 99 && filling.key == 99);
    CHECK(pthread_create(&thread, NULL, has_none, &pool) == 0 && pthread_join(thread, NULL) == 0);
    EXPECT(CLEAR, OK, pardz_any_clear(&pool, key));
    put(&pool, "one more");
    detach(&pool, &census);
    CHECK(census.present == 64 && census.free == 0);
}

/* A pool with lanes: what one way puts another one finds. */
static void by_lanes(void) {
    const pardz_shape shape = { 2, 4, 2, UINT32_MAX, 0 };
    pardz_pool pool = PARDZ_EMPTY;
    pardz_census census;
    pardz_ref ref = UNREF;
    pardz_lent lent;
    CHECK(pardz_attach(&shape, &pool) == PARDZ_OK);
    lives(&pool);
    uint64_t by_lane = 0;
    const uint64_t by_any = put(&pool, "by any thread");
    CHECK(pardz_pool_put(&pool, 1, (const uint8_t *)"by a lane", 9, &by_lane) == PARDZ_OK);
    EXPECT(GET, OK, pardz_any_get(&pool, by_lane, &ref));
    CHECK(ref.len == 9 && pardz_pool_get(&pool, 0, by_any, &lent) == PARDZ_OK && lent.len == 13);
    EXPECT(CLEAR, OK, pardz_any_clear(&pool, by_any));
    CHECK(pardz_pool_clear(&pool, 0, by_lane) == PARDZ_OK && pardz_pool_release(&pool, &lent) == PARDZ_OK);
    EXPECT(RELEASE, OK, pardz_any_release(&pool, &ref));
    detach(&pool, &census);
    CHECK(census.free + census.unopened == 24 && heap_blocks == 0);
}

/* Whether a call was refused memory; then it is to be made again with memory. */
static int lacks_memory(enum call call, uint32_t code) {
    seen[call] |= 1u << code;
    if (code == PARDZ_MEMORY)
        heap_begin(0, 0);
    else
        CHECK(code == PARDZ_OK);
    return code == PARDZ_MEMORY;
}

/* A pool's life on a thread of its own, while requests from `first` to `last` are refused. The thread's end gives back what it kept. */
static long first, last;

static void *lives_refused(void *nothing) {
    pardz_pool pool = PARDZ_EMPTY;
    uint8_t bytes[300] = { 1 }, *to = nowhere;
    uint64_t key = 99;
    pardz_filling filling = { NULL, 99 };
    heap_begin(first, last);
    if (lacks_memory(GROW, pardz_grow(&LIMITS, &pool))) {
        CHECK(pool.full == 0 && heap_blocks == 0);
        EXPECT(GROW, OK, pardz_grow(&LIMITS, &pool));
    }
    if (lacks_memory(CREATE, pardz_any_create(&pool, &filling))) {
        CHECK(filling.key == 99);
        EXPECT(CREATE, OK, pardz_any_create(&pool, &filling));
    }
    for (size_t i = 0; i < 3; i++) {
        key = 99;
        if (lacks_memory(PUT, pardz_any_put(&pool, bytes, 100 * i, &key))) {
            CHECK(key == 99);
            EXPECT(PUT, OK, pardz_any_put(&pool, bytes, 100 * i, &key));
        }
    }
    if (lacks_memory(APPEND, pardz_any_append(&pool, &filling, bytes, 100)))
        EXPECT(APPEND, OK, pardz_any_append(&pool, &filling, bytes, 100));
    if (lacks_memory(ROOM, pardz_any_room(&pool, &filling, 200, &to))) {
        CHECK(to == nowhere);
        EXPECT(WROTE, ROOM, pardz_any_wrote(&pool, &filling, 1));
        EXPECT(ROOM, OK, pardz_any_room(&pool, &filling, 200, &to));
    }
    pardz_ref ref = UNREF, more = UNREF;
    pardz_owned owned = PARDZ_EMPTY;
    EXPECT(WROTE, OK, pardz_any_wrote(&pool, &filling, 200));
    EXPECT(DOWNGRADE, OK, pardz_any_downgrade(&pool, &filling, &ref));
    if (lacks_memory(OWN, pardz_any_own(&pool, &ref, &owned))) {
        CHECK(owned.key == 0);
        EXPECT(OWN, OK, pardz_any_own(&pool, &ref, &owned));
    }
    const long requests = heap_requests;
    CHECK(pardz_disown(&owned) == PARDZ_OK);
    EXPECT(CLONE, OK, pardz_any_clone(&pool, &ref, &more));
    CHECK(ref.len == 300 && memcmp(ref.at, bytes, 100) == 0);
    EXPECT(CLEAR, OK, pardz_any_clear(&pool, ref.key));
    EXPECT(RELEASE, OK, pardz_any_release(&pool, &ref));
    EXPECT(RELEASE, OK, pardz_any_release(&pool, &more));
    pardz_census census;
    detach(&pool, &census);
    CHECK(census.present == 3 && heap_requests == requests);
    return nothing;
}

static int refused(long from, long to) {
    const long before = heap_refused;
    pthread_t thread;
    first = from;
    last = to;
    CHECK(pthread_create(&thread, NULL, lives_refused, NULL) == 0 && pthread_join(thread, NULL) == 0 && heap_blocks == 0);
    return heap_refused > before;
}

static void memory(void) {
    long runs = 0;
    for (long from = 1; refused(from, from); from++)
        CHECK(++runs < 1000);
    for (long from = 1; refused(from, 1000000); from++)
        CHECK(++runs < 2000);
    CHECK(runs > 10);
    heap_begin(0, 0);
}

/* (On a thread of its own, which keeps nothing when it has exited.) */
static void *all(void *nothing) {
    grows();
    by_lanes();
    growing();
    limits();
    return nothing;
}

int main(void) {
    pthread_t thread;
    memory();
    CHECK(pthread_create(&thread, NULL, all, NULL) == 0 && pthread_join(thread, NULL) == 0 && heap_blocks == 0);
    printf("any_calls: %d pairs of a call and a code\n", check_answers(ALL, CALLS));
    return 0;
}
