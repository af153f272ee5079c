/* Each code of each call, provoked once; then that these were all. */
#include "answers.h"
#include "counting_heap.h"
#include "which.h"

enum call { OPEN, CREATE, APPEND, ROOM, WROTE, PUBLISH, DOWNGRADE, LEAVE, PUT, GET, READ, RELEASE, CLEAR, NUMBERS, JOIN, CLOSE, CALLS };

/* The codes that each call can answer, as pardz.h has them. */
static const uint32_t ALL[CALLS] = {
    [OPEN] = BIT(OK) | BIT(MEMORY) | BIT(FULL_LANE) | BIT(LANES) | BIT(SHAPE),
    [CREATE] = BIT(OK) | BIT(MEMORY) | BIT(EMPTY_LANE) | BIT(FULL) | BIT(FILLINGS),
    [APPEND] = BIT(OK) | BIT(MEMORY) | BIT(EMPTY_LANE) | BIT(NO_FILLING),
    [ROOM] = BIT(OK) | BIT(MEMORY) | BIT(EMPTY_LANE) | BIT(NO_FILLING),
    [WROTE] = BIT(OK) | BIT(EMPTY_LANE) | BIT(NO_FILLING) | BIT(ROOM),
    [PUBLISH] = BIT(OK) | BIT(EMPTY_LANE) | BIT(NO_FILLING),
    [DOWNGRADE] = BIT(OK) | BIT(EMPTY_LANE) | BIT(NO_FILLING) | BIT(REFERENCES),
    [LEAVE] = BIT(OK) | BIT(EMPTY_LANE) | BIT(NO_FILLING),
    [PUT] = BIT(OK) | BIT(MEMORY) | BIT(EMPTY_LANE) | BIT(FULL),
    [GET] = BIT(OK) | BIT(EMPTY_LANE) | BIT(GONE) | BIT(REFERENCES),
    [READ] = BIT(OK) | BIT(EMPTY_LANE) | BIT(NO_REFERENCE),
    [RELEASE] = BIT(OK) | BIT(EMPTY_LANE) | BIT(NO_REFERENCE),
    [CLEAR] = BIT(OK) | BIT(EMPTY_LANE) | BIT(GONE),
    [NUMBERS] = BIT(OK) | BIT(EMPTY_LANE),
    [JOIN] = BIT(OK) | BIT(EMPTY_LANE) | BIT(OTHER_POOL) | BIT(LANES),
    [CLOSE] = BIT(OK) | BIT(EMPTY_LANE) | BIT(LANES) | BIT(SHARED),
};

static const pardz_shape SHAPE = { 2, 2, 2, UINT32_MAX, 7 };

static uint64_t put(pardz_lane *lane, const char *text) {
    uint64_t key = 0;
    EXPECT(CREATE, OK, pardz_create(lane, &key));
    EXPECT(APPEND, OK, pardz_append(lane, key, (const uint8_t *)text, strlen(text)));
    EXPECT(PUBLISH, OK, pardz_publish(lane, key));
    return key;
}

static void close_two(pardz_lane *lanes, pardz_census *census) {
    EXPECT(JOIN, OK, pardz_join(&lanes[0], &lanes[1]));
    EXPECT(CLOSE, OK, pardz_close(&lanes[0], census));
    CHECK(heap_blocks == 0);
}

/* A wrong open leaves slots and heap as they were. */
static void opens(void) {
    pardz_lane lanes[2] = { PARDZ_EMPTY, PARDZ_EMPTY };
    const pardz_shape wrong[] = { { 0, 2, 2, 1, 0 }, { 65, 2, 2, 1, 0 }, { 2, 0, 2, 1, 0 }, { 2, 3, 2, 1, 0 }, { 2, 128, 2, 1, 0 },
                                  { 2, 2, 0, 1, 0 }, { 2, 2, 17, 1, 0 }, { 2, 2, 2, 0, 0 }, { 2, 2, 2, 1, 256 } };
    EXPECT(OPEN, LANES, pardz_open(&SHAPE, lanes, 1));
    EXPECT(OPEN, LANES, pardz_open(&SHAPE, NULL, 0));
    for (size_t i = 0; i < sizeof wrong / sizeof *wrong; i++) {
        pardz_lane slots[65] = { PARDZ_EMPTY };
        EXPECT(OPEN, SHAPE, pardz_open(&wrong[i], slots, wrong[i].lanes));
        for (int slot = 0; slot < 65; slot++)
            CHECK(slots[slot].full == 0);
    }
    heap_begin(1, 1);
    EXPECT(OPEN, MEMORY, pardz_open(&SHAPE, lanes, 2));
    heap_begin(0, 0);
    CHECK(lanes[0].full == 0 && lanes[1].full == 0 && heap_blocks == 0);
    EXPECT(OPEN, OK, pardz_open(&SHAPE, lanes, 2));
    EXPECT(OPEN, FULL_LANE, pardz_open(&SHAPE, lanes, 2));
    pardz_census census;
    close_two(lanes, &census);
    CHECK(census.unopened == 12);
}

/* The pool of SHAPE has so many open pages, and so many places. The proved library tells none. */
static void has_places(pardz_lane *lane, uint32_t opened, pardz_census places) {
    pardz_stats stats;
    EXPECT(NUMBERS, OK, pardz_stats_of(lane, &stats));
    if (!tells_places()) {
        opened = 0;
        memset(&places, 0, sizeof places);
    }
    CHECK(stats.opened == opened && memcmp(&stats.places, &places, sizeof places) == 0);
}

/* A lane of this number of SHAPE has so much. */
static void has(pardz_lane *lane, uint32_t number, uint32_t references, uint32_t fillings, uint32_t joined) {
    pardz_stats stats;
    EXPECT(NUMBERS, OK, pardz_stats_of(lane, &stats));
    CHECK(memcmp(&stats.shape, &SHAPE, sizeof SHAPE) == 0 && stats.lane == number && stats.joined == joined);
    CHECK(stats.references == references && stats.fillings == fillings);
}

/* A slot without a lane: each call says so. */
static void empty_lanes(pardz_lane *empty, pardz_lane *full) {
    uint64_t key = 99;
    uint8_t *to = nowhere;
    const uint8_t *at = nowhere;
    size_t len = 99;
    pardz_census census = NONE;
    uint32_t number = 99;
    pardz_stats stats = { { 99, 99, 99, 99, 99 }, 99, 99, 99, 99, 99, NONE };
    EXPECT(CREATE, EMPTY_LANE, pardz_create(empty, &key));
    EXPECT(APPEND, EMPTY_LANE, pardz_append(empty, 1, NULL, 0));
    EXPECT(ROOM, EMPTY_LANE, pardz_room(empty, 1, 1, &to));
    EXPECT(WROTE, EMPTY_LANE, pardz_wrote(empty, 1, 0));
    EXPECT(PUBLISH, EMPTY_LANE, pardz_publish(empty, 1));
    EXPECT(DOWNGRADE, EMPTY_LANE, pardz_downgrade(empty, 1));
    EXPECT(LEAVE, EMPTY_LANE, pardz_leave(empty, 1));
    EXPECT(PUT, EMPTY_LANE, pardz_put(empty, NULL, 0, &key));
    EXPECT(GET, EMPTY_LANE, pardz_get(empty, 1, &at, &len));
    EXPECT(READ, EMPTY_LANE, pardz_read(empty, 1, &at, &len));
    EXPECT(RELEASE, EMPTY_LANE, pardz_release(empty, 1));
    EXPECT(CLEAR, EMPTY_LANE, pardz_clear(empty, 1));
    EXPECT(NUMBERS, EMPTY_LANE, pardz_numbers(empty, &number, 1));
    EXPECT(NUMBERS, EMPTY_LANE, pardz_stats_of(empty, &stats));
    CHECK(number == 99 && stats.shape.lanes == 99 && stats.joined == 99 && is_none(&stats.places));
    EXPECT(JOIN, EMPTY_LANE, pardz_join(full, empty));
    EXPECT(JOIN, EMPTY_LANE, pardz_join(empty, full));
    EXPECT(CLOSE, EMPTY_LANE, pardz_close(empty, &census));
    CHECK(key == 99 && to == nowhere && at == nowhere && len == 99 && is_none(&census));
    CHECK(empty->full == 0 && full->full == 1);
}

/* A lane tells no more numbers than there is room for, and no more than it knows. */
static void numbers(pardz_lane *lane) {
    uint32_t few[4] = { 99, 99, 99, 99 }, many[20];
    for (size_t i = 0; i < 20; i++)
        many[i] = 99;
    EXPECT(NUMBERS, OK, pardz_numbers(lane, NULL, 0));
    EXPECT(NUMBERS, OK, pardz_numbers(lane, few, 3));
    CHECK(few[0] == SHAPE.lanes && few[1] == SHAPE.first_page && few[2] == SHAPE.pages && few[3] == 99);
    EXPECT(NUMBERS, OK, pardz_numbers(lane, many, 20));
    CHECK(memcmp(many, few, sizeof *few * 3) == 0 && many[3] == SHAPE.last_generation && many[4] == SHAPE.tag);
    CHECK(many[8] == 0 && many[16] == 99 && many[19] == 99);
    /* Opened pages and the six of a census, or of these two; or none of them. */
    if (tells_places()) {
        CHECK(many[9] == 0 && many[10] == 0 && many[11] == 12 && many[12] == 0 && many[13] == 0 && many[14] == 0 && many[15] == 0);
    } else {
        CHECK(many[9] == 99 && many[10] == 99 && many[11] == 99 && many[15] == 99);
    }
    many[10] = many[11] = many[12] = 98;
    EXPECT(NUMBERS, OK, pardz_numbers(lane, many, 12));
    CHECK(many[10] == (tells_places() ? 0 : 98) && many[11] == (tells_places() ? 12 : 98) && many[12] == 98);
}

/* What lanes tell while a pool is open. */
static void tells(void) {
    pardz_lane lanes[2] = { PARDZ_EMPTY, PARDZ_EMPTY };
    uint64_t key = 0, other = 0;
    const uint8_t *at = nowhere;
    size_t len = 0;
    EXPECT(OPEN, OK, pardz_open(&SHAPE, lanes, 2));
    has(&lanes[0], 0, 0, 0, 0);
    has(&lanes[1], 1, 0, 0, 0);
    numbers(&lanes[1]);
    EXPECT(CREATE, OK, pardz_create(&lanes[0], &key));
    EXPECT(CREATE, OK, pardz_create(&lanes[0], &other));
    has(&lanes[0], 0, 0, 2, 0);
    has_places(&lanes[1], 1, (pardz_census){ 0, 10, 2, 0, 0, 0 });
    EXPECT(DOWNGRADE, OK, pardz_downgrade(&lanes[0], key));
    EXPECT(PUBLISH, OK, pardz_publish(&lanes[0], other));
    has(&lanes[0], 0, 1, 0, 0);
    for (uint32_t i = 1; i <= 3; i++) {
        EXPECT(GET, OK, pardz_get(&lanes[1], i == 2 ? other : key, &at, &len));
        has(&lanes[1], 1, i, 0, 0);
    }
    EXPECT(CLEAR, OK, pardz_clear(&lanes[1], key));
    has(&lanes[1], 1, 3, 0, 0);
    has_places(&lanes[1], 1, (pardz_census){ 0, 10, 0, 1, 1, 0 });
    EXPECT(RELEASE, OK, pardz_release(&lanes[1], key));
    has(&lanes[1], 1, 2, 0, 0);
    has(&lanes[0], 0, 1, 0, 0);
    EXPECT(CREATE, OK, pardz_create(&lanes[0], &key));
    EXPECT(JOIN, OK, pardz_join(&lanes[0], &lanes[1]));
    has(&lanes[0], 0, 1, 1, 1);
    EXPECT(LEAVE, OK, pardz_leave(&lanes[0], key));
    has(&lanes[0], 0, 1, 0, 1);
    has_places(&lanes[0], 2, (pardz_census){ 3, 6, 1, 1, 1, 0 });
    pardz_census census;
    EXPECT(CLOSE, OK, pardz_close(&lanes[0], &census));
    CHECK(heap_blocks == 0);
}

/* What isn't a filling, a reference or a published key of the lane. */
static void wrong_keys(pardz_lane *lane, pardz_lane *other, uint64_t key) {
    uint8_t *to = nowhere;
    const uint8_t *at = nowhere;
    size_t len = 99;
    EXPECT(APPEND, NO_FILLING, pardz_append(lane, key, (const uint8_t *)"x", 1));
    EXPECT(ROOM, NO_FILLING, pardz_room(lane, key, 1, &to));
    EXPECT(WROTE, NO_FILLING, pardz_wrote(lane, key, 0));
    EXPECT(PUBLISH, NO_FILLING, pardz_publish(lane, key));
    EXPECT(DOWNGRADE, NO_FILLING, pardz_downgrade(lane, key));
    EXPECT(LEAVE, NO_FILLING, pardz_leave(lane, key));
    EXPECT(READ, NO_REFERENCE, pardz_read(other, key, &at, &len));
    EXPECT(RELEASE, NO_REFERENCE, pardz_release(other, key));
    CHECK(to == nowhere && at == nowhere && len == 99);
}

/* A buffer that is filled with abcdei, and published with a reference. Another lane can't fill it, and none finds it before. */
static uint64_t fills(pardz_lane *a, pardz_lane *b) {
    uint64_t key = 0;
    uint8_t *to = nowhere;
    const uint8_t *at = nowhere;
    size_t len = 99;
    EXPECT(CREATE, OK, pardz_create(a, &key));
    wrong_keys(b, b, key);
    EXPECT(GET, GONE, pardz_get(a, key, &at, &len));
    CHECK(at == nowhere && len == 99);
    EXPECT(CLEAR, GONE, pardz_clear(a, key));
    EXPECT(APPEND, OK, pardz_append(a, key, NULL, 0));
    EXPECT(APPEND, OK, pardz_append(a, key, (const uint8_t *)"abc", 3));
    EXPECT(ROOM, OK, pardz_room(a, key, 5, &to));
    CHECK(memcmp(to, "\0\0\0\0\0", 5) == 0 && memcmp(to - 3, "abc", 3) == 0);
    memcpy(to, "defgh", 5);
    EXPECT(WROTE, ROOM, pardz_wrote(a, key, 6));
    EXPECT(WROTE, OK, pardz_wrote(a, key, 2));
    EXPECT(WROTE, ROOM, pardz_wrote(a, key, 1));
    EXPECT(ROOM, OK, pardz_room(a, key, 4, &to));
    CHECK(memcmp(to, "\0\0\0\0", 4) == 0);
    EXPECT(APPEND, OK, pardz_append(a, key, (const uint8_t *)"i", 1));
    EXPECT(WROTE, ROOM, pardz_wrote(a, key, 1));
    EXPECT(ROOM, OK, pardz_room(a, key, 4, &to));
    memcpy(to, "zzzz", 4);
    EXPECT(DOWNGRADE, OK, pardz_downgrade(a, key));
    return key;
}

/* A buffer without bytes has no address. */
static void lends_none(pardz_lane *a, pardz_lane *b, uint64_t empty) {
    const uint8_t *at = nowhere;
    size_t len = 99;
    EXPECT(GET, OK, pardz_get(b, empty, &at, &len));
    CHECK(at == nowhere && len == 0);
    len = 99;
    EXPECT(READ, OK, pardz_read(b, empty, &at, &len));
    CHECK(at == nowhere && len == 0);
    EXPECT(RELEASE, OK, pardz_release(b, empty));
    EXPECT(CLEAR, OK, pardz_clear(b, empty));
    EXPECT(GET, GONE, pardz_get(b, UINT64_MAX, &at, &len));
    EXPECT(CLEAR, GONE, pardz_clear(a, 0));
}

/* The life of one buffer, on two lanes. */
static void life(pardz_lane *a, pardz_lane *b) {
    const uint64_t key = fills(a, b);
    const uint8_t *at = nowhere, *again = nowhere;
    size_t len = 0;
    EXPECT(READ, OK, pardz_read(a, key, &at, &len));
    CHECK(len == 6 && memcmp(at, "abcdei", 6) == 0 && (uintptr_t)at % 16 == 0);
    wrong_keys(a, b, key);
    EXPECT(GET, OK, pardz_get(b, key, &again, &len));
    CHECK(len == 6 && again == at);
    EXPECT(GET, OK, pardz_get(b, key, &again, &len));
    EXPECT(CLEAR, OK, pardz_clear(b, key));
    EXPECT(CLEAR, GONE, pardz_clear(a, key));
    len = 99;
    EXPECT(GET, GONE, pardz_get(a, key, &again, &len));
    CHECK(again == at && len == 99);
    EXPECT(RELEASE, OK, pardz_release(b, key));
    EXPECT(RELEASE, OK, pardz_release(b, key));
    EXPECT(RELEASE, NO_REFERENCE, pardz_release(b, key));
    EXPECT(READ, OK, pardz_read(a, key, &again, &len));
    CHECK(len == 6 && again == at && memcmp(at, "abcdei", 6) == 0);
    EXPECT(RELEASE, OK, pardz_release(a, key));
    EXPECT(READ, NO_REFERENCE, pardz_read(a, key, &again, &len));
    const uint64_t empty = put(a, "");
    CHECK(empty != key);
    lends_none(a, b, empty);
}

/* Bytes of a reference are appended to another filling. */
static void from_a_reference(pardz_lane *lane) {
    uint64_t first = put(lane, "once"), second = 0;
    const uint8_t *at = nowhere;
    size_t len = 0;
    EXPECT(GET, OK, pardz_get(lane, first, &at, &len));
    EXPECT(CREATE, OK, pardz_create(lane, &second));
    EXPECT(APPEND, OK, pardz_append(lane, second, at, len));
    EXPECT(APPEND, OK, pardz_append(lane, second, at, len));
    EXPECT(DOWNGRADE, OK, pardz_downgrade(lane, second));
    EXPECT(RELEASE, OK, pardz_release(lane, first));
    EXPECT(READ, OK, pardz_read(lane, second, &at, &len));
    CHECK(len == 8 && memcmp(at, "onceonce", 8) == 0);
    EXPECT(RELEASE, OK, pardz_release(lane, second));
    EXPECT(CLEAR, OK, pardz_clear(lane, first));
    EXPECT(CLEAR, OK, pardz_clear(lane, second));
}

/* What is put is read under its key, by any lane; bytes of a reference can be put too. */
static void puts_bytes(pardz_lane *a, pardz_lane *b) {
    uint64_t keys[3] = { 0, 0, 0 };
    const uint8_t *at = nowhere;
    size_t len = 99;
    EXPECT(PUT, OK, pardz_put(a, (const uint8_t *)"twice", 5, &keys[0]));
    EXPECT(GET, OK, pardz_get(b, keys[0], &at, &len));
    CHECK(len == 5 && memcmp(at, "twice", 5) == 0);
    EXPECT(PUT, OK, pardz_put(b, at, len, &keys[1]));
    EXPECT(RELEASE, OK, pardz_release(b, keys[0]));
    EXPECT(GET, OK, pardz_get(a, keys[1], &at, &len));
    CHECK(len == 5 && memcmp(at, "twice", 5) == 0);
    EXPECT(RELEASE, OK, pardz_release(a, keys[1]));
    EXPECT(PUT, OK, pardz_put(a, NULL, 0, &keys[2]));
    EXPECT(GET, OK, pardz_get(b, keys[2], &at, &len));
    CHECK(len == 0);
    EXPECT(RELEASE, OK, pardz_release(b, keys[2]));
    for (int i = 0; i < 3; i++) {
        EXPECT(PUBLISH, NO_FILLING, pardz_publish(i == 1 ? b : a, keys[i]));
        EXPECT(CLEAR, OK, pardz_clear(b, keys[i]));
    }
}

/* Several at once: each goes on to the first that is refused, and tells how many went well. The lanes have six places each. */
static void several(pardz_lane *a, pardz_lane *b, pardz_lane *empty) {
    const pardz_bytes texts[7] = { { (const uint8_t *)"one", 3 }, { NULL, 0 }, { (const uint8_t *)"three", 5 }, { (const uint8_t *)"4", 1 },
                                   { (const uint8_t *)"5", 1 },   { (const uint8_t *)"6", 1 },    { (const uint8_t *)"7", 1 } };
    uint64_t keys[7] = { 99, 99, 99, 99, 99, 99, 99 };
    pardz_bytes lent[4] = { { nowhere, 99 }, { nowhere, 99 }, { nowhere, 99 }, { nowhere, 99 } };
    size_t done = 99;
    CHECK(pardz_put_several(a, NULL, 0, NULL, &done) == PARDZ_OK && done == 0);
    CHECK(pardz_put_several(empty, texts, 2, keys, &done) == PARDZ_EMPTY_LANE && done == 0 && keys[0] == 99);
    CHECK(pardz_put_several(a, texts, 3, keys, &done) == PARDZ_OK && done == 3 && keys[3] == 99);
    CHECK(pardz_get_several(b, keys, 3, lent, &done) == PARDZ_OK && done == 3);
    CHECK(lent[0].len == 3 && memcmp(lent[0].at, "one", 3) == 0 && lent[1].len == 0 && lent[1].at == NULL);
    CHECK(lent[2].len == 5 && memcmp(lent[2].at, "three", 5) == 0 && lent[3].len == 99);
    /* The third is refused; the two before it have a reference more. */
    const uint64_t wrong[4] = { keys[2], keys[2], UINT64_MAX, keys[0] };
    CHECK(pardz_get_several(b, wrong, 4, lent, &done) == PARDZ_GONE && done == 2 && lent[1].len == 5 && lent[3].len == 99);
    const uint64_t held[6] = { keys[0], keys[1], keys[2], keys[2], keys[2], keys[2] };
    CHECK(pardz_release_several(b, held, 6, &done) == PARDZ_NO_REFERENCE && done == 5);
    CHECK(pardz_release_several(b, keys, 1, &done) == PARDZ_NO_REFERENCE && done == 0);
    CHECK(pardz_get_several(empty, keys, 1, lent, &done) == PARDZ_EMPTY_LANE && done == 0);
    CHECK(pardz_release_several(empty, keys, 1, &done) == PARDZ_EMPTY_LANE && done == 0);
    /* Three places are left. */
    CHECK(pardz_put_several(a, texts + 3, 4, keys + 3, &done) == PARDZ_FULL && done == 3 && keys[5] != 99 && keys[6] == 99);
    for (int i = 0; i < 6; i++)
        EXPECT(CLEAR, OK, pardz_clear(b, keys[i]));
    CHECK(pardz_get_several(a, keys, 6, lent, &done) == PARDZ_GONE && done == 0);
}

/* As many fillings, places and references as there can be, and one more. */
static void limits(void) {
    const pardz_shape shape = { 2, 8, 2, UINT32_MAX, 0 };
    pardz_lane lanes[2] = { PARDZ_EMPTY, PARDZ_EMPTY };
    uint64_t keys[24], key = 99;
    const uint8_t *at, *no_more = nowhere;
    size_t len, no_len = 99;
    EXPECT(OPEN, OK, pardz_open(&shape, lanes, 2));
    for (int i = 0; i < 16; i++)
        EXPECT(CREATE, OK, pardz_create(&lanes[0], &keys[i]));
    EXPECT(CREATE, FILLINGS, pardz_create(&lanes[0], &key));
    for (int i = 0; i < 16; i++)
        EXPECT(PUBLISH, OK, pardz_publish(&lanes[0], keys[i]));
    for (int i = 16; i < 24; i++)
        EXPECT(CREATE, OK, pardz_create(&lanes[0], &keys[i]));
    EXPECT(CREATE, FULL, pardz_create(&lanes[0], &key));
    EXPECT(PUT, FULL, pardz_put(&lanes[0], NULL, 0, &key));
    CHECK(key == 99);
    for (long i = 0; i < 1048575; i++)
        CHECK(pardz_get(&lanes[0], keys[i % 16], &at, &len) == PARDZ_OK);
    EXPECT(GET, REFERENCES, pardz_get(&lanes[0], keys[0], &no_more, &no_len));
    CHECK(no_more == nowhere && no_len == 99);
    EXPECT(DOWNGRADE, REFERENCES, pardz_downgrade(&lanes[0], keys[16]));
    EXPECT(GET, OK, pardz_get(&lanes[1], keys[0], &at, &len));
    EXPECT(RELEASE, OK, pardz_release(&lanes[0], keys[0]));
    EXPECT(DOWNGRADE, OK, pardz_downgrade(&lanes[0], keys[16]));
    EXPECT(LEAVE, OK, pardz_leave(&lanes[0], keys[17]));
    EXPECT(LEAVE, NO_FILLING, pardz_leave(&lanes[0], keys[17]));
    EXPECT(CLEAR, OK, pardz_clear(&lanes[1], keys[1]));
    EXPECT(CREATE, OK, pardz_create(&lanes[1], &key));
    pardz_census census;
    close_two(lanes, &census);
    CHECK(census.present == 16 && census.filling == 8 && census.marked == 1 && census.free == 7 && census.unopened == 16);
}

/* Memory is refused to a put: of a lane whose page has another place than this key's, which is had, and given back; and of one that wants a
 * page. The former goes on afterwards. */
static void memory_of_puts(pardz_lane *lanes, uint64_t key) {
    uint64_t other = 99;
    uint8_t bytes[100] = { 1 };
    heap_begin(1, 1000);
    EXPECT(PUT, MEMORY, pardz_put(&lanes[0], bytes, sizeof bytes, &other));
    EXPECT(PUT, MEMORY, pardz_put(&lanes[1], bytes, 1, &other));
    CHECK(other == 99);
    heap_begin(0, 0);
    EXPECT(PUT, OK, pardz_put(&lanes[0], bytes, sizeof bytes, &other));
    CHECK(other >> 24 == (key >> 24) + 1);
}

/* Memory is refused to a create, an append, a room and a put; each goes on afterwards. A refused append or room leaves the bytes as
 * they were, and ends the earlier room. */
static void memory(void) {
    pardz_lane lanes[2] = { PARDZ_EMPTY, PARDZ_EMPTY };
    uint64_t key = 99;
    uint8_t bytes[100] = { 1 }, *to = nowhere, *no_room = nowhere;
    const uint8_t *at = nowhere;
    size_t len = 0;
    EXPECT(OPEN, OK, pardz_open(&SHAPE, lanes, 2));
    heap_begin(1, 1000);
    EXPECT(CREATE, MEMORY, pardz_create(&lanes[0], &key));
    CHECK(key == 99);
    heap_begin(0, 0);
    EXPECT(CREATE, OK, pardz_create(&lanes[0], &key));
    EXPECT(APPEND, OK, pardz_append(&lanes[0], key, (const uint8_t *)"ab", 2));
    for (int i = 0; i < 2; i++) {
        EXPECT(ROOM, OK, pardz_room(&lanes[0], key, 3, &to));
        memcpy(to, "xyz", 3);
        heap_begin(1, 1000);
        if (i == 0)
            EXPECT(APPEND, MEMORY, pardz_append(&lanes[0], key, bytes, sizeof bytes));
        else
            EXPECT(ROOM, MEMORY, pardz_room(&lanes[0], key, sizeof bytes, &no_room));
        CHECK(no_room == nowhere);
        EXPECT(WROTE, ROOM, pardz_wrote(&lanes[0], key, 1));
        heap_begin(0, 0);
    }
    EXPECT(APPEND, OK, pardz_append(&lanes[0], key, bytes, sizeof bytes));
    EXPECT(DOWNGRADE, OK, pardz_downgrade(&lanes[0], key));
    EXPECT(READ, OK, pardz_read(&lanes[0], key, &at, &len));
    CHECK(len == 102 && memcmp(at, "ab", 2) == 0 && memcmp(at + 2, bytes, 100) == 0);
    EXPECT(RELEASE, OK, pardz_release(&lanes[0], key));
    memory_of_puts(lanes, key);
    pardz_census census;
    close_two(lanes, &census);
    CHECK(census.present == 2 && census.filling == 0 && census.unopened == 10);
}

/* A buffer that is cleared keeps its memory: the next create, append, room and put of its place ask for none. The place's last use
 * frees it, be it of a put that is refused memory. */
static void used_again(void) {
    const pardz_shape shape = { 1, 1, 1, 5, 0 };
    pardz_lane lane = PARDZ_EMPTY;
    uint8_t bytes[500] = { 1 }, *to = nowhere;
    uint64_t key = 0;
    EXPECT(OPEN, OK, pardz_open(&shape, &lane, 1));
    EXPECT(PUT, OK, pardz_put(&lane, bytes, sizeof bytes, &key));
    EXPECT(CLEAR, OK, pardz_clear(&lane, key));
    long blocks = heap_blocks;
    heap_begin(1, 1000);
    for (int i = 0; i < 3; i++) {
        if (i == 0) {
            EXPECT(PUT, OK, pardz_put(&lane, bytes, sizeof bytes, &key));
        } else {
            EXPECT(CREATE, OK, pardz_create(&lane, &key));
            EXPECT(APPEND, OK, pardz_append(&lane, key, bytes, 100));
            EXPECT(ROOM, OK, pardz_room(&lane, key, 400, &to));
            EXPECT(PUBLISH, OK, pardz_publish(&lane, key));
        }
        EXPECT(CLEAR, OK, pardz_clear(&lane, key));
    }
    CHECK(heap_requests == 0 && heap_blocks == blocks);
    uint8_t more[2000] = { 2 };
    EXPECT(PUT, MEMORY, pardz_put(&lane, more, sizeof more, &key));
    CHECK(heap_blocks < blocks);
    EXPECT(PUT, FULL, pardz_put(&lane, bytes, 1, &key));
    heap_begin(0, 0);
    pardz_census census = NONE;
    CHECK(pardz_close_all(&lane, 0, &census) == PARDZ_LANES && lane.full == 1 && is_none(&census));
    CHECK(pardz_close_all(&lane, 1, &census) == PARDZ_OK && census.retired == 1 && heap_blocks == 0);
}

/* Keys of another pool: with another tag they are wrong, with the same tag they are taken for the pool's own. */
static void tags(void) {
    const pardz_shape shapes[3] = { { 1, 2, 1, UINT32_MAX, 7 }, { 1, 2, 1, UINT32_MAX, 7 }, { 1, 2, 1, UINT32_MAX, 8 } };
    pardz_lane lanes[3] = { PARDZ_EMPTY, PARDZ_EMPTY, PARDZ_EMPTY };
    uint64_t keys[3] = { 0, 0, 0 };
    const uint8_t *at = nowhere;
    size_t len = 0;
    pardz_census census;
    for (int i = 0; i < 3; i++) {
        EXPECT(OPEN, OK, pardz_open(&shapes[i], &lanes[i], 1));
        EXPECT(PUT, OK, pardz_put(&lanes[i], (const uint8_t *)"012" + i, 1, &keys[i]));
    }
    CHECK(keys[0] == keys[1] && keys[0] >> 56 == 7 && keys[2] >> 56 == 8);
    EXPECT(GET, OK, pardz_get(&lanes[1], keys[0], &at, &len));
    CHECK(len == 1 && *at == '1');
    EXPECT(GET, GONE, pardz_get(&lanes[2], keys[0], &at, &len));
    EXPECT(CLEAR, GONE, pardz_clear(&lanes[0], keys[2]));
    for (int i = 0; i < 3; i++)
        CHECK(pardz_close_all(&lanes[i], 1, &census) == PARDZ_OK && census.present == 1);
    CHECK(heap_blocks == 0);
}

/* The order of joins, and two pools of one shape and tag. */
static void ends(void) {
    const pardz_shape three = { 3, 2, 2, UINT32_MAX, 7 };
    pardz_lane lanes[3] = { PARDZ_EMPTY, PARDZ_EMPTY, PARDZ_EMPTY }, others[3] = { PARDZ_EMPTY, PARDZ_EMPTY, PARDZ_EMPTY };
    pardz_census census = NONE;
    EXPECT(OPEN, OK, pardz_open(&three, lanes, 3));
    EXPECT(OPEN, OK, pardz_open(&three, others, 3));
    EXPECT(CLOSE, LANES, pardz_close(&lanes[0], &census));
    EXPECT(CLOSE, LANES, pardz_close(&lanes[1], &census));
    EXPECT(JOIN, LANES, pardz_join(&lanes[0], &lanes[1]));
    EXPECT(JOIN, LANES, pardz_join(&lanes[1], &lanes[2]));
    EXPECT(JOIN, LANES, pardz_join(&lanes[1], &lanes[0]));
    EXPECT(JOIN, OTHER_POOL, pardz_join(&lanes[0], &others[2]));
    EXPECT(JOIN, OTHER_POOL, pardz_join(&others[0], &lanes[2]));
    uint64_t left = 0, kept = put(&lanes[2], "referred to");
    const uint8_t *at = nowhere;
    size_t len = 0;
    EXPECT(CREATE, OK, pardz_create(&lanes[2], &left));
    EXPECT(GET, OK, pardz_get(&lanes[2], kept, &at, &len));
    EXPECT(JOIN, OK, pardz_join(&lanes[0], &lanes[2]));
    CHECK(lanes[2].full == 0);
    EXPECT(CLOSE, LANES, pardz_close(&lanes[0], &census));
    EXPECT(GET, GONE, pardz_get(&lanes[1], left, &at, &len));
    EXPECT(CLEAR, OK, pardz_clear(&lanes[1], kept));
    CHECK(memcmp(at, "referred to", len) == 0);
    uint64_t key = put(&lanes[0], "still open");
    EXPECT(CLEAR, OK, pardz_clear(&lanes[1], key));
    EXPECT(JOIN, OTHER_POOL, pardz_join(&lanes[0], &others[1]));
    EXPECT(JOIN, OK, pardz_join(&lanes[0], &lanes[1]));
    CHECK(is_none(&census));
    EXPECT(CLOSE, OK, pardz_close(&lanes[0], &census));
    CHECK(census.filling == 1 && census.marked == 1 && census.free == 2 && census.unopened == 14);
    EXPECT(CLOSE, EMPTY_LANE, pardz_close(&lanes[0], &census));
    CHECK(pardz_close_all(others, 3, &census) == PARDZ_OK && census.unopened == 18 && heap_blocks == 0);
}

/* A pool of one lane. */
static void ends_alone(void) {
    const pardz_shape one = { 1, 2, 2, UINT32_MAX, 7 };
    pardz_lane lane = PARDZ_EMPTY;
    pardz_census census;
    EXPECT(OPEN, OK, pardz_open(&one, &lane, 1));
    EXPECT(CLOSE, OK, pardz_close(&lane, &census));
    CHECK(heap_blocks == 0);
}

static void swap(pardz_lane *a, pardz_lane *b) {
    pardz_lane kept = *a;
    *a = *b;
    *b = kept;
}

/* A close of all lanes ends at the first join that is refused, and tells its code. */
static void close_alls(void) {
    const pardz_shape three = { 3, 2, 2, UINT32_MAX, 7 };
    pardz_lane lanes[3] = { PARDZ_EMPTY, PARDZ_EMPTY, PARDZ_EMPTY }, others[3] = { PARDZ_EMPTY, PARDZ_EMPTY, PARDZ_EMPTY };
    pardz_census census = NONE;
    EXPECT(OPEN, OK, pardz_open(&three, lanes, 3));
    EXPECT(OPEN, OK, pardz_open(&three, others, 3));
    CHECK(pardz_close_all(NULL, 0, &census) == PARDZ_LANES);
    CHECK(pardz_close_all(lanes, 1, &census) == PARDZ_LANES);
    swap(&lanes[1], &lanes[2]);
    CHECK(pardz_close_all(lanes, 3, &census) == PARDZ_LANES);
    CHECK(lanes[0].full == 1 && lanes[1].full == 1 && lanes[2].full == 1);
    swap(&lanes[1], &lanes[2]);
    swap(&lanes[1], &others[1]);
    CHECK(pardz_close_all(lanes, 3, &census) == PARDZ_OTHER_POOL);
    CHECK(lanes[0].full == 1 && lanes[1].full == 1 && lanes[2].full == 0);
    swap(&lanes[1], &others[1]);
    CHECK(pardz_close_all(lanes, 3, &census) == PARDZ_EMPTY_LANE && lanes[1].full == 1 && is_none(&census));
    CHECK(pardz_close_all(lanes, 2, &census) == PARDZ_OK && pardz_close_all(others, 3, &census) == PARDZ_OK);
    CHECK(lanes[0].full == 0 && lanes[1].full == 0 && heap_blocks == 0);
}

/* Two pools under one number, whose lanes are joined crosswise: each lane still goes to its own pool. */
static void one_number(void) {
    pardz_lane lanes[2] = { PARDZ_EMPTY, PARDZ_EMPTY }, others[2] = { PARDZ_EMPTY, PARDZ_EMPTY };
    pardz_census census;
    EXPECT(OPEN, OK, pardz_open_numbered(&SHAPE, lanes, 2, UINT64_MAX));
    EXPECT(OPEN, OK, pardz_open_numbered(&SHAPE, others, 2, UINT64_MAX));
    uint64_t key = put(&lanes[1], "kept");
    EXPECT(JOIN, OK, pardz_join(&lanes[0], &others[1]));
    EXPECT(CLOSE, SHARED, pardz_close(&lanes[0], &census));
    EXPECT(CLEAR, OK, pardz_clear(&lanes[0], key));
    EXPECT(JOIN, OK, pardz_join(&others[0], &lanes[1]));
    EXPECT(CLOSE, OK, pardz_close(&lanes[0], &census));
    CHECK(census.free == 2 && census.unopened == 10);
    EXPECT(CLOSE, OK, pardz_close(&others[0], &census));
    CHECK(census.unopened == 12 && heap_blocks == 0);
}

/* A slot that was moved by a plain copy goes on. */
static void moved(void) {
    struct {
        pardz_lane first, second;
    } place;
    pardz_lane lanes[2] = { PARDZ_EMPTY, PARDZ_EMPTY };
    pardz_census census;
    EXPECT(OPEN, OK, pardz_open(&SHAPE, lanes, 2));
    uint64_t key = put(&lanes[0], "moved");
    memcpy(&place, lanes, sizeof lanes);
    memset(lanes, 0xff, sizeof lanes);
    EXPECT(CLEAR, OK, pardz_clear(&place.second, key));
    close_two(&place.first, &census);
    CHECK(census.free == 2 && census.unopened == 10);
}

int main(void) {
    opens();
    tells();
    pardz_lane lanes[2] = { PARDZ_EMPTY, PARDZ_EMPTY }, empty = PARDZ_EMPTY;
    EXPECT(OPEN, OK, pardz_open(&SHAPE, lanes, 2));
    empty_lanes(&empty, &lanes[0]);
    for (int i = 0; i < 20; i++)
        life(&lanes[i % 2], &lanes[(i + 1) % 2]);
    from_a_reference(&lanes[0]);
    puts_bytes(&lanes[0], &lanes[1]);
    several(&lanes[0], &lanes[1], &empty);
    pardz_census census;
    close_two(lanes, &census);
    CHECK(census.present + census.marked + census.filling + census.retired == 0);
    limits();
    memory();
    used_again();
    tags();
    ends();
    ends_alone();
    close_alls();
    one_number();
    moved();
    CHECK(heap_blocks == 0);
    printf("calls: %d pairs of a call and a code\n", check_answers(ALL, CALLS));
    return 0;
}
