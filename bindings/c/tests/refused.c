/* Each request for memory refused in turn, alone and with all that follow it: a code, nothing else changed, no leak, and the pool
 * goes on. Only open, create, append, room and put make requests. */
#include "../pardz.h"
#include "check.h"
#include "counting_heap.h"

#include <string.h>

static const pardz_shape SHAPE = { 2, 4, 2, UINT32_MAX, 0 };
static long codes;

/* Whether the call was refused memory; then it is made again with memory. */
#define AGAIN(what)                         \
    do {                                    \
        uint32_t code = what;               \
        if (code == PARDZ_MEMORY) {         \
            codes++;                        \
            heap_begin(0, 0);               \
            code = what;                    \
        }                                   \
        CHECK(code == PARDZ_OK);            \
    } while (0)

/* Fills and publishes one buffer of this length, at once, or half by an append and half by a room. */
static uint64_t put(pardz_lane *lane, size_t len) {
    uint8_t bytes[512], *to = NULL;
    uint64_t key = 0;
    memset(bytes, (int)len, sizeof bytes);
    if (len % 40 == 10) {
        AGAIN(pardz_put(lane, bytes, len, &key));
        return key;
    }
    AGAIN(pardz_create(lane, &key));
    AGAIN(pardz_append(lane, key, bytes, len / 2));
    AGAIN(pardz_room(lane, key, len - len / 2, &to));
    if (len - len / 2 != 0)
        memcpy(to, bytes, len - len / 2);
    long requests = heap_requests;
    CHECK(pardz_wrote(lane, key, len - len / 2) == PARDZ_OK);
    if (len % 20 != 0) {
        CHECK(pardz_publish(lane, key) == PARDZ_OK);
    } else {
        CHECK(pardz_downgrade(lane, key) == PARDZ_OK && pardz_release(lane, key) == PARDZ_OK);
    }
    CHECK(heap_requests == requests);
    return key;
}

static void holds(pardz_lane *lane, uint64_t key, size_t len) {
    const uint8_t *at = NULL;
    size_t found = 0;
    CHECK(pardz_get(lane, key, &at, &found) == PARDZ_OK && found == len);
    for (size_t i = 0; i < len; i++)
        CHECK(at[i] == (uint8_t)len);
}

/* A pool from open to close. Whether anything was refused. */
static int run(long first, long last) {
    pardz_lane lanes[2] = { PARDZ_EMPTY, PARDZ_EMPTY };
    uint64_t keys[12];
    long refused = heap_refused;
    heap_begin(first, last);
    uint32_t code = pardz_open(&SHAPE, lanes, 2);
    if (code == PARDZ_MEMORY) {
        codes++;
        CHECK(heap_blocks == 0 && lanes[0].full == 0 && lanes[1].full == 0);
        heap_begin(0, 0);
        code = pardz_open(&SHAPE, lanes, 2);
    }
    CHECK(code == PARDZ_OK);
    for (int round = 0; round < 2; round++) {
        for (size_t i = 0; i < 12; i++)
            keys[i] = put(&lanes[0], (size_t)round * 100 + i * 30);
        long requests = heap_requests;
        for (size_t i = 0; i < 12; i++)
            holds(&lanes[1], keys[i], (size_t)round * 100 + i * 30);
        for (size_t i = 0; i < 12; i++) {
            CHECK(pardz_clear(&lanes[0], keys[i]) == PARDZ_OK);
            CHECK(pardz_release(&lanes[1], keys[i]) == PARDZ_OK);
        }
        CHECK(heap_requests == requests);
    }
    long requests = heap_requests;
    pardz_census census;
    CHECK(pardz_close_all(lanes, 2, &census) == PARDZ_OK);
    CHECK(heap_requests == requests);
    CHECK(census.free == 12 && census.unopened == 12);
    CHECK(heap_blocks == 0);
    return heap_refused > refused;
}

/* An open of 64 lanes. Whether memory was refused. */
static int opens_wide(long first) {
    static const pardz_shape wide = { 64, 1, 2, UINT32_MAX, 0 };
    pardz_lane lanes[64];
    for (int i = 0; i < 64; i++)
        lanes[i] = (pardz_lane)PARDZ_EMPTY;
    heap_begin(first, first);
    uint32_t code = pardz_open(&wide, lanes, 64);
    heap_begin(0, 0);
    if (code == PARDZ_MEMORY) {
        codes++;
        for (int i = 0; i < 64; i++)
            CHECK(lanes[i].full == 0);
    } else {
        pardz_census census;
        CHECK(code == PARDZ_OK && pardz_close_all(lanes, 64, &census) == PARDZ_OK && census.unopened == 64 * 3);
    }
    CHECK(heap_blocks == 0);
    return code == PARDZ_MEMORY;
}

int main(void) {
    long runs = 0;
    for (long first = 1; run(first, first); first++)
        CHECK(++runs < 1000);
    for (long first = 1; run(first, 1000000); first++)
        CHECK(++runs < 2000);
    CHECK(runs > 20);
    for (long first = 1; opens_wide(first); first++)
        CHECK(++runs < 5000);
    printf("refused: %ld runs, %ld requests refused, %ld answers of no memory\n", runs, heap_refused, codes);
    return 0;
}
