/* Threads, each with a lane: they publish, get each other's keys, read, release and clear.
 *
 * threads ROUNDS THREADS: so many rounds on each, and so many threads, from 1 to 64; 4 if it isn't said. */
#include "ordered.h"
#include "check.h"

#include <pthread.h>
#include <stdatomic.h>
#include <string.h>

#define MOST_THREADS 64
#define WAYS 16
#define MOST 96

/* Few places, so that they are used again and again, and run out. */
#define PLACES 12

static pardz_shape shape = { 4, 4, 2, UINT32_MAX, 0 };
static long rounds = 20000;

/* The lane of a thread, on a line of the cache of its own. */
struct worker {
    _Alignas(64) pardz_lane lane;
    long got, missed, cleared, full;
};

/* Keys that a thread offers to all: 0 for none. */
struct offers {
    _Alignas(64) _Atomic uint64_t key[WAYS];
};

static struct worker workers[MOST_THREADS];
static struct offers offers[MOST_THREADS];

/* What a key's bytes are, told by the key alone. */
static size_t expected(uint64_t key, uint8_t *bytes) {
    size_t len = (size_t)(key >> 24) % MOST;
    for (size_t i = 0; i < len; i++)
        bytes[i] = (uint8_t)(key * 31 + (key >> 24) + i);
    return len;
}

/* Publishes one buffer, filled in two pieces beside another filling. 0 where no place was free. */
static uint64_t put(struct worker *worker, long round) {
    pardz_lane *lane = &worker->lane;
    uint8_t bytes[MOST], *to = NULL;
    uint64_t key, other;
    uint32_t code = pardz_create(lane, &key);
    if (code == PARDZ_FULL) {
        worker->full++;
        return 0;
    }
    CHECK(code == PARDZ_OK);
    size_t len = expected(key, bytes), half = len / 2;
    CHECK(pardz_append(lane, key, bytes, half) == PARDZ_OK);
    code = pardz_create(lane, &other);
    if (code == PARDZ_OK) {
        CHECK(pardz_append(lane, other, bytes, len) == PARDZ_OK);
        CHECK(pardz_publish(lane, other) == PARDZ_OK && pardz_clear(lane, other) == PARDZ_OK);
    } else
        CHECK(code == PARDZ_FULL);
    CHECK(pardz_room(lane, key, MOST, &to) == PARDZ_OK);
    memcpy(to, bytes + half, len - half);
    CHECK(pardz_wrote(lane, key, len - half) == PARDZ_OK);
    if (round % 2 != 0) {
        CHECK(pardz_publish(lane, key) == PARDZ_OK);
    } else {
        CHECK(pardz_downgrade(lane, key) == PARDZ_OK && pardz_release(lane, key) == PARDZ_OK);
    }
    return key;
}

/* Offers a key, or none, in place of an older one, which is cleared. */
static void offer(struct worker *worker, struct offers *own, long round, uint64_t key) {
    uint64_t old = atomic_exchange(&own->key[round % WAYS], key);
    if (old != 0)
        worker->cleared += pardz_clear(&worker->lane, old) == PARDZ_OK;
}

/* Gets a key, reads it, and clears it at each third round. */
static void look(struct worker *worker, uint64_t key, long round) {
    pardz_lane *lane = &worker->lane;
    uint8_t bytes[MOST];
    const uint8_t *at = NULL, *again = NULL;
    size_t len = 0, len_again = 0;
    uint32_t code = pardz_get(lane, key, &at, &len);
    if (code == PARDZ_GONE) {
        worker->missed++;
        return;
    }
    CHECK(code == PARDZ_OK && len == expected(key, bytes) && (len == 0 || memcmp(at, bytes, len) == 0));
    if (round % 3 == 0) {
        code = pardz_clear(lane, key);
        CHECK(code == PARDZ_OK || code == PARDZ_GONE);
        worker->cleared += code == PARDZ_OK;
        CHECK(pardz_get(lane, key, &again, &len_again) == PARDZ_GONE);
    } else if (pardz_get(lane, key, &again, &len_again) == PARDZ_OK) {
        CHECK(len_again == len && (len == 0 || again == at));
        CHECK(pardz_release(lane, key) == PARDZ_OK);
    }
    CHECK(pardz_read(lane, key, &again, &len_again) == PARDZ_OK && len_again == len);
    CHECK(len == 0 || memcmp(at, bytes, len) == 0);
    CHECK(pardz_release(lane, key) == PARDZ_OK && pardz_read(lane, key, &again, &len_again) == PARDZ_NO_REFERENCE);
    worker->got++;
}

static void *work(void *number) {
    size_t me = (size_t)number;
    struct worker *worker = &workers[me];
    for (long round = 0; round < rounds; round++) {
        uint64_t key = put(worker, round);
        offer(worker, &offers[me], round, key);
        struct offers *from = &offers[(me + (size_t)round) % shape.lanes];
        key = atomic_load(&from->key[round * 7 % WAYS]);
        if (key != 0)
            look(worker, key, round);
    }
    for (long way = 0; way < WAYS; way++)
        offer(worker, &offers[me], way, 0);
    return NULL;
}

int main(int argc, char **argv) {
    if (argc > 1)
        rounds = atol(argv[1]);
    if (argc > 2)
        shape.lanes = (uint32_t)atol(argv[2]);
    const size_t count = shape.lanes;
    CHECK(count >= 1 && count <= MOST_THREADS);
    pardz_lane lanes[MOST_THREADS];
    for (size_t i = 0; i < MOST_THREADS; i++)
        lanes[i] = (pardz_lane)PARDZ_EMPTY;
    CHECK(pardz_open(&shape, lanes, count) == PARDZ_OK);
    pthread_t threads[MOST_THREADS];
    for (size_t i = 0; i < count; i++) {
        workers[i].lane = lanes[i];
        CHECK(pthread_create(&threads[i], NULL, work, (void *)i) == 0);
    }
    long got = 0, missed = 0, cleared = 0, full = 0;
    for (size_t i = 0; i < count; i++) {
        CHECK(pthread_join(threads[i], NULL) == 0);
        lanes[i] = workers[i].lane;
        got += workers[i].got;
        missed += workers[i].missed;
        cleared += workers[i].cleared;
        full += workers[i].full;
    }
    pardz_census census;
    CHECK(pardz_close_all(lanes, count, &census) == PARDZ_OK);
    CHECK(census.present + census.marked + census.filling + census.retired == 0);
    CHECK(census.free + census.unopened == count * PLACES);
    CHECK(cleared + full == (long)count * rounds);
    printf("threads: %ld rounds on each of %zu, %ld read, %ld gone, %ld full\n", rounds, count, got, missed, full);
    return 0;
}
