/* Two threads with a lane each: one publishes lines, and the other reads and clears them. Keys go from one to the other through a
 * small queue, and the pool has fewer places than there are lines, so that buffers are used again.
 *
 *     cc example.c heap.c libpoolffi.a -lpthread -o example
 *
 * or with libpardz.a in the place of libpoolffi.a. */
#include "pardz.h"

#include <pthread.h>
#include <stdio.h>
#include <stdlib.h>

#define LINES 1000
#define WAITING 4

/* Keys that are under way. */
static struct {
    pthread_mutex_t lock;
    pthread_cond_t changed;
    uint64_t keys[WAITING];
    int first, count;
} queue = { .lock = PTHREAD_MUTEX_INITIALIZER, .changed = PTHREAD_COND_INITIALIZER };

static void send(uint64_t key) {
    pthread_mutex_lock(&queue.lock);
    while (queue.count == WAITING)
        pthread_cond_wait(&queue.changed, &queue.lock);
    queue.keys[(queue.first + queue.count++) % WAITING] = key;
    pthread_cond_signal(&queue.changed);
    pthread_mutex_unlock(&queue.lock);
}

static uint64_t receive(void) {
    pthread_mutex_lock(&queue.lock);
    while (queue.count == 0)
        pthread_cond_wait(&queue.changed, &queue.lock);
    uint64_t key = queue.keys[queue.first];
    queue.first = (queue.first + 1) % WAITING;
    queue.count--;
    pthread_cond_signal(&queue.changed);
    pthread_mutex_unlock(&queue.lock);
    return key;
}

static void must(uint32_t code, const char *what) {
    if (code != PARDZ_OK) {
        fprintf(stderr, "%s: %s, %s\n", what, pardz_code_name(code), pardz_strerror(code));
        exit(1);
    }
}

/* Fills a buffer with each line in place, and publishes it. While the lane is on this thread's stack its slot isn't used. */
static void *publish_lines(void *slot) {
    pardz_lane lane = *(pardz_lane *)slot;
    for (int line = 0; line < LINES; line++) {
        uint64_t key;
        uint8_t *to;
        must(pardz_create(&lane, &key), "create");
        must(pardz_room(&lane, key, 32, &to), "room");
        must(pardz_wrote(&lane, key, (size_t)snprintf((char *)to, 32, "line %d", line)), "wrote");
        must(pardz_publish(&lane, key), "publish");
        send(key);
    }
    *(pardz_lane *)slot = lane;
    return NULL;
}

/* Reads each line, and clears it. */
static void *read_lines(void *slot) {
    pardz_lane lane = *(pardz_lane *)slot;
    for (int line = 0; line < LINES; line++) {
        uint64_t key = receive();
        const uint8_t *bytes;
        size_t len;
        must(pardz_get(&lane, key, &bytes, &len), "get");
        if (line % 250 == 0)
            printf("%.*s\n", (int)len, (const char *)bytes);
        must(pardz_clear(&lane, key), "clear");
        must(pardz_release(&lane, key), "release");
    }
    *(pardz_lane *)slot = lane;
    return NULL;
}

int main(void) {
    /* A lane has one page of 8 places: enough for the keys under way, the one that is read and the one that is filled. */
    const pardz_shape shape = { .lanes = 2, .first_page = 8, .pages = 1, .last_generation = UINT32_MAX, .tag = 0 };
    pardz_lane lanes[2] = { PARDZ_EMPTY, PARDZ_EMPTY };
    must(pardz_open(&shape, lanes, 2), "open");
    pthread_t publisher, reader;
    if (pthread_create(&publisher, NULL, publish_lines, &lanes[0]) != 0)
        return 1;
    if (pthread_create(&reader, NULL, read_lines, &lanes[1]) != 0)
        return 1;
    pthread_join(publisher, NULL);
    pthread_join(reader, NULL);
    pardz_census census;
    must(pardz_close_all(lanes, 2, &census), "close");
    printf("%u free, %u in pages that were never needed, %u still published\n", census.free, census.unopened, census.present);
    return census.present != 0;
}
