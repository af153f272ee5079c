/* What the page of the C libraries shows: one thread puts, and another reads and clears. Neither has a lane or a slot, and the pool grows.
 *
 *     cc anyone.c heap.c libpardz.a -lpthread -o anyone */
#include "pardz.h"

#include <pthread.h>
#include <stdio.h>

static pardz_pool pool = PARDZ_EMPTY;

static void *read_and_clear(void *argument) {
    const uint64_t key = *(const uint64_t *)argument;
    pardz_ref ref;
    if (pardz_any_get(&pool, key, &ref) == PARDZ_OK) {
        pardz_any_clear(&pool, key);                         /* later gets don't find the key; the bytes stay until the release */
        printf("%.*s\n", (int)ref.len, (const char *)ref.at);
        pardz_any_release(&pool, &ref);                      /* the last reader to leave empties the buffer */
    }
    return NULL;
}

int main(void) {
    const pardz_limits limits = PARDZ_LIMITS;
    if (pardz_grow(&limits, &pool) != PARDZ_OK)              /* it takes memory as it fills */
        return 1;

    uint64_t key;                                            /* a number, for any thread */
    pthread_t thread;
    if (pardz_any_put(&pool, "hello", 5, &key) != PARDZ_OK || pthread_create(&thread, NULL, read_and_clear, &key) != 0)
        return 1;
    pthread_join(thread, NULL);

    pardz_census census;
    return pardz_detach(&pool, &census) != PARDZ_OK || census.present + census.marked != 0;
}
