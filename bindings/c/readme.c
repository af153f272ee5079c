/* What README shows of C: one thread fills and publishes, and another reads and clears. */
#include "pardz.h"

#include <stdio.h>

int main(void) {
    const pardz_shape shape = { .lanes = 2, .first_page = 8, .pages = 2, .last_generation = UINT32_MAX, .tag = 0 };
    pardz_lane lanes[2] = { PARDZ_EMPTY, PARDZ_EMPTY };      /* one for each thread */
    if (pardz_open(&shape, lanes, 2) != PARDZ_OK)
        return 1;

    const uint8_t hello[] = { 'h', 'e', 'l', 'l', 'o' };
    uint64_t key;                                            /* lane 0 is the first thread's, and lane 1 the second's, which was told the key */
    const uint8_t *at;
    size_t len;
    if (pardz_put(&lanes[0], hello, 5, &key) == PARDZ_OK && pardz_get(&lanes[1], key, &at, &len) == PARDZ_OK) {
        pardz_clear(&lanes[0], key);                         /* later gets don't find the key; the bytes stay until the release */
        printf("%.*s\n", (int)len, (const char *)at);
        pardz_release(&lanes[1], key);                       /* the last reader to leave empties the buffer */
    }

    pardz_census census;
    return pardz_close_all(lanes, 2, &census) != PARDZ_OK || census.present + census.marked != 0;
}
