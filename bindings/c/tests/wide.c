/* Pools of the wide limits, on one thread: 64 lanes, and pages beyond the sixth, which double up to 4,096 places.
 *
 * Of each shape each lane fills all its places, the next lane reads them, and a third clears them; then all goes once more, in the same
 * places. */
#include "../pardz.h"
#include "check.h"

#include <string.h>

#define MOST_LANES 64

struct wide {
    pardz_shape shape;
    uint32_t places; /* of a lane */
};

/* The places are reckoned by hand: 1 + 2 + 4 + .. + 4,096, and 4,096 for each further page. */
static const struct wide WIDE[] = {
    { { 64, 1, 1, UINT32_MAX, 0 }, 1 },         { { 64, 4, 5, UINT32_MAX, 255 }, 124 }, { { 17, 64, 2, UINT32_MAX, 1 }, 192 },
    { { 1, 1, 16, UINT32_MAX, 2 }, 20479 },     { { 1, 64, 7, UINT32_MAX, 3 }, 8128 },  { { 2, 64, 8, UINT32_MAX, 4 }, 12224 },
    { { 2, 64, 16, UINT32_MAX, 5 }, 44992 },    { { 3, 32, 16, UINT32_MAX, 6 }, 40928 },
};

/* What a key's bytes are. */
static size_t bytes_of(uint64_t key, uint8_t *bytes) {
    memcpy(bytes, &key, sizeof key);
    return sizeof key;
}

/* A lane fills all its places. */
static void fill(pardz_lane *lane, uint32_t places, uint64_t *keys) {
    uint64_t more = 0;
    for (uint32_t i = 0; i < places; i++) {
        uint8_t bytes[sizeof(uint64_t)];
        CHECK(pardz_create(lane, &keys[i]) == PARDZ_OK);
        CHECK(pardz_append(lane, keys[i], bytes, bytes_of(keys[i], bytes)) == PARDZ_OK);
        CHECK(pardz_publish(lane, keys[i]) == PARDZ_OK);
    }
    CHECK(pardz_put(lane, NULL, 0, &more) == PARDZ_FULL);
}

/* A lane gets each key twice, and gives both references back. */
static void look(pardz_lane *lane, const uint64_t *keys, uint32_t places) {
    for (uint32_t i = 0; i < places; i++) {
        uint8_t bytes[sizeof(uint64_t)];
        const uint8_t *at = NULL;
        size_t len = 0;
        CHECK(pardz_get(lane, keys[i], &at, &len) == PARDZ_OK && pardz_get(lane, keys[i], &at, &len) == PARDZ_OK);
        CHECK(len == bytes_of(keys[i], bytes) && memcmp(at, bytes, len) == 0);
        CHECK(pardz_release(lane, keys[i]) == PARDZ_OK && pardz_read(lane, keys[i], &at, &len) == PARDZ_OK);
        CHECK(pardz_release(lane, keys[i]) == PARDZ_OK && pardz_release(lane, keys[i]) == PARDZ_NO_REFERENCE);
    }
}

static void clear(pardz_lane *lane, const uint64_t *keys, uint32_t places) {
    for (uint32_t i = 0; i < places; i++)
        CHECK(pardz_clear(lane, keys[i]) == PARDZ_OK && pardz_clear(lane, keys[i]) == PARDZ_GONE);
}

static void live(const struct wide *wide) {
    const uint32_t count = wide->shape.lanes, places = wide->places;
    pardz_lane lanes[MOST_LANES];
    for (uint32_t i = 0; i < MOST_LANES; i++)
        lanes[i] = (pardz_lane)PARDZ_EMPTY;
    uint64_t *keys = calloc((size_t)count * places, sizeof *keys);
    CHECK(keys != NULL && pardz_open(&wide->shape, lanes, count) == PARDZ_OK);
    for (int round = 0; round < 2; round++) {
        for (uint32_t i = 0; i < count; i++)
            fill(&lanes[i], places, &keys[(size_t)i * places]);
        for (uint32_t i = 0; i < count; i++)
            look(&lanes[(i + 1) % count], &keys[(size_t)i * places], places);
        for (uint32_t i = 0; i < count; i++)
            clear(&lanes[(i + 2) % count], &keys[(size_t)i * places], places);
    }
    pardz_census census;
    CHECK(pardz_close_all(lanes, count, &census) == PARDZ_OK);
    CHECK(census.free == count * places);
    CHECK(census.unopened + census.filling + census.present + census.marked + census.retired == 0);
    free(keys);
}

int main(void) {
    uint32_t all = 0;
    for (size_t i = 0; i < sizeof WIDE / sizeof *WIDE; i++) {
        live(&WIDE[i]);
        all += WIDE[i].shape.lanes * WIDE[i].places;
    }
    printf("wide: %zu shapes, %u places, twice\n", sizeof WIDE / sizeof *WIDE, all);
    return 0;
}
