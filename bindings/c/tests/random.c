/* Random calls of two lanes on one thread, with right and wrong keys, beside a model of the pool: each code, key, byte and
 * address is what the model says, and so is the census.
 *
 * random CALLS: so many calls on each shape. */
#include "../pardz.h"
#include "check.h"
#include "which.h"

#include <string.h>

#define MOST_PLACES 96
#define MOST_BYTES 96
#define OLD_KEYS 64

/* What keys, lengths and addresses are before a call that may write them. */
#define NO_KEY 99
#define NO_LEN 999
static uint8_t nowhere[MOST_BYTES];

enum state { UNOPENED, FREE, FILLING, LEFT, PRESENT, MARKED, RETIRED };

struct place {
    enum state state;
    uint32_t generation;
    unsigned refs[2];
    size_t len;
    size_t lent; /* what the last room lent */
    uint8_t bytes[MOST_BYTES];
    uint8_t *to;
    const uint8_t *at;
};

static pardz_shape shape;
static uint32_t shard_places;
static struct place places[2][MOST_PLACES];
static uint32_t opened[2]; /* places in opened pages */
static uint32_t fillings[2];
static pardz_lane lanes[2];
static uint64_t old_keys[OLD_KEYS];
static long calls, wrong_keys, answers[14];

static uint64_t seed = 88172645463325252u;

static uint64_t draw(uint64_t below) {
    seed ^= seed << 13;
    seed ^= seed >> 7;
    seed ^= seed << 17;
    return (seed >> 11) % below;
}

/* The number of places in front of a page. */
static uint32_t before(uint32_t page) {
    return shape.first_page * ((1u << page) - 1);
}

static uint64_t key_of(int shard, uint32_t index) {
    uint32_t page = 0;
    while (before(page + 1) <= index)
        page++;
    return (uint64_t)shape.tag << 56 | (uint64_t)places[shard][index].generation << 24 | (uint64_t)shard << 16 | page << 12 |
           (index - before(page));
}

/* The place whose key this is now. */
static struct place *find(uint64_t key) {
    for (int shard = 0; shard < 2; shard++)
        for (uint32_t index = 0; index < shard_places; index++)
            if (key_of(shard, index) == key)
                return &places[shard][index];
    return NULL;
}

static int is_filling(const struct place *place, int lane) {
    return place->state == FILLING && place >= places[lane] && place < places[lane] + MOST_PLACES;
}

static int is_present(const struct place *place, int lane) {
    (void)lane;
    return place->state == PRESENT;
}

static int is_held(const struct place *place, int lane) {
    return place->refs[lane] != 0;
}

/* A key, which mostly serves if there is one that does: else one of another place, an old one, one with a wrong bit, any number. */
static uint64_t some_key(int serves(const struct place *, int), int lane) {
    uint64_t key = 0;
    for (int tries = 0; tries < 6; tries++) {
        int shard = (int)draw(2);
        uint32_t index = (uint32_t)draw(opened[shard] != 0 ? opened[shard] : 1);
        key = key_of(shard, index);
        if (serves(&places[shard][index], lane))
            break;
    }
    switch (draw(12)) {
    case 0:
        key = old_keys[draw(OLD_KEYS)];
        break;
    case 1:
        key ^= (uint64_t)1 << draw(64);
        break;
    case 2:
        key = draw(UINT64_MAX);
        break;
    default:
        return key;
    }
    wrong_keys += find(key) == NULL;
    return key;
}

static struct place *filling(int lane, uint64_t key) {
    struct place *place = find(key);
    return place != NULL && is_filling(place, lane) ? place : NULL;
}

static void told(uint32_t code, uint32_t want) {
    CHECK(code == want);
    answers[code]++;
    calls++;
}

static void same_bytes(struct place *place, const uint8_t *at, size_t len) {
    CHECK(len == place->len && (len == 0 || memcmp(at, place->bytes, len) == 0));
    CHECK(len == 0 || place->at == NULL || place->at == at);
    place->at = len != 0 ? at : NULL;
}

static void reclaim(struct place *place) {
    if (place->state != MARKED || place->refs[0] + place->refs[1] != 0)
        return;
    place->at = NULL;
    place->len = 0;
    place->state = place->generation == shape.last_generation ? RETIRED : FREE;
    if (place->state == FREE)
        place->generation++;
}

static uint32_t count(int shard, enum state state) {
    uint32_t found = 0;
    for (uint32_t index = 0; index < shard_places; index++)
        found += places[shard][index].state == state;
    return found;
}

/* The place of a key that a create or a put of this lane answered with a code. None where the lane had no place: no key was then
 * written. */
static struct place *had(int lane, uint32_t code, uint64_t key) {
    int is_free = count(lane, FREE) != 0;
    if (!is_free && opened[lane] == shard_places) {
        told(code, PARDZ_FULL);
        CHECK(key == NO_KEY);
        return NULL;
    }
    told(code, PARDZ_OK);
    if (!is_free) {
        uint32_t page = 0;
        while (before(page + 1) <= opened[lane])
            page++;
        for (uint32_t index = opened[lane]; index < before(page + 1); index++)
            places[lane][index].state = FREE;
        opened[lane] = before(page + 1);
    }
    struct place *place = find(key);
    CHECK(place != NULL && place->state == FREE && place >= places[lane] && place < places[lane] + MOST_PLACES);
    place->lent = 0;
    old_keys[draw(OLD_KEYS)] = key;
    return place;
}

static void create(int lane) {
    uint64_t key = NO_KEY;
    uint32_t code = pardz_create(&lanes[lane], &key);
    if (fillings[lane] == 16) {
        told(code, PARDZ_FILLINGS);
        CHECK(key == NO_KEY);
        return;
    }
    struct place *place = had(lane, code, key);
    if (place == NULL)
        return;
    place->state = FILLING;
    fillings[lane]++;
}

static void put(int lane) {
    uint64_t key = NO_KEY;
    uint8_t bytes[24];
    size_t len = (size_t)draw(sizeof bytes + 1);
    for (size_t i = 0; i < len; i++)
        bytes[i] = (uint8_t)draw(256);
    uint32_t code = pardz_put(&lanes[lane], len != 0 ? bytes : NULL, len, &key);
    struct place *place = had(lane, code, key);
    if (place == NULL)
        return;
    memcpy(place->bytes, bytes, len);
    place->len = len;
    place->state = PRESENT;
}

static void append(int lane, uint64_t key) {
    struct place *place = filling(lane, key);
    uint8_t bytes[24];
    size_t len = (size_t)draw(sizeof bytes + 1);
    for (size_t i = 0; i < len; i++)
        bytes[i] = (uint8_t)draw(256);
    if (place != NULL && place->len + len > MOST_BYTES)
        return;
    told(pardz_append(&lanes[lane], key, len != 0 ? bytes : NULL, len), place != NULL ? PARDZ_OK : PARDZ_NO_FILLING);
    if (place == NULL)
        return;
    memcpy(place->bytes + place->len, bytes, len);
    place->len += len;
    place->lent = 0;
}

static void room(int lane, uint64_t key) {
    struct place *place = filling(lane, key);
    size_t len = (size_t)draw(25);
    uint8_t *at = nowhere;
    if (place != NULL && place->len + len > MOST_BYTES)
        return;
    told(pardz_room(&lanes[lane], key, len, &at), place != NULL ? PARDZ_OK : PARDZ_NO_FILLING);
    CHECK((at != nowhere) == (place != NULL && len != 0));
    if (place == NULL)
        return;
    for (size_t i = 0; i < len; i++)
        CHECK(at[i] == 0);
    for (size_t i = 0; i < len; i++)
        at[i] = (uint8_t)draw(256);
    place->lent = len;
    place->to = at;
}

static void wrote(int lane, uint64_t key) {
    struct place *place = filling(lane, key);
    size_t len = (size_t)draw(draw(4) == 0 ? 30 : 8);
    uint8_t bytes[30];
    int fits = place != NULL && len <= place->lent;
    if (fits && len != 0)
        memcpy(bytes, place->to, len);
    told(pardz_wrote(&lanes[lane], key, len), place == NULL ? PARDZ_NO_FILLING : fits ? PARDZ_OK : PARDZ_ROOM);
    if (!fits)
        return;
    memcpy(place->bytes + place->len, bytes, len);
    place->len += len;
    place->lent = 0;
}

static void publish(int lane, uint64_t key, int downgrade) {
    struct place *place = filling(lane, key);
    uint32_t code = downgrade ? pardz_downgrade(&lanes[lane], key) : pardz_publish(&lanes[lane], key);
    told(code, place != NULL ? PARDZ_OK : PARDZ_NO_FILLING);
    if (place == NULL)
        return;
    place->state = PRESENT;
    place->refs[lane] += (unsigned)downgrade;
    fillings[lane]--;
}

static void leave(int lane, uint64_t key) {
    struct place *place = filling(lane, key);
    if (place != NULL && (draw(100) != 0 || count(lane, LEFT) > shard_places / 4))
        return;
    told(pardz_leave(&lanes[lane], key), place != NULL ? PARDZ_OK : PARDZ_NO_FILLING);
    if (place == NULL)
        return;
    place->state = LEFT;
    fillings[lane]--;
}

static void get(int lane, uint64_t key) {
    struct place *place = find(key);
    const uint8_t *at = nowhere;
    size_t len = NO_LEN;
    int found = place != NULL && is_present(place, lane);
    told(pardz_get(&lanes[lane], key, &at, &len), found ? PARDZ_OK : PARDZ_GONE);
    CHECK((at != nowhere) == (found && len != 0) && (found || len == NO_LEN));
    if (!found)
        return;
    same_bytes(place, at, len);
    place->refs[lane]++;
}

static void read(int lane, uint64_t key) {
    struct place *place = find(key);
    const uint8_t *at = nowhere;
    size_t len = NO_LEN;
    int held = place != NULL && is_held(place, lane);
    told(pardz_read(&lanes[lane], key, &at, &len), held ? PARDZ_OK : PARDZ_NO_REFERENCE);
    CHECK((at != nowhere) == (held && len != 0) && (held || len == NO_LEN));
    if (held)
        same_bytes(place, at, len);
}

static void release(int lane, uint64_t key) {
    struct place *place = find(key);
    int held = place != NULL && is_held(place, lane);
    if (held && place->at != NULL)
        CHECK(memcmp(place->at, place->bytes, place->len) == 0);
    told(pardz_release(&lanes[lane], key), held ? PARDZ_OK : PARDZ_NO_REFERENCE);
    if (!held)
        return;
    place->refs[lane]--;
    if (place->refs[0] + place->refs[1] == 0)
        place->at = NULL;
    reclaim(place);
}

static void clear(int lane, uint64_t key) {
    struct place *place = find(key);
    int found = place != NULL && is_present(place, lane);
    told(pardz_clear(&lanes[lane], key), found ? PARDZ_OK : PARDZ_GONE);
    if (!found)
        return;
    place->state = MARKED;
    reclaim(place);
}

static void call(void) {
    int lane = (int)draw(2);
    switch (draw(14)) {
    case 0: create(lane); break;
    case 1: append(lane, some_key(is_filling, lane)); break;
    case 2: room(lane, some_key(is_filling, lane)); break;
    case 3: wrote(lane, some_key(is_filling, lane)); break;
    case 4: publish(lane, some_key(is_filling, lane), (int)draw(2)); break;
    case 5: leave(lane, some_key(is_filling, lane)); break;
    case 6: case 7: get(lane, some_key(is_present, lane)); break;
    case 8: read(lane, some_key(is_held, lane)); break;
    case 9: case 10: case 11: release(lane, some_key(is_held, lane)); break;
    case 12: put(lane); break;
    default: clear(lane, some_key(is_present, lane)); break;
    }
}

/* What the places are is what the model has. */
static void counts(const pardz_census *census) {
    CHECK(census->free == count(0, FREE) + count(1, FREE));
    CHECK(census->unopened == count(0, UNOPENED) + count(1, UNOPENED));
    CHECK(census->filling == count(0, FILLING) + count(1, FILLING) + count(0, LEFT) + count(1, LEFT));
    CHECK(census->present == count(0, PRESENT) + count(1, PRESENT));
    CHECK(census->marked == count(0, MARKED) + count(1, MARKED));
    CHECK(census->retired == count(0, RETIRED) + count(1, RETIRED));
}

/* How many pages are open of which a lane has so many places. */
static uint32_t pages(int lane) {
    const uint32_t places = shard_places - count(lane, UNOPENED);
    uint32_t opened = 0;
    while (before(opened) < places)
        opened++;
    return opened;
}

/* What a lane tells of itself is what the model has. libpoolffi.a doesn't tell of places and pages. */
static void tells(int lane) {
    uint32_t references = 0;
    for (int shard = 0; shard < 2; shard++)
        for (uint32_t index = 0; index < shard_places; index++)
            references += places[shard][index].refs[lane];
    pardz_stats stats;
    CHECK(pardz_stats_of(&lanes[lane], &stats) == PARDZ_OK && memcmp(&stats.shape, &shape, sizeof shape) == 0);
    CHECK(stats.lane == (uint32_t)lane && stats.references == references && stats.fillings == fillings[lane] && stats.joined == 0);
    if (tells_places()) {
        CHECK(stats.opened == pages(0) + pages(1));
        counts(&stats.places);
    }
}

static void run(pardz_shape of, long rounds) {
    shape = of;
    shard_places = before(of.pages);
    memset(places, 0, sizeof places);
    memset(opened, 0, sizeof opened);
    memset(fillings, 0, sizeof fillings);
    for (int shard = 0; shard < 2; shard++)
        for (uint32_t index = 0; index < shard_places; index++)
            places[shard][index].generation = 1;
    CHECK(pardz_open(&shape, lanes, 2) == PARDZ_OK);
    for (long round = 0; round < rounds; round++) {
        call();
        if (round % 16 == 0)
            tells((int)(round / 16 % 2));
    }
    pardz_census census;
    CHECK(pardz_close_all(lanes, 2, &census) == PARDZ_OK);
    counts(&census);
}

int main(int argc, char **argv) {
    long rounds = argc > 1 ? atol(argv[1]) : 100000;
    const pardz_shape shapes[] = {
        { 2, 4, 2, UINT32_MAX, 3 }, { 2, 1, 4, UINT32_MAX, 0 }, { 2, 16, 2, 60, 255 }, { 2, 2, 2, 3, 1 }
    };
    for (size_t i = 0; i < sizeof shapes / sizeof *shapes; i++)
        run(shapes[i], rounds);
    printf("random: %ld calls, %ld with a number that is no key now; ok %ld full %ld fillings %ld no filling %ld no reference %ld "
           "gone %ld room %ld\n",
           calls, wrong_keys, answers[PARDZ_OK], answers[PARDZ_FULL], answers[PARDZ_FILLINGS], answers[PARDZ_NO_FILLING],
           answers[PARDZ_NO_REFERENCE], answers[PARDZ_GONE], answers[PARDZ_ROOM]);
    return 0;
}
