/* The calls for a thread sanitizer, which doesn't see the library's own atomic steps: it is told what order they promise, and
 * reports where the buffers were used in another one.
 *
 * Of one place: what is before a publish is before each get; what is before a release or a clear is before the next create. */
#ifndef ORDERED_H
#define ORDERED_H

#include "../pardz.h"

#ifndef __has_feature
#define __has_feature(name) 0
#endif

#if defined(__SANITIZE_THREAD__) || __has_feature(thread_sanitizer)

#include <sanitizer/tsan_interface.h>

/* One for each place: 6 bits of shard, 4 of page, 12 of slot. */
static char order[1 << 22];

static inline void *place_of(uint64_t key) {
    return &order[key & 0x3fffff];
}

static inline uint32_t ordered_create(pardz_lane *lane, uint64_t *key) {
    uint32_t code = pardz_create(lane, key);
    if (code == PARDZ_OK)
        __tsan_acquire(place_of(*key));
    return code;
}

static inline uint32_t ordered_publish(pardz_lane *lane, uint64_t key) {
    __tsan_release(place_of(key));
    return pardz_publish(lane, key);
}

static inline uint32_t ordered_downgrade(pardz_lane *lane, uint64_t key) {
    __tsan_release(place_of(key));
    return pardz_downgrade(lane, key);
}

static inline uint32_t ordered_get(pardz_lane *lane, uint64_t key, const uint8_t **at, size_t *len) {
    uint32_t code = pardz_get(lane, key, at, len);
    if (code == PARDZ_OK)
        __tsan_acquire(place_of(key));
    return code;
}

static inline uint32_t ordered_release(pardz_lane *lane, uint64_t key) {
    __tsan_release(place_of(key));
    return pardz_release(lane, key);
}

static inline uint32_t ordered_clear(pardz_lane *lane, uint64_t key) {
    __tsan_release(place_of(key));
    return pardz_clear(lane, key);
}

#define pardz_create ordered_create
#define pardz_publish ordered_publish
#define pardz_downgrade ordered_downgrade
#define pardz_get ordered_get
#define pardz_release ordered_release
#define pardz_clear ordered_clear

#endif

#endif
