/* A sharded pool of byte buffers that are cleared in place and used again.
 *
 * A thread fills a buffer and publishes it under a key; other threads read it through a reference. A clear hides the key at once, and
 * the last to leave empties the buffer, which keeps its memory and is filled again under a new key.
 *
 * There are three ways to use a pool. With pardz_open each thread has a lane of its own. pardz_attach opens a pool that any number of
 * threads call; each call borrows a lane: pardz_pool_put and its like, which return PARDZ_BUSY while others have all lanes. With
 * libpoolffi.a each thread calls through a slot of its own, which pardz_share fills; with libpardz.a and libpardz.so threads may also
 * share one slot. Only these two have the third way, pardz_grow with pardz_any_put and its like: any thread calls, and needs nothing of
 * the pool for it. Only they have pools of a program's structs (pardz_open_sized), pardz_pool_census, and owned references (pardz_own and
 * its like), which go to any thread and outlive the slot of their pool.
 *
 * No call but pardz_await_put and its like locks anything or waits for another thread, unless the heap does so when memory is taken or
 * given back; but for a pardz_any_put or pardz_any_create that has its thread's first places, or further ones, and the exit of such a
 * thread, which share a lock for some steps. Memory is taken by pardz_open, pardz_attach, pardz_grow, pardz_open_sized, pardz_share,
 * pardz_create and pardz_any_create where they open a page, and for the first struct in a place, pardz_append, pardz_room, pardz_put,
 * pardz_pool_put, pardz_any_put, pardz_any_append, pardz_any_room, pardz_own and pardz_any_own. It is given back by pardz_close,
 * pardz_join, pardz_leave, pardz_unshare, pardz_detach, an open or attach that is refused, whoever lets go last of a place that is used
 * up, pardz_disown, and a thread's exit.
 *
 * Link with heap.c and one of two libraries, whose calls do the same: libpoolffi.a, which is proved up to these calls, for x86-64 of
 * level 2 (x86-64-v2) and ELF; or libpardz.a or libpardz.so, which cargo builds, and which are in part translated from the proved
 * sources, and not proved. In C99, C++11 or later; pardz.hpp has classes for C++. docs/C.md tells what may be relied on, and README.md
 * of the two.
 *
 * The caller's duties (nothing checks them):
 *
 * - A lane is in one call at a time. It may go from thread to thread, where a lock, the start or the join of a thread, or a
 *   sequentially consistent atomic stands between the calls of one thread and those of the next. Two threads that call at once
 *   need two lanes.
 * - A slot (pardz_lane, pardz_pool or pardz_owned) is PARDZ_EMPTY before pardz_open, pardz_attach, pardz_grow, pardz_open_sized,
 *   pardz_share, pardz_own, pardz_any_own or pardz_own_again fills it. It may be moved by a plain copy, if the old copy isn't used again;
 *   nothing else writes to it or makes one up. Slots of threads that run at once best stand 64 bytes apart.
 * - With libpoolffi.a a pool's slot is in one call at a time, as a lane is. With the other libraries many threads may be in calls with it
 *   at once, but in none while it is attached, unshared or detached: a lock, the start or join of a thread, or such an atomic stands
 *   between. So it is with the slot of an owned reference and the calls that fill and empty it (pardz_own, pardz_any_own,
 *   pardz_own_again and pardz_disown).
 * - A pardz_ref is released once, before its pool is detached, be it by the struct or by a copy; a pardz_filling is used by one thread at
 *   a time, and not by a copy. Nothing else writes to either or makes one up. (A library that cargo built for debugging ends the process
 *   at a second release, unless others refer to the same bytes.)
 * - A pointer that a call is given points to so much memory as the call reads or writes, for the time of the call, and to no slot
 *   and nothing else that the call writes: the slots of a join are two, and so are those of a share. It is never NULL, but for
 *   `bytes` where `len` is 0, and for `lanes` and `numbers` where `count` is 0.
 * - Bytes that were lent are read or written where, and as long as, the call that lent them says.
 * - No call is made from a signal handler, or in the forked child of a process with threads; none is left by a jump, an exception
 *   of the heap or an asynchronous cancellation.
 *
 * Each call returns a code. At any code but PARDZ_OK nothing was written through a pointer, and all is as before the call, except:
 *
 * - PARDZ_GONE: if the key was cleared meanwhile, the call may have been the last to let go of its bytes, which are emptied then.
 * - PARDZ_MEMORY of an append or a room: an earlier room of the filling has ended. Its bytes are as before.
 * - PARDZ_MEMORY of pardz_put, pardz_pool_put and pardz_any_put: a page may be open, and a place have used up its next key (if that was
 *   its last, it is retired).
 * - PARDZ_MEMORY of pardz_own: if the key was cleared meanwhile, the call may have been the last to let go of it.
 * - PARDZ_SHARED of pardz_close: the slot may be empty, and the pool then keeps its memory.
 * - pardz_close_all: what it joined before it was refused is joined.
 * - pardz_put_several and its like: what was done before is done, and reported.
 *
 * A key names a place of a pool, how often the place was used, and the pool's tag; it is never 0. It may be sent to any thread; a key
 * that came through a lock, a channel or such an atomic is published for whoever receives it. Calls accept any number: for one that
 * isn't published they return a code. A key of another pool is recognized by its tag alone. Pools with one tag give out the same keys,
 * and each takes the other's for its own: give pools whose keys may be mixed up different tags.
 *
 * A clear wipes nothing: bytes that were cleared stay in memory until they are written over, and what is freed isn't wiped either.
 */
#ifndef PARDZ_H
#define PARDZ_H

#include <stddef.h>
#include <stdint.h>

/* What pardz_await_put and its like do between two tries. A program may define another way. */
#ifndef PARDZ_YIELD
#if defined(__unix__) || defined(__APPLE__)
#include <sched.h>
#define PARDZ_YIELD() ((void)sched_yield())
#else
#define PARDZ_YIELD() ((void)0)
#endif
#endif

/* The version of this header. */
#define PARDZ_VERSION "0.2.0"

#ifdef __cplusplus
extern "C" {
#endif

/* The place of a lane: 16 bytes of the caller's. */
typedef struct pardz_lane {
    void *at;
    uint64_t full;
} pardz_lane;

/* A slot without a lane: pardz_lane slot = PARDZ_EMPTY; */
#define PARDZ_EMPTY { NULL, 0 }

/* What a pool is opened with. A lane's page p has first_page * 2^p places, but no more than 4,096; so a lane has first_page *
 * (2^pages - 1) in all while they double, and 44,992 at most. A lane counts its references by key: that takes 8 bytes for each place
 * of the pool, so 8 * lanes for each place, from the open on. With 64 lanes of 4,032 places it is 133 MB, and 1.5 GB at the most. */
typedef struct pardz_shape {
    uint32_t lanes;           /* how many threads call at once: 1 to 64 */
    uint32_t first_page;      /* places of a lane's first page: 1, 2, 4, 8, 16, 32 or 64 */
    uint32_t pages;           /* pages of a lane: 1 to 16 */
    uint32_t last_generation; /* how often a place is used before it is retired: from 1; UINT32_MAX for most programs */
    uint32_t tag;             /* 0 to 255: is in each key, and tells it from those of pools with another tag */
} pardz_shape;

/* The place of a pool that any thread calls: 16 bytes of the caller's. pardz_pool pool = PARDZ_EMPTY; */
typedef struct pardz_pool {
    void *at;
    uint64_t full;
} pardz_pool;

/* A reference of such a pool, with its bytes: one of the pool's lanes keeps it. */
typedef struct pardz_lent {
    const uint8_t *at; /* not written where len is 0 */
    size_t len;
    uint64_t key;
    uint32_t lane; /* which lane keeps it */
} pardz_lent;

/* The place of an owned reference: 16 bytes of the caller's. pardz_owned owned = PARDZ_EMPTY; */
typedef struct pardz_owned {
    void *at;
    uint64_t key; /* what it refers to; 0 where the slot is empty */
} pardz_owned;

/* How far a pool that grows may go. pardz_limits limits = PARDZ_LIMITS; */
typedef struct pardz_limits {
    uint64_t places;          /* how many places there may be: from 1 */
    uint32_t threads;         /* how many threads may put and create at once: from 1 */
    uint32_t first_tag;       /* its keys have this tag, 0 to 255, and from the 65th such thread on those behind it, one for each 64 */
    uint32_t tags;            /* how many tags there may be: from 1 */
    uint32_t last_generation; /* as of a shape */
} pardz_limits;

/* As far as keys go: 16,384 threads at once, each with 44,992 places, or more where it has those of threads that have exited. */
#define PARDZ_LIMITS { UINT64_MAX, UINT32_MAX, 0, 256, UINT32_MAX }

/* What the objects of a pool of pardz_open_sized are, as { sizeof(struct session), 1, close_session, NULL, NULL }. */
typedef struct pardz_objects {
    size_t size;     /* bytes of each; 0: they are buffers of any length */
    uint32_t zeroed; /* 1: each begins with zeros; 0: only the first in a place does, and each further one as the last was left */
    void (*empty)(void *context, void *object, size_t size); /* or NULL */
    void (*end)(void *context, void *object, size_t size);   /* or NULL */
    void *context;
} pardz_objects;

/* A reference of a call by any thread, with its bytes. A copy is the same reference. */
typedef struct pardz_ref {
    const void *at; /* not written where len is 0 */
    size_t len;
    uint64_t key; /* 0 once it is released */
} pardz_ref;

/* A buffer or an object that isn't published yet, of a call by any thread. */
typedef struct pardz_filling {
    void *at;     /* of a pool of pardz_open_sized: the object, to be written to until the filling ends; else it tells nothing */
    uint64_t key; /* under which it will be published; 0 where there is none: it never was, or it ended */
} pardz_filling;

/* What the places of a pool were when it was closed. The six add up to lanes times places of a lane; or of a pool that grows, to the
 * places of those who have put or created. */
typedef struct pardz_census {
    uint32_t free;
    uint32_t unopened; /* in pages that were never needed */
    uint32_t filling;  /* created, and neither published nor free again; or emptied just now */
    uint32_t present;  /* published and not cleared */
    uint32_t marked;   /* cleared, with a reference that wasn't released */
    uint32_t retired;  /* used up: its last generation was cleared */
} pardz_census;

/* What a lane reports of its pool and of itself while the pool is open. A later version may have more fields, behind these.
 * libpoolffi.a doesn't report the last two, which are then 0 throughout. */
typedef struct pardz_stats {
    pardz_shape shape;   /* what the pool was opened with */
    uint32_t lane;       /* the lane's number: the index of its slot at the open */
    uint32_t references; /* how many it has, to all keys together */
    uint32_t fillings;   /* how many it has */
    uint32_t joined;     /* how many lanes were joined to it */
    uint32_t opened;     /* how many pages of the pool are open, of all lanes together */
    pardz_census places; /* what the pool's places are now, as pardz_pool_census says */
} pardz_stats;

enum {
    PARDZ_OK = 0,
    PARDZ_MEMORY = 1,       /* memory was refused */
    PARDZ_EMPTY_LANE = 2,   /* the slot has no lane (or no pool, or no owned reference): it never had, or it ended */
    PARDZ_FULL_LANE = 3,    /* open, attach, grow, share, own: a slot already has a lane (or a pool, or an owned reference) */
    PARDZ_FULL = 4,         /* create, put: no place of the lane, or of the thread, is free */
    PARDZ_FILLINGS = 5,     /* create: the lane already has 16 fillings */
    PARDZ_NO_FILLING = 6,   /* the lane has no filling under this key, or the filling has ended */
    PARDZ_NO_REFERENCE = 7, /* the lane has no reference to this key, or the reference was released */
    PARDZ_GONE = 8,         /* get, own, clear: nothing is published under the key in this pool, or it is cleared already */
    PARDZ_REFERENCES = 9,   /* get, downgrade: the lane has 1,048,575 references, the most that it can have; own, and by any thread: the
                               key has 268,435,456 */
    PARDZ_OTHER_POOL = 10,  /* join: the lanes are of different pools */
    PARDZ_LANES = 11,       /* open: count isn't the shape's number of lanes; join, close: not the lane whose turn it is */
    PARDZ_SHAPE = 12,       /* open, attach, grow: the shape is outside its limits */
    PARDZ_ROOM = 13,        /* wrote: more bytes than the last pardz_room gave; by any thread: objects of a fixed size have no such bytes */
    PARDZ_SHARED = 14,      /* close: all lanes were joined, but some into another pool that was opened under the same number;
                               detach: another slot has the pool too */
    PARDZ_BUSY = 15         /* pardz_pool_put and its like, share, and a put or create by any thread: others have all lanes, or places,
                               that could serve this one */
};

/* What a code says, for a message. It is never NULL: a number that is no code has a text too. */
static inline const char *pardz_strerror(uint32_t code) {
    static const char *const texts[] = {
        "no error",
        "memory was refused",
        "the slot has no lane",
        "a slot already has a lane",
        "no place of the lane is free",
        "the lane already has 16 fillings",
        "the lane has no filling under this key",
        "the lane has no reference to this key",
        "nothing is published under this key",
        "the lane has as many references as it can have",
        "the lanes are of different pools",
        "not the number of lanes, or not the lane whose turn it is",
        "the shape is outside its limits",
        "more bytes than the room has",
        "another slot has the pool, or another pool was opened under the same number",
        "other calls have all lanes",
    };
    return code < sizeof texts / sizeof *texts ? texts[code] : "no code of pardz";
}

/* The name that a code has here, as "PARDZ_GONE", for a log. It is never NULL: it is "PARDZ_?" for a number that is no code. */
static inline const char *pardz_code_name(uint32_t code) {
    static const char *const names[] = {
        "PARDZ_OK",
        "PARDZ_MEMORY",
        "PARDZ_EMPTY_LANE",
        "PARDZ_FULL_LANE",
        "PARDZ_FULL",
        "PARDZ_FILLINGS",
        "PARDZ_NO_FILLING",
        "PARDZ_NO_REFERENCE",
        "PARDZ_GONE",
        "PARDZ_REFERENCES",
        "PARDZ_OTHER_POOL",
        "PARDZ_LANES",
        "PARDZ_SHAPE",
        "PARDZ_ROOM",
        "PARDZ_SHARED",
        "PARDZ_BUSY",
    };
    return code < sizeof names / sizeof *names ? names[code] : "PARDZ_?";
}

/* The version of the library, which may be another than the header's. libpardz.a and libpardz.so have it, and libpoolffi.a hasn't. */
const char *pardz_version(void);

/* A number that this process wasn't given before. heap.c has it. */
uint64_t pardz_next_number(void);

/* pardz_open, with a number that no other pool of the process has: by it a join knows the lanes of its pool. */
uint32_t pardz_open_numbered(const pardz_shape *shape, pardz_lane *lanes, size_t count, uint64_t number);

/* Opens a pool, and puts its lanes into so many empty slots, by rising number.
 * PARDZ_MEMORY, PARDZ_FULL_LANE, PARDZ_LANES, PARDZ_SHAPE. */
static inline uint32_t pardz_open(const pardz_shape *shape, pardz_lane *lanes, size_t count) {
    return pardz_open_numbered(shape, lanes, count, pardz_next_number());
}

/* A lane's fillings: at most 16 at once, each named by the key under which it will be published.
 *
 * Begins an empty filling, and returns its key. It takes memory only where it opens a page.
 * PARDZ_MEMORY, PARDZ_EMPTY_LANE, PARDZ_FULL, PARDZ_FILLINGS. */
uint32_t pardz_create(pardz_lane *lane, uint64_t *key);

/* Appends to a filling. An earlier room ends, even where memory is refused. `bytes` may belong to a reference, but not to this
 * filling.
 * PARDZ_MEMORY, PARDZ_EMPTY_LANE, PARDZ_NO_FILLING. */
uint32_t pardz_append(pardz_lane *lane, uint64_t key, const void *bytes, size_t len);

/* Lends `count` bytes, zeros at first, behind those of the filling, which they continue, so they begin at any address. They may be
 * written to until the next call with this filling, and belong to it only as far as pardz_wrote says so. An earlier room ends, even
 * where memory is refused. *at isn't written where count is 0.
 * PARDZ_MEMORY, PARDZ_EMPTY_LANE, PARDZ_NO_FILLING. */
uint32_t pardz_room(pardz_lane *lane, uint64_t key, size_t count, uint8_t **at);

/* The first `count` of the bytes that the last pardz_room lent now belong to the filling, and the others don't.
 * PARDZ_EMPTY_LANE, PARDZ_NO_FILLING, PARDZ_ROOM. */
uint32_t pardz_wrote(pardz_lane *lane, uint64_t key, size_t count);

/* Publishes a filling: from now on each lane finds its bytes under the key.
 * PARDZ_EMPTY_LANE, PARDZ_NO_FILLING. */
uint32_t pardz_publish(pardz_lane *lane, uint64_t key);

/* Publishes a filling, and the lane has a reference to it (pardz_read tells its bytes).
 * PARDZ_EMPTY_LANE, PARDZ_NO_FILLING, PARDZ_REFERENCES. */
uint32_t pardz_downgrade(pardz_lane *lane, uint64_t key);

/* Publishes bytes in a place of their own, and returns the key: as a create, an append and a publish, and faster. It needs no
 * filling to be free. Where memory is refused for the bytes, a place that was had is free again, under its next key, or retired.
 * PARDZ_MEMORY, PARDZ_EMPTY_LANE, PARDZ_FULL. */
uint32_t pardz_put(pardz_lane *lane, const void *bytes, size_t len, uint64_t *key);

/* Gives a filling up. Its place is lost until the pool is closed.
 * PARDZ_EMPTY_LANE, PARDZ_NO_FILLING. */
uint32_t pardz_leave(pardz_lane *lane, uint64_t key);

/* References: a lane may have several, to one key too. The bytes of a key stand where they are, and don't change, until the lane
 * has released the key as often as it took a reference to it, or the pool is closed; any thread may read them meanwhile. They begin
 * where their block does, with heap.c at a multiple of 16. A reference stays with its lane: another lane gets its own by the key.
 *
 * Takes a reference, and tells the bytes. *at isn't written where *len is 0.
 * PARDZ_EMPTY_LANE, PARDZ_GONE, PARDZ_REFERENCES. */
uint32_t pardz_get(pardz_lane *lane, uint64_t key, const uint8_t **at, size_t *len);

/* Tells the bytes of a key to which the lane has a reference, cleared or not. *at isn't written where *len is 0.
 * PARDZ_EMPTY_LANE, PARDZ_NO_REFERENCE. */
uint32_t pardz_read(pardz_lane *lane, uint64_t key, const uint8_t **at, size_t *len);

/* Gives one reference back.
 * PARDZ_EMPTY_LANE, PARDZ_NO_REFERENCE. */
uint32_t pardz_release(pardz_lane *lane, uint64_t key);

/* Clears a published key: no get finds it any more. Of all clears of a key one returns PARDZ_OK. The bytes stay until nobody has
 * a reference; whoever lets go last empties the buffer, and its place is free again.
 * PARDZ_EMPTY_LANE, PARDZ_GONE. */
uint32_t pardz_clear(pardz_lane *lane, uint64_t key);

/* Tells the first `count` of the numbers of pardz_stats, in its order; numbers behind those that the library knows stay as they were.
 * It makes no step, and other lanes may be in calls: of a lane that publishes a filling meanwhile this may count as free, or a free place
 * as filling. It looks at each place of an open page where more than nine are asked for.
 * PARDZ_EMPTY_LANE. */
uint32_t pardz_numbers(pardz_lane *lane, uint32_t *numbers, size_t count);

/* The same, as a struct: all of them, so that it looks at each place of an open page.
 * PARDZ_EMPTY_LANE. */
static inline uint32_t pardz_stats_of(pardz_lane *lane, pardz_stats *stats) {
    uint32_t n[16] = { 0 };
    uint32_t code = pardz_numbers(lane, n, sizeof n / sizeof *n);
    if (code == PARDZ_OK) {
        const pardz_stats told = { { n[0], n[1], n[2], n[3], n[4] }, n[5],  n[6],  n[7],  n[8], n[9],
                                   { n[10], n[11], n[12], n[13], n[14], n[15] } };
        *stats = told;
    }
    return code;
}

/* Several at once, one after the other: each ends at the first code that isn't PARDZ_OK and returns it, and *done is how many went
 * well before. So they write also if they return another code.
 *
 * Some bytes: those of a program, or those that a pool lent. */
typedef struct pardz_bytes {
    const uint8_t *at; /* NULL where len is 0 and a pool tells it */
    size_t len;
} pardz_bytes;

/* A pardz_put of each of these bytes; *done keys are written.
 * PARDZ_MEMORY, PARDZ_EMPTY_LANE, PARDZ_FULL. */
static inline uint32_t pardz_put_several(pardz_lane *lane, const pardz_bytes *bytes, size_t count, uint64_t *keys, size_t *done) {
    uint32_t code = PARDZ_OK;
    for (*done = 0; *done < count; ++*done) {
        code = pardz_put(lane, bytes[*done].at, bytes[*done].len, &keys[*done]);
        if (code != PARDZ_OK)
            break;
    }
    return code;
}

/* A pardz_get of each of these keys, which may be equal; the lane has *done references more.
 * PARDZ_EMPTY_LANE, PARDZ_GONE, PARDZ_REFERENCES. */
static inline uint32_t pardz_get_several(pardz_lane *lane, const uint64_t *keys, size_t count, pardz_bytes *lent, size_t *done) {
    uint32_t code = PARDZ_OK;
    for (*done = 0; *done < count; ++*done) {
        lent[*done].at = NULL;
        code = pardz_get(lane, keys[*done], &lent[*done].at, &lent[*done].len);
        if (code != PARDZ_OK)
            break;
    }
    return code;
}

/* A pardz_release of each of these keys; the lane has *done references fewer.
 * PARDZ_EMPTY_LANE, PARDZ_NO_REFERENCE. */
static inline uint32_t pardz_release_several(pardz_lane *lane, const uint64_t *keys, size_t count, size_t *done) {
    uint32_t code = PARDZ_OK;
    for (*done = 0; *done < count; ++*done) {
        code = pardz_release(lane, keys[*done]);
        if (code != PARDZ_OK)
            break;
    }
    return code;
}

/* The end: each lane but lane 0 is joined into lane 0, the last one first, then the one before it. Its slot is then empty. What it
 * still fills is given up; what it still refers to stays until the close, and counts as present or marked. Lane 0 is joined into
 * none: PARDZ_LANES.
 * PARDZ_EMPTY_LANE, PARDZ_OTHER_POOL, PARDZ_LANES. */
uint32_t pardz_join(pardz_lane *into, pardz_lane *lane);

/* Closes a pool whose lane 0 has all others: frees its memory, that of all bytes too, and empties the slot. A pool that isn't
 * closed keeps its memory. PARDZ_EMPTY_LANE, PARDZ_LANES; PARDZ_SHARED, where two pools have one number. */
uint32_t pardz_close(pardz_lane *lane, pardz_census *census);

/* Joins and closes all lanes of one open, which stand in its order. It ends at the first code that isn't PARDZ_OK.
 * PARDZ_EMPTY_LANE, PARDZ_OTHER_POOL, PARDZ_LANES, PARDZ_SHARED. */
static inline uint32_t pardz_close_all(pardz_lane *lanes, size_t count, pardz_census *census) {
    if (count == 0)
        return PARDZ_LANES;
    while (count > 1) {
        uint32_t code = pardz_join(&lanes[0], &lanes[--count]);
        if (code != PARDZ_OK)
            return code;
    }
    return pardz_close(&lanes[0], census);
}

/* A pool for any number of threads, which come and go. Each call has one of its lanes for its own time. Where others have all lanes
 * that could serve it, it returns PARDZ_BUSY at once and has done nothing: who may wait calls pardz_await_put and its like. `from` says
 * at which lane a call begins to look; any number will do, modulo the number of lanes, and threads that give different ones meet less.
 *
 * The calls of a thread are in its order, also where different lanes serve them: a thread finds what it put before, and misses what
 * it cleared.
 *
 * Opens a pool into an empty slot. Its shape's lanes say how many calls may be under way at once.
 * PARDZ_MEMORY, PARDZ_FULL_LANE, PARDZ_SHAPE. */
uint32_t pardz_attach(const pardz_shape *shape, pardz_pool *pool);

/* Another empty slot, for another thread, has the pool of a slot too. What is told of the calls of one slot, as that it finds what it put,
 * holds of the new one for what was done by the old one before. With libpoolffi.a it takes memory, and a lane for its own time.
 * PARDZ_MEMORY, PARDZ_EMPTY_LANE, PARDZ_FULL_LANE, PARDZ_BUSY. */
uint32_t pardz_share(const pardz_pool *pool, pardz_pool *other);

/* Empties a slot whose pool another has too. What it got is released by any other. The last slot of a pool is detached in its place: a pool
 * that is unshared by all may keep its memory.
 * PARDZ_EMPTY_LANE. */
uint32_t pardz_unshare(pardz_pool *pool);

/* Publishes bytes in a place of their own, and returns the key, as pardz_put. PARDZ_FULL tells of the places of the lane that served it
 * alone: another `from` may find one.
 * PARDZ_MEMORY, PARDZ_EMPTY_LANE, PARDZ_FULL, PARDZ_BUSY. */
uint32_t pardz_pool_put(const pardz_pool *pool, uint32_t from, const void *bytes, size_t len, uint64_t *key);

/* Takes a reference, and tells the bytes and which lane keeps it. They stand where they are, and don't change, until it is released, or
 * the pool is detached; any thread may read them meanwhile, and any may release it. lent->at isn't written where lent->len is 0.
 * PARDZ_EMPTY_LANE, PARDZ_GONE, PARDZ_REFERENCES, PARDZ_BUSY. */
uint32_t pardz_pool_get(const pardz_pool *pool, uint32_t from, uint64_t key, pardz_lent *lent);

/* Gives a reference back to the lane that keeps it, of which lent->key and lent->lane tell: once for each get.
 * PARDZ_EMPTY_LANE, PARDZ_NO_REFERENCE, PARDZ_BUSY. */
uint32_t pardz_pool_release(const pardz_pool *pool, const pardz_lent *lent);

/* Clears a published key, as pardz_clear.
 * PARDZ_EMPTY_LANE, PARDZ_GONE, PARDZ_BUSY. */
uint32_t pardz_pool_clear(const pardz_pool *pool, uint32_t from, uint64_t key);

/* Counts the pool's places as they are now, by a look at each, while other threads may be in calls: each place is counted as it was at
 * some moment of the call, and the six numbers add up to all places. Where no call is under way it is what a detach would count.
 * PARDZ_EMPTY_LANE. */
uint32_t pardz_pool_census(const pardz_pool *pool, pardz_census *census);

/* Closes the pool, and empties the slot: as a pardz_close of all its lanes. References that are left end with it, and count as present
 * or marked. No other slot has the pool: else PARDZ_SHARED. Owned references count too, but stay, with what they refer to; the last of
 * them gives the pool's memory back. No call with the pool is under way, which is the caller's duty: PARDZ_BUSY tells only of one that
 * has a lane just now.
 * PARDZ_EMPTY_LANE, PARDZ_SHARED, PARDZ_BUSY. */
uint32_t pardz_detach(pardz_pool *pool, pardz_census *census);

/* Calls by any thread, in libpardz alone. A get, a clone, a release, a clear, and what is done with a filling, need nothing of the thread,
 * and none of them is busy. A put or a create needs places: in a pool of pardz_grow it has those of its thread, which that has from its
 * first put or create until it exits; in a pool of pardz_attach those of a lane that no call has. All these calls and those by lanes find
 * each other's keys.
 *
 * Opens a pool that grows into an empty slot: it takes memory as it fills, page by page. It is shared, unshared, counted and detached as
 * one of pardz_attach. (It has no lanes: pardz_pool_put, pardz_pool_get and pardz_pool_clear return PARDZ_EMPTY_LANE, and
 * pardz_pool_release PARDZ_NO_REFERENCE.) A thread that has put or created keeps some hundred bytes of the heap until it exits.
 * PARDZ_MEMORY, PARDZ_FULL_LANE, PARDZ_SHAPE. */
uint32_t pardz_grow(const pardz_limits *limits, pardz_pool *pool);

/* Opens a pool that grows, as pardz_grow does, but of objects of a fixed size, as a struct of the program's has, each at a multiple of 16.
 * They are put as a whole; or begun by pardz_any_create, written to at filling.at, and published. Nothing is appended to them. Where the
 * size is 0 they are buffers, as of pardz_grow.
 *
 * The program may be told when an object ends. objects->empty is called once for each that was begun, by the call that lets go of it last:
 * when its key was cleared and no reference is left, when it is dropped unpublished, or when the pool's memory goes. It frees what the
 * object refers to; or it leaves that there for the next object in the place, which begins with it unless objects are zeroed. objects->end
 * is called behind the last of these, when the object's memory goes: its place has used up its last generation, or the pool's memory goes.
 * That goes by the detach, or by the last owned reference behind it. Both calls have the object alone. They run on any thread, also for
 * several objects at once, and may call pools, but not one that is being detached. Of buffers objects->empty is called alone, for each that
 * has bytes.
 * PARDZ_MEMORY, PARDZ_FULL_LANE, PARDZ_SHAPE. */
uint32_t pardz_open_sized(const pardz_limits *limits, const pardz_objects *objects, pardz_pool *pool);

/* Publishes bytes in a place of their own, and returns the key. PARDZ_BUSY: other threads, or other calls, have all places that it could
 * have one of. PARDZ_ROOM: the pool's objects have another size.
 * PARDZ_MEMORY, PARDZ_EMPTY_LANE, PARDZ_FULL, PARDZ_ROOM, PARDZ_BUSY. */
uint32_t pardz_any_put(const pardz_pool *pool, const void *bytes, size_t len, uint64_t *key);

/* Begins an empty filling, or an object, in any number. Any thread goes on with it.
 * PARDZ_MEMORY, PARDZ_EMPTY_LANE, PARDZ_FULL, PARDZ_BUSY. */
uint32_t pardz_any_create(const pardz_pool *pool, pardz_filling *filling);

/* Appends to a filling. An earlier room ends, even where memory is refused. `bytes` may belong to a reference, but not to this filling.
 * PARDZ_MEMORY, PARDZ_EMPTY_LANE, PARDZ_NO_FILLING; PARDZ_ROOM: it is an object of a fixed size. */
uint32_t pardz_any_append(const pardz_pool *pool, const pardz_filling *filling, const void *bytes, size_t len);

/* Lends `count` bytes, zeros at first, behind those of the filling, which they continue. They may be written to until the next call with
 * this filling, and belong to it only as far as pardz_any_wrote says so. An earlier room ends, even where memory is refused. *at isn't
 * written where count is 0.
 * PARDZ_MEMORY, PARDZ_EMPTY_LANE, PARDZ_NO_FILLING; PARDZ_ROOM: it is an object of a fixed size. */
uint32_t pardz_any_room(const pardz_pool *pool, const pardz_filling *filling, size_t count, uint8_t **at);

/* The first `count` of the bytes that the last pardz_any_room lent now belong to the filling, and the others don't.
 * PARDZ_EMPTY_LANE, PARDZ_NO_FILLING, PARDZ_ROOM. */
uint32_t pardz_any_wrote(const pardz_pool *pool, const pardz_filling *filling, size_t count);

/* Publishes a filling, which ends, and returns its key: from now on each thread finds its bytes.
 * PARDZ_EMPTY_LANE, PARDZ_NO_FILLING. */
uint32_t pardz_any_publish(const pardz_pool *pool, pardz_filling *filling, uint64_t *key);

/* Publishes a filling, which ends, and returns a reference to it.
 * PARDZ_EMPTY_LANE, PARDZ_NO_FILLING. */
uint32_t pardz_any_downgrade(const pardz_pool *pool, pardz_filling *filling, pardz_ref *ref);

/* Ends a filling that isn't published. Its place is free again at once, and nothing is ever found under its key.
 * PARDZ_EMPTY_LANE, PARDZ_NO_FILLING. */
uint32_t pardz_any_drop(const pardz_pool *pool, pardz_filling *filling);

/* Takes a reference, and tells the bytes. They stand where they are, and don't change, until all references to them are released, or the
 * pool is detached; any thread may read them, and any may release the reference. ref->at isn't written where ref->len is 0.
 * PARDZ_REFERENCES: there are 268,435,456 to this key.
 * PARDZ_EMPTY_LANE, PARDZ_GONE, PARDZ_REFERENCES. */
uint32_t pardz_any_get(const pardz_pool *pool, uint64_t key, pardz_ref *ref);

/* One more reference to the same bytes, also where the key is cleared.
 * PARDZ_EMPTY_LANE, PARDZ_NO_REFERENCE, PARDZ_REFERENCES. */
uint32_t pardz_any_clone(const pardz_pool *pool, const pardz_ref *ref, pardz_ref *other);

/* Gives a reference back, and sets ref->key to 0.
 * PARDZ_EMPTY_LANE, PARDZ_NO_REFERENCE. */
uint32_t pardz_any_release(const pardz_pool *pool, pardz_ref *ref);

/* An owned reference to the same bytes, in an empty slot, also where the key is cleared (as pardz_own, which takes one by its key).
 * PARDZ_MEMORY, PARDZ_EMPTY_LANE, PARDZ_FULL_LANE, PARDZ_NO_REFERENCE, PARDZ_REFERENCES. */
uint32_t pardz_any_own(const pardz_pool *pool, const pardz_ref *ref, pardz_owned *owned);

/* Clears a published key, as pardz_clear.
 * PARDZ_EMPTY_LANE, PARDZ_GONE. */
uint32_t pardz_any_clear(const pardz_pool *pool, uint64_t key);

/* The same calls as those by a pool's lanes, for who may wait: they try again, from the next lane on, until a lane serves them. They
 * return every other code.
 *
 * A pardz_pool_put. PARDZ_FULL says that 64 tries, each from the next lane on, found no free place.
 * PARDZ_MEMORY, PARDZ_EMPTY_LANE, PARDZ_FULL. */
static inline uint32_t pardz_await_put(const pardz_pool *pool, uint32_t from, const void *bytes, size_t len, uint64_t *key) {
    uint32_t code, full = 0;
    do {
        code = pardz_pool_put(pool, from++, bytes, len, key);
        if (code == PARDZ_BUSY)
            PARDZ_YIELD();
        full += code == PARDZ_FULL;
    } while (code == PARDZ_BUSY || (code == PARDZ_FULL && full < 64));
    return code;
}

/* A pardz_pool_get.
 * PARDZ_EMPTY_LANE, PARDZ_GONE, PARDZ_REFERENCES. */
static inline uint32_t pardz_await_get(const pardz_pool *pool, uint32_t from, uint64_t key, pardz_lent *lent) {
    uint32_t code;
    while ((code = pardz_pool_get(pool, from++, key, lent)) == PARDZ_BUSY)
        PARDZ_YIELD();
    return code;
}

/* A pardz_pool_release: it waits for the one lane that keeps the reference.
 * PARDZ_EMPTY_LANE, PARDZ_NO_REFERENCE. */
static inline uint32_t pardz_await_release(const pardz_pool *pool, const pardz_lent *lent) {
    uint32_t code;
    while ((code = pardz_pool_release(pool, lent)) == PARDZ_BUSY)
        PARDZ_YIELD();
    return code;
}

/* A pardz_pool_clear.
 * PARDZ_EMPTY_LANE, PARDZ_GONE. */
static inline uint32_t pardz_await_clear(const pardz_pool *pool, uint32_t from, uint64_t key) {
    uint32_t code;
    while ((code = pardz_pool_clear(pool, from++, key)) == PARDZ_BUSY)
        PARDZ_YIELD();
    return code;
}

/* Owned references, in libpardz alone: each stands in a slot of its own, goes to any thread, and may be given back by any. Its bytes stand
 * where they are, and don't change, until all slots that have it are empty: whoever clears its key, and also when the pool was detached.
 * None of these calls needs a lane, so none is busy, and pardz_pool_release doesn't take the reference. Its slot is in one call at a time,
 * but for reads (pardz_owned_bytes) and copies (pardz_own_again), of which many threads may make some at once.
 *
 * Takes a reference into an empty slot. (`from` is any number, as no lane is looked for.) PARDZ_REFERENCES: the key has 268,435,456.
 * PARDZ_MEMORY, PARDZ_EMPTY_LANE, PARDZ_FULL_LANE, PARDZ_GONE, PARDZ_REFERENCES. */
uint32_t pardz_own(const pardz_pool *pool, uint32_t from, uint64_t key, pardz_owned *owned);

/* Another empty slot has the reference too. It needs no memory, and the key may be cleared, and the pool detached.
 * PARDZ_EMPTY_LANE, PARDZ_FULL_LANE. */
uint32_t pardz_own_again(const pardz_owned *owned, pardz_owned *other);

/* Tells the bytes. *at isn't written where *len is 0.
 * PARDZ_EMPTY_LANE. */
uint32_t pardz_owned_bytes(const pardz_owned *owned, const uint8_t **at, size_t *len);

/* Empties the slot. If no other has the reference, it is given back. The last reference of a pool that was detached gives the pool's
 * memory back.
 * PARDZ_EMPTY_LANE. */
uint32_t pardz_disown(pardz_owned *owned);

/* A pardz_own, which waits for none.
 * PARDZ_MEMORY, PARDZ_EMPTY_LANE, PARDZ_FULL_LANE, PARDZ_GONE, PARDZ_REFERENCES. */
static inline uint32_t pardz_await_own(const pardz_pool *pool, uint32_t from, uint64_t key, pardz_owned *owned) {
    return pardz_own(pool, from, key, owned);
}

/* What the library calls. heap.c has it over malloc, realloc and free; a program with a heap of its own has its own in the place of
 * heap.c. These may be called by several threads at once, and call no pool.
 *
 * A block of memory, or a refusal. */
typedef struct pardz_block {
    unsigned char ok; /* 1; 0 where memory is refused */
    void *at;         /* the block; where it is refused any address but NULL */
} pardz_block;

/* A block of so many bytes (it may be 0), aligned to `align`, which is 1, 2, 4, 8 or 16. */
pardz_block pardz_alloc(size_t size, size_t align);

/* A block made one of so many bytes, at the same address or another. Its first `kept` bytes stay; a refusal leaves it as it was. */
pardz_block pardz_realloc(void *at, size_t kept, size_t size, size_t align);

/* Frees a block. */
void pardz_dealloc(void *at);

/* What heap.c takes memory from: malloc, realloc and free, or the functions of a program, which are given `context`. They do as those
 * do, and align to 16 bytes; a size is never 0, and NULL is a refusal. */
typedef struct pardz_heap {
    void *(*allocate)(void *context, size_t size);
    void *(*reallocate)(void *context, void *at, size_t size);
    void (*release)(void *context, void *at);
    void *context;
} pardz_heap;

/* From now on heap.c takes memory from this heap, of which it keeps a copy; NULL: from malloc and its like. It is called while no pool
 * is open and no thread is in a call, and before the first thread puts into a pool that grows, or after all such have exited. A heap of a
 * program's own, in the place of heap.c, needn't have it. */
void pardz_set_heap(const pardz_heap *heap);

#ifdef __cplusplus
}
#endif

#endif
