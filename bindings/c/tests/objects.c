/* Pools of a program's structs: each code that their calls add; zeroed ones and such as keep what was there; what the program is told, once
 * for each object, also at a pool's end, of a place that is used up, and of an owned reference that outlives the pool; hooks that clear
 * other objects; threads. Buffers that it is told of. Each request for memory refused in turn. */
#include "../pardz.h"
#include "check.h"
#include "counting_heap.h"

#include <pthread.h>
#include <stdatomic.h>
#include <stdlib.h>
#include <string.h>

#define THREADS 8
#define ROUNDS 2000

/* A session: a name of its own, and another session that it keeps, by its key. */
struct session {
    uint64_t number;
    char *name;
    uint64_t kept;
    long double aligned;
};

/* How many sessions were emptied and ended, and how many names are there. */
static atomic_long emptied, ended, names;

static pardz_pool pool = PARDZ_EMPTY;

static char *name_of(uint64_t number) {
    char *name = malloc(32);
    CHECK(name != NULL);
    snprintf(name, 32, "session %llu", (unsigned long long)number);
    atomic_fetch_add(&names, 1);
    return name;
}

static void drop_name(struct session *session) {
    atomic_fetch_sub(&names, session->name != NULL);
    free(session->name);
    session->name = NULL;
}

/* (A session that was begun and not filled yet has no name.) */
static void check(const struct session *session, size_t size) {
    char name[32];
    CHECK(size == sizeof *session && (uintptr_t)session % 16 == 0);
    snprintf(name, sizeof name, "session %llu", (unsigned long long)session->number);
    CHECK(session->name == NULL || strcmp(session->name, name) == 0);
}

/* Frees what a session refers to, and clears the one that it keeps. */
static void empty(void *context, void *object, size_t size) {
    struct session *session = object;
    CHECK(context == &names);
    check(session, size);
    drop_name(session);
    if (session->kept != 0)
        CHECK(pardz_any_clear(&pool, session->kept) == PARDZ_OK);
    session->kept = 0;
    atomic_fetch_add(&emptied, 1);
}

static void end(void *context, void *object, size_t size) {
    CHECK(context == &names);
    check(object, size);
    drop_name(object);
    atomic_fetch_add(&ended, 1);
}

/* Leaves the name, which the next session in its place finds. */
static void keep(void *context, void *object, size_t size) {
    (void)context;
    check(object, size);
    atomic_fetch_add(&emptied, 1);
}

static const pardz_limits LIMITS = PARDZ_LIMITS;
static const pardz_objects ZEROED = { sizeof(struct session), 1, empty, end, &names };
static const pardz_objects KEPT = { sizeof(struct session), 0, keep, end, &names };

static void must(uint32_t code) {
    if (code != PARDZ_OK)
        fprintf(stderr, "%s\n", pardz_code_name(code));
    CHECK(code == PARDZ_OK);
}

static uint64_t begin(uint64_t number, uint64_t kept) {
    pardz_filling filling;
    must(pardz_any_create(&pool, &filling));
    struct session *session = filling.at;
    CHECK(session->number == 0 && session->name == NULL && session->kept == 0 && session->aligned == 0);
    session->number = number;
    session->name = name_of(number);
    session->kept = kept;
    uint64_t key = 0;
    must(pardz_any_publish(&pool, &filling, &key));
    return key;
}

static long since(atomic_long *count, long before) {
    return atomic_load(count) - before;
}

static void close(uint32_t present, uint32_t retired) {
    pardz_census census;
    must(pardz_detach(&pool, &census));
    CHECK(census.present == present && census.retired == retired && census.marked == 0 && census.filling == 0);
}

/* What isn't opened, put or appended. */
static void wrong(void) {
    const pardz_limits no_places = { 0, 1, 0, 1, 1 };
    CHECK(pardz_open_sized(&no_places, &ZEROED, &pool) == PARDZ_SHAPE);
    CHECK(pool.full == 0 && heap_blocks == 0);
    must(pardz_open_sized(&LIMITS, &ZEROED, &pool));
    CHECK(pardz_open_sized(&LIMITS, &ZEROED, &pool) == PARDZ_FULL_LANE);
    const long before = atomic_load(&emptied);
    struct session session = { 0 };
    uint64_t key = 99;
    CHECK(pardz_any_put(&pool, &session, sizeof session - 1, &key) == PARDZ_ROOM && pardz_any_put(&pool, NULL, 0, &key) == PARDZ_ROOM);
    pardz_filling filling;
    uint8_t *to = NULL;
    must(pardz_any_create(&pool, &filling));
    CHECK(pardz_any_append(&pool, &filling, "a", 1) == PARDZ_ROOM && pardz_any_room(&pool, &filling, 1, &to) == PARDZ_ROOM && to == NULL);
    CHECK(pardz_any_wrote(&pool, &filling, 0) == PARDZ_ROOM && since(&emptied, before) == 0 && key == 99);
    must(pardz_any_drop(&pool, &filling));
    CHECK(pardz_any_drop(&pool, &filling) == PARDZ_NO_FILLING && since(&emptied, before) == 1);
    close(0, 0);
}

/* A session that is read, handed on and cleared: it is emptied once, by the last who has it; and at the pool's end those that are left. */
static void lives(void) {
    const long were_emptied = atomic_load(&emptied), were_ended = atomic_load(&ended);
    must(pardz_open_sized(&LIMITS, &ZEROED, &pool));
    const uint64_t last = begin(1, 0), key = begin(2, begin(3, 0));
    pardz_ref ref, more;
    pardz_owned owned = PARDZ_EMPTY;
    must(pardz_any_get(&pool, key, &ref));
    const struct session *session = ref.at;
    CHECK(ref.len == sizeof *session && session->number == 2 && strcmp(session->name, "session 2") == 0);
    must(pardz_any_clear(&pool, key));
    must(pardz_any_clone(&pool, &ref, &more));
    must(pardz_any_release(&pool, &ref));
    CHECK(since(&emptied, were_emptied) == 0 && session->number == 2);
    must(pardz_any_release(&pool, &more));
    CHECK(since(&emptied, were_emptied) == 2 && atomic_load(&names) == 1);
    struct session put = { 4, name_of(4), 0, 0 };
    uint64_t by_put = 0;
    must(pardz_any_put(&pool, &put, sizeof put, &by_put));
    must(pardz_own(&pool, 0, by_put, &owned));
    must(pardz_any_get(&pool, last, &ref));
    must(pardz_any_clear(&pool, last));
    must(pardz_any_release(&pool, &ref));
    pardz_filling left;
    must(pardz_any_create(&pool, &left));
    CHECK(since(&emptied, were_emptied) == 3 && since(&ended, were_ended) == 0);
    pardz_census census;
    must(pardz_detach(&pool, &census));
    CHECK(census.present == 1 && census.filling == 1);
    const uint8_t *at = NULL;
    size_t len = 0;
    must(pardz_owned_bytes(&owned, &at, &len));
    CHECK(len == sizeof put && memcmp(at, &put, sizeof put.number) == 0 && atomic_load(&names) == 1 && since(&ended, were_ended) == 0);
    must(pardz_disown(&owned));
    CHECK(since(&emptied, were_emptied) == 5 && since(&ended, were_ended) == 3 && atomic_load(&names) == 0);
}

/* What one leaves in its place the next one finds there, up to the place's last generation. */
static void keeps(void) {
    const pardz_limits few = { 1, 1, 0, 1, 3 };
    const pardz_limits one_page = { 64, 1, 0, 1, 3 };
    pardz_filling filling;
    uint64_t keys[64];
    const long were_emptied = atomic_load(&emptied), were_ended = atomic_load(&ended);
    must(pardz_open_sized(&few, &KEPT, &pool));
    CHECK(pardz_any_create(&pool, &filling) == PARDZ_FULL);
    close(0, 0);
    must(pardz_open_sized(&one_page, &KEPT, &pool));
    for (int life = 0; life < 3; life++) {
        for (uint64_t place = 0; place < 64; place++) {
            must(pardz_any_create(&pool, &filling));
            struct session *session = filling.at;
            CHECK((session->name == NULL) == (life == 0));
            if (life == 0) {
                session->number = place;
                session->name = name_of(place);
            }
            must(pardz_any_publish(&pool, &filling, &keys[place]));
        }
        CHECK(since(&emptied, were_emptied) == 64 * life && since(&ended, were_ended) == 0);
        for (uint64_t place = 0; place < 64; place++)
            must(pardz_any_clear(&pool, keys[place]));
    }
    CHECK(pardz_any_create(&pool, &filling) == PARDZ_FULL && atomic_load(&names) == 0);
    close(0, 64);
    CHECK(since(&emptied, were_emptied) == 192 && since(&ended, were_ended) == 64);
}

/* What the last buffer had that was emptied, and how many bytes all had. */
static char text[16];
static size_t bytes;

static void copy(void *context, void *at, size_t len) {
    CHECK(context == text && len > 0 && len < sizeof text);
    memcpy(text, at, len);
    bytes += len;
}

static void never(void *context, void *at, size_t len) {
    CHECK(context == at && len == 0); /* (which isn't so) */
}

/* Buffers of any length: each that has bytes is told of once. */
static void buffers(void) {
    const pardz_objects texts = { 0, 1, copy, never, text };
    pardz_filling filling;
    pardz_ref ref;
    uint8_t *to = NULL;
    uint64_t key = 0, none = 0;
    must(pardz_open_sized(&LIMITS, &texts, &pool));
    must(pardz_any_put(&pool, "four", 4, &key));
    must(pardz_any_put(&pool, NULL, 0, &none));
    must(pardz_any_clear(&pool, none));
    must(pardz_any_clear(&pool, key));
    CHECK(bytes == 4 && memcmp(text, "four", 4) == 0);
    must(pardz_any_create(&pool, &filling));
    must(pardz_any_append(&pool, &filling, "ab", 2));
    must(pardz_any_room(&pool, &filling, 8, &to));
    memcpy(to, "cde", 3);
    CHECK(pardz_any_wrote(&pool, &filling, 9) == PARDZ_ROOM);
    must(pardz_any_wrote(&pool, &filling, 3));
    must(pardz_any_downgrade(&pool, &filling, &ref));
    must(pardz_any_clear(&pool, ref.key));
    CHECK(bytes == 4 && ref.len == 5);
    must(pardz_any_release(&pool, &ref));
    CHECK(bytes == 9 && memcmp(text, "abcde", 5) == 0);
    must(pardz_any_create(&pool, &filling));
    must(pardz_any_append(&pool, &filling, "x", 1));
    must(pardz_any_drop(&pool, &filling));
    must(pardz_any_put(&pool, "end", 3, &key));
    close(1, 0);
    CHECK(bytes == 13 && memcmp(text, "end", 3) == 0);
}

/* Without hooks. */
static void plain(void) {
    const pardz_objects numbers = { sizeof(uint64_t), 0, NULL, NULL, NULL };
    const uint64_t seven = 7;
    uint64_t key = 0;
    pardz_ref ref;
    must(pardz_open_sized(&LIMITS, &numbers, &pool));
    must(pardz_any_put(&pool, &seven, sizeof seven, &key));
    must(pardz_any_get(&pool, key, &ref));
    const uint64_t *number = ref.at;
    CHECK(*number == 7 && ref.len == sizeof seven);
    must(pardz_any_clear(&pool, key));
    must(pardz_any_release(&pool, &ref));
    close(0, 0);
}

/* Threads that begin sessions, and each clears those of the one before. */
static _Atomic uint64_t handed[THREADS];

static void *calls(void *argument) {
    const size_t thread = (size_t)(uintptr_t)argument;
    for (uint64_t round = 0; round < ROUNDS; round++) {
        const uint64_t key = begin(round, round % 3 == 0 ? begin(round + 1, 0) : 0);
        const uint64_t other = atomic_exchange(&handed[(thread + round) % THREADS], key);
        pardz_ref ref;
        if (other != 0) {
            must(pardz_any_get(&pool, other, &ref));
            must(pardz_any_clear(&pool, other));
            check(ref.at, ref.len);
            must(pardz_any_release(&pool, &ref));
        }
    }
    return NULL;
}

static void threads(void) {
    pthread_t running[THREADS];
    const long were_emptied = atomic_load(&emptied);
    must(pardz_open_sized(&LIMITS, &ZEROED, &pool));
    for (size_t i = 0; i < THREADS; i++)
        CHECK(pthread_create(&running[i], NULL, calls, (void *)(uintptr_t)i) == 0);
    for (size_t i = 0; i < THREADS; i++)
        CHECK(pthread_join(running[i], NULL) == 0);
    for (size_t i = 0; i < THREADS; i++) {
        const uint64_t key = atomic_load(&handed[i]);
        if (key != 0)
            must(pardz_any_clear(&pool, key));
    }
    close(0, 0);
    CHECK(since(&emptied, were_emptied) == THREADS * (ROUNDS + (ROUNDS + 2) / 3) && atomic_load(&names) == 0);
}

/* A pool's life while requests from `first` to `last` are refused: what was refused is told by a code and by no hook, and goes well
 * then. */
static long first, last;

static int lacks_memory(uint32_t code) {
    if (code == PARDZ_MEMORY)
        heap_begin(0, 0);
    else
        must(code);
    return code == PARDZ_MEMORY;
}

static void *lives_refused(void *nothing) {
    const long were_emptied = atomic_load(&emptied), were_ended = atomic_load(&ended);
    struct session session = { 5, NULL, 0, 0 };
    pardz_filling filling = { NULL, 99 };
    uint64_t key = 99;
    heap_begin(first, last);
    if (lacks_memory(pardz_open_sized(&LIMITS, &ZEROED, &pool))) {
        CHECK(pool.full == 0 && heap_blocks == 0);
        must(pardz_open_sized(&LIMITS, &ZEROED, &pool));
    }
    if (lacks_memory(pardz_any_create(&pool, &filling))) {
        CHECK(filling.key == 99 && filling.at == NULL);
        must(pardz_any_create(&pool, &filling));
    }
    if (lacks_memory(pardz_any_put(&pool, &session, sizeof session, &key))) {
        CHECK(key == 99);
        must(pardz_any_put(&pool, &session, sizeof session, &key));
    }
    CHECK(since(&emptied, were_emptied) == 0 && since(&ended, were_ended) == 0);
    must(pardz_any_drop(&pool, &filling));
    close(1, 0);
    CHECK(since(&emptied, were_emptied) == 2 && since(&ended, were_ended) == 2);
    return nothing;
}

static int refused(long from, long to) {
    const long before = heap_refused;
    pthread_t thread;
    first = from;
    last = to;
    CHECK(pthread_create(&thread, NULL, lives_refused, NULL) == 0 && pthread_join(thread, NULL) == 0 && heap_blocks == 0);
    return heap_refused > before;
}

static void *all(void *nothing) {
    wrong();
    lives();
    keeps();
    buffers();
    plain();
    return nothing;
}

int main(void) {
    pthread_t thread;
    long runs = 0;
    for (long from = 1; refused(from, from); from++)
        CHECK(++runs < 1000);
    for (long from = 1; refused(from, 1000000); from++)
        CHECK(++runs < 2000);
    heap_begin(0, 0);
    CHECK(runs > 10 && pthread_create(&thread, NULL, all, NULL) == 0 && pthread_join(thread, NULL) == 0 && heap_blocks == 0);
    threads();
    printf("objects: %ld emptied, %ld ended, %ld runs with memory refused\n", atomic_load(&emptied), atomic_load(&ended), runs);
    return 0;
}
