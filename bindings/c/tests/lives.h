/* Threads that come and go, far more than there are at once. Each lives for some rounds, which the test has; and bytes that tell which
 * round put them. */
#ifndef LIVES_H
#define LIVES_H

#include "check.h"

#include <pthread.h>
#include <stdatomic.h>
#include <stdint.h>
#include <string.h>

#define MOST_THREADS 1000
#define LIFE 25

static atomic_long rounds_left, lives;

/* What the bytes of one put say: the first so many of these. */
struct words {
    uint64_t seed, length, rest[14];
};

static uint64_t mixed(uint64_t number) {
    number = (number ^ (number >> 31)) * UINT64_C(0x9e3779b97f4a7c15);
    return number ^ (number >> 29);
}

/* The words of a round's put, and how many bytes of them it puts. */
static size_t fill(struct words *words, uint64_t seed) {
    const size_t length = 16 + seed % 112;
    words->seed = seed;
    words->length = length;
    for (size_t i = 0; i < 14; i++)
        words->rest[i] = mixed(seed + i);
    return length;
}

/* These are the bytes that some round put, whole. */
static void check_words(const uint8_t *at, size_t len) {
    struct words words;
    uint64_t seed;
    CHECK(len >= 16);
    memcpy(&seed, at, sizeof seed);
    CHECK(fill(&words, seed) == len && memcmp(at, &words, len) == 0);
}

/* What a life has of its own, which begins and ends outside of its thread; and one round of it, with a number by which that draws. The
 * test has these. */
static void *begin(void);
static void end(void *own);
static void one_round(void *own, uint64_t seed);

struct life {
    pthread_t thread;
    uint64_t number;
    void *own;
};

static void *live(void *argument) {
    const struct life *life = argument;
    uint64_t number = mixed(life->number * 2654435761u + 1);
    for (int round = 0; round < LIFE && atomic_fetch_sub(&rounds_left, 1) > 0; round++)
        one_round(life->own, number = mixed(number + (uint64_t)round + 1));
    atomic_fetch_add(&lives, 1);
    return NULL;
}

static void be_born(struct life *life, uint64_t number) {
    life->own = begin();
    life->number = number;
    CHECK(pthread_create(&life->thread, NULL, live, life) == 0);
}

static void die(struct life *life) {
    CHECK(pthread_join(life->thread, NULL) == 0);
    end(life->own);
}

/* So many threads at once, each followed by another when it ends, until so many rounds are made. */
static void run(long rounds, size_t threads) {
    static struct life at[MOST_THREADS];
    uint64_t born = 0;
    CHECK(rounds > 0 && threads > 0 && threads <= MOST_THREADS);
    atomic_store(&rounds_left, rounds);
    for (size_t i = 0; i < threads; i++)
        be_born(&at[i], born++);
    while (atomic_load(&rounds_left) > 0)
        for (size_t i = 0; i < threads; i++) {
            die(&at[i]);
            be_born(&at[i], born++);
        }
    for (size_t i = 0; i < threads; i++)
        die(&at[i]);
}

#endif
