/* What calls answered. In the end that is all that they can answer: of each call, which the test numbers by an enum, each code. */
#ifndef ANSWERS_H
#define ANSWERS_H

#include "../pardz.h"
#include "check.h"

#include <string.h>

#define MOST_CALLS 16
#define CODES 16
#define BIT(code) (1u << PARDZ_##code)

/* The codes that each call answered. */
static uint32_t seen[MOST_CALLS];

static void expect(int call, const char *name, uint32_t want, uint32_t got, int line) {
    if (got != want) {
        fprintf(stderr, "line %d: %s answered %s, not %s\n", line, name, pardz_code_name(got), pardz_code_name(want));
        exit(1);
    }
    seen[call] |= 1u << got;
}

#define EXPECT(call, want, got) expect(call, #call, PARDZ_##want, got, __LINE__)

/* So many calls answered all these codes and no others. Answers how many pairs of a call and a code there are. */
static int check_answers(const uint32_t *all, int calls) {
    int pairs = 0;
    for (int call = 0; call < calls; call++)
        for (uint32_t code = 0; code < CODES; code++) {
            if ((seen[call] ^ all[call]) & 1u << code) {
                fprintf(stderr, "call %d of the enum: %s %s\n", call, seen[call] & 1u << code ? "answered" : "never answered", pardz_code_name(code));
                exit(1);
            }
            pairs += seen[call] >> code & 1;
        }
    return pairs;
}

/* Where an address points that no call wrote. */
static uint8_t nowhere[8];

/* A census that no call wrote. */
static const pardz_census NONE = { 99, 99, 99, 99, 99, 99 };

static int is_none(const pardz_census *census) {
    return memcmp(census, &NONE, sizeof NONE) == 0;
}

#endif
