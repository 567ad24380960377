/*
 * What the tests of the headers share: comparisons that say what differs, and
 * a count of them for the exit status.
 */
#ifndef TEST_EXPECT_H
#define TEST_EXPECT_H

#include "jamturret.h"

#include <inttypes.h>
#include <stdio.h>

static int expect_failures = 0;
static int expect_count = 0;

static inline void expect(const char *what, uint64_t got, uint64_t wanted)
{
    expect_count++;
    if (got != wanted) {
        printf("%s: got %" PRIu64 ", wanted %" PRIu64 "\n", what, got, wanted);
        expect_failures++;
    }
}

static inline void expect_answer(const char *what, jamturret_answer got, uint32_t number,
                                 uint64_t place)
{
    expect_count++;
    if (got.number != number || got.place != place) {
        printf("%s: got number %" PRIu32 ", place %" PRIu64 " (%s); wanted %" PRIu32 ", %" PRIu64
               " (%s)\n",
               what, got.number, got.place, jamturret_refusal_words(got.number), number, place,
               jamturret_refusal_words(number));
        expect_failures++;
    }
}

/* Tells the first byte that differs. */
static inline void expect_bytes(const char *what, const uint8_t *got, const uint8_t *wanted,
                                size_t count)
{
    size_t i;
    expect_count++;
    for (i = 0; i < count; i++) {
        if (got[i] != wanted[i]) {
            printf("%s: byte %zu: got %02X, wanted %02X\n", what, i, got[i], wanted[i]);
            expect_failures++;
            return;
        }
    }
}

static inline void expect_filled(const char *what, const uint8_t *got, uint8_t fill, size_t count)
{
    size_t i = 0;
    while (i < count && got[i] == fill) {
        i++;
    }
    expect(what, i, count);
}

/* The last line, and the exit status. */
static inline int expect_end(const char *test)
{
    if (expect_failures != 0) {
        printf("%s: %d of %d comparisons failed\n", test, expect_failures, expect_count);
        return 1;
    }
    printf("%s: %d comparisons\n", test, expect_count);
    return 0;
}

#endif
