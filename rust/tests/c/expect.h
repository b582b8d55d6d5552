/* What the tests of both headers share: a reply, what is expected of it, and the row 1 + 2. */
#ifndef EXPECT_H
#define EXPECT_H

#include "penne.h"

#include <stdio.h>
#include <string.h>

#define SLOTS 16

static uint32_t reply[PENNE_REPLY_PLACES];

static int failed = 0;

static void expect(bool holds, const char *what)
{
    if (!holds) {
        printf("not so: %s\n", what);
        failed = 1;
    }
}

static bool replied(uint32_t a, uint32_t b, uint32_t c, uint32_t d, uint32_t e, uint32_t f)
{
    const uint32_t expected[PENNE_REPLY_PLACES] = {a, b, c, d, e, f};
    return memcmp(reply, expected, sizeof reply) == 0;
}

static const uint8_t sum[] = {PENNE_BASE_TOKEN_NAKED_DECIMAL, PENNE_BASE_TOKEN_PLUS, PENNE_BASE_TOKEN_NAKED_DECIMAL,
                              PENNE_BASE_TOKEN_END_OF_SOURCE};
static const uint8_t no_types[4] = {0};

#endif
