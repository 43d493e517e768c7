/* The call that is being made, and what it is held to. See held.h. */
#include "held.h"

#include <inttypes.h>
#include <stdio.h>
#include <stdlib.h>
#include <string.h>

#include "badge_dither.h"

uint64_t seed, number_of_call;
const char *name_of_call = "";

void fail(const char *what)
{
    fprintf(stderr, "seed %" PRIu64 ", call %" PRIu64 ", %s: %s\n", seed, number_of_call, name_of_call, what);
    exit(1);
}

void check(bool holds, const char *what)
{
    if (!holds)
        fail(what);
}

uint32_t held(uint32_t number, uint32_t expected, Lent *const *written)
{
    check(number == expected, "another number than the table has");
    check(unchanged_but(number == BADGE_ACCEPTED ? written : NAMED(NULL)), "a buffer was changed");
    return number;
}

float float_in(const Lent *lent)
{
    float value;
    memcpy(&value, lent->fill, sizeof value);
    return value;
}

uint32_t u32_in(const Lent *lent)
{
    uint32_t value;
    memcpy(&value, lent->fill, sizeof value);
    return value;
}

bool is_first(const Lent *list, size_t k, size_t bytes)
{
    const uint8_t *entries = list->fill;
    for (size_t i = 0; i < k; i++)
        if (memcmp(entries + bytes * i, entries + bytes * k, bytes) == 0)
            return false;
    return true;
}
