/*
 * For calls.c: the comparison that stops at the first difference, and memory to lend, filled so that every write shows.
 */
#ifndef LENT_H
#define LENT_H

#include <stdbool.h>
#include <stddef.h>
#include <stdint.h>
#include <stdio.h>
#include <stdlib.h>

#define WANT(condition) want((condition), #condition, __LINE__)

static unsigned compared = 0;

static void want(bool holds, const char *condition, int line)
{
    compared += 1;
    if (!holds) {
        fprintf(stderr, "tests/c/calls.c:%d: not so: %s\n", line, condition);
        exit(1);
    }
}

/* An output: bytes of no meaning, of which a call is lent some from MIDDLE on. Those before and behind stand guard. */
enum { WHOLE = 700, MIDDLE = 50 };
static uint8_t whole[WHOLE];

static uint8_t filler(size_t i)
{
    return (160u + i) & 0xffu;
}

static uint8_t *lend(void)
{
    for (size_t i = 0; i < WHOLE; i += 1) {
        whole[i] = filler(i);
    }
    return whole + MIDDLE;
}

/* Whether these bytes stand at a place in the lent output, and nothing else was written. */
static bool wrote(size_t place, const uint8_t *bytes, size_t length)
{
    const size_t start = MIDDLE + place;
    for (size_t i = 0; i < WHOLE; i += 1) {
        const bool inside = i >= start && i < start + length;
        if (whole[i] != (inside ? bytes[i - start] : filler(i))) {
            return false;
        }
    }
    return true;
}

static bool wrote_nothing(void)
{
    return wrote(0, whole, 0);
}

/* What a lent number holds before a call. The narrow ones are lent with a neighbour on each side. */
static const size_t WIDE = SIZE_MAX - 4242u;
#define SHORT_THREE {0xa5b6u, 0xa5b6u, 0xa5b6u}
#define NARROW_THREE {0xd7u, 0xd7u, 0xd7u}

static bool short_is(const uint16_t *three, uint16_t value)
{
    return three[0] == 0xa5b6u && three[1] == value && three[2] == 0xa5b6u;
}

static bool narrow_is(const uint8_t *three, uint8_t value)
{
    return three[0] == 0xd7u && three[1] == value && three[2] == 0xd7u;
}

#endif
