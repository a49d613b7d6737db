/* Makes a capture of so many fields: capture FIELDS > FILE. It is the same each time: NCH and FACCH messages, three in four as they are measured and one at random, ticks and joins, for
 * a receiver with 50 keys that hears as many others. A first half is followed by its other half, mostly. About 27 octets to a field. */
#include "messages.h"

#include <stdio.h>
#include <stdlib.h>
#include <string.h>

enum { KEYS = 50, HEARD = 100, T3206 = 10000, T3208 = 5000 };

static uint32_t keys[HEARD]; /* the even places are subscribed */
static struct dice dice = { 20240601 };

static uint8_t *number(uint8_t *to, uint32_t n, unsigned octets)
{
    while (octets--)
        *to++ = (uint8_t)(n >> 8 * octets);
    return to;
}

/* A field whose contents are the n octets before the second pointer. */
static void field(uint8_t tag, const uint8_t *contents, const uint8_t *end)
{
    uint8_t head[3] = { tag };
    size_t n = (size_t)(end - contents);
    number(head + 1, (uint32_t)n, 2);
    if (fwrite(head, 1, 3, stdout) != 3 || fwrite(contents, 1, n, stdout) != n)
        exit(1);
}

static void first_field(void)
{
    uint8_t contents[8 + 4 * KEYS], *to = number(contents, 0, 4);
    to = number(to, T3206, 2);
    to = number(to, T3208, 2);
    for (unsigned i = 0; i < KEYS; i++)
        to = number(to, keys[2 * i], 4);
    field(0, contents, to);
}

/* A second half is that of the last first half. */
static struct message nch(uint32_t key)
{
    static uint32_t half;
    switch (below(&dice, 8)) {
    case 0: case 1: return clear_call(key);
    case 2: case 3: return first_half(half = key);
    case 4: return second_half_reduced(half);
    case 5: return two_calls(key, keys[below(&dice, HEARD)]);
    default: return random_nch(&dice, keys, HEARD);
    }
}

static struct message facch(uint32_t key)
{
    static uint32_t half;
    switch (below(&dice, 8)) {
    case 0: case 1: return facch_clear_call(key);
    case 2: case 3: return facch_first_half(half = key);
    case 4: case 5: return facch_second_half(half);
    default: return random_facch(&dice, keys, HEARD);
    }
}

int main(int argc, char **argv)
{
    unsigned long fields = argc == 2 ? strtoul(argv[1], NULL, 10) : 0;
    if (!fields) {
        fprintf(stderr, "usage: capture FIELDS > FILE\n");
        return 2;
    }
    for (unsigned i = 0; i < HEARD; i++)
        keys[i] = (40000 + 997 * (i / 2)) * 2 + i % 2;
    first_field();
    uint32_t tick = 0;
    for (unsigned long i = 1; i < fields; i++) {
        uint8_t contents[4 + 23], *to;
        uint32_t key = keys[below(&dice, HEARD)], what = below(&dice, 100);
        tick += below(&dice, 40);
        to = number(contents, tick, 4);
        if (what < 93) {
            struct message m = what < 50 ? nch(key) : facch(key);
            memcpy(to, m.octets, m.n);
            field(what < 50 ? 1 : 2, contents, to + m.n);
        } else if (what < 99) {
            field(7, contents, to);
        } else {
            field(3, contents, number(to, key, 4));
        }
    }
    return fflush(stdout) != 0;
}
