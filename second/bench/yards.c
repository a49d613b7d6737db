/* The yard sets of all sides: one with so many calls to measure with, and whether all show the same. */
#include "yards.h"
#include "messages.h"

#include <stdio.h>
#include <stdlib.h>
#include <string.h>

const uint32_t yard_keys[YARD_KEYS] = { 20, 2468, 77776, 500000, 1000002, 20000004, 77777776, 199999998 };
static const uint32_t yard_sets[YARD_KEYS] = { 0xFFFE, 0xFFFE, 0xFFFE, 0xFFFE, 0, 0xFFFE, 0x0008, 0xFFFE };

int fill_yard(const struct side *s, uint8_t *state, unsigned calls, uint32_t tick)
{
    if (s->yard_setup(state, s->yard_length, yard_keys, YARD_KEYS, yard_sets, YARD_KEYS, tick, 60000, 60000, 60000) != 0)
        return 0;
    for (unsigned i = 0; i < calls; i++) {
        struct message m = clear_call(yard_keys[i]);
        if (s->yard_nch(state, s->yard_length, tick, m.octets, m.n) != 0)
            return 0;
    }
    return 1;
}

int same_calls(const struct side *const *sides, uint8_t *const *states, unsigned n_sides, const char *where)
{
    for (unsigned k = 1; k < n_sides; k++)
        for (uint32_t i = 0; i <= YARD_KEYS; i++) { /* one more than there can be */
            uint64_t here[YARD_NUMBERS + 1] = { 0 }, there[YARD_NUMBERS + 1] = { 0 };
            uint32_t refused = sides[0]->yard_count(states[0], sides[0]->yard_length, here + YARD_NUMBERS) | sides[k]->yard_count(states[k], sides[k]->yard_length, there + YARD_NUMBERS);
            refused |= sides[0]->yard_call_numbers(states[0], sides[0]->yard_length, i, here, YARD_NUMBERS) | sides[k]->yard_call_numbers(states[k], sides[k]->yard_length, i, there, YARD_NUMBERS);
            if (refused || memcmp(here, there, sizeof here) != 0) {
                printf("%s: call %u is shown otherwise by %s and by %s\n", where, (unsigned)i, sides[0]->name, sides[k]->name);
                return 0;
            }
        }
    return 1;
}

/* One random event, the same for every side. Steps are mostly short, and now and then just long enough to let a call run out. */
static int step_alike(const struct side *const *sides, uint8_t *const *states, uint8_t *before, unsigned n_sides, struct dice *d, uint32_t *tick)
{
    uint32_t kind = below(d, 16), at = *tick + (one_in(d, 30) ? (uint32_t)roll(d) : one_in(d, 4) ? 29990 + below(d, 20) : below(d, 4000)), refusal = 0;
    struct message m = random_nch(d, yard_keys, YARD_KEYS);
    if (kind < 8)
        m = clear_call(yard_keys[below(d, YARD_KEYS)]);
    for (unsigned k = 0; k < n_sides; k++) {
        const struct side *s = sides[k];
        memcpy(before, states[k], s->yard_length);
        uint32_t result = kind < 14 ? s->yard_nch(states[k], s->yard_length, at, m.octets, m.n)
            : kind == 14 ? s->yard_tick(states[k], s->yard_length, at) : s->yard_reselected(states[k], s->yard_length, at);
        if (k == 0)
            refusal = result;
        if (result != refusal || (result && memcmp(before, states[k], s->yard_length) != 0)) {
            printf("event of kind %u: refusal %u by %s, %u by %s, or a refused one changed the state\n", (unsigned)kind, (unsigned)refusal, sides[0]->name, (unsigned)result, s->name);
            return 0;
        }
    }
    if (!refusal)
        *tick = at;
    return same_calls(sides, states, n_sides, "event of a yard set");
}

unsigned yards_alike(const struct side *const *sides, unsigned n_sides, uint64_t seed, unsigned sequences, unsigned events)
{
    struct dice d = { seed };
    uint8_t *states[MOST_SIDES], *before = malloc(1 << 15);
    unsigned i, good = 1;
    for (unsigned k = 0; k < n_sides; k++)
        states[k] = aligned_alloc(64, 1 << 15);
    for (i = 0; i < sequences && good; i++) {
        uint32_t tick = one_in(&d, 3) ? (uint32_t)-below(&d, 50000) : (uint32_t)roll(&d), calls = below(&d, YARD_KEYS + 1);
        for (unsigned k = 0; k < n_sides; k++)
            good = good && fill_yard(sides[k], states[k], calls, tick);
        for (unsigned j = 0; j < events && good; j++)
            good = step_alike(sides, states, before, n_sides, &d, &tick);
    }
    for (unsigned k = 0; k < n_sides; k++)
        free(states[k]);
    free(before);
    return good ? i : i - 1;
}
