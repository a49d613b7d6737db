/* The comparison of all sides, by the numbers that their users would read. */
#include "agree.h"
#include "messages.h"

#include <inttypes.h>
#include <stdio.h>
#include <stdlib.h>
#include <string.h>

enum { PARTS = 46, EXPIRED = 0, DROPPED = 1, COUNT = 2, KEY_OF = 3, TOLD = 4, FOLLOWS = 35, PAGED = 37, ENTRIES = 9 };

unsigned long refusals_seen[16], told_seen[9], follow_seen[4], paged_seen, writer_refusals_seen[2][16], uplink_seen[5];

static uint64_t part(const struct side *s, const uint8_t *state, uint32_t entry, uint32_t number)
{
    uint64_t value = 0;
    return s->read(state, s->state_length, entry, number, &value) ? UINT64_MAX : value;
}

static int differ(const char *where, const char *what, const struct side *a, uint64_t x, const struct side *b, uint64_t y)
{
    printf("%s: %s is %" PRIu64 " by %s and %" PRIu64 " by %s\n", where, what, x, a->name, y, b->name);
    return 0;
}

int same_answers(const struct side *const *sides, uint8_t *const *states, unsigned n_sides, const char *where)
{
    for (unsigned k = 1; k < n_sides; k++)
        for (uint32_t entry = 0; entry <= ENTRIES; entry++) /* one more than there can be, and one part more */
            for (uint32_t number = entry ? KEY_OF : EXPIRED; number <= PARTS; number++) {
                uint64_t x = part(sides[0], states[0], entry, number), y = part(sides[k], states[k], entry, number);
                if (x != y) {
                    char what[40];
                    snprintf(what, sizeof what, "part %u of entry %u", (unsigned)number, (unsigned)entry);
                    return differ(where, what, sides[0], x, sides[k], y);
                }
            }
    return 1;
}

/* What is there of a record, as the numbers that the library hands over. */
static void nch_numbers(uint64_t *to, const struct plain_nch *m)
{
    struct plain_nch all = { 0 };
    all.used = m->used, all.nln_given = m->nln_given, all.nln = m->nln, all.n_calls = m->n_calls, all.release_6 = m->release_6, all.release_7 = m->release_7;
    memcpy(all.calls, m->calls, m->n_calls * sizeof *m->calls);
    if (m->release_6) {
        all.counted = m->counted, all.cell_global_count = m->cell_global_count, all.n_reduced = m->n_reduced, all.n_random = m->n_random;
        memcpy(all.reduced, m->reduced, m->n_reduced * sizeof *m->reduced);
        memcpy(all.random, m->random, m->n_random * sizeof *m->random);
    }
    if (m->release_7) {
        all.n_marks = m->n_marks;
        memcpy(all.marks, m->marks, m->n_marks * sizeof *m->marks);
        memcpy(&all.uplink_given, &m->uplink_given, sizeof all - offsetof(struct plain_nch, uplink_given));
    }
    memcpy(to, &all, sizeof all);
}

static void facch_numbers(uint64_t *to, const struct plain_facch *m)
{
    struct plain_facch all = *m;
    if (m->paging)
        memset(&all.call, 0, sizeof all.call);
    else
        memset(&all.page, 0, sizeof all.page);
    memcpy(to, &all, sizeof all);
}

int same_reading(const struct side *const *sides, unsigned n_sides, int facch, const uint8_t *octets, size_t n)
{
    static const struct readers *const all[3] = { &plain_gcc_readers, &plain_clang_readers, &bitwise_readers };
    static const char *const names[3] = { "plain_gcc", "plain_clang", "bitwise" };
    size_t most = facch ? FACCH_NUMBERS : NCH_NUMBERS;
    uint64_t here[NCH_NUMBERS], there[NCH_NUMBERS];
    uint32_t refusal = facch ? sides[0]->facch_numbers(octets, n, here, most) : sides[0]->nch_numbers(octets, n, here, most);
    for (unsigned k = 1; k < n_sides + 3; k++) {
        const char *name = k < n_sides ? sides[k]->name : names[k - n_sides];
        uint32_t other;
        memset(there, 0xEE, sizeof there);
        if (k < n_sides) {
            other = facch ? sides[k]->facch_numbers(octets, n, there, most) : sides[k]->nch_numbers(octets, n, there, most);
        } else if (facch) {
            struct plain_facch m;
            memset(&m, 0xEE, sizeof m);
            other = all[k - n_sides]->facch(octets, n, &m);
            facch_numbers(there, &m);
        } else {
            struct plain_nch m;
            memset(&m, 0xEE, sizeof m);
            other = all[k - n_sides]->nch(octets, n, &m);
            nch_numbers(there, &m);
        }
        if (refusal != other || memcmp(here, there, most * sizeof *here) != 0) {
            printf("%s message", facch ? "FACCH" : "NCH");
            for (size_t i = 0; i < n; i++)
                printf(" %02X", octets[i]);
            printf(": refusal %u by %s, %u by %s", (unsigned)refusal, sides[0]->name, (unsigned)other, name);
            for (size_t i = 0; i < most; i++)
                if (here[i] != there[i])
                    printf("; number %u: %" PRIu64 ", %" PRIu64, (unsigned)i, here[i], there[i]);
            printf("\n");
            return 0;
        }
    }
    return 1;
}

static uint32_t write_message(const struct side *s, int facch, const uint64_t *numbers, uint8_t *octets, size_t n)
{
    return facch ? s->facch_write(numbers, FACCH_NUMBERS, octets, n) : s->nch_write(numbers, NCH_NUMBERS, octets, n);
}

int same_writing(const struct side *const *sides, unsigned n_sides, int facch, const uint64_t *numbers, size_t n)
{
    uint8_t here[32], there[32];
    memset(here, 0xEE, sizeof here);
    uint32_t refusal = write_message(sides[0], facch, numbers, here, n);
    for (unsigned k = 1; k < n_sides; k++) {
        memset(there, 0xEE, sizeof there);
        uint32_t other = write_message(sides[k], facch, numbers, there, n);
        if (refusal != other || memcmp(here, there, sizeof here) != 0) {
            printf("%s record into %u octets:", facch ? "FACCH" : "NCH", (unsigned)n);
            for (unsigned i = 0; i < (facch ? FACCH_NUMBERS : NCH_NUMBERS); i++)
                if (numbers[i])
                    printf(" %u: %" PRIu64, i, numbers[i]);
            printf("; refusal %u by %s, %u by %s\n", (unsigned)refusal, sides[0]->name, (unsigned)other, sides[k]->name);
            return 0;
        }
    }
    writer_refusals_seen[facch][refusal & 15]++;
    return 1;
}

/* What was read of a message is written into as many octets, and, mostly with other numbers in it, into others. */
static int same_writings(const struct side *const *sides, unsigned n_sides, struct dice *d, int facch, const struct message *m)
{
    static const uint64_t limits[] = { 0, 1, 2, 3, 4, 5, 7, 8, 9, 10, 15, 16, 255, 256, 0x1000, 0xFFFFFF, 0x1000000, 99999999, 100000000, 0x7FFFFFF, 0x8000000,
        0xFFFFFFFFFu, 0x1000000000u, 0xFFFFFFFFFFFFu, 1ull << 63, UINT64_MAX };
    unsigned most = facch ? FACCH_NUMBERS : NCH_NUMBERS;
    uint64_t numbers[NCH_NUMBERS];
    if ((facch ? sides[0]->facch_numbers : sides[0]->nch_numbers)(m->octets, m->n, numbers, most) != 0)
        return 1;
    if (!same_writing(sides, n_sides, facch, numbers, m->n))
        return 0;
    for (unsigned changes = below(d, 3); changes; changes--) /* half of them in the first numbers, where a call stands */
        numbers[below(d, one_in(d, 2) ? 15 : most)] = limits[below(d, sizeof limits / sizeof *limits)];
    return same_writing(sides, n_sides, facch, numbers, facch ? below(d, 26) : one_in(d, 20) ? below(d, 26) : 20);
}

unsigned messages_alike(const struct side *const *sides, unsigned n_sides, uint64_t seed, unsigned messages)
{
    struct dice d = { seed };
    uint32_t keys[6] = { 2468, 2469, 199999998, 0, 77777777, 1 };
    for (unsigned i = 0; i < messages; i++) {
        int facch = one_in(&d, 3);
        struct message m = facch ? random_facch(&d, keys, 6) : random_nch(&d, keys, 6);
        if (!same_reading(sides, n_sides, facch, m.octets, m.n) || !same_writings(sides, n_sides, &d, facch, &m))
            return i;
    }
    return messages;
}

/* One random event, the same for every side. */
struct event {
    unsigned kind;
    uint32_t tick, key;
    struct message message;
};

static uint32_t hand_in(const struct side *s, uint8_t *state, const struct event *e)
{
    size_t length = s->state_length;
    switch (e->kind) {
    case 0: return s->nch(state, length, e->tick, e->message.octets, e->message.n);
    case 1: return s->facch(state, length, e->tick, e->message.octets, e->message.n);
    case 2: return s->pch(state, length, e->tick, e->message.entry, 14);
    case 3: return s->joined(state, length, e->tick, e->key);
    case 4: return s->reselected(state, length, e->tick);
    case 5: return s->handed_over(state, length, e->tick);
    case 6: return s->reconfigured(state, length, e->tick);
    case 7: return s->left_idle(state, length, e->tick);
    case 8: return s->bit_22(state, length, e->tick, e->key);
    default: return s->tick(state, length, e->tick);
    }
}

/* tick is the last accepted one; few steps are long enough to let a half run out. */
static struct event random_event(struct dice *d, uint32_t tick, const uint32_t *keys, uint32_t n_keys)
{
    struct event e = { 0 };
    unsigned which = below(d, 60);
    e.kind = which < 18 ? 0 : which < 34 ? 1 : which < 49 ? 2 : which < 55 ? which - 46 : which < 58 ? 8 : 9;
    e.tick = tick + (one_in(d, 50) ? (uint32_t)roll(d) : below(d, one_in(d, 4) ? 200 : 20));
    e.key = one_in(d, 10) ? below(d, 210000000) : keys[below(d, n_keys)];
    if (e.kind == 8)
        e.key = one_in(d, 20) ? 2 : below(d, 2);
    if (e.kind == 0)
        e.message = random_nch(d, keys, n_keys);
    if (e.kind == 1)
        e.message = random_facch(d, keys, n_keys);
    if (e.kind == 2)
        e.message = random_pch(d, keys, n_keys);
    return e;
}

static int rising(const void *one, const void *other)
{
    uint32_t a = *(const uint32_t *)one, b = *(const uint32_t *)other;
    return (a > b) - (a < b);
}

static int sequence_alike(const struct side *const *sides, uint8_t *const *states, uint8_t *before, unsigned n_sides, struct dice *d, unsigned events)
{
    static const uint32_t all[6] = { 2468, 2469, 199999998, 0, 77777777, 1 };
    uint32_t n_keys = 1 + below(d, 5), mine[50], sets[50], tick = one_in(d, 3) ? (uint32_t)-below(d, 500) : (uint32_t)roll(d);
    uint32_t n_mine = one_in(d, 8) ? 50 : n_keys, t3206 = 1 + below(d, 1000), t3208 = 1 + below(d, 1000), t3210 = 1 + below(d, 1000);
    for (uint32_t i = 0; i < n_mine; i++) /* with 50 keys, most are not in use */
        mine[i] = i < n_mine - n_keys ? 5000 + i : all[i - (n_mine - n_keys)];
    qsort(mine, n_mine, sizeof *mine, rising);
    for (uint32_t i = 0; i < n_mine; i++)
        sets[i] = (uint32_t)roll(d) & (one_in(d, 2) ? 0xFFFE : 0);
    char where[80] = "setup";
    for (unsigned k = 0; k < n_sides; k++) {
        memset(states[k], 0xA5, sides[k]->state_length);
        if (sides[k]->setup(states[k], sides[k]->state_length, mine, n_mine, sets, n_mine, tick, t3206, t3208, t3210) != 0)
            return differ(where, "refusal", sides[k], 1, sides[k], 0);
    }
    if (!same_answers(sides, states, n_sides, where))
        return 0;
    for (unsigned i = 0; i < events; i++) {
        struct event e = random_event(d, tick, all, n_keys + 1); /* one key is not subscribed */
        uint32_t refusal = 0;
        snprintf(where, sizeof where, "event %u of kind %u", i, e.kind);
        for (unsigned k = 0; k < n_sides; k++) {
            memcpy(before, states[k], sides[k]->state_length);
            uint32_t result = hand_in(sides[k], states[k], &e);
            if (k == 0)
                refusal = result;
            if (result != refusal)
                return differ(where, "refusal", sides[0], refusal, sides[k], result);
            if (result && memcmp(before, states[k], sides[k]->state_length) != 0)
                return differ(where, "refused, but the state changed; refusal", sides[0], refusal, sides[k], result);
        }
        refusals_seen[refusal & 15]++;
        if (!same_answers(sides, states, n_sides, where))
            return 0;
        if (!refusal) {
            tick = e.tick;
            paged_seen += part(sides[0], states[0], 0, PAGED) == 1;
            for (uint32_t j = 0; j < part(sides[0], states[0], 0, COUNT); j++) {
                told_seen[part(sides[0], states[0], j, TOLD) % 9]++;
                follow_seen[part(sides[0], states[0], j, FOLLOWS) % 4]++;
            }
        }
    }
    return 1;
}

unsigned sequences_alike(const struct side *const *sides, unsigned n_sides, uint64_t seed, unsigned sequences, unsigned events)
{
    struct dice d = { seed };
    uint8_t *states[MOST_SIDES], *before = malloc(1 << 15);
    unsigned i;
    for (unsigned k = 0; k < n_sides; k++)
        states[k] = aligned_alloc(64, 1 << 15);
    for (i = 0; i < sequences; i++)
        if (!sequence_alike(sides, states, before, n_sides, &d, events)) {
            printf("in random sequence %u\n", i);
            break;
        }
    for (unsigned k = 0; k < n_sides; k++)
        free(states[k]);
    free(before);
    return i;
}

/* Most steps are short, some come to what lasts 480 ms or T3128, few are refused. */
static uint32_t uplink_step(struct dice *d, uint32_t t3128)
{
    switch (below(d, 10)) {
    case 0: return 479 + below(d, 3);
    case 1: return t3128 - 1 + below(d, 3);
    case 2: return one_in(d, 4) ? (uint32_t)roll(d) : 0x7FFFFFFF;
    default: return below(d, 60);
    }
}

static int uplink_alike(const struct side *const *sides, uint8_t *const *states, unsigned n_sides, struct dice *d, unsigned events)
{
    uint32_t tick = (uint32_t)roll(d), t3128 = 1 + below(d, 1000);
    for (unsigned k = 0; k < n_sides; k++)
        if (sides[k]->uplink_setup(states[k], sides[k]->uplink_length, tick, t3128) != 0)
            return differ("setup of the uplink", "refusal", sides[k], 1, sides[k], 0);
    for (unsigned i = 0; i < events; i++) {
        uint32_t now = tick + uplink_step(d, t3128), result = 0;
        unsigned signal = below(d, UPLINK_EVENTS + 1) % UPLINK_EVENTS;
        for (unsigned k = 0; k < n_sides; k++) {
            uint32_t other = sides[k]->uplink[signal](states[k], sides[k]->uplink_length, now);
            if (k == 0)
                result = other;
            if (other != result)
                return differ("uplink", "a result", sides[0], result, sides[k], other);
        }
        if (result & 255)
            continue;
        tick = now;
        uplink_seen[(result >> 8 & 255) % 5]++;
        uplink_seen[(result >> 16 & 255) % 5]++;
    }
    return 1;
}

unsigned uplinks_alike(const struct side *const *sides, unsigned n_sides, uint64_t seed, unsigned sequences, unsigned events)
{
    struct dice d = { seed };
    uint8_t *states[MOST_SIDES];
    unsigned i;
    for (unsigned k = 0; k < n_sides; k++)
        states[k] = aligned_alloc(64, 64);
    for (i = 0; i < sequences; i++)
        if (!uplink_alike(sides, states, n_sides, &d, events)) {
            printf("in random sequence %u of the uplink\n", i);
            break;
        }
    for (unsigned k = 0; k < n_sides; k++)
        free(states[k]);
    return i;
}
