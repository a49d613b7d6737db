/* Messages, put together bit by bit. Their speed is not measured. */
#include "messages.h"

#include <string.h>

struct pen {
    struct message to;
    unsigned at, size;
};

/* A message of padding alone; the pen stands at its first bit. */
static struct pen blank(size_t octets)
{
    struct pen p = { { { 0 }, octets, { 0 } }, 0, 8 * (unsigned)octets };
    memset(p.to.octets, 0x2B, octets);
    return p;
}

/* n bits of a number; what does not fit is lost. */
static void put(struct pen *p, unsigned n, uint64_t x)
{
    while (n-- > 0 && p->at < p->size) {
        uint8_t mask = (uint8_t)(0x80 >> p->at % 8);
        uint8_t *octet = &p->to.octets[p->at++ / 8];
        *octet = x >> n & 1 ? *octet | mask : *octet & (uint8_t)~mask;
    }
}

/* H for 1, L for 0. */
static void put_high(struct pen *p, unsigned high)
{
    put(p, 1, high ^ (0x2B >> (7 - p->at % 8) & 1));
}

/* A call without the flag behind it: its key, acknowledged, a priority, and whether it is ciphered. */
static void put_call(struct pen *p, uint32_t key, unsigned cipher_key_number)
{
    put(p, 28, key);
    put(p, 1, 1);
    put(p, 3, 4);
    put(p, 4, cipher_key_number);
}

/* A channel that does not hop, with its flag. */
static void put_channel(struct pen *p)
{
    put(p, 1, 1);
    put(p, 24, 0x0A6123);
    put(p, 1, 0);
}

struct message clear_call(uint32_t key)
{
    struct pen p = blank(20);
    put(&p, 3, 4 | 2); /* NLN 2 */
    put(&p, 1, 1);
    put_call(&p, key, 0);
    put_channel(&p);
    put(&p, 1, 0);
    return p.to;
}

struct message first_half(uint32_t key)
{
    struct pen p = blank(20);
    put(&p, 3, 4 | 2);
    put(&p, 1, 1);
    put_call(&p, key, 3);
    put_channel(&p);
    put(&p, 1, 0);
    put_high(&p, 1);
    put(&p, 3, 4 | 1); /* CELL_GLOBAL_COUNT 1 */
    put(&p, 1, 0);
    put(&p, 4, 8); /* Segment Id 0, no VSTK_RAND, no more */
    put_high(&p, 0);
    return p.to;
}

struct message second_half_reduced(uint32_t key)
{
    struct pen p = blank(20);
    put(&p, 3, 4 | 2);
    put(&p, 1, 0);
    put_high(&p, 1);
    put(&p, 3, 4 | 1);
    put(&p, 1, 1);
    put(&p, 28, key);
    put(&p, 1, 0);
    put(&p, 3, 7); /* Segment Id 1, with VSTK_RAND */
    put(&p, 36, 0x9ABCDEF01u);
    put(&p, 1, 0);
    put_high(&p, 0);
    return p.to;
}

/* All 160 bits are used. */
struct message two_calls(uint32_t key, uint32_t another)
{
    struct pen p = blank(20);
    put(&p, 3, 4 | 2);
    put(&p, 1, 1);
    put_call(&p, key, 3);
    put_channel(&p);
    put(&p, 1, 1);
    put_call(&p, another, 5);
    put_channel(&p);
    put(&p, 1, 0);
    put_high(&p, 1);
    put(&p, 3, 4 | 1);
    put(&p, 1, 0);
    put(&p, 3, 4);
    put(&p, 4, 8);
    put_high(&p, 1);
    put(&p, 5, 0x1C); /* marks 1 and 0 */
    put(&p, 2, 3);         /* Priority Uplink Access 1 */
    put(&p, 1, 1);
    put(&p, 5, 16 | 9); /* FR AMR Config 9 */
    put(&p, 1, 0);
    put(&p, 3, 4 | 2); /* SMS Data Confidentiality */
    return p.to;
}

/* A FACCH message with its call, up to the first release. */
static struct pen facch_call(uint32_t key, unsigned cipher_key_number, int described)
{
    struct pen p = blank(23);
    put(&p, 8, 0x04);
    put(&p, 1, 0);
    put_call(&p, key, cipher_key_number);
    if (described)
        put_channel(&p);
    else
        put(&p, 1, 0);
    return p;
}

struct message facch_clear_call(uint32_t key)
{
    return facch_call(key, 0, 1).to;
}

struct message facch_first_half(uint32_t key)
{
    struct pen p = facch_call(key, 3, 1);
    put_high(&p, 1);
    put(&p, 4, 8 | 3); /* CELL_GLOBAL_COUNT 1, B22_COUNT 1 */
    put(&p, 1, 0);
    put_high(&p, 0);
    return p.to;
}

struct message facch_second_half(uint32_t key)
{
    struct pen p = facch_call(key, 3, 0);
    put_high(&p, 1);
    put(&p, 4, 8 | 3);
    put(&p, 1, 1);
    put(&p, 36, 0x9ABCDEF01u);
    put_high(&p, 0);
    return p.to;
}

/* An identity of five octets, a TMSI, with a priority and a Paging Cause. */
struct message facch_page(void)
{
    struct pen p = blank(23);
    put(&p, 8, 0x04);
    put(&p, 1, 1);
    put(&p, 8, 5);
    put(&p, 40, 0xF412345678u);
    put(&p, 2, 1);
    put(&p, 4, 8 | 5);
    put_high(&p, 0);
    put_high(&p, 1);
    put_high(&p, 0);
    put_high(&p, 0);
    put(&p, 2, 3); /* a short message */
    return p.to;
}

/* ---- Random ones ---- */

uint64_t roll(struct dice *d)
{
    d->state ^= d->state << 13;
    d->state ^= d->state >> 7;
    d->state ^= d->state << 17;
    return d->state * 0x2545F4914F6CDD1Du;
}

uint32_t below(struct dice *d, uint32_t n)
{
    return (uint32_t)((roll(d) >> 32) * n >> 32);
}

int one_in(struct dice *d, uint32_t n)
{
    return below(d, n) == 0;
}

static uint32_t random_key(struct dice *d, const uint32_t *keys, uint32_t n_keys)
{
    if (one_in(d, 60))
        return below(d, 1u << 28); /* some have a reference that is too large */
    return keys[below(d, n_keys)];
}

static void put_random_channel(struct pen *p, struct dice *d)
{
    unsigned hops = one_in(d, 3), wrong = one_in(d, 60);
    uint32_t channel = below(d, 1u << 24);
    put(p, 24, (channel & ~(1u << 12)) | (hops ^ wrong) << 12);
    put(p, 1, hops);
    if (!hops)
        return;
    if (one_in(d, 2)) {
        put(p, 1, 1);
        put(p, 64, roll(d));
        return;
    }
    unsigned n = one_in(d, 20) ? below(d, 256) : 1 + below(d, one_in(d, 3) ? 8 : 2);
    put(p, 1, 0);
    put(p, 8, n);
    for (unsigned i = 0; i < n; i++)
        put(p, 8, below(d, 256));
}

/* A call with the flag and channel behind it. Few values, so that halves agree as often as not. Returns the cipher key number. */
static unsigned put_random_call(struct pen *p, struct dice *d, uint32_t key, unsigned described)
{
    unsigned cipher_key_number = one_in(d, 3) ? 0 : one_in(d, 8) ? below(d, 16) : 3;
    put(p, 28, key);
    put(p, 1, one_in(d, 12));
    put(p, 3, one_in(d, 12) ? below(d, 8) : 4);
    put(p, 4, cipher_key_number);
    put(p, 1, described);
    if (described)
        put_random_channel(p, d);
    return cipher_key_number;
}

/* A flag, and n bits where it is 1. */
static void put_random_flagged(struct pen *p, struct dice *d, unsigned n)
{
    unsigned given = below(d, 2);
    put(p, 1, given);
    if (given)
        put(p, n, below(d, 1u << n));
}

/* Who is paged; some have a length that no identity has. */
static void put_random_page(struct pen *p, struct dice *d)
{
    unsigned n = one_in(d, 12) ? below(d, 256) : one_in(d, 12) ? 10 * below(d, 2) : 1 + below(d, 9);
    put(p, 8, n);
    for (unsigned i = 0; i < n; i++)
        put(p, 8, below(d, 256));
    put(p, 2, below(d, 4));
    put_random_flagged(p, d, 3);
}

static void put_random_7(struct pen *p, struct dice *d, unsigned described)
{
    unsigned marks = below(d, described + 1) + one_in(d, 40);
    for (unsigned i = 0; i < marks; i++)
        put(p, 2, 2 | below(d, 2));
    put(p, 1, 0);
    put_random_flagged(p, d, 1); /* uplink */
    unsigned amr = below(d, 2);
    put(p, 1, amr);
    if (amr) {
        put_random_flagged(p, d, 4);
        put_random_flagged(p, d, 4);
    }
    put_random_flagged(p, d, 2); /* SMS */
}

/* Some messages are spoilt, and some are nothing but random octets. */
static struct message spoilt(struct dice *d, struct message m, size_t longest)
{
    if (one_in(d, 30))
        m.octets[below(d, (uint32_t)m.n)] ^= (uint8_t)(1u << below(d, 8));
    if (one_in(d, 60))
        for (size_t i = 0; i < m.n; i++)
            m.octets[i] = (uint8_t)below(d, 256);
    if (one_in(d, 50))
        m.n = below(d, (uint32_t)longest + 1);
    return m;
}

struct message random_nch(struct dice *d, const uint32_t *keys, uint32_t n_keys)
{
    struct pen p = blank(20);
    unsigned calls = below(d, one_in(d, 4) ? 5 : 2), reduced = calls > 1 ? 0 : below(d, one_in(d, 6) ? 5 : 3), ciphered = 0, described = 0;
    unsigned nln = one_in(d, 3);
    put(&p, 1, nln);
    if (nln)
        put(&p, 2, one_in(d, 4) ? below(d, 4) : 2);
    for (unsigned i = 0; i < calls; i++) {
        unsigned channel = !one_in(d, 3);
        put(&p, 1, 1);
        ciphered += put_random_call(&p, d, random_key(d, keys, n_keys), channel) != 0;
        described += channel;
    }
    put(&p, 1, 0);
    unsigned six = !one_in(d, 5);
    put_high(&p, six);
    if (six) {
        unsigned counted = below(d, 2);
        put(&p, 1, counted);
        if (counted)
            put(&p, 2, below(d, 4));
        for (unsigned i = 0; i < reduced; i++) {
            put(&p, 1, 1);
            put(&p, 28, random_key(d, keys, n_keys));
        }
        put(&p, 1, 0);
        unsigned most = ciphered + reduced, randoms = one_in(d, 5) ? below(d, most + 1) : most + one_in(d, 60);
        for (unsigned i = 0; i < randoms; i++) {
            unsigned second = i < ciphered ? one_in(d, 3) : !one_in(d, 8), given = one_in(d, 10) ? !second : second;
            put(&p, 1, 1);
            put(&p, 1, second);
            put(&p, 1, given);
            if (given)
                put(&p, 36, roll(d));
        }
        put(&p, 1, 0);
    }
    unsigned seven = one_in(d, 2);
    put_high(&p, seven);
    if (seven)
        put_random_7(&p, d, described);
    return spoilt(d, p.to, 23);
}

struct message random_facch(struct dice *d, const uint32_t *keys, uint32_t n_keys)
{
    struct pen p = blank(23);
    unsigned paging = one_in(d, 5);
    put(&p, 8, below(d, 256));
    put(&p, 1, paging);
    unsigned described = !one_in(d, 3), given = described ? one_in(d, 4) : !one_in(d, 4);
    if (paging)
        put_random_page(&p, d);
    else
        put_random_call(&p, d, random_key(d, keys, n_keys), described);
    unsigned six = given || !one_in(d, 3);
    put_high(&p, six);
    if (six) {
        unsigned counted = below(d, 2);
        put(&p, 1, counted);
        if (counted)
            put(&p, 3, below(d, 8));
        put(&p, 1, given);
        if (given)
            put(&p, 36, roll(d));
    }
    unsigned seven = one_in(d, 2);
    put_high(&p, seven);
    if (seven) {
        unsigned cause = one_in(d, 4);
        put(&p, 2, below(d, 4));
        put(&p, 1, cause);
        if (cause)
            put(&p, 1, below(d, 2));
    }
    if (one_in(d, 4))
        p.to.n = (p.at + 7) / 8;
    return spoilt(d, p.to, 23);
}

/* ---- PCH ---- */

static struct message page(uint32_t key, uint64_t cipher)
{
    struct message m = { .entry = { key, cipher != 0, 1, (uint64_t)key << 8 | 0x50 | cipher } };
    return m;
}

static struct message on_channel(struct message m)
{
    m.entry[4] = 1;
    m.entry[5] = 0x0A4123;
    return m;
}

struct message pch_clear_call(uint32_t key)
{
    return on_channel(page(key, 0));
}

struct message pch_first_half(uint32_t key)
{
    return on_channel(page(key, 3));
}

struct message pch_second_half(uint32_t key)
{
    struct message m = page(key, 3);
    m.entry[10] = 1;
    m.entry[11] = 0x123456789;
    return m;
}

/* Mostly as it should be; now and then one number is another one. */
struct message random_pch(struct dice *d, const uint32_t *keys, uint32_t n_keys)
{
    struct message m = page(keys[below(d, n_keys)], one_in(d, 4) ? 0 : 3 + (uint64_t)one_in(d, 20));
    if (one_in(d, 2))
        m = on_channel(m);
    else if (one_in(d, 3))
        m.entry[2] = 0;
    if (m.entry[4] && one_in(d, 3)) {
        m.entry[5] |= 0x1000;
        m.entry[6] = 1;
        m.entry[7] = (uint64_t)one_in(d, 2);
        m.entry[8] = below(d, 10);
        m.entry[9] = roll(d) >> (one_in(d, 2) ? 0 : 64 - 8 * (1 + below(d, 8)));
    }
    if (one_in(d, 2)) {
        m.entry[10] = 1;
        m.entry[11] = roll(d) >> 28;
    }
    if (one_in(d, 2)) {
        m.entry[12] = 1;
        m.entry[13] = below(d, 4);
    }
    if (one_in(d, 8))
        m.entry[below(d, 14)] = one_in(d, 2) ? below(d, 6) : roll(d) >> below(d, 64);
    return m;
}
