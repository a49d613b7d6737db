/* The competent plain implementation: a message as 64-bit words and its fields by shifts, in plain_readers.h and plain_writers.h; here a receiver that is a struct, with one 64-bit mask of
 * held places for each channel, so that empty places are never walked over, its records packed into a few words. Written from the documents; it answers as the library does.
 *
 * Built once for each compiler: PLAIN names its tables (plain_gcc, plain_clang). */
#include "plain.h"

#include <string.h>

#ifndef PLAIN
#define PLAIN plain_gcc
#endif
#define INLINE static inline __attribute__((always_inline)) /* so that places and records stay in registers */
#define JOIN_(a, b) a##b
#define JOIN(a, b) JOIN_(a, b)

enum {
    ACCEPTED, MESSAGE_LENGTH, RAN_OUT, ALLOCATION_LENGTH, REFERENCE, HOPPING, RANDOM_ENTRIES, EMERGENCY_MARKS, IDENTITY_LENGTH, CLOCK, SETUP,
    FORM_SIZE, RANGE, STATE_LENGTH = 13, RAN_OUT_6, RAN_OUT_7
};
enum { NO_KEY = 1, NO_COUNT, FOLLOW };
enum { NOT_OURS, CLEAR, ONE_PIECE, JOINED, HALF_STORED, HALF_HELD, NO_CHANNEL, UNUSABLE, SECOND_BEFORE_FIRST };
enum { NCH, FACCH, PCH, CHANNELS };
enum { KEYS = 50, KEY_PLACES = 64, ENTRIES = 9, PCH_NUMBERS = 14, LONGEST = 60000, LAST_REFERENCE = 99999999, LAST_KEY = 199999999, NLN_UNKNOWN = 4, NONE_KEPT = 4, BIT_UNKNOWN = 2 };

#include "plain_readers.h"
#include "plain_writers.h"

/* ---- The receiver ---- */

/* A call with its random entry and parts, as plain_readers.h packs them; of a reduced reference the lowest eight of the call's bits are 0, and it is not FULL. */
struct record {
    struct call call;
    uint64_t random, parts;
};

struct told {
    uint32_t key;
    uint8_t number, place, follow, kept; /* the place and the record are there only where the number is 1 to 3, follow and kept where it is 2 or 3 */
    struct record record;
};

/* What every event looks at stands first. */
struct receiver {
    uint32_t tick, timer[CHANNELS];
    uint64_t held[CHANNELS]; /* one bit for each subscription */
    uint32_t expired, dropped, count;
    uint8_t nln, kept, bit, paged;
    uint64_t first[CHANNELS]; /* of those held, the first halves */
    uint32_t keys[KEY_PLACES], sets[KEYS]; /* behind the last key stand numbers above any */
    uint32_t since[CHANNELS][KEYS];
    struct told entries[ENTRIES];
    struct page page; /* there only where somebody is paged, as is what follows */
    uint64_t page_parts;
    struct record halves[CHANNELS][KEYS];
};

/* The place of a key, or KEYS where it is not subscribed; by halving, in as many steps for any number of keys, without a branch on a key. */
static inline unsigned find(const struct receiver *r, uint32_t key)
{
    size_t i = 0;
    i = r->keys[i + 32] <= key ? i + 32 : i;
    i = r->keys[i + 16] <= key ? i + 16 : i;
    i = r->keys[i + 8] <= key ? i + 8 : i;
    i = r->keys[i + 4] <= key ? i + 4 : i;
    i = r->keys[i + 2] <= key ? i + 2 : i;
    i = r->keys[i + 1] <= key ? i + 1 : i;
    return r->keys[i] == key ? (unsigned)i : KEYS;
}

static inline uint32_t clock_refusal(const struct receiver *r, size_t state_length, uint32_t tick)
{
    if (state_length != sizeof *r)
        return STATE_LENGTH;
    return tick - r->tick >= 0x80000000u ? CLOCK : ACCEPTED;
}

static inline unsigned expire(struct receiver *r, unsigned channel)
{
    unsigned n = 0;
    uint32_t tick = r->tick, timer = r->timer[channel];
    const uint32_t *since = r->since[channel];
    for (uint64_t rest = r->held[channel]; rest; rest &= rest - 1) {
        size_t i = (unsigned)__builtin_ctzll(rest);
        if (__builtin_expect(tick - since[i] >= timer, 0)) { /* what is seldom stands aside, so that each turn jumps once */
            r->held[channel] &= ~(1ull << i);
            n++;
        }
    }
    return n;
}

/* The tick is taken and what ran out is dropped; the event's entries and own drops come after. */
static inline void accept(struct receiver *r, uint32_t tick)
{
    r->tick = tick;
    r->expired = expire(r, NCH) + expire(r, FACCH) + expire(r, PCH);
    r->dropped = 0;
    r->count = 0;
    r->paged = 0;
}

static inline unsigned drop(struct receiver *r, unsigned channel, uint64_t but)
{
    uint64_t gone = r->held[channel] & ~but;
    if (!gone)
        return 0;
    r->held[channel] &= but;
    return (unsigned)__builtin_popcountll(gone);
}

/* A first half with what it takes from the second, whose VSTK_RAND it has not itself. */
INLINE struct record joined(struct record x, uint64_t second_random, uint64_t second_parts)
{
    x.random |= second_random & ((2ull << RAND_GIVEN) - 1);
    if (second_parts >> COUNTED & 1)
        x.parts = (x.parts & ~(uint64_t)COUNT_PARTS) | (second_parts & COUNT_PARTS);
    return x;
}

/* What a half is told. It goes into the store, or, joined with the other one, into the entry. */
INLINE uint8_t tell_half(struct receiver *r, struct told *t, unsigned channel, unsigned place, struct record x, unsigned is_first)
{
    uint64_t bit = 1ull << place;
    struct record *held = &r->halves[channel][place];
    if (!(r->held[channel] & bit)) {
        if (channel == FACCH && !is_first)
            return SECOND_BEFORE_FIRST;
        *held = x;
        r->since[channel][place] = r->tick;
        r->held[channel] |= bit;
        r->first[channel] = is_first ? r->first[channel] | bit : r->first[channel] & ~bit;
        return HALF_STORED;
    }
    if (((r->first[channel] & bit) != 0) == is_first)
        return HALF_HELD;
    if (held->parts & x.parts & 1 << FULL && held->call.bits != x.call.bits)
        return UNUSABLE;
    t->record = is_first ? joined(x, held->random, held->parts) : joined(*held, x.random, x.parts);
    r->held[channel] &= ~bit;
    return JOINED;
}

/* What an entry of ours is told. Only on the NCH do the halves have a Segment Id. */
INLINE uint8_t tell_ours(struct receiver *r, struct told *t, unsigned channel, unsigned place, struct record x, unsigned ciphered)
{
    unsigned given = x.random >> RAND_GIVEN & 1, segment_id = x.random >> SEGMENT_ID & 1;
    if (!x.call.description) {
        if (!ciphered || !given || (channel == NCH && !segment_id))
            return x.parts & 1 << FULL ? NO_CHANNEL : UNUSABLE;
        return tell_half(r, t, channel, place, x, 0);
    }
    if (ciphered && channel == NCH && (!x.random || segment_id))
        return UNUSABLE;
    if (ciphered && !given)
        return tell_half(r, t, channel, place, x, 1);
    t->record = x;
    return ciphered ? ONE_PIECE : CLEAR;
}

/* Whether it is a complete ciphered call. */
static inline int can_follow(const struct told *t)
{
    return t->number == ONE_PIECE || t->number == JOINED;
}

/* Tells an entry, and whether a complete ciphered call can be followed. */
INLINE void tell(struct receiver *r, struct told *t, unsigned channel, struct record x, unsigned ciphered)
{
    uint32_t key = (uint32_t)(x.call.bits >> 8);
    unsigned place = find(r, key);
    t->key = key;
    if (place == KEYS) {
        t->number = NOT_OURS;
        return;
    }
    t->place = (uint8_t)place;
    t->number = tell_ours(r, t, channel, place, x, ciphered);
    if (!can_follow(t))
        return;
    t->follow = !(r->sets[place] >> (t->record.call.bits & 15) & 1) ? NO_KEY : r->kept == NONE_KEPT ? NO_COUNT : FOLLOW;
    t->kept = t->follow == FOLLOW ? r->kept : 0;
}

/* The record by its numbers, so that they stay in registers: two that were just written one by one are waited for when they are loaded as one vector. On the NCH one function serves calls and
 * reduced references; a random entry is 0 where there is none. */
static __attribute__((noinline)) void tell_nch(struct receiver *r, struct told *t, uint64_t bits, uint64_t description, uint64_t frequencies, uint64_t random, uint64_t parts)
{
    struct record x = { { bits, description, frequencies }, random, parts };
    tell(r, t, NCH, x, (bits & 15) != 0 || !(parts & 1 << FULL));
}

static __attribute__((noinline)) void tell_facch(struct receiver *r, struct told *t, uint64_t bits, uint64_t description, uint64_t frequencies, uint64_t random, uint64_t parts)
{
    struct record x = { { bits, description, frequencies }, random, parts };
    tell(r, t, FACCH, x, (bits & 15) != 0);
}

static void tell_calls(struct receiver *r, const struct nch *m)
{
    struct told *t = r->entries;
    unsigned randoms = 0, marks = 0;
    for (unsigned i = 0; i < m->n_calls; i++, t++) {
        const struct call *c = &m->calls[i];
        uint64_t parts = m->parts | 1 << FULL;
        if (c->description && marks < m->n_marks)
            parts |= (uint64_t)(m->marks >> marks++ & 1) << EMERGENCY;
        tell_nch(r, t, c->bits, c->description, c->frequencies, c->bits & 15 && randoms < m->n_random ? m->random[randoms++] : 0, parts);
    }
    for (unsigned i = 0; i < m->n_reduced; i++, t++)
        tell_nch(r, t, (uint64_t)m->reduced[i] << 8, 0, 0, randoms < m->n_random ? m->random[randoms++] : 0, m->parts);
    r->count = m->n_calls + m->n_reduced;
}

static uint32_t event_nch(uint8_t *state, size_t state_length, uint32_t tick, const uint8_t *octets, size_t n)
{
    struct receiver *r = (struct receiver *)(void *)state;
    struct plain_nch unread;
    struct nch m;
    uint32_t refusal = clock_refusal(r, state_length, tick);
    if (!refusal)
        refusal = read_nch(octets, n, &unread, &m);
    if (refusal)
        return refusal;
    accept(r, tick);
    if (m.nln_given) {
        if (r->nln != NLN_UNKNOWN && r->nln != m.nln)
            r->dropped = drop(r, NCH, 0);
        r->nln = (uint8_t)m.nln;
    }
    if (m.parts >> COUNTED & 1)
        r->kept = m.parts >> CELL_GLOBAL_COUNT & 3;
    tell_calls(r, &m);
    return ACCEPTED;
}

static uint32_t event_facch(uint8_t *state, size_t state_length, uint32_t tick, const uint8_t *octets, size_t n)
{
    struct receiver *r = (struct receiver *)(void *)state;
    struct plain_facch unread;
    struct facch m;
    uint32_t refusal = clock_refusal(r, state_length, tick);
    if (!refusal)
        refusal = read_facch(octets, n, &unread, &m);
    if (refusal)
        return refusal;
    accept(r, tick);
    if (m.parts >> COUNTED & 1 && r->bit != BIT_UNKNOWN)
        r->kept = ((m.parts >> CELL_GLOBAL_COUNT & 3) + (m.parts >> B22_COUNT & 1 && !r->bit)) & 3;
    if (m.paging) {
        r->paged = 1;
        r->page = m.page;
        r->page_parts = m.parts;
        return ACCEPTED;
    }
    tell_facch(r, r->entries, m.call.bits, m.call.description, m.call.frequencies, m.random, m.parts | 1 << FULL);
    r->count = 1;
    return ACCEPTED;
}

/* The grounds of a PCH entry in their order: 0 key, 1 ciphered, 2 full, 3 its bits, 4 described, 5 channel, 6 hops, 7 short list, 8 length, 9 frequencies, 10 and 11 VSTK_RAND,
 * 12 and 13 the count. A flag above 1 counts as set before it is refused. */
static inline uint32_t pch_refusal(const uint64_t *e)
{
    unsigned described = e[4] != 0, hops = described && e[6], allocated = hops && !e[7];
    if (e[0] > LAST_KEY)
        return REFERENCE;
    if (allocated && e[8] - 1 > 7)
        return ALLOCATION_LENGTH;
    if (described && (e[5] >> 12 & 1) != (e[6] != 0))
        return HOPPING;
    if ((e[1] | e[2] | e[4] | e[10] | e[12]) > 1 || (described && (!e[2] || e[5] >> 24 || e[6] > 1)) || (hops && e[7] > 1))
        return RANGE;
    if ((allocated && e[8] < 8 && e[9] >> 8 * e[8]) || (e[10] && e[11] >> 36) || (e[12] && e[13] > 3))
        return RANGE;
    return e[2] && (e[3] >> 8 != e[0] || ((e[3] & 15) != 0) != e[1]) ? RANGE : ACCEPTED;
}

/* An accepted entry as a record; what stands behind an absent flag is not looked at. */
INLINE struct record pch_record(const uint64_t *e)
{
    struct record x = { { e[0] << 8, 0, 0 }, 0, 0 };
    if (e[2]) {
        x.call.bits = e[3];
        x.parts = 1 << FULL;
    }
    if (e[4])
        x.call.description = 1ull << DESCRIBED | e[5] << 1 | e[6];
    if (e[4] && e[6]) {
        x.call.description |= e[7] ? 1ull << SHORT_LIST : e[8] << ALLOCATION_OCTETS;
        x.call.frequencies = e[9];
    }
    if (e[10])
        x.random = 1ull << RAND_GIVEN | e[11];
    if (e[12])
        x.parts |= 1 << COUNTED | e[13] << CELL_GLOBAL_COUNT;
    return x;
}

static uint32_t event_pch(uint8_t *state, size_t state_length, uint32_t tick, const uint64_t *entry, size_t n)
{
    struct receiver *r = (struct receiver *)(void *)state;
    if (n != PCH_NUMBERS)
        return STATE_LENGTH;
    uint32_t refusal = clock_refusal(r, state_length, tick);
    if (!refusal)
        refusal = pch_refusal(entry);
    if (refusal)
        return refusal;
    accept(r, tick);
    if (r->held[PCH]) {
        unsigned place = find(r, (uint32_t)entry[0]);
        r->dropped = drop(r, PCH, place == KEYS ? 0 : 1ull << place);
    }
    if (entry[12])
        r->kept = (uint8_t)entry[13];
    tell(r, r->entries, PCH, pch_record(entry), entry[1] != 0);
    r->count = 1;
    return ACCEPTED;
}

static uint32_t event_joined(uint8_t *state, size_t state_length, uint32_t tick, uint32_t key)
{
    struct receiver *r = (struct receiver *)(void *)state;
    uint32_t refusal = clock_refusal(r, state_length, tick);
    if (!refusal && key > LAST_KEY)
        refusal = REFERENCE;
    if (refusal)
        return refusal;
    accept(r, tick);
    unsigned place = find(r, key);
    uint64_t but = place == KEYS ? 0 : 1ull << place;
    r->dropped = drop(r, NCH, but) + drop(r, FACCH, but) + drop(r, PCH, but);
    return ACCEPTED;
}

/* Drops all halves of a channel, and of another where there are two. */
static uint32_t drop_channels(uint8_t *state, size_t state_length, uint32_t tick, unsigned channel, unsigned another)
{
    struct receiver *r = (struct receiver *)(void *)state;
    uint32_t refusal = clock_refusal(r, state_length, tick);
    if (refusal)
        return refusal;
    accept(r, tick);
    r->dropped = drop(r, channel, 0) + drop(r, another, 0);
    return ACCEPTED;
}

static uint32_t event_reselected(uint8_t *state, size_t state_length, uint32_t tick)
{
    uint32_t refusal = drop_channels(state, state_length, tick, NCH, PCH);
    if (!refusal) {
        struct receiver *r = (struct receiver *)(void *)state;
        r->nln = NLN_UNKNOWN; /* a new cell numbers its notifications anew */
        r->kept = NONE_KEPT;
        r->bit = BIT_UNKNOWN;
    }
    return refusal;
}

static uint32_t event_handed_over(uint8_t *state, size_t state_length, uint32_t tick)
{
    uint32_t refusal = drop_channels(state, state_length, tick, FACCH, FACCH);
    if (!refusal) {
        struct receiver *r = (struct receiver *)(void *)state;
        r->kept = NONE_KEPT;
        r->bit = BIT_UNKNOWN;
    }
    return refusal;
}

static uint32_t event_bit_22(uint8_t *state, size_t state_length, uint32_t tick, uint32_t value)
{
    struct receiver *r = (struct receiver *)(void *)state;
    uint32_t refusal = clock_refusal(r, state_length, tick);
    if (!refusal && value > 1)
        refusal = RANGE;
    if (refusal)
        return refusal;
    accept(r, tick);
    if (r->bit == 1 && !value && r->kept != NONE_KEPT)
        r->kept = (r->kept + 1) & 3;
    r->bit = (uint8_t)value;
    return ACCEPTED;
}

static uint32_t event_reconfigured(uint8_t *state, size_t state_length, uint32_t tick)
{
    return drop_channels(state, state_length, tick, FACCH, FACCH);
}

static uint32_t event_left_idle(uint8_t *state, size_t state_length, uint32_t tick)
{
    return drop_channels(state, state_length, tick, PCH, PCH);
}

static uint32_t event_tick(uint8_t *state, size_t state_length, uint32_t tick)
{
    struct receiver *r = (struct receiver *)(void *)state;
    uint32_t refusal = clock_refusal(r, state_length, tick);
    if (refusal)
        return refusal;
    accept(r, tick);
    return ACCEPTED;
}

static uint32_t setup(uint8_t *state, size_t state_length, const uint32_t *keys, size_t n_keys, const uint32_t *sets, size_t n_sets, uint32_t tick, uint32_t t3206, uint32_t t3208, uint32_t t3210)
{
    struct receiver *r = (struct receiver *)(void *)state;
    if (state_length != sizeof *r)
        return STATE_LENGTH;
    if (n_keys > KEYS || n_sets != n_keys || t3206 < 1 || t3206 > LONGEST || t3208 < 1 || t3208 > LONGEST || t3210 < 1 || t3210 > LONGEST)
        return SETUP;
    for (size_t i = 0; i < n_keys; i++) {
        if (keys[i] > LAST_KEY || sets[i] & ~0xFFFEu || (i && keys[i] <= keys[i - 1]))
            return SETUP;
    }
    memset(r, 0, sizeof *r);
    r->tick = tick;
    r->timer[NCH] = t3206;
    r->timer[FACCH] = t3208;
    r->timer[PCH] = t3210;
    memset(r->keys, 0xFF, sizeof r->keys);
    memcpy(r->keys, keys, n_keys * sizeof *keys);
    memcpy(r->sets, sets, n_keys * sizeof *sets);
    r->nln = NLN_UNKNOWN;
    r->kept = NONE_KEPT;
    r->bit = BIT_UNKNOWN;
    return ACCEPTED;
}

/* Where the parts 5 to 34 of asternhaken_read stand in a record: its word, the lowest bit, how many bits. */
static uint64_t record_part(const struct record *x, uint32_t part)
{
    enum { BITS, DESCRIPTION, FREQUENCIES, RANDOM, PARTS };
    static const struct { uint8_t word, from, n; } places[] = {
        { BITS, 9, 27 }, { DESCRIPTION, 1, 24 }, { FREQUENCIES, 0, 64 }, { RANDOM, 0, RAND_GIVEN }, { PARTS, FULL, 1 }, { BITS, 8, 1 }, { BITS, 7, 1 }, { DESCRIPTION, DESCRIBED, 1 },
        { DESCRIPTION, 0, 1 }, { DESCRIPTION, SHORT_LIST, 1 }, { RANDOM, SEGMENTED, 1 }, { RANDOM, SEGMENT_ID, 1 }, { RANDOM, RAND_GIVEN, 1 }, { PARTS, EMERGENCY, 1 }, { PARTS, COUNTED, 1 },
        { PARTS, B22_COUNT, 1 }, { PARTS, UPLINK_GIVEN, 1 }, { PARTS, UPLINK_ACCESS, 1 }, { PARTS, AMR, 1 }, { PARTS, FR_AMR_GIVEN, 1 }, { PARTS, HR_AMR_GIVEN, 1 }, { PARTS, SMS, 1 },
        { PARTS, SMS_CONFIDENTIALITY, 1 }, { PARTS, SMS_PRIVACY, 1 }, { BITS, 4, 3 }, { BITS, 0, 4 }, { DESCRIPTION, ALLOCATION_OCTETS, 4 }, { PARTS, CELL_GLOBAL_COUNT, 2 },
        { PARTS, FR_AMR_CONFIG, 4 }, { PARTS, HR_AMR_CONFIG, 4 }
    };
    if (part < 5 || part - 5 >= sizeof places / sizeof *places)
        return 0;
    const uint64_t words[] = { x->call.bits, x->call.description, x->call.frequencies, x->random, x->parts };
    return words[places[part - 5].word] >> places[part - 5].from & ~0ull >> (64 - places[part - 5].n);
}

static uint64_t paged_part(const struct receiver *r, uint32_t part)
{
    if (!r->paged)
        return 0;
    switch (part) {
    case 37: return 1;
    case 38: return r->page.bits >> IDENTITY_OCTETS & 255;
    case 39: return r->page.bits >> FIRST_OCTET & 255;
    case 40: return r->page.other_octets;
    case 41: return r->page.bits >> CHANNEL_FIRST & 3;
    case 42: return r->page.bits >> PRIORITY_GIVEN & 1;
    case 43: return r->page.bits >> PAGE_PRIORITY & 7;
    case 44: return r->page_parts >> CAUSE_GIVEN & 1;
    default: return r->page_parts >> CAUSE & 1;
    }
}

static uint32_t read_part(const uint8_t *state, size_t state_length, uint32_t entry, uint32_t part, uint64_t *value)
{
    const struct receiver *r = (const struct receiver *)(const void *)state;
    if (state_length != sizeof *r)
        return STATE_LENGTH;
    *value = 0;
    if (part == 0)
        *value = r->expired;
    else if (part == 1)
        *value = r->dropped;
    else if (part == 2)
        *value = r->count;
    else if (part >= 37 && part <= 45)
        *value = paged_part(r, part);
    else if (entry < r->count) {
        const struct told *t = &r->entries[entry];
        if (part == 3)
            *value = t->key;
        else if (part == 4)
            *value = t->number;
        else if (part == 35)
            *value = can_follow(t) ? t->follow : 0;
        else if (part == 36)
            *value = can_follow(t) ? t->kept : 0;
        else if (t->number >= CLEAR && t->number <= JOINED)
            *value = record_part(&t->record, part);
    }
    return ACCEPTED;
}

/* ---- The uplink: two moments on a clock that does not wrap, 0 where the uplink is not free and where nobody waits ---- */

enum { GRANTED = 1, REJECTED = 2, WAITING = 3, ALREADY_WAITING = 4, FREE_FOR = 480 };

struct uplink {
    uint64_t now, free_until, wait_until;
    uint32_t tick, t3128;
};

static uint32_t uplink_setup(uint8_t *state, size_t state_length, uint32_t tick, uint32_t t3128)
{
    struct uplink *u = (struct uplink *)(void *)state;
    if (state_length != sizeof *u)
        return STATE_LENGTH;
    if (t3128 < 1 || t3128 > LONGEST)
        return SETUP;
    *u = (struct uplink){ 0, 0, 0, tick, t3128 };
    return ACCEPTED;
}

static inline uint32_t uplink_event(uint8_t *state, size_t state_length, uint32_t tick, int signal)
{
    struct uplink *u = (struct uplink *)(void *)state;
    if (state_length != sizeof *u)
        return STATE_LENGTH;
    uint32_t step = tick - u->tick, ended = 0, told = 0;
    if (step >= 0x80000000u)
        return CLOCK;
    u->tick = tick;
    u->now += step;
    if (u->wait_until && u->now >= u->wait_until)
        u->wait_until = 0, ended = REJECTED;
    if (signal == UPLINK_FREE) {
        if (u->wait_until)
            u->wait_until = 0, ended = GRANTED;
        u->free_until = u->now + FREE_FOR;
    } else if (signal == UPLINK_BUSY) {
        u->free_until = 0;
    } else if (signal == UPLINK_REQUEST) {
        if (u->wait_until)
            told = ALREADY_WAITING;
        else if (u->now < u->free_until)
            told = GRANTED;
        else
            u->wait_until = u->now + u->t3128, told = WAITING;
    }
    return ended << 8 | told << 16;
}

static uint32_t uplink_free(uint8_t *state, size_t state_length, uint32_t tick) { return uplink_event(state, state_length, tick, UPLINK_FREE); }
static uint32_t uplink_busy(uint8_t *state, size_t state_length, uint32_t tick) { return uplink_event(state, state_length, tick, UPLINK_BUSY); }
static uint32_t uplink_request(uint8_t *state, size_t state_length, uint32_t tick) { return uplink_event(state, state_length, tick, UPLINK_REQUEST); }
static uint32_t uplink_tick(uint8_t *state, size_t state_length, uint32_t tick) { return uplink_event(state, state_length, tick, UPLINK_TICK); }

/* ---- The yard set: a receiver, and a current call for each of up to eight keys ---- */

enum { YARD_KEYS = 8, YARD_NUMBERS = 35, SHOWN = 30000 };

struct yard {
    struct receiver r;
    uint32_t since[YARD_KEYS];
    struct told calls[YARD_KEYS]; /* there only where shown has a bit */
    uint8_t shown;
};

static uint32_t yard_setup(uint8_t *state, size_t state_length, const uint32_t *keys, size_t n_keys, const uint32_t *sets, size_t n_sets, uint32_t tick, uint32_t t3206, uint32_t t3208, uint32_t t3210)
{
    struct yard *y = (struct yard *)(void *)state;
    if (state_length != sizeof *y)
        return STATE_LENGTH;
    if (n_keys > YARD_KEYS)
        return SETUP;
    for (size_t i = 0; i < n_keys; i++)
        if (keys[i] & 1)
            return SETUP;
    uint32_t refusal = setup(state, sizeof y->r, keys, n_keys, sets, n_sets, tick, t3206, t3208, t3210);
    if (!refusal)
        y->shown = 0;
    return refusal;
}

static inline void yard_expire(struct yard *y)
{
    for (unsigned rest = y->shown; rest; rest &= rest - 1) {
        unsigned i = (unsigned)__builtin_ctz(rest);
        if (y->r.tick - y->since[i] >= SHOWN)
            y->shown &= (uint8_t)~(1u << i);
    }
}

static uint32_t yard_nch(uint8_t *state, size_t state_length, uint32_t tick, const uint8_t *octets, size_t n)
{
    struct yard *y = (struct yard *)(void *)state;
    if (state_length != sizeof *y)
        return STATE_LENGTH;
    uint8_t nln = y->r.nln;
    uint32_t refusal = event_nch(state, sizeof y->r, tick, octets, n);
    if (refusal)
        return refusal;
    yard_expire(y);
    if (nln != NLN_UNKNOWN && nln != y->r.nln)
        y->shown = 0;
    for (unsigned i = 0; i < y->r.count; i++) {
        const struct told *t = &y->r.entries[i];
        if (t->number >= CLEAR && t->number <= JOINED) {
            y->shown |= (uint8_t)(1u << t->place);
            y->since[t->place] = tick;
            y->calls[t->place] = *t;
        }
    }
    return ACCEPTED;
}

static uint32_t yard_reselected(uint8_t *state, size_t state_length, uint32_t tick)
{
    struct yard *y = (struct yard *)(void *)state;
    if (state_length != sizeof *y)
        return STATE_LENGTH;
    uint32_t refusal = event_reselected(state, sizeof y->r, tick);
    if (!refusal)
        y->shown = 0;
    return refusal;
}

static uint32_t yard_tick(uint8_t *state, size_t state_length, uint32_t tick)
{
    struct yard *y = (struct yard *)(void *)state;
    if (state_length != sizeof *y)
        return STATE_LENGTH;
    uint32_t refusal = event_tick(state, sizeof y->r, tick);
    if (!refusal)
        yard_expire(y);
    return refusal;
}

static uint32_t yard_count(const uint8_t *state, size_t state_length, uint64_t *count)
{
    const struct yard *y = (const struct yard *)(const void *)state;
    *count = state_length == sizeof *y ? (unsigned)__builtin_popcount(y->shown) : 0;
    return state_length == sizeof *y ? ACCEPTED : STATE_LENGTH;
}

static uint32_t yard_call_numbers(const uint8_t *state, size_t state_length, uint32_t i, uint64_t *numbers, size_t n)
{
    const struct yard *y = (const struct yard *)(const void *)state;
    uint64_t all[YARD_NUMBERS] = { 0 };
    if (state_length == sizeof *y) {
        unsigned rest = y->shown;
        while (i-- && rest)
            rest &= rest - 1;
        if (rest) {
            unsigned place = (unsigned)__builtin_ctz(rest);
            const struct told *t = &y->calls[place];
            all[0] = t->key, all[1] = t->number, all[32] = can_follow(t) ? t->follow : 0, all[33] = can_follow(t) ? t->kept : 0, all[34] = y->r.tick - y->since[place];
            for (uint32_t part = 5; part < 35; part++)
                all[part - 3] = record_part(&t->record, part);
        }
    }
    memset(numbers, 0, n * sizeof *numbers);
    hand_over(all, YARD_NUMBERS, numbers, n);
    return state_length == sizeof *y ? ACCEPTED : STATE_LENGTH;
}

#define STRING_(x) #x
#define STRING(x) STRING_(x)
const struct side PLAIN = {
    STRING(PLAIN), sizeof(struct receiver), setup, event_nch, event_facch, event_pch, event_joined, event_reselected, event_handed_over, event_reconfigured, event_left_idle, event_bit_22, event_tick,
    read_part, read_nch_numbers, read_facch_numbers, write_nch, write_facch, sizeof(struct uplink), uplink_setup, { uplink_free, uplink_busy, uplink_request, uplink_tick },
    sizeof(struct yard), yard_setup, yard_nch, yard_reselected, yard_tick, yard_count, yard_call_numbers
};
const struct readers JOIN(PLAIN, _readers) = { read_nch_record, read_facch_record };
