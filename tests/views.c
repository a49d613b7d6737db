/* What a host sees of a state: a whole entry, who is paged, the halves that are held, the next to run out, and whether it was set up. Known answers first; then states that events and chance left, each
 * number of every view held to the state's octets, which are read here once more by docs/STATE.md. What is lent comes from the heap at its exact length, so that valgrind sees
 * a step past it. The last line is 'N passed, M failed'. */
#include <asternhaken.h>

#include <stdio.h>
#include <stdlib.h>
#include <string.h>

#define LENGTH ((size_t)ASTERNHAKEN_STATE_LENGTH)

static unsigned passed, failed;

static void check(int holds, const char *what, int line)
{
    if (holds) {
        passed++;
        return;
    }
    if (failed++ < 20) printf("tests/views.c:%d: %s\n", line, what);
}

#define CHECK(holds) check((holds) != 0, #holds, __LINE__)
#define ACCEPTED(call) CHECK((call) == ASTERNHAKEN_ACCEPTED)

static uint8_t *state, *before;

static void *lent(size_t size)
{
    void *memory = malloc(size ? size : 1);
    if (!memory) exit(2);
    return memory;
}

static uint32_t message(uint32_t (*event)(uint8_t *, size_t, uint32_t, const uint8_t *, size_t), uint32_t tick, const char *hex)
{
    uint8_t octets[23];
    size_t n = 0;
    unsigned octet;
    for (; n < sizeof octets && sscanf(hex + 2 * n, "%2x", &octet) == 1; n++) octets[n] = (uint8_t)octet;
    return event(state, LENGTH, tick, octets, n);
}

/* ---- Views, each of which must leave the state ---- */

static uint64_t held_count(void)
{
    uint64_t *count = (uint64_t *)lent(sizeof *count), number;
    *count = UINT64_MAX;
    memcpy(before, state, LENGTH);
    ACCEPTED(asternhaken_held_count(state, LENGTH, count));
    CHECK(!memcmp(before, state, LENGTH));
    number = *count;
    free(count);
    return number;
}

static uint64_t next_expiry(void)
{
    uint64_t *ms = (uint64_t *)lent(sizeof *ms), number;
    *ms = 77;
    memcpy(before, state, LENGTH);
    ACCEPTED(asternhaken_next_expiry(state, LENGTH, ms));
    CHECK(!memcmp(before, state, LENGTH));
    number = *ms;
    free(ms);
    return number;
}

static struct asternhaken_held held(uint32_t i)
{
    struct asternhaken_held *into = (struct asternhaken_held *)lent(sizeof *into), copy;
    memset(into, 0xff, sizeof *into);
    memcpy(before, state, LENGTH);
    ACCEPTED(asternhaken_held_get(state, LENGTH, i, into));
    CHECK(!memcmp(before, state, LENGTH));
    copy = *into;
    free(into);
    return copy;
}

static struct asternhaken_entry entry(uint32_t i)
{
    struct asternhaken_entry *into = (struct asternhaken_entry *)lent(sizeof *into), copy;
    memset(into, 0xff, sizeof *into);
    memcpy(before, state, LENGTH);
    ACCEPTED(asternhaken_entry_get(state, LENGTH, i, into));
    CHECK(!memcmp(before, state, LENGTH));
    copy = *into;
    free(into);
    return copy;
}

static struct asternhaken_paged paged(void)
{
    struct asternhaken_paged *into = (struct asternhaken_paged *)lent(sizeof *into), copy;
    memset(into, 0xff, sizeof *into);
    memcpy(before, state, LENGTH);
    ACCEPTED(asternhaken_paged_get(state, LENGTH, into));
    CHECK(!memcmp(before, state, LENGTH));
    copy = *into;
    free(into);
    return copy;
}

static int is_set_up(void)
{
    memcpy(before, state, LENGTH);
    uint32_t answer = asternhaken_is_set_up(state, LENGTH);
    CHECK(answer <= 1 && !memcmp(before, state, LENGTH));
    return answer == 1;
}

/* ---- Known answers ---- */

enum { YARD = 9422, DISPATCHER = 9423, MARK = 20, KEYS = 24, KINDS = 424, TICKS = 576, RECORDS = 1176, COUNT = 9584, PAGED = 9592, ENTRIES = 9608, RECORD = 56, ENTRY = 72 };

static const uint32_t keys[3] = { 5, YARD, DISPATCHER }, sets[3] = { 0, ASTERNHAKEN_GROUP_KEY(3), 0 };

/* 4711 VBS: channel 0a4123, priority 2, key number 3, Segment Id 0, count 1; then Segment Id 1, VSTK_RAND 123456789. 4711 VGCS: channel 5b8456. */
#define YARD_FIRST "b00024cea38520919a8b2b2b2b2b2b2b2b2b2b2b"
#define YARD_SECOND "b00024cea30712345678932b2b2b2b2b2b2b2b2b"
#define BOTH_FIRST "4000933a8e1482468001267aa56e1158922b2b2b"
#define FACCH_FIRST "040001267aa56e11592b"
#define FACCH_SECOND "040001267aa0aaaaaaaaab2b"
#define CLEAR "b00024cea08520918b2b2b2b2b2b2b2b2b2b2b2b"
/* Pages: of the TMSI 12345678 for a TCH/F, priority 3; of an IMEISV of nine octets, with every part there is, for a short message. */
#define PAGE_TMSI "0482fa091a2b3c572b"
#define PAGE_WHOLE "048499ab80810182028303fed891a2b3c4df2b2b2b2b2b"

static const struct asternhaken_pch_entry yard_second = { YARD, 1, 0, 0, 0, 0, 0, 0, 0, 0, 1, 0x987654321, 1, 2 };

static void set_up(uint32_t tick)
{
    ACCEPTED(asternhaken_setup(state, LENGTH, keys, 3, sets, 3, tick, 10000, 5000, 4000));
}

static void live_list(void)
{
    memset(state, 0xee, LENGTH);
    CHECK(!is_set_up());
    set_up(UINT32_MAX - 499); /* 500 ms before the tick wraps */
    CHECK(is_set_up() && held_count() == 0 && next_expiry() == ASTERNHAKEN_NEVER && held(0).key == 0);
    ACCEPTED(message(asternhaken_facch, UINT32_MAX - 499, FACCH_FIRST));
    CHECK(held_count() == 1 && next_expiry() == 5000);
    ACCEPTED(message(asternhaken_nch, 500, YARD_FIRST));
    ACCEPTED(asternhaken_pch_put(state, LENGTH, 1500, &yard_second));
    CHECK(held_count() == 3 && next_expiry() == 3000); /* the FACCH half came 2,000 ms ago */

    /* in the order of the subscriptions, and of the channels for each */
    struct asternhaken_held h = held(0);
    CHECK(h.key == YARD && h.on == ASTERNHAKEN_ON_NCH && h.half == ASTERNHAKEN_FIRST_HALF && h.ms_left == 9000);
    CHECK(h.record.call_reference == 4711 && h.record.channel == 0x0a4123 && h.record.full == 1 && h.record.vgcs == 0 && h.record.acknowledged == 1 && h.record.channel_given == 1);
    CHECK(h.record.segment_given == 1 && h.record.segment_id == 0 && h.record.count_given == 1 && h.record.cell_global_count == 1 && h.record.priority == 2 && h.record.cipher_key_number == 3);
    h = held(1);
    CHECK(h.key == YARD && h.on == ASTERNHAKEN_ON_PCH && h.half == ASTERNHAKEN_SECOND_HALF && h.ms_left == 4000);
    CHECK(h.record.rand_given == 1 && h.record.vstk_rand == 0x987654321 && h.record.channel_given == 0 && h.record.cell_global_count == 2);
    h = held(2);
    CHECK(h.key == DISPATCHER && h.on == ASTERNHAKEN_ON_FACCH && h.half == ASTERNHAKEN_FIRST_HALF && h.ms_left == 3000 && h.record.channel == 0x5b8456);
    h = held(3);
    CHECK(h.key == 0 && h.on == 0 && h.half == 0 && h.ms_left == 0 && h.record.call_reference == 0);
    h = held(UINT32_MAX);
    CHECK(h.half == 0 && h.record.priority == 0);

    /* it runs out at the tick that was foretold, and not before; a refused event moves nothing */
    CHECK(asternhaken_tick(state, LENGTH, 1499) == ASTERNHAKEN_REFUSED_CLOCK && next_expiry() == 3000);
    ACCEPTED(asternhaken_tick(state, LENGTH, 4499));
    CHECK(held_count() == 3 && next_expiry() == 1);
    ACCEPTED(asternhaken_tick(state, LENGTH, 4500));
    CHECK(held_count() == 2 && next_expiry() == 1000 && held(1).ms_left == 1000);
    ACCEPTED(message(asternhaken_nch, 4600, YARD_SECOND));
    CHECK(held_count() == 1 && held(0).on == ASTERNHAKEN_ON_PCH && next_expiry() == 900);
    ACCEPTED(asternhaken_left_idle(state, LENGTH, 4700));
    CHECK(held_count() == 0 && next_expiry() == ASTERNHAKEN_NEVER && is_set_up());
}

static void whole_entries(void)
{
    set_up(1000);
    CHECK(entry(0).key == 0 && entry(0).told == 0);
    ACCEPTED(message(asternhaken_nch, 1001, BOTH_FIRST));
    struct asternhaken_entry e = entry(1);
    CHECK(entry(0).key == YARD && e.key == DISPATCHER && e.told == ASTERNHAKEN_TOLD_HALF_STORED && e.record.channel == 0 && e.record.call_reference == 0);
    CHECK(entry(2).key == 0 && entry(ASTERNHAKEN_ENTRIES).key == 0 && entry(UINT32_MAX).key == 0);
    ACCEPTED(message(asternhaken_nch, 1002, YARD_SECOND));
    e = entry(0);
    CHECK(e.key == YARD && e.told == ASTERNHAKEN_TOLD_JOINED && e.record.channel == 0x0a4123 && e.record.vstk_rand == 0x123456789 && e.record.rand_given == 1);
    CHECK(e.follow == ASTERNHAKEN_FOLLOW_NO_COUNT && e.kept_count == 0);
    ACCEPTED(message(asternhaken_nch, 1002, YARD_FIRST)); /* count 1, and raised by the bit */
    CHECK(entry(0).follow == ASTERNHAKEN_FOLLOW_NOT_SAID && entry(0).kept_count == 0);
    ACCEPTED(asternhaken_bit_22(state, LENGTH, 1002, 1));
    ACCEPTED(asternhaken_bit_22(state, LENGTH, 1002, 0));
    ACCEPTED(message(asternhaken_nch, 1002, YARD_SECOND));
    e = entry(0);
    CHECK(e.told == ASTERNHAKEN_TOLD_JOINED && e.follow == ASTERNHAKEN_FOLLOW_WITH_COUNT && e.kept_count == 2 && e.record.cell_global_count == 1);
    ACCEPTED(message(asternhaken_facch, 1002, FACCH_FIRST));
    ACCEPTED(message(asternhaken_facch, 1002, FACCH_SECOND));
    e = entry(0);
    CHECK(e.key == DISPATCHER && e.told == ASTERNHAKEN_TOLD_JOINED && e.follow == ASTERNHAKEN_FOLLOW_NO_KEY && e.kept_count == 0);
    ACCEPTED(message(asternhaken_nch, 1003, CLEAR));
    e = entry(0);
    CHECK(e.told == ASTERNHAKEN_TOLD_CLEAR && e.record.channel == 0x0a4123 && e.record.vstk_rand == 0 && e.record.cipher_key_number == 0 && e.follow == 0 && e.kept_count == 0);
    ACCEPTED(asternhaken_tick(state, LENGTH, 1004));
    CHECK(entry(0).key == 0 && entry(0).record.channel == 0);
}

static void pages(void)
{
    set_up(1000);
    CHECK(paged().paged == 0);
    ACCEPTED(message(asternhaken_facch, 1001, PAGE_TMSI));
    struct asternhaken_paged p = paged();
    CHECK(p.paged == 1 && p.page.identity_octets == 5 && p.page.identity_first == 0xf4 && p.page.identity_rest == 0x12345678 && p.page.channel_first == ASTERNHAKEN_CHANNEL_FIRST_TCH_F);
    CHECK(p.page.emlpp_priority_given == 1 && p.page.emlpp_priority == 3 && p.paging_cause_given == 0 && p.paging_cause == 0);
    CHECK(asternhaken_identity_octet(&p.page, 0) == 0xf4 && asternhaken_identity_octet(&p.page, 4) == 0x78 && asternhaken_identity_octet(&p.page, 5) == 0);
    CHECK(entry(0).key == 0 && held_count() == 0);
    ACCEPTED(message(asternhaken_facch, 1002, PAGE_WHOLE));
    CHECK(asternhaken_tick(state, LENGTH, 1001) == ASTERNHAKEN_REFUSED_CLOCK);
    p = paged();
    CHECK(p.paged == 1 && p.page.identity_octets == 9 && p.page.identity_rest == 0x5701020304050607 && p.page.channel_first == ASTERNHAKEN_CHANNEL_FIRST_TCH_H_OR_F);
    CHECK(p.page.emlpp_priority == 7 && p.paging_cause_given == 1 && p.paging_cause == ASTERNHAKEN_PAGED_FOR_SHORT_MESSAGE);
    ACCEPTED(message(asternhaken_nch, 1003, CLEAR));
    p = paged();
    CHECK(p.paged == 0 && p.page.identity_octets == 0 && p.page.identity_first == 0 && p.page.identity_rest == 0 && p.page.channel_first == 0 && p.page.emlpp_priority == 0 && p.paging_cause == 0);
}

/* ---- The mark of a setup ---- */

static void mark(void)
{
    static const uint8_t mark_of_4[4] = { 'A', 'H', 'K', 4 };
    const uint32_t none = UINT32_MAX, no_group_keys = 0;
    memset(state, 0, LENGTH);
    CHECK(!is_set_up());
    CHECK(asternhaken_setup(state, LENGTH, &none, 1, &no_group_keys, 1, 0, 1, 1, 1) == ASTERNHAKEN_REFUSED_SETUP && !is_set_up());
    ACCEPTED(asternhaken_tick(state, LENGTH, 5)); /* events answer all the same, and set nothing up */
    CHECK(!is_set_up());
    set_up(1000);
    CHECK(is_set_up() && !memcmp(state + MARK, mark_of_4, 4) && state[MARK - 1] == 3 && state[MARK - 2] == 2 && state[MARK - 3] == 4); /* before it the number of keys, no bit and no count */
    for (size_t i = 0; i < 4; i++)
        for (unsigned bit = 0; bit < 8; bit++) {
            state[MARK + i] ^= (uint8_t)(1u << bit);
            CHECK(!is_set_up());
            state[MARK + i] ^= (uint8_t)(1u << bit);
        }
    state[MARK + 3] = 3; /* the layout before this one */
    CHECK(!is_set_up());
    state[MARK + 3] = 4;
    for (size_t i = 0; i < LENGTH; i++) /* nothing else counts */
        if (i < MARK || i >= KEYS) state[i] ^= 0xff;
    CHECK(is_set_up());

    /* no event changes it */
    set_up(1000);
    ACCEPTED(message(asternhaken_nch, 1000, BOTH_FIRST));
    ACCEPTED(message(asternhaken_facch, 1000, FACCH_FIRST));
    ACCEPTED(message(asternhaken_facch, 1000, PAGE_WHOLE));
    ACCEPTED(asternhaken_pch_put(state, LENGTH, 1000, &yard_second));
    ACCEPTED(asternhaken_joined(state, LENGTH, 1000, YARD));
    ACCEPTED(asternhaken_reselected(state, LENGTH, 1000));
    ACCEPTED(asternhaken_handed_over(state, LENGTH, 1000));
    ACCEPTED(asternhaken_reconfigured(state, LENGTH, 1000));
    ACCEPTED(asternhaken_left_idle(state, LENGTH, 1000));
    ACCEPTED(asternhaken_bit_22(state, LENGTH, 1000, 1));
    ACCEPTED(asternhaken_tick(state, LENGTH, 99000));
    CHECK(asternhaken_tick(state, LENGTH, 0) == ASTERNHAKEN_REFUSED_CLOCK);
    CHECK(!memcmp(state + MARK, mark_of_4, 4) && is_set_up());
}

/* ---- Another length, fewer places, more places ---- */

static void wrong_length(size_t length)
{
    uint8_t *octets = (uint8_t *)lent(length), *copy = (uint8_t *)lent(length);
    uint64_t *numbers = (uint64_t *)lent(40 * sizeof *numbers), zeros[40] = { 0 };
    struct asternhaken_entry *e = (struct asternhaken_entry *)lent(sizeof *e);
    struct asternhaken_held *h = (struct asternhaken_held *)lent(sizeof *h);
    struct asternhaken_paged *p = (struct asternhaken_paged *)lent(sizeof *p);
    memset(octets, 0, length);
    memcpy(octets, state, length < LENGTH ? length : LENGTH);
    memcpy(copy, octets, length);
    CHECK(asternhaken_is_set_up(octets, length) == 0);
    memset(numbers, 0xff, 40 * 8);
    CHECK(asternhaken_held_count(octets, length, numbers) == ASTERNHAKEN_REFUSED_LENGTH && numbers[0] == 0 && numbers[1] == UINT64_MAX);
    memset(numbers, 0xff, 40 * 8);
    CHECK(asternhaken_next_expiry(octets, length, numbers) == ASTERNHAKEN_REFUSED_LENGTH && numbers[0] == 0 && numbers[1] == UINT64_MAX);
    memset(numbers, 0xff, 40 * 8);
    CHECK(asternhaken_entry_numbers(octets, length, 0, numbers, 40) == ASTERNHAKEN_REFUSED_LENGTH && !memcmp(numbers, zeros, 40 * 8));
    memset(numbers, 0xff, 40 * 8);
    CHECK(asternhaken_held_numbers(octets, length, 0, numbers, 40) == ASTERNHAKEN_REFUSED_LENGTH && !memcmp(numbers, zeros, 40 * 8));
    memset(numbers, 0xff, 40 * 8);
    CHECK(asternhaken_paged_numbers(octets, length, numbers, 40) == ASTERNHAKEN_REFUSED_LENGTH && !memcmp(numbers, zeros, 40 * 8));
    memset(e, 0xff, sizeof *e), memset(h, 0xff, sizeof *h), memset(p, 0xff, sizeof *p);
    CHECK(asternhaken_entry_get(octets, length, 0, e) == ASTERNHAKEN_REFUSED_LENGTH && !memcmp(e, zeros, sizeof *e));
    CHECK(asternhaken_held_get(octets, length, 0, h) == ASTERNHAKEN_REFUSED_LENGTH && !memcmp(h, zeros, sizeof *h));
    CHECK(asternhaken_paged_get(octets, length, p) == ASTERNHAKEN_REFUSED_LENGTH && !memcmp(p, zeros, sizeof *p));
    CHECK(!memcmp(copy, octets, length));
    free(octets), free(copy), free(numbers), free(e), free(h), free(p);
}

static void lengths(void)
{
    set_up(1000);
    ACCEPTED(message(asternhaken_nch, 1001, CLEAR));
    ACCEPTED(message(asternhaken_nch, 1001, YARD_FIRST));
    wrong_length(LENGTH - 1), wrong_length(LENGTH + 1), wrong_length(0);
    ACCEPTED(message(asternhaken_facch, 1001, PAGE_WHOLE));
    wrong_length(LENGTH - 1), wrong_length(LENGTH + 1);
}

/* As many numbers as there are places, and zeros beyond them. */
static void every_room(uint32_t (*view)(const uint8_t *, size_t, uint32_t, uint64_t *, size_t), uint32_t i, size_t n)
{
    uint64_t all[40] = { 0 }, zeros[40] = { 0 };
    ACCEPTED(view(state, LENGTH, i, all, n));
    CHECK(!memcmp(all + n, zeros, (40 - n) * 8));
    for (size_t room = 0; room <= 40; room++) {
        uint64_t *numbers = (uint64_t *)lent(room * 8);
        memset(numbers, 0xff, room * 8);
        ACCEPTED(view(state, LENGTH, i, numbers, room));
        CHECK(!memcmp(numbers, all, room * 8));
        free(numbers);
    }
}

/* Who is paged, with a number more that is not looked at. */
static uint32_t paged_numbers(const uint8_t *octets, size_t length, uint32_t i, uint64_t *numbers, size_t n)
{
    (void)i;
    return asternhaken_paged_numbers(octets, length, numbers, n);
}

/* ---- Each view beside the octets ---- */

static uint64_t octets_at(size_t at, size_t width)
{
    uint64_t number = 0;
    while (width--) number = number << 8 | state[at + width];
    return number;
}

static void record_at(size_t at, uint64_t *numbers)
{
    numbers[0] = octets_at(at, 4), numbers[1] = octets_at(at + 4, 4), numbers[2] = octets_at(at + 8, 8), numbers[3] = octets_at(at + 16, 8);
    for (size_t i = 0; i < 20; i++) numbers[4 + i] = state[at + 24 + i] != 0;
    for (size_t i = 0; i < 6; i++) numbers[24 + i] = state[at + 44 + i];
}

/* Every view of the state is what its octets say. */
static int agrees(void)
{
    uint64_t due[40], got[40], count = 0, soonest = ASTERNHAKEN_NEVER;
    int same = 1;
    for (uint32_t i = 0; i <= ASTERNHAKEN_ENTRIES; i++) {
        size_t at = ENTRIES + ENTRY * i;
        memset(due, 0, sizeof due), memset(got, 0xff, sizeof got);
        if (i < ASTERNHAKEN_ENTRIES && i < octets_at(COUNT, 4)) {
            due[0] = octets_at(at, 8), due[1] = state[at + 8];
            if (due[1] >= 1 && due[1] <= 3) record_at(at + 16, due + 2);
            due[32] = state[at + 9], due[33] = state[at + 10];
        }
        same &= !asternhaken_entry_numbers(state, LENGTH, i, got, 40) && !memcmp(due, got, sizeof due);
        for (uint32_t p = 0; p < ASTERNHAKEN_ENTRY_NUMBERS; p++) /* and part by part */
            same &= !asternhaken_read(state, LENGTH, i, ASTERNHAKEN_PART_KEY + p, got) && got[0] == due[p];
    }
    memset(due, 0, sizeof due), memset(got, 0xff, sizeof got);
    due[0] = state[PAGED] != 0, due[1] = state[PAGED + 1], due[2] = state[PAGED + 2], due[3] = octets_at(PAGED + 8, 8), due[4] = state[PAGED + 3];
    due[5] = state[PAGED + 4] != 0, due[6] = state[PAGED + 5], due[7] = state[PAGED + 6] != 0, due[8] = state[PAGED + 7] != 0;
    same &= !asternhaken_paged_numbers(state, LENGTH, got, 40) && !memcmp(due, got, sizeof due);
    for (uint32_t p = 0; p < ASTERNHAKEN_PAGED_NUMBERS; p++) same &= !asternhaken_read(state, LENGTH, (uint32_t)count + p, ASTERNHAKEN_PART_PAGED + p, got) && got[0] == due[p];
    for (uint32_t place = 0; place <= 150; place++) {
        memset(due, 0, sizeof due), memset(got, 0xff, sizeof got);
        if (place < 150) { /* behind the last place nothing is held */
            if (!state[KINDS + place]) continue;
            uint32_t timer = (uint32_t)octets_at(4 + 4 * (place % 3), 4), age = (uint32_t)octets_at(0, 4) - (uint32_t)octets_at(TICKS + 4 * place, 4);
            due[0] = octets_at(KEYS + 4 * (place / 3), 4), due[1] = place % 3, due[2] = state[KINDS + place], due[3] = age < timer ? timer - age : 0;
            record_at(RECORDS + RECORD * place, due + 4);
            if (due[3] < soonest) soonest = due[3];
        }
        same &= !asternhaken_held_numbers(state, LENGTH, (uint32_t)count, got, 40) && !memcmp(due, got, sizeof due);
        count += place < 150;
    }
    return same && held_count() == count && next_expiry() == soonest;
}

static uint64_t dice(void)
{
    static uint64_t seed = 16;
    seed ^= seed << 13, seed ^= seed >> 7, seed ^= seed << 17;
    return seed;
}

/* Events of every kind in any order: what the next expiry foretells is what a tick then finds. */
static void by_events(void)
{
    static const char *const nch[3] = { YARD_FIRST, YARD_SECOND, BOTH_FIRST }, *const facch[4] = { FACCH_FIRST, FACCH_SECOND, PAGE_TMSI, PAGE_WHOLE };
    uint32_t tick = UINT32_MAX - 200000;
    unsigned ran_out = 0, most = 0, paging = 0;
    set_up(tick);
    for (unsigned i = 0; i < 600; i++) {
        uint64_t soonest = next_expiry(), held_before = held_count(), expired;
        if (soonest != ASTERNHAKEN_NEVER && dice() % 4 == 0) {
            CHECK(soonest >= 1);
            ACCEPTED(asternhaken_tick(state, LENGTH, tick += (uint32_t)soonest - 1));
            CHECK(held_count() == held_before && next_expiry() == 1);
            ACCEPTED(asternhaken_tick(state, LENGTH, tick += 1));
            ACCEPTED(asternhaken_read(state, LENGTH, 0, ASTERNHAKEN_PART_EXPIRED, &expired));
            CHECK(expired >= 1 && held_count() == held_before - expired);
            ran_out += (unsigned)expired;
        } else if (dice() % 8 == 0) ACCEPTED(asternhaken_joined(state, LENGTH, tick, keys[dice() % 3]));
        else if (dice() % 8 == 0) ACCEPTED(asternhaken_bit_22(state, LENGTH, tick, (uint32_t)(dice() % 2)));
        else if (dice() % 3 == 0) ACCEPTED(message(asternhaken_facch, tick += (uint32_t)(dice() % 900), facch[dice() % 4]));
        else if (dice() % 2 == 0) ACCEPTED(asternhaken_pch_put(state, LENGTH, tick += (uint32_t)(dice() % 900), &yard_second));
        else ACCEPTED(message(asternhaken_nch, tick += (uint32_t)(dice() % 900), nch[dice() % 3]));
        if (held_count() > most) most = (unsigned)held_count();
        paging += (unsigned)paged().paged;
        CHECK(agrees());
    }
    CHECK(ran_out > 50 && most == 4 && paging > 20 && tick < 1000000000); /* it went round the wrap */
}

/* Octets that no setup left. */
static void by_chance(void)
{
    for (unsigned i = 0; i < 60; i++) {
        for (size_t k = 0; k < LENGTH; k++) state[k] = (uint8_t)(dice() >> 24);
        if (i % 2) for (size_t k = 0; k < 150; k++) state[KINDS + k] = (uint8_t)(dice() % 8 ? 0 : dice() % 4);
        if (i % 3) memset(state + COUNT + 1, 0, 3), state[COUNT] %= 12;
        for (size_t k = 0; k < ASTERNHAKEN_ENTRIES; k++) state[ENTRIES + ENTRY * k + 8] %= 5;
        if (i % 4 == 0) memset(state + 5, 0, 3), memset(state + 9, 0, 3), memset(state + 13, 0, 3); /* short timers: all are over */
        CHECK(agrees());
    }
    memset(state, 0xff, LENGTH);
    CHECK(agrees());
    memset(state, 0, LENGTH);
    CHECK(agrees());
}

int main(void)
{
    state = (uint8_t *)lent(LENGTH), before = (uint8_t *)lent(LENGTH);
    live_list();
    whole_entries();
    pages();
    mark();
    lengths();
    every_room(asternhaken_held_numbers, 0, ASTERNHAKEN_HELD_NUMBERS);
    ACCEPTED(message(asternhaken_nch, 1002, CLEAR));
    every_room(asternhaken_entry_numbers, 0, ASTERNHAKEN_ENTRY_NUMBERS);
    every_room(asternhaken_entry_numbers, 7, ASTERNHAKEN_ENTRY_NUMBERS);
    every_room(paged_numbers, 0, ASTERNHAKEN_PAGED_NUMBERS);
    ACCEPTED(message(asternhaken_facch, 1003, PAGE_WHOLE));
    every_room(paged_numbers, 0, ASTERNHAKEN_PAGED_NUMBERS);
    by_events();
    by_chance();
    free(state), free(before);
    printf("%u passed, %u failed\n", passed, failed);
    return failed != 0;
}
