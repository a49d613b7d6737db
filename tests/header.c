/* Holds include/asternhaken.h and docs/STATE.md to the archive, since nothing else does: every function with a known answer (those that view a state stand in tests/views.c), every
 * size and limit, each refusal and told number by its constant, each part of an answer, each struct member by its place, the state octet by octet. What is lent comes from the heap and has its exact
 * length, so that valgrind sees a step past it. The last line is 'N passed, M failed'.
 *
 * The messages were made from document 01 by hand and by the vectors' authors; the fields of each stand beside it. */
#include <asternhaken.h>

#include <stddef.h>
#include <stdio.h>
#include <stdlib.h>
#include <string.h>

#define LENGTH ((size_t)ASTERNHAKEN_STATE_LENGTH)

static unsigned passed, failed;

static void check(int holds, const char *what, int line)
{
    if (holds) {
        passed++;
        return;
    }
    failed++;
    printf("tests/header.c:%d: %s\n", line, what);
}

#define CHECK(holds) check((holds) != 0, #holds, __LINE__)

/* ---- Lending ---- */

static void *lent(size_t size)
{
    void *memory = malloc(size ? size : 1);
    if (!memory) exit(2);
    return memory;
}

static uint8_t *octets_of(const char *hex, size_t *n)
{
    uint8_t *octets = (uint8_t *)lent(strlen(hex) / 2);
    unsigned octet;
    for (*n = 0; sscanf(hex + 2 * *n, "%2x", &octet) == 1; ++*n) octets[*n] = (uint8_t)octet;
    return octets;
}

static int same(const uint8_t *octets, const char *hex)
{
    size_t n;
    uint8_t *other = octets_of(hex, &n);
    int is_same = !memcmp(octets, other, n);
    free(other);
    return is_same;
}

static int all_zero(const uint64_t *numbers, size_t n)
{
    for (size_t i = 0; i < n; i++)
        if (numbers[i]) return 0;
    return 1;
}

/* ---- One receiver, in octets that held anything before ---- */

/* docs/STATE.md: where the blocks begin; places of a subscription, three for each. */
enum { NLN = 16, KEPT = 17, BIT_22 = 18, N_KEYS = 19, MARK = 20, KEYS = 24, SETS = 224, KINDS = 424, TICKS = 576, RECORDS = 1176, EXPIRED = 9576, COUNT = 9584, PAGED = 9592, ENTRIES = 9608, RECORD = 56, ENTRY = 72 };
enum { ON_NCH, ON_FACCH, ON_PCH, CHANNELS };
#define PLACE(subscription, channel) (CHANNELS * (subscription) + (channel))
#define KIND(subscription, channel) state[KINDS + PLACE(subscription, channel)]

static uint8_t *state, *before;

static const uint32_t two_keys[2] = { ASTERNHAKEN_KEY(4711, 0), ASTERNHAKEN_KEY(4711, 1) };

enum { YARD = 9422, DISPATCHER = 9423 };

/* Those that the ciphered calls here have, 3, 4 and 15, and another one, by which sets differ. */
#define GROUP_KEYS(subscription) (ASTERNHAKEN_GROUP_KEY(3) | ASTERNHAKEN_GROUP_KEY(4) | ASTERNHAKEN_GROUP_KEY(15) | ASTERNHAKEN_GROUP_KEY(5 + (subscription) % 2))

/* A setup with these sets of group keys. */
static uint32_t set_up_with(const uint32_t *sets, size_t n_sets, const uint32_t *keys, size_t n, uint32_t tick, uint32_t t3206, uint32_t t3208, uint32_t t3210)
{
    uint32_t *copy = (uint32_t *)lent(n * sizeof *keys), *copy_of_sets = (uint32_t *)lent(n_sets * sizeof *sets);
    memcpy(copy, keys, n * sizeof *keys), memcpy(copy_of_sets, sets, n_sets * sizeof *sets);
    uint32_t result = asternhaken_setup(state, LENGTH, copy, n, copy_of_sets, n_sets, tick, t3206, t3208, t3210);
    CHECK(!memcmp(copy, keys, n * sizeof *keys) && !memcmp(copy_of_sets, sets, n_sets * sizeof *sets));
    free(copy), free(copy_of_sets);
    return result;
}

static uint32_t set_up(const uint32_t *keys, size_t n, uint32_t tick, uint32_t t3206, uint32_t t3208, uint32_t t3210)
{
    uint32_t sets[ASTERNHAKEN_KEYS + 1];
    for (size_t i = 0; i < n; i++) sets[i] = GROUP_KEYS(i);
    return set_up_with(sets, n, keys, n, tick, t3206, t3208, t3210);
}

static void fresh(uint32_t tick)
{
    CHECK(set_up(two_keys, 2, tick, ASTERNHAKEN_T3206, ASTERNHAKEN_T3208, ASTERNHAKEN_T3210) == ASTERNHAKEN_ACCEPTED);
}

static uint32_t nch(uint32_t tick, const char *hex)
{
    size_t n;
    uint8_t *octets = octets_of(hex, &n);
    uint32_t result = asternhaken_nch(state, LENGTH, tick, octets, n);
    CHECK(same(octets, hex));
    free(octets);
    return result;
}

static uint32_t facch(uint32_t tick, const char *hex)
{
    size_t n;
    uint8_t *octets = octets_of(hex, &n);
    uint32_t result = asternhaken_facch(state, LENGTH, tick, octets, n);
    CHECK(same(octets, hex));
    free(octets);
    return result;
}

static uint32_t bit_22(uint32_t tick, uint32_t value)
{
    return asternhaken_bit_22(state, LENGTH, tick, value);
}

static uint32_t pch(uint32_t tick, const struct asternhaken_pch_entry *entry)
{
    struct asternhaken_pch_entry *copy = (struct asternhaken_pch_entry *)lent(sizeof *entry);
    memcpy(copy, entry, sizeof *entry);
    uint32_t result = asternhaken_pch_put(state, LENGTH, tick, copy);
    CHECK(!memcmp(copy, entry, sizeof *entry));
    free(copy);
    return result;
}

static uint64_t part(uint32_t entry, uint32_t which)
{
    uint64_t *value = (uint64_t *)lent(sizeof *value), number;
    *value = 0xdeadbeef;
    if (asternhaken_read(state, LENGTH, entry, which, value) != ASTERNHAKEN_ACCEPTED) check(0, "asternhaken_read refuses", __LINE__);
    number = *value;
    free(value);
    return number;
}

/* An answer's first three parts, one by one and as a struct. */
static int answers(uint64_t expired, uint64_t dropped, uint64_t count)
{
    struct asternhaken_answer *all = (struct asternhaken_answer *)lent(sizeof *all);
    memset(all, 0xff, sizeof *all);
    int same_by_name = asternhaken_answer_get(state, LENGTH, all) == ASTERNHAKEN_ACCEPTED && all->expired == expired && all->dropped == dropped && all->entry_count == count;
    free(all);
    return same_by_name && part(0, ASTERNHAKEN_PART_EXPIRED) == expired && part(0, ASTERNHAKEN_PART_DROPPED) == dropped && part(0, ASTERNHAKEN_PART_ENTRY_COUNT) == count;
}

static int tells(uint32_t entry, uint64_t key, uint64_t told)
{
    return part(entry, ASTERNHAKEN_PART_KEY) == key && part(entry, ASTERNHAKEN_PART_TOLD) == told;
}

/* Whether an entry that is told 2 or 3 can be followed, and with which count. */
static int follows(uint64_t told, uint64_t follow, uint64_t kept_count)
{
    return part(0, ASTERNHAKEN_PART_TOLD) == told && part(0, ASTERNHAKEN_PART_FOLLOW) == follow && part(0, ASTERNHAKEN_PART_KEPT_COUNT) == kept_count;
}

#define ACCEPTED(call) CHECK((call) == ASTERNHAKEN_ACCEPTED)

/* A refused call of a receiver answers its number, with nothing in the upper bits, and leaves every octet of the state. */
#define REFUSED(call, number)              \
    do {                                   \
        memcpy(before, state, LENGTH);     \
        CHECK((call) == (uint32_t)(number)); \
        CHECK(!memcmp(before, state, LENGTH)); \
    } while (0)

/* ---- Messages ---- */

/* 4711 VBS, acknowledged, priority 2, key number 3, and 4711 VGCS, priority 5, key number 4; NLN 1 on the NCH */
#define YARD_FIRST "b00024cea38520919a8b2b2b2b2b2b2b2b2b2b2b"       /* channel 0a4123, Segment Id 0, count 1 */
#define YARD_SECOND "b00024cea30712345678932b2b2b2b2b2b2b2b2b"      /* Segment Id 1, VSTK_RAND 123456789 */
#define YARD_OTHER_SECOND "b00024ce230712345678932b2b2b2b2b2b2b2b2b" /* the same, not acknowledged */
#define DISPATCHER_FIRST "b00024cf54adc22b122b2b2b2b2b2b2b2b2b2b2b" /* channel 5b8456, Segment Id 0 */
#define BOTH_FIRST "4000933a8e1482468001267aa56e1158922b2b2b"       /* both first halves, without NLN */
#define FACCH_FIRST "040001267aa56e11592b"                          /* the VGCS call, channel 5b8456 */
#define FACCH_SECOND "040001267aa0aaaaaaaaab2b"                     /* the VGCS call, VSTK_RAND 555555555 */
#define NOTHING "2b2b2b2b2b2b2b2b2b2b2b2b2b2b2b2b2b2b2b2b"

/* Pages. Of the TMSI 12345678, in five octets, for a TCH/F, priority 3; of the same for an SDCCH with count 2, whose B22 was 0. Of the IMSI 262011234567890, in eight octets, for any channel, with a
 * Paging Cause that says a mobile terminating call. Of an IMEISV in nine octets, with every part there is: for a TCH/H or TCH/F, priority 7, count 2 with B22, VSTK_RAND 123456789,
 * uplink 1, emergency, a short message. */
#define PAGE_TMSI "0482fa091a2b3c572b"
#define PAGE_COUNT_2 "0482fa091a2b3c262b"
#define PAGE_IMSI "048414930810a1b2c3848fab"
#define PAGE_WHOLE "048499ab80810182028303fed891a2b3c4df2b2b2b2b2b"

/* The same calls in one piece, VSTK_RAND 1 on the NCH and 555555555 on the FACCH; on the FACCH with count 2, whose B22 was 0 or 1; and an NCH message of a count alone. */
#define YARD_PIECE "b00024cea385209192800000000b2b2b2b2b2b2b"
#define YARD_PIECE_KEY_5 "b00024cea585209192800000000b2b2b2b2b2b2b" /* with key number 5 */
#define DISPATCHER_PIECE "b00024cf54adc22b12800000000b2b2b2b2b2b2b"
#define FACCH_PIECE_0 "040001267aa56e1158caaaaaaaaaab2b"
#define FACCH_PIECE_1 "040001267aa56e1158daaaaaaaaaab2b"
#define COUNT_3 "1c2b2b2b2b2b2b2b2b2b2b2b2b2b2b2b2b2b2b2b"

/* On the PCH: the VBS call's halves, the second by its key alone and once more with another priority; the VGCS call, clear; one that nobody here follows. */
static const struct asternhaken_pch_entry yard_first = { YARD, 1, 1, YARD << 8 | 0xa3, 1, 0x0a4123, 0, 0, 0, 0, 0, 0, 1, 1 };
static const struct asternhaken_pch_entry yard_second = { YARD, 1, 0, 0, 0, 0, 0, 0, 0, 0, 1, 0x987654321, 1, 2 };
static const struct asternhaken_pch_entry yard_other_second = { YARD, 1, 1, YARD << 8 | 0xb3, 0, 0, 0, 0, 0, 0, 1, 0x987654321, 0, 0 };
static const struct asternhaken_pch_entry dispatcher_clear = { DISPATCHER, 0, 1, DISPATCHER << 8 | 0x50, 1, 0x8b1fff, 1, 0, 2, 0xa55a, 0, 0, 0, 0 };
static const struct asternhaken_pch_entry strange = { 1630, 0, 0, 0, 0, 0, 0, 0, 0, 0, 0, 0, 0, 0 };

/* 99999999 VGCS, acknowledged, priority 7, key number 15, in one piece, with every part its channel has. The PCH has a short list there. NCH: NLN 2, channel 71f3c5, allocation of
 * one octet 5a, count 3, VSTK_RAND fedcba987, emergency, uplink 1, AMR 5 and 11, both SMS bits. FACCH: channel 8b1fff, a short list, count 2
 * with B22, VSTK_RAND 123456789, uplink 1, emergency, and once more with a Paging Cause. Behind each record: follow, with the count that is then kept. */
#define NCH_WHOLE "dbebc1ffffb8f9e2c02b475fedcba98777aefb2b"
#define FACCH_WHOLE "045f5e0ffffe2c7fff8000000000000001ec48d159e253"
#define FACCH_CAUSED "045f5e0ffffe2c7fff8000000000000001ec48d159e257"

static const uint64_t nch_parts[ASTERNHAKEN_PARTS] = {
    0, 0, 1, 199999999, ASTERNHAKEN_TOLD_ONE_PIECE, 99999999, 0x71f3c5, 0x5a, 0xfedcba987,
    1, 1, 1, 1, 1, 0, 1, 0, 1, 1, 1, 0, 1, 1, 1, 1, 1, 1, 1, 1, 7, 15, 1, 3, 5, 11, ASTERNHAKEN_FOLLOW_WITH_COUNT, 3
};
static const uint64_t facch_parts[ASTERNHAKEN_PARTS] = {
    0, 0, 1, 199999999, ASTERNHAKEN_TOLD_ONE_PIECE, 99999999, 0x8b1fff, 0x8000000000000001, 0x123456789,
    1, 1, 1, 1, 1, 1, 0, 0, 1, 1, 1, 1, 1, 1, 0, 0, 0, 0, 0, 0, 7, 15, 0, 2, 0, 0, ASTERNHAKEN_FOLLOW_WITH_COUNT, 2
};

static const struct asternhaken_pch_entry pch_whole = {
    199999999, 1, 1, (uint64_t)199999999 << 8 | 0xff, 1, 0x8b1fff, 1, 1, 0, 0x8000000000000001, 1, 0x123456789, 1, 3
};
static const uint64_t pch_parts[ASTERNHAKEN_PARTS] = {
    0, 0, 1, 199999999, ASTERNHAKEN_TOLD_ONE_PIECE, 99999999, 0x8b1fff, 0x8000000000000001, 0x123456789,
    1, 1, 1, 1, 1, 1, 0, 0, 1, 0, 1, 0, 0, 0, 0, 0, 0, 0, 0, 0, 7, 15, 0, 3, 0, 0, ASTERNHAKEN_FOLLOW_WITH_COUNT, 3
};

static const uint64_t page_parts[ASTERNHAKEN_PARTS] = {
    0, 0, 0, 0, 0, 0, 0, 0, 0, 0, 0, 0, 0, 0, 0, 0, 0, 0, 0, 0, 0, 0, 0, 0, 0, 0, 0, 0, 0, 0, 0, 0, 0, 0, 0, 0, 0, 1, 9, 0x33, 0x5701020304050607, 3, 1, 7, 1, 1
};

/* ---- Setup: limits and refusals ---- */

static void setups(void)
{
    uint32_t keys[ASTERNHAKEN_KEYS + 1];
    for (uint32_t i = 0; i <= ASTERNHAKEN_KEYS; i++) keys[i] = ASTERNHAKEN_LAST_KEY - ASTERNHAKEN_KEYS + i;
    CHECK(ASTERNHAKEN_KEY(99999999, 1) == ASTERNHAKEN_LAST_KEY);
    CHECK(ASTERNHAKEN_KEY(4711, 0) == YARD && ASTERNHAKEN_KEY(4711, 1) == DISPATCHER);
    CHECK(ASTERNHAKEN_T3206 == 10000 && ASTERNHAKEN_T3208 == 5000 && ASTERNHAKEN_T3210 == 5000);

    fresh(77);
    REFUSED(set_up(keys, 51, 5, 5000, 5000, 5000), ASTERNHAKEN_REFUSED_SETUP);
    REFUSED(set_up(two_keys, 2, 5, 0, 5000, 5000), ASTERNHAKEN_REFUSED_SETUP);
    REFUSED(set_up(two_keys, 2, 5, ASTERNHAKEN_LONGEST + 1, 5000, 5000), ASTERNHAKEN_REFUSED_SETUP);
    REFUSED(set_up(two_keys, 2, 5, 5000, 0, 5000), ASTERNHAKEN_REFUSED_SETUP);
    REFUSED(set_up(two_keys, 2, 5, 5000, ASTERNHAKEN_LONGEST + 1, 5000), ASTERNHAKEN_REFUSED_SETUP);
    REFUSED(set_up(two_keys, 2, 5, 5000, 5000, 0), ASTERNHAKEN_REFUSED_SETUP);
    REFUSED(set_up(two_keys, 2, 5, 5000, 5000, ASTERNHAKEN_LONGEST + 1), ASTERNHAKEN_REFUSED_SETUP);
    keys[49] = keys[48];
    REFUSED(set_up(keys, 50, 5, 5000, 5000, 5000), ASTERNHAKEN_REFUSED_SETUP);
    keys[49] = 0; /* not in rising order */
    REFUSED(set_up(keys, 50, 5, 5000, 5000, 5000), ASTERNHAKEN_REFUSED_SETUP);
    keys[49] = ASTERNHAKEN_LAST_KEY + 1;
    REFUSED(set_up(keys, 50, 5, 5000, 5000, 5000), ASTERNHAKEN_REFUSED_SETUP);
    keys[49] = ASTERNHAKEN_LAST_KEY;
    ACCEPTED(set_up(keys, ASTERNHAKEN_KEYS, 5, 1, ASTERNHAKEN_LONGEST, 1));
    ACCEPTED(set_up(keys, ASTERNHAKEN_KEYS, 5, ASTERNHAKEN_LONGEST, 1, ASTERNHAKEN_LONGEST));
    ACCEPTED(set_up(keys, 0, 5, 5000, 5000, 5000));
    CHECK(ASTERNHAKEN_KEYS == 50 && ASTERNHAKEN_LONGEST == 60000);

    /* one set of group keys for each key, of the numbers 1 to 15 */
    uint32_t sets[3] = { 0, 0xfffe, 0 };
    fresh(77);
    REFUSED(set_up_with(sets, 1, two_keys, 2, 5, 5000, 5000, 5000), ASTERNHAKEN_REFUSED_SETUP);
    REFUSED(set_up_with(sets, 3, two_keys, 2, 5, 5000, 5000, 5000), ASTERNHAKEN_REFUSED_SETUP);
    REFUSED(set_up_with(sets, 0, two_keys, 2, 5, 5000, 5000, 5000), ASTERNHAKEN_REFUSED_SETUP);
    REFUSED(set_up_with(sets, 1, two_keys, 0, 5, 5000, 5000, 5000), ASTERNHAKEN_REFUSED_SETUP);
    ACCEPTED(set_up_with(sets, 2, two_keys, 2, 5, 5000, 5000, 5000));
    for (unsigned n = 0; n < 32; n++) {
        sets[1] = ASTERNHAKEN_GROUP_KEY(n);
        if (n >= 1 && n <= ASTERNHAKEN_LAST_GROUP_KEY) ACCEPTED(set_up_with(sets, 2, two_keys, 2, 5, 5000, 5000, 5000));
        else REFUSED(set_up_with(sets, 2, two_keys, 2, 5, 5000, 5000, 5000), ASTERNHAKEN_REFUSED_SETUP);
    }
    CHECK(ASTERNHAKEN_LAST_GROUP_KEY == 15 && ASTERNHAKEN_GROUP_KEY(31) == 0x80000000u);
}

/* ---- Looking a key up: the key in the middle of what may hold it, of two the later, until it is found or nothing is left ---- */

static void found(const uint32_t *keys, size_t n, uint32_t key, uint32_t result, uint64_t place, uint64_t looks)
{
    uint32_t *copy = (uint32_t *)lent(n * sizeof *keys);
    uint64_t *at = (uint64_t *)lent(sizeof *at), *took = (uint64_t *)lent(sizeof *took);
    memcpy(copy, keys, n * sizeof *keys);
    *at = *took = UINT64_MAX;
    CHECK(asternhaken_find(copy, n, key, at, took) == result && *at == place && *took == looks);
    CHECK(!memcmp(copy, keys, n * sizeof *keys));
    free(copy), free(at), free(took);
}

static void lookups(void)
{
    uint32_t keys[ASTERNHAKEN_KEYS + 1];
    for (uint32_t i = 0; i <= ASTERNHAKEN_KEYS; i++) keys[i] = 10 * i + 10;
    found(keys, 0, 10, ASTERNHAKEN_ACCEPTED, ASTERNHAKEN_KEYS, 0);
    found(keys, 1, 10, ASTERNHAKEN_ACCEPTED, 0, 1);
    found(keys, 1, 11, ASTERNHAKEN_ACCEPTED, ASTERNHAKEN_KEYS, 1);
    found(keys, 2, 20, ASTERNHAKEN_ACCEPTED, 1, 1);
    found(keys, 2, 10, ASTERNHAKEN_ACCEPTED, 0, 2);
    found(keys, 2, 21, ASTERNHAKEN_ACCEPTED, ASTERNHAKEN_KEYS, 1);
    /* of 50: 25, 12, 6, 3, 1, 0; 25, 38, 44, 47, 49, 48 */
    found(keys, 50, 260, ASTERNHAKEN_ACCEPTED, 25, 1);
    found(keys, 50, 10, ASTERNHAKEN_ACCEPTED, 0, ASTERNHAKEN_LOOKS);
    found(keys, 50, 490, ASTERNHAKEN_ACCEPTED, 48, ASTERNHAKEN_LOOKS);
    found(keys, 50, 500, ASTERNHAKEN_ACCEPTED, 49, 5);
    found(keys, 50, 0, ASTERNHAKEN_ACCEPTED, ASTERNHAKEN_KEYS, ASTERNHAKEN_LOOKS);
    found(keys, 50, UINT32_MAX, ASTERNHAKEN_ACCEPTED, ASTERNHAKEN_KEYS, 5);
    found(keys, 51, 10, ASTERNHAKEN_REFUSED_SETUP, 0, 0);
    /* keys that fall: the one in the middle alone is found */
    const uint32_t falling[3] = { 30, 20, 10 };
    found(falling, 3, 20, ASTERNHAKEN_ACCEPTED, 1, 1);
    found(falling, 3, 30, ASTERNHAKEN_ACCEPTED, ASTERNHAKEN_KEYS, 2);
    CHECK(ASTERNHAKEN_LOOKS == 6);
}

/* A state of a wrong length is refused before anything else is looked at, and not touched. */
static void wrong_length(size_t length)
{
    uint8_t *octets = (uint8_t *)lent(length), *copy = (uint8_t *)lent(length);
    uint32_t *keys = (uint32_t *)lent(sizeof *keys);
    uint8_t *message = (uint8_t *)lent(1);
    uint64_t *value = (uint64_t *)lent(sizeof *value);
    memcpy(octets, state, length < LENGTH ? length : LENGTH);
    if (length > LENGTH) memset(octets + LENGTH, 0, length - LENGTH);
    memcpy(copy, octets, length);
    *keys = UINT32_MAX;
    *message = 0;
    *value = UINT64_MAX;
    CHECK(asternhaken_setup(octets, length, keys, 1, keys, 1, 0, 0, 0, 0) == ASTERNHAKEN_REFUSED_LENGTH);
    CHECK(asternhaken_nch(octets, length, 0, message, 1) == ASTERNHAKEN_REFUSED_LENGTH);
    CHECK(asternhaken_facch(octets, length, 0, message, 1) == ASTERNHAKEN_REFUSED_LENGTH);
    CHECK(asternhaken_pch(octets, length, 0, value, 1) == ASTERNHAKEN_REFUSED_LENGTH);
    CHECK(asternhaken_joined(octets, length, 0, UINT32_MAX) == ASTERNHAKEN_REFUSED_LENGTH);
    CHECK(asternhaken_reselected(octets, length, 0) == ASTERNHAKEN_REFUSED_LENGTH);
    CHECK(asternhaken_handed_over(octets, length, 0) == ASTERNHAKEN_REFUSED_LENGTH);
    CHECK(asternhaken_reconfigured(octets, length, 0) == ASTERNHAKEN_REFUSED_LENGTH);
    CHECK(asternhaken_left_idle(octets, length, 0) == ASTERNHAKEN_REFUSED_LENGTH);
    CHECK(asternhaken_bit_22(octets, length, 0, 2) == ASTERNHAKEN_REFUSED_LENGTH);
    CHECK(asternhaken_tick(octets, length, 0) == ASTERNHAKEN_REFUSED_LENGTH);
    *value = 7;
    CHECK(asternhaken_read(octets, length, 0, ASTERNHAKEN_PART_ENTRY_COUNT, value) == ASTERNHAKEN_REFUSED_LENGTH);
    CHECK(*value == 0);
    struct asternhaken_answer all = { 1, 2, 3 };
    CHECK(asternhaken_answer_get(octets, length, &all) == ASTERNHAKEN_REFUSED_LENGTH && !all.expired && !all.dropped && !all.entry_count);
    CHECK(asternhaken_pch_put(octets, length, 0, &yard_first) == ASTERNHAKEN_REFUSED_LENGTH);
    CHECK(!memcmp(copy, octets, length));
    free(octets), free(copy), free(keys), free(message), free(value);
}

static void lengths(void)
{
    fresh(1000);
    ACCEPTED(nch(1000, YARD_FIRST));
    CHECK(ASTERNHAKEN_STATE_LENGTH == 10256);
    wrong_length(10255);
    wrong_length(10257);
    wrong_length(10240); /* that of the version before */
    wrong_length(0);
    CHECK(answers(0, 0, 1));
}

/* ---- Events: what each entry is told, what each event drops ---- */

static void told(void)
{
    fresh(1000);
    ACCEPTED(nch(1001, "b000065e008520918b2b2b2b2b2b2b2b2b2b2b2b")); /* 815 VBS */
    CHECK(answers(0, 0, 1) && tells(0, 1630, ASTERNHAKEN_TOLD_NOT_OURS));
    ACCEPTED(nch(1002, "b00024cea08520918b2b2b2b2b2b2b2b2b2b2b2b")); /* key number 0, channel 0a4123 */
    CHECK(tells(0, YARD, ASTERNHAKEN_TOLD_CLEAR) && part(0, ASTERNHAKEN_PART_CHANNEL) == 0x0a4123);
    ACCEPTED(nch(1003, "b00024cea385209192800000000b2b2b2b2b2b2b")); /* Segment Id 0 with VSTK_RAND 1 */
    CHECK(tells(0, YARD, ASTERNHAKEN_TOLD_ONE_PIECE) && part(0, ASTERNHAKEN_PART_VSTK_RAND) == 1);
    ACCEPTED(nch(1004, YARD_FIRST));
    CHECK(tells(0, YARD, ASTERNHAKEN_TOLD_HALF_STORED) && part(0, ASTERNHAKEN_PART_CHANNEL) == 0);
    ACCEPTED(nch(1005, YARD_FIRST));
    CHECK(tells(0, YARD, ASTERNHAKEN_TOLD_HALF_HELD));
    ACCEPTED(nch(1006, DISPATCHER_FIRST));
    CHECK(tells(0, DISPATCHER, ASTERNHAKEN_TOLD_HALF_STORED));
    ACCEPTED(nch(1007, YARD_OTHER_SECOND));
    CHECK(tells(0, YARD, ASTERNHAKEN_TOLD_UNUSABLE));
    ACCEPTED(nch(1008, YARD_SECOND));
    CHECK(tells(0, YARD, ASTERNHAKEN_TOLD_JOINED) && part(0, ASTERNHAKEN_PART_CHANNEL) == 0x0a4123 && part(0, ASTERNHAKEN_PART_VSTK_RAND) == 0x123456789);
    CHECK(part(0, ASTERNHAKEN_PART_COUNT_GIVEN) == 1 && part(0, ASTERNHAKEN_PART_CELL_GLOBAL_COUNT) == 1);
    ACCEPTED(nch(1009, "b00024cea02b2b2b2b2b2b2b2b2b2b2b2b2b2b2b")); /* no channel, key number 0 */
    CHECK(tells(0, YARD, ASTERNHAKEN_TOLD_NO_CHANNEL));
    ACCEPTED(facch(1010, FACCH_SECOND));
    CHECK(tells(0, DISPATCHER, ASTERNHAKEN_TOLD_SECOND_BEFORE_FIRST));
    ACCEPTED(nch(1011, "b00024cea38520918b2b2b2b2b2b2b2b2b2b2b2b")); /* ciphered, with a channel, no random entry */
    CHECK(tells(0, YARD, ASTERNHAKEN_TOLD_UNUSABLE));
    ACCEPTED(facch(1012, FACCH_FIRST));
    CHECK(tells(0, DISPATCHER, ASTERNHAKEN_TOLD_HALF_STORED));
    ACCEPTED(facch(1013, FACCH_SECOND));
    CHECK(tells(0, DISPATCHER, ASTERNHAKEN_TOLD_JOINED) && part(0, ASTERNHAKEN_PART_CHANNEL) == 0x5b8456 && part(0, ASTERNHAKEN_PART_VSTK_RAND) == 0x555555555);
    ACCEPTED(nch(1014, BOTH_FIRST));
    CHECK(answers(0, 0, 2) && tells(0, YARD, ASTERNHAKEN_TOLD_HALF_STORED) && tells(1, DISPATCHER, ASTERNHAKEN_TOLD_HALF_HELD));
    CHECK(tells(2, 0, 0) && tells(UINT32_MAX, 0, 0));
    ACCEPTED(nch(1015, NOTHING));
    CHECK(answers(0, 0, 0) && tells(0, 0, 0));
}

/* First halves on every place: both keys on the NCH, the second key on the FACCH too. The kind octets say which are held. */
static void three_halves(uint32_t tick)
{
    fresh(tick);
    ACCEPTED(nch(tick, BOTH_FIRST));
    ACCEPTED(facch(tick, FACCH_FIRST));
    CHECK(KIND(0, ON_NCH) == 1 && KIND(0, ON_FACCH) == 0 && KIND(1, ON_NCH) == 1 && KIND(1, ON_FACCH) == 1);
}

static void drops(void)
{
    three_halves(1000);
    ACCEPTED(asternhaken_reselected(state, LENGTH, 1001));
    CHECK(answers(0, 2, 0) && !KIND(0, ON_NCH) && !KIND(1, ON_NCH) && KIND(1, ON_FACCH) == 1);
    three_halves(1000);
    ACCEPTED(asternhaken_handed_over(state, LENGTH, 1001));
    CHECK(answers(0, 1, 0) && KIND(0, ON_NCH) == 1 && KIND(1, ON_NCH) == 1 && !KIND(1, ON_FACCH));
    three_halves(1000);
    ACCEPTED(asternhaken_reconfigured(state, LENGTH, 1001));
    CHECK(answers(0, 1, 0) && KIND(0, ON_NCH) == 1 && KIND(1, ON_NCH) == 1 && !KIND(1, ON_FACCH));
    three_halves(1000);
    ACCEPTED(asternhaken_joined(state, LENGTH, 1001, DISPATCHER));
    CHECK(answers(0, 1, 0) && !KIND(0, ON_NCH) && KIND(1, ON_NCH) == 1 && KIND(1, ON_FACCH) == 1);
    three_halves(1000);
    ACCEPTED(asternhaken_joined(state, LENGTH, 1001, ASTERNHAKEN_LAST_KEY));
    CHECK(answers(0, 3, 0));
    three_halves(1000);
    ACCEPTED(nch(1001, "cb2b2b2b2b2b2b2b2b2b2b2b2b2b2b2b2b2b2b2b")); /* NLN 2, the first one seen */
    CHECK(answers(0, 0, 0));
    ACCEPTED(nch(1002, YARD_FIRST)); /* NLN 1 */
    CHECK(answers(0, 2, 1) && KIND(0, ON_NCH) == 1 && !KIND(1, ON_NCH) && KIND(1, ON_FACCH) == 1);
}

/* T3206 is the NCH's timer and comes first, then T3208, the FACCH's, and T3210, the PCH's. */
static void timers(void)
{
    ACCEPTED(set_up(two_keys, 2, UINT32_MAX - 999, 2000, 1500, 1000)); /* 1,000 ms before the tick wraps */
    ACCEPTED(nch(UINT32_MAX - 999, BOTH_FIRST));
    ACCEPTED(facch(UINT32_MAX - 999, FACCH_FIRST));
    ACCEPTED(pch(UINT32_MAX - 999, &yard_first));
    ACCEPTED(asternhaken_tick(state, LENGTH, UINT32_MAX));
    CHECK(answers(0, 0, 0));
    ACCEPTED(asternhaken_tick(state, LENGTH, 0));
    CHECK(answers(1, 0, 0) && !KIND(0, ON_PCH));
    ACCEPTED(asternhaken_tick(state, LENGTH, 499));
    CHECK(answers(0, 0, 0));
    ACCEPTED(asternhaken_tick(state, LENGTH, 500));
    CHECK(answers(1, 0, 0) && !KIND(1, ON_FACCH));
    ACCEPTED(asternhaken_tick(state, LENGTH, 999));
    CHECK(answers(0, 0, 0));
    ACCEPTED(asternhaken_tick(state, LENGTH, 1000));
    CHECK(answers(2, 0, 0) && !KIND(0, ON_NCH) && !KIND(1, ON_NCH));
}

static void refusals(void)
{
    three_halves(1000);
    REFUSED(nch(1001, "2b2b2b2b2b2b2b2b2b2b2b2b2b2b2b2b2b2b2b"), ASTERNHAKEN_REFUSED_MESSAGE_LENGTH);
    REFUSED(nch(1001, NOTHING "2b"), ASTERNHAKEN_REFUSED_MESSAGE_LENGTH);
    REFUSED(nch(1001, ""), ASTERNHAKEN_REFUSED_MESSAGE_LENGTH);
    REFUSED(facch(1001, "04"), ASTERNHAKEN_REFUSED_MESSAGE_LENGTH);
    REFUSED(facch(1001, FACCH_WHOLE "2b"), ASTERNHAKEN_REFUSED_MESSAGE_LENGTH);
    CHECK(ASTERNHAKEN_NCH_LENGTH == strlen(NOTHING) / 2 && ASTERNHAKEN_FACCH_LONGEST == strlen(FACCH_WHOLE) / 2 && ASTERNHAKEN_FACCH_SHORTEST == 2);
    REFUSED(nch(1001, "0492492492492492492492492492492492492492"), ASTERNHAKEN_REFUSED_RAN_OUT_6 | 160 << 8); /* random entries to the last bit */
    REFUSED(facch(1001, "042b"), ASTERNHAKEN_REFUSED_RAN_OUT | 9 << 8);
    CHECK(ASTERNHAKEN_REFUSAL(facch(1001, "040000005802")) == ASTERNHAKEN_REFUSED_RAN_OUT_7 && ASTERNHAKEN_BIT(facch(1001, "040000005802")) == 48);
    REFUSED(nch(1001, "4000933a8ee3e00104808080808080808080ab2b"), ASTERNHAKEN_REFUSED_ALLOCATION_LENGTH); /* nine octets */
    REFUSED(nch(1001, "ffffffffffffffffffffffffffffffffffffffff"), ASTERNHAKEN_REFUSED_REFERENCE);
    REFUSED(asternhaken_joined(state, LENGTH, 1001, ASTERNHAKEN_LAST_KEY + 1), ASTERNHAKEN_REFUSED_REFERENCE);
    REFUSED(nch(1001, "4000933a8e14a2462b2b2b2b2b2b2b2b2b2b2b2b"), ASTERNHAKEN_REFUSED_HOPPING); /* channel 0a5123, not hopping */
    REFUSED(nch(1001, "4000933a80912b2b2b2b2b2b2b2b2b2b2b2b2b2b"), ASTERNHAKEN_REFUSED_RANDOM_ENTRIES); /* one, and the call is clear */
    REFUSED(nch(1001, "4000933a80702b2b2b2b2b2b2b2b2b2b2b2b2b2b"), ASTERNHAKEN_REFUSED_EMERGENCY_MARKS); /* one, and no channel */
    REFUSED(facch(1001, "048000"), ASTERNHAKEN_REFUSED_IDENTITY_LENGTH); /* no octets, ten, and 255; the length octet is cut, then the identity, then what stands behind it */
    REFUSED(facch(1001, "0485002b2b2b2b2b2b2b2b2b2b2b2b2b2b2b2b2b2b2b2b"), ASTERNHAKEN_REFUSED_IDENTITY_LENGTH);
    REFUSED(facch(1001, "04ffff"), ASTERNHAKEN_REFUSED_IDENTITY_LENGTH);
    REFUSED(facch(1001, "0480"), ASTERNHAKEN_REFUSED_RAN_OUT | 9 << 8);
    REFUSED(facch(1001, "0482fa091a2b"), ASTERNHAKEN_REFUSED_RAN_OUT | 17 << 8);
    REFUSED(facch(1001, "0482fa091a2b3c"), ASTERNHAKEN_REFUSED_RAN_OUT | 17 << 8);
    REFUSED(facch(1001, "0480fa"), ASTERNHAKEN_REFUSED_RAN_OUT | 17 << 8);
    REFUSED(facch(1001, "048499ab80810182028303fe"), ASTERNHAKEN_REFUSED_RAN_OUT_6 | 96 << 8);
    REFUSED(nch(999, ""), ASTERNHAKEN_REFUSED_CLOCK);
    REFUSED(facch(999, ""), ASTERNHAKEN_REFUSED_CLOCK);
    REFUSED(asternhaken_joined(state, LENGTH, 999, UINT32_MAX), ASTERNHAKEN_REFUSED_CLOCK);
    REFUSED(asternhaken_reselected(state, LENGTH, 999), ASTERNHAKEN_REFUSED_CLOCK);
    REFUSED(asternhaken_handed_over(state, LENGTH, 999), ASTERNHAKEN_REFUSED_CLOCK);
    REFUSED(asternhaken_reconfigured(state, LENGTH, 999), ASTERNHAKEN_REFUSED_CLOCK);
    REFUSED(bit_22(1001, 2), ASTERNHAKEN_REFUSED_RANGE);
    REFUSED(bit_22(1001, UINT32_MAX), ASTERNHAKEN_REFUSED_RANGE);
    REFUSED(bit_22(999, 2), ASTERNHAKEN_REFUSED_CLOCK);
    REFUSED(asternhaken_tick(state, LENGTH, 999), ASTERNHAKEN_REFUSED_CLOCK);
    REFUSED(asternhaken_tick(state, LENGTH, 1000 + 0x80000000u), ASTERNHAKEN_REFUSED_CLOCK); /* a step of 2^31 */
    ACCEPTED(asternhaken_tick(state, LENGTH, 1000 + 0x7fffffffu));
    CHECK(answers(3, 0, 0));
}

/* ---- The paging channel ---- */

static void paging_channel(void)
{
    /* either half may come first, and the key alone is enough for a second one */
    fresh(1000);
    ACCEPTED(pch(1001, &yard_first));
    CHECK(answers(0, 0, 1) && tells(0, YARD, ASTERNHAKEN_TOLD_HALF_STORED) && KIND(0, ON_PCH) == 1);
    ACCEPTED(pch(1002, &yard_first));
    CHECK(tells(0, YARD, ASTERNHAKEN_TOLD_HALF_HELD));
    ACCEPTED(pch(1003, &yard_other_second));
    CHECK(tells(0, YARD, ASTERNHAKEN_TOLD_UNUSABLE) && KIND(0, ON_PCH) == 1);
    ACCEPTED(pch(1004, &yard_second));
    CHECK(tells(0, YARD, ASTERNHAKEN_TOLD_JOINED) && part(0, ASTERNHAKEN_PART_CHANNEL) == 0x0a4123 && part(0, ASTERNHAKEN_PART_VSTK_RAND) == 0x987654321);
    CHECK(part(0, ASTERNHAKEN_PART_FULL) == 1 && part(0, ASTERNHAKEN_PART_CELL_GLOBAL_COUNT) == 2 && KIND(0, ON_PCH) == 0);
    ACCEPTED(pch(1005, &yard_second));
    CHECK(tells(0, YARD, ASTERNHAKEN_TOLD_HALF_STORED) && KIND(0, ON_PCH) == 2);
    ACCEPTED(pch(1006, &yard_first));
    CHECK(tells(0, YARD, ASTERNHAKEN_TOLD_JOINED) && part(0, ASTERNHAKEN_PART_CHANNEL) == 0x0a4123);
    ACCEPTED(pch(1007, &dispatcher_clear));
    CHECK(tells(0, DISPATCHER, ASTERNHAKEN_TOLD_CLEAR) && part(0, ASTERNHAKEN_PART_FREQUENCIES) == 0xa55a && part(0, ASTERNHAKEN_PART_ALLOCATION_OCTETS) == 2);

    /* what drops its half, and what does not */
    ACCEPTED(pch(1008, &yard_first));
    ACCEPTED(asternhaken_handed_over(state, LENGTH, 1009));
    ACCEPTED(asternhaken_reconfigured(state, LENGTH, 1009));
    ACCEPTED(asternhaken_joined(state, LENGTH, 1009, YARD));
    CHECK(answers(0, 0, 0) && KIND(0, ON_PCH) == 1);
    ACCEPTED(pch(1010, &dispatcher_clear));
    CHECK(answers(0, 1, 1) && KIND(0, ON_PCH) == 0);
    ACCEPTED(pch(1011, &yard_first));
    ACCEPTED(pch(1012, &strange));
    CHECK(answers(0, 1, 1) && tells(0, 1630, ASTERNHAKEN_TOLD_NOT_OURS));
    ACCEPTED(pch(1013, &yard_first));
    ACCEPTED(asternhaken_left_idle(state, LENGTH, 1014));
    CHECK(answers(0, 1, 0));
    ACCEPTED(pch(1015, &yard_first));
    ACCEPTED(asternhaken_reselected(state, LENGTH, 1016));
    CHECK(answers(0, 1, 0));
    ACCEPTED(pch(1017, &yard_first));
    ACCEPTED(asternhaken_joined(state, LENGTH, 1018, DISPATCHER));
    CHECK(answers(0, 1, 0));
    ACCEPTED(pch(1019, &yard_first));
    ACCEPTED(asternhaken_tick(state, LENGTH, 1019 + ASTERNHAKEN_T3210 - 1));
    CHECK(answers(0, 0, 0));
    ACCEPTED(asternhaken_tick(state, LENGTH, 1019 + ASTERNHAKEN_T3210));
    CHECK(answers(1, 0, 0));
}

/* One number of a good entry is another one. */
static void refuses_pch(size_t at, uint64_t number, uint32_t refusal)
{
    uint64_t *numbers = (uint64_t *)lent(sizeof dispatcher_clear);
    memcpy(numbers, &dispatcher_clear, sizeof dispatcher_clear);
    numbers[at] = number;
    REFUSED(asternhaken_pch(state, LENGTH, 1001, numbers, ASTERNHAKEN_PCH_NUMBERS), refusal);
    REFUSED(asternhaken_pch(state, LENGTH, 999, numbers, ASTERNHAKEN_PCH_NUMBERS), ASTERNHAKEN_REFUSED_CLOCK);
    free(numbers);
}

static void pch_refusals(void)
{
    uint64_t numbers[ASTERNHAKEN_PCH_NUMBERS + 1] = { 0 };
    fresh(1000);
    ACCEPTED(pch(1000, &yard_first));
    refuses_pch(ASTERNHAKEN_PCH_KEY, ASTERNHAKEN_LAST_KEY + 1, ASTERNHAKEN_REFUSED_REFERENCE);
    refuses_pch(ASTERNHAKEN_PCH_KEY, YARD, ASTERNHAKEN_REFUSED_RANGE);
    refuses_pch(ASTERNHAKEN_PCH_CIPHERED, 1, ASTERNHAKEN_REFUSED_RANGE);
    refuses_pch(ASTERNHAKEN_PCH_CIPHERED, 2, ASTERNHAKEN_REFUSED_RANGE);
    refuses_pch(ASTERNHAKEN_PCH_REFERENCE_GIVEN, 0, ASTERNHAKEN_REFUSED_RANGE);
    refuses_pch(ASTERNHAKEN_PCH_REFERENCE_GIVEN, 2, ASTERNHAKEN_REFUSED_RANGE);
    refuses_pch(ASTERNHAKEN_PCH_REFERENCE, (uint64_t)1 << 36 | DISPATCHER << 8, ASTERNHAKEN_REFUSED_RANGE);
    refuses_pch(ASTERNHAKEN_PCH_CHANNEL_GIVEN, 2, ASTERNHAKEN_REFUSED_RANGE);
    refuses_pch(ASTERNHAKEN_PCH_CHANNEL, 0x18b1fff, ASTERNHAKEN_REFUSED_RANGE);
    refuses_pch(ASTERNHAKEN_PCH_CHANNEL, 0x8b0fff, ASTERNHAKEN_REFUSED_HOPPING);
    refuses_pch(ASTERNHAKEN_PCH_HOPS, 0, ASTERNHAKEN_REFUSED_HOPPING);
    refuses_pch(ASTERNHAKEN_PCH_HOPS, 2, ASTERNHAKEN_REFUSED_RANGE);
    refuses_pch(ASTERNHAKEN_PCH_SHORT_LIST, 2, ASTERNHAKEN_REFUSED_RANGE);
    refuses_pch(ASTERNHAKEN_PCH_ALLOCATION_OCTETS, 0, ASTERNHAKEN_REFUSED_ALLOCATION_LENGTH);
    refuses_pch(ASTERNHAKEN_PCH_ALLOCATION_OCTETS, 9, ASTERNHAKEN_REFUSED_ALLOCATION_LENGTH);
    refuses_pch(ASTERNHAKEN_PCH_ALLOCATION_OCTETS, 1, ASTERNHAKEN_REFUSED_RANGE);
    refuses_pch(ASTERNHAKEN_PCH_FREQUENCIES, 0x10000, ASTERNHAKEN_REFUSED_RANGE);
    refuses_pch(ASTERNHAKEN_PCH_RAND_GIVEN, 2, ASTERNHAKEN_REFUSED_RANGE);
    refuses_pch(ASTERNHAKEN_PCH_COUNT_GIVEN, 2, ASTERNHAKEN_REFUSED_RANGE);
    memcpy(numbers, &dispatcher_clear, sizeof dispatcher_clear);
    REFUSED(asternhaken_pch(state, LENGTH, 1001, numbers, ASTERNHAKEN_PCH_NUMBERS - 1), ASTERNHAKEN_REFUSED_LENGTH);
    REFUSED(asternhaken_pch(state, LENGTH, 1001, numbers, ASTERNHAKEN_PCH_NUMBERS + 1), ASTERNHAKEN_REFUSED_LENGTH);
    REFUSED(asternhaken_pch(state, LENGTH, 1001, numbers, 0), ASTERNHAKEN_REFUSED_LENGTH);
    /* the clock goes before the length of the entry, and behind that of the state */
    REFUSED(asternhaken_pch(state, LENGTH, 999, numbers, 0), ASTERNHAKEN_REFUSED_CLOCK);
    REFUSED(asternhaken_pch(state, LENGTH - 1, 999, numbers, 0), ASTERNHAKEN_REFUSED_LENGTH);
    REFUSED(asternhaken_left_idle(state, LENGTH, 999), ASTERNHAKEN_REFUSED_CLOCK);
    CHECK(sizeof(struct asternhaken_pch_entry) == ASTERNHAKEN_PCH_NUMBERS * sizeof(uint64_t) && ASTERNHAKEN_PCH_NUMBERS == 14);

    /* what is not looked at */
    numbers[ASTERNHAKEN_PCH_VSTK_RAND] = numbers[ASTERNHAKEN_PCH_CELL_GLOBAL_COUNT] = UINT64_MAX;
    numbers[ASTERNHAKEN_PCH_SHORT_LIST] = 1;
    numbers[ASTERNHAKEN_PCH_ALLOCATION_OCTETS] = UINT64_MAX;
    ACCEPTED(asternhaken_pch(state, LENGTH, 1000, numbers, ASTERNHAKEN_PCH_NUMBERS));
    CHECK(tells(0, DISPATCHER, ASTERNHAKEN_TOLD_CLEAR) && part(0, ASTERNHAKEN_PART_VSTK_RAND) == 0 && part(0, ASTERNHAKEN_PART_CELL_GLOBAL_COUNT) == 0);
    CHECK(part(0, ASTERNHAKEN_PART_SHORT_LIST) == 1 && part(0, ASTERNHAKEN_PART_ALLOCATION_OCTETS) == 0 && part(0, ASTERNHAKEN_PART_FREQUENCIES) == 0xa55a);
}

/* ---- Whether a call can be followed ---- */

/* Its group key first, then the cell's count, which is taken before the entries are told. */
static void following(void)
{
    enum { NOT_SAID = ASTERNHAKEN_FOLLOW_NOT_SAID, NO_KEY = ASTERNHAKEN_FOLLOW_NO_KEY, NO_COUNT = ASTERNHAKEN_FOLLOW_NO_COUNT, WITH_COUNT = ASTERNHAKEN_FOLLOW_WITH_COUNT };
    enum { PIECE = ASTERNHAKEN_TOLD_ONE_PIECE, JOINED = ASTERNHAKEN_TOLD_JOINED };
    fresh(1000);
    ACCEPTED(nch(1000, YARD_PIECE));
    CHECK(follows(PIECE, NO_COUNT, 0));
    ACCEPTED(nch(1000, YARD_FIRST)); /* count 1 */
    CHECK(follows(ASTERNHAKEN_TOLD_HALF_STORED, NOT_SAID, 0));
    ACCEPTED(nch(1000, YARD_FIRST));
    CHECK(follows(ASTERNHAKEN_TOLD_HALF_HELD, NOT_SAID, 0));
    ACCEPTED(nch(1000, YARD_SECOND));
    CHECK(follows(JOINED, WITH_COUNT, 1));
    ACCEPTED(nch(1000, "b00024cea08520918b2b2b2b2b2b2b2b2b2b2b2b")); /* clear */
    CHECK(follows(ASTERNHAKEN_TOLD_CLEAR, NOT_SAID, 0));
    ACCEPTED(nch(1000, COUNT_3));
    CHECK(answers(0, 0, 0));
    ACCEPTED(nch(1000, DISPATCHER_PIECE));
    CHECK(follows(PIECE, WITH_COUNT, 3) && part(0, ASTERNHAKEN_PART_COUNT_GIVEN) == 0);
    REFUSED(nch(1000, "1c2b2b2b2b2b2b2b2b2b2b2b2b2b2b2b2b2b2b"), ASTERNHAKEN_REFUSED_MESSAGE_LENGTH);

    /* the bit: its first value is no change, and from 1 to 0 the count goes from 3 to 0 */
    ACCEPTED(bit_22(1000, 0));
    CHECK(answers(0, 0, 0));
    ACCEPTED(nch(1000, DISPATCHER_PIECE));
    CHECK(follows(PIECE, WITH_COUNT, 3));
    ACCEPTED(bit_22(1000, 1)), ACCEPTED(bit_22(1000, 1)), ACCEPTED(bit_22(1000, 0)), ACCEPTED(bit_22(1000, 0));
    ACCEPTED(nch(1000, DISPATCHER_PIECE));
    CHECK(follows(PIECE, WITH_COUNT, 0));
    ACCEPTED(bit_22(1000, 1));
    REFUSED(bit_22(1000, 2), ASTERNHAKEN_REFUSED_RANGE);
    ACCEPTED(bit_22(1000, 0));
    ACCEPTED(nch(1000, DISPATCHER_PIECE));
    CHECK(follows(PIECE, WITH_COUNT, 1));

    /* on the FACCH a count goes by its B22 and the bit; the record's own stays as it was sent */
    ACCEPTED(facch(1000, FACCH_PIECE_1));
    CHECK(follows(PIECE, WITH_COUNT, 3) && part(0, ASTERNHAKEN_PART_CELL_GLOBAL_COUNT) == 2 && part(0, ASTERNHAKEN_PART_B22_COUNT) == 1);
    ACCEPTED(facch(1000, FACCH_PIECE_0));
    CHECK(follows(PIECE, WITH_COUNT, 2));
    ACCEPTED(bit_22(1000, 1));
    ACCEPTED(nch(1000, COUNT_3));
    ACCEPTED(facch(1000, FACCH_PIECE_1));
    CHECK(follows(PIECE, WITH_COUNT, 2));
    ACCEPTED(pch(1000, &yard_first)); /* count 1 */
    ACCEPTED(pch(1000, &yard_second)); /* count 2 */
    CHECK(follows(JOINED, WITH_COUNT, 2));

    /* what forgets count and bit, and what does not; while the bit is not known, a FACCH count is not taken */
    ACCEPTED(asternhaken_reconfigured(state, LENGTH, 1000));
    ACCEPTED(asternhaken_left_idle(state, LENGTH, 1000));
    ACCEPTED(asternhaken_joined(state, LENGTH, 1000, YARD));
    ACCEPTED(asternhaken_tick(state, LENGTH, 1000));
    ACCEPTED(nch(1000, "cb2b2b2b2b2b2b2b2b2b2b2b2b2b2b2b2b2b2b2b")); /* NLN 2 */
    ACCEPTED(nch(1000, DISPATCHER_PIECE));
    CHECK(follows(PIECE, WITH_COUNT, 2));
    for (int i = 0; i < 2; i++) {
        ACCEPTED((i ? asternhaken_reselected : asternhaken_handed_over)(state, LENGTH, 1000));
        ACCEPTED(facch(1000, FACCH_PIECE_1));
        CHECK(follows(PIECE, NO_COUNT, 0));
        ACCEPTED(nch(1000, COUNT_3));
        ACCEPTED(facch(1000, FACCH_PIECE_1)); /* the older count stays */
        CHECK(follows(PIECE, WITH_COUNT, 3));
        ACCEPTED(bit_22(1000, 1));
    }

    /* the group keys of the call's own subscription, for the key number of its record; no key goes before no count */
    const uint32_t sets[2] = { ASTERNHAKEN_GROUP_KEY(3), ASTERNHAKEN_GROUP_KEY(5) };
    ACCEPTED(set_up_with(sets, 2, two_keys, 2, 1000, 5000, 5000, 5000));
    ACCEPTED(nch(1000, YARD_PIECE_KEY_5));
    CHECK(follows(PIECE, NO_KEY, 0));
    ACCEPTED(nch(1000, YARD_PIECE));
    CHECK(follows(PIECE, NO_COUNT, 0));
    ACCEPTED(nch(1000, COUNT_3));
    ACCEPTED(nch(1000, YARD_PIECE_KEY_5));
    CHECK(follows(PIECE, NO_KEY, 0));
    ACCEPTED(nch(1000, DISPATCHER_PIECE));
    CHECK(follows(PIECE, NO_KEY, 0));
    ACCEPTED(nch(1000, YARD_PIECE));
    CHECK(follows(PIECE, WITH_COUNT, 3));

    /* a bit is an event: what ran out is gone */
    ACCEPTED(nch(1000, YARD_FIRST));
    ACCEPTED(bit_22(5999, 0));
    CHECK(answers(0, 0, 0));
    ACCEPTED(bit_22(6000, 0));
    CHECK(answers(1, 0, 0));
    REFUSED(asternhaken_tick(state, LENGTH, 5999), ASTERNHAKEN_REFUSED_CLOCK);
}

/* ---- Who is paged ---- */

static int pages(uint64_t there, uint64_t octets, uint64_t first, uint64_t rest, uint64_t channel_first, uint64_t priority_given, uint64_t priority, uint64_t cause_given, uint64_t cause)
{
    const struct asternhaken_paged due = { there, { octets, first, rest, channel_first, priority_given, priority }, cause_given, cause };
    struct asternhaken_paged *all = (struct asternhaken_paged *)lent(sizeof *all);
    memset(all, 0xff, sizeof *all);
    int same_by_name = asternhaken_paged_get(state, LENGTH, all) == ASTERNHAKEN_ACCEPTED && !memcmp(all, &due, sizeof due);
    free(all);
    const uint64_t parts_of[ASTERNHAKEN_PAGED_NUMBERS] = { there, octets, first, rest, channel_first, priority_given, priority, cause_given, cause };
    for (uint32_t i = 0; i < ASTERNHAKEN_PAGED_NUMBERS; i++) /* whatever the entry */
        if (part(0, ASTERNHAKEN_PART_PAGED + i) != parts_of[i] || part(UINT32_MAX - i, ASTERNHAKEN_PART_PAGED + i) != parts_of[i]) return 0;
    return same_by_name;
}

static int pages_nobody(void)
{
    return pages(0, 0, 0, 0, 0, 0, 0, 0, 0);
}

static int pages_tmsi(void)
{
    return pages(1, 5, 0xf4, 0x12345678, ASTERNHAKEN_CHANNEL_FIRST_TCH_F, 1, 3, 0, 0);
}

static uint32_t paged_tmsi(uint32_t tick)
{
    uint32_t result = facch(tick, PAGE_TMSI);
    CHECK(result != ASTERNHAKEN_ACCEPTED || pages_tmsi());
    return result;
}

static void paging(void)
{
    const uint32_t no_key = UINT32_MAX;
    fresh(1000);
    CHECK(pages_nobody());
    ACCEPTED(paged_tmsi(1001));
    CHECK(answers(0, 0, 0) && tells(0, 0, 0));
    ACCEPTED(facch(1002, PAGE_IMSI)); /* a cause that is there and 0 */
    CHECK(answers(0, 0, 0) && pages(1, 8, 0x29, 0x26102143658709, ASTERNHAKEN_CHANNEL_FIRST_ANY, 0, 0, 1, ASTERNHAKEN_PAGED_FOR_CALL));
    ACCEPTED(facch(1003, PAGE_WHOLE));
    CHECK(pages(1, 9, 0x33, 0x5701020304050607, ASTERNHAKEN_CHANNEL_FIRST_TCH_H_OR_F, 1, 7, 1, ASTERNHAKEN_PAGED_FOR_SHORT_MESSAGE));
    ACCEPTED(facch(1004, "ff80fa2b")); /* one octet, SDCCH */
    CHECK(pages(1, 1, 0xf4, 0, ASTERNHAKEN_CHANNEL_FIRST_SDCCH, 0, 0, 0, 0));

    /* a refused event or setup leaves it; every accepted one that pages nobody ends it */
    ACCEPTED(paged_tmsi(1005));
    REFUSED(facch(1004, PAGE_IMSI), ASTERNHAKEN_REFUSED_CLOCK);
    REFUSED(facch(1005, "048000"), ASTERNHAKEN_REFUSED_IDENTITY_LENGTH);
    REFUSED(nch(1005, ""), ASTERNHAKEN_REFUSED_MESSAGE_LENGTH);
    REFUSED(set_up(&no_key, 1, 5, 5000, 5000, 5000), ASTERNHAKEN_REFUSED_SETUP);
    CHECK(pages_tmsi());
    ACCEPTED(facch(1005, FACCH_FIRST)); /* of the dispatcher's call, and held on */
    CHECK(answers(0, 0, 1) && pages_nobody());
    ACCEPTED(paged_tmsi(1005)), ACCEPTED(nch(1005, YARD_FIRST));
    CHECK(answers(0, 0, 1) && pages_nobody());
    ACCEPTED(paged_tmsi(1005)), ACCEPTED(pch(1005, &yard_first));
    CHECK(pages_nobody());
    ACCEPTED(paged_tmsi(1005)), ACCEPTED(bit_22(1005, 0));
    CHECK(pages_nobody());
    ACCEPTED(paged_tmsi(1005)), ACCEPTED(asternhaken_tick(state, LENGTH, 1005));
    CHECK(pages_nobody());

    /* a page touches no half, but is an event: what ran out is gone, and its count is taken */
    ACCEPTED(paged_tmsi(1006));
    CHECK(answers(0, 0, 0) && KIND(0, ON_NCH) == 1 && KIND(1, ON_FACCH) == 1 && KIND(0, ON_PCH) == 1);
    ACCEPTED(facch(1007, PAGE_COUNT_2)); /* bit 22 is 0 since 1005 */
    CHECK(pages(1, 5, 0xf4, 0x12345678, ASTERNHAKEN_CHANNEL_FIRST_SDCCH, 0, 0, 0, 0));
    ACCEPTED(facch(1008, FACCH_SECOND));
    CHECK(follows(ASTERNHAKEN_TOLD_JOINED, ASTERNHAKEN_FOLLOW_WITH_COUNT, 2) && pages_nobody());
    ACCEPTED(facch(1009, PAGE_WHOLE)); /* count 2, whose B22 was 1: it is 3 now */
    ACCEPTED(nch(1010, YARD_SECOND));
    CHECK(follows(ASTERNHAKEN_TOLD_JOINED, ASTERNHAKEN_FOLLOW_WITH_COUNT, 3));
    ACCEPTED(facch(1005 + ASTERNHAKEN_T3210 - 1, PAGE_TMSI));
    CHECK(answers(0, 0, 0) && pages_tmsi());
    ACCEPTED(facch(1005 + ASTERNHAKEN_T3210, PAGE_TMSI));
    CHECK(answers(1, 0, 0) && pages_tmsi() && KIND(0, ON_PCH) == 0);
    REFUSED(asternhaken_tick(state, LENGTH, 1005 + ASTERNHAKEN_T3210 - 1), ASTERNHAKEN_REFUSED_CLOCK);
    ACCEPTED(asternhaken_reselected(state, LENGTH, 9000));
    CHECK(pages_nobody());
    ACCEPTED(paged_tmsi(9000)), ACCEPTED(asternhaken_handed_over(state, LENGTH, 9000));
    CHECK(pages_nobody());
    ACCEPTED(paged_tmsi(9000)), ACCEPTED(asternhaken_reconfigured(state, LENGTH, 9000));
    CHECK(pages_nobody());
    ACCEPTED(paged_tmsi(9000)), ACCEPTED(asternhaken_left_idle(state, LENGTH, 9000));
    CHECK(pages_nobody());
    ACCEPTED(paged_tmsi(9000)), ACCEPTED(asternhaken_joined(state, LENGTH, 9000, YARD));
    CHECK(pages_nobody());
    ACCEPTED(paged_tmsi(9000));
    fresh(1);
    CHECK(pages_nobody());
}

/* The octets of an identity, one by one. */
static void identities(void)
{
    const struct asternhaken_page tmsi = { 5, 0xf4, 0x12345678, 0, 0, 0 }, longest = { 9, 0x33, 0x5701020304050607, 0, 0, 0 }, one = { 1, 0xf4, 0, 0, 0, 0 };
    static const uint32_t of_tmsi[5] = { 0xf4, 0x12, 0x34, 0x56, 0x78 }, of_longest[9] = { 0x33, 0x57, 1, 2, 3, 4, 5, 6, 7 };
    for (uint32_t i = 0; i < 12; i++) {
        CHECK(asternhaken_identity_octet(&tmsi, i) == (i < 5 ? of_tmsi[i] : 0));
        CHECK(asternhaken_identity_octet(&longest, i) == (i < 9 ? of_longest[i] : 0));
        CHECK(asternhaken_identity_octet(&one, i) == (i < 1 ? 0xf4 : 0));
    }
    for (uint64_t n = 0; n < 3; n++) { /* lengths that no page has */
        const struct asternhaken_page wrong = { n ? n * 9 + 1 : 0, 0xf4, UINT64_MAX, 0, 0, 0 };
        for (uint32_t i = 0; i < 22; i++) CHECK(asternhaken_identity_octet(&wrong, i) == 0);
    }
    CHECK(asternhaken_identity_octet(&tmsi, UINT32_MAX) == 0);
    CHECK(ASTERNHAKEN_IDENTITY_KIND(tmsi.identity_first) == ASTERNHAKEN_IDENTITY_TMSI && ASTERNHAKEN_IDENTITY_KIND(0x29) == ASTERNHAKEN_IDENTITY_IMSI);
    CHECK(ASTERNHAKEN_IDENTITY_KIND(longest.identity_first) == ASTERNHAKEN_IDENTITY_IMEISV && ASTERNHAKEN_IDENTITY_KIND(0xfa) == ASTERNHAKEN_IDENTITY_IMEI);
    CHECK(ASTERNHAKEN_IDENTITY_KIND(0xf0) == ASTERNHAKEN_IDENTITY_NONE && ASTERNHAKEN_IDENTITY_LONGEST == 9);
}

/* ---- Parts of an answer ---- */

static int no_parts(uint32_t entry, uint32_t from)
{
    int there = 0;
    for (uint32_t p = from; p < ASTERNHAKEN_PARTS + 3; p++) there += part(entry, p) != 0;
    return !there;
}

static void parts(void)
{
    const uint32_t key = ASTERNHAKEN_LAST_KEY;
    ACCEPTED(set_up(&key, 1, 5, 5000, 5000, 5000));
    CHECK(no_parts(0, 0));
    ACCEPTED(nch(6, NCH_WHOLE));
    for (uint32_t p = 0; p < ASTERNHAKEN_PARTS; p++) CHECK(part(0, p) == nch_parts[p]);
    CHECK(no_parts(1, 3) && part(0, ASTERNHAKEN_PARTS) == 0 && part(0, UINT32_MAX) == 0);
    CHECK(part(9, ASTERNHAKEN_PART_ENTRY_COUNT) == 1);
    ACCEPTED(bit_22(7, 1));
    ACCEPTED(facch(7, FACCH_WHOLE));
    for (uint32_t p = 0; p < ASTERNHAKEN_PARTS; p++) CHECK(part(0, p) == facch_parts[p]);
    ACCEPTED(pch(8, &pch_whole));
    for (uint32_t p = 0; p < ASTERNHAKEN_PARTS; p++) CHECK(part(0, p) == pch_parts[p]);
    ACCEPTED(facch(9, PAGE_WHOLE));
    for (uint32_t p = 0; p < ASTERNHAKEN_PARTS; p++) CHECK(part(0, p) == page_parts[p]);
    CHECK(part(0, ASTERNHAKEN_PARTS) == 0 && part(9, ASTERNHAKEN_PARTS - 1) == 1);
}

/* Each member of a struct stands where the array of numbers has it. */
#define AT(type, member, place) CHECK(offsetof(struct asternhaken_##type, member) == (size_t)(place) * sizeof(uint64_t))
#define RECORD_AT(member, PART) AT(record, member, ASTERNHAKEN_PART_##PART - ASTERNHAKEN_PART_CALL_REFERENCE)
#define PAGE_AT(member, PART) AT(page, member, ASTERNHAKEN_PART_##PART - ASTERNHAKEN_PART_IDENTITY_OCTETS)
#define PCH_AT(member, NUMBER) AT(pch_entry, member, ASTERNHAKEN_PCH_##NUMBER)

static void members(void)
{
    RECORD_AT(call_reference, CALL_REFERENCE), RECORD_AT(channel, CHANNEL), RECORD_AT(frequencies, FREQUENCIES), RECORD_AT(vstk_rand, VSTK_RAND);
    RECORD_AT(full, FULL), RECORD_AT(vgcs, VGCS), RECORD_AT(acknowledged, ACKNOWLEDGED), RECORD_AT(channel_given, CHANNEL_GIVEN), RECORD_AT(hops, HOPS);
    RECORD_AT(short_list, SHORT_LIST), RECORD_AT(segment_given, SEGMENT_GIVEN), RECORD_AT(segment_id, SEGMENT_ID), RECORD_AT(rand_given, RAND_GIVEN);
    RECORD_AT(emergency, EMERGENCY), RECORD_AT(count_given, COUNT_GIVEN), RECORD_AT(b22_count, B22_COUNT), RECORD_AT(uplink_given, UPLINK_GIVEN);
    RECORD_AT(uplink_access, UPLINK_ACCESS), RECORD_AT(amr_given, AMR_GIVEN), RECORD_AT(fr_amr_given, FR_AMR_GIVEN), RECORD_AT(hr_amr_given, HR_AMR_GIVEN);
    RECORD_AT(sms_given, SMS_GIVEN), RECORD_AT(sms_confidentiality, SMS_CONFIDENTIALITY), RECORD_AT(sms_privacy, SMS_PRIVACY), RECORD_AT(priority, PRIORITY);
    RECORD_AT(cipher_key_number, CIPHER_KEY_NUMBER), RECORD_AT(allocation_octets, ALLOCATION_OCTETS), RECORD_AT(cell_global_count, CELL_GLOBAL_COUNT);
    RECORD_AT(fr_amr_config, FR_AMR_CONFIG), RECORD_AT(hr_amr_config, HR_AMR_CONFIG);
    CHECK(ASTERNHAKEN_RECORD_NUMBERS == ASTERNHAKEN_PART_HR_AMR_CONFIG + 1 - ASTERNHAKEN_PART_CALL_REFERENCE && ASTERNHAKEN_PARTS == ASTERNHAKEN_PART_PAGING_CAUSE + 1);
    CHECK(ASTERNHAKEN_ENTRY_NUMBERS == ASTERNHAKEN_PART_KEPT_COUNT + 1 - ASTERNHAKEN_PART_KEY && ASTERNHAKEN_HELD_NUMBERS == 4 + ASTERNHAKEN_RECORD_NUMBERS);
    CHECK(ASTERNHAKEN_PAGED_NUMBERS == ASTERNHAKEN_PARTS - ASTERNHAKEN_PART_PAGED && ASTERNHAKEN_PAGE_NUMBERS == ASTERNHAKEN_PART_EMLPP_PRIORITY + 1 - ASTERNHAKEN_PART_IDENTITY_OCTETS);
    AT(paged, paged, 0), AT(paged, page, ASTERNHAKEN_PART_IDENTITY_OCTETS - ASTERNHAKEN_PART_PAGED), PAGE_AT(identity_octets, IDENTITY_OCTETS), PAGE_AT(identity_first, IDENTITY_FIRST);
    PAGE_AT(identity_rest, IDENTITY_REST), PAGE_AT(channel_first, CHANNEL_FIRST), PAGE_AT(emlpp_priority_given, EMLPP_PRIORITY_GIVEN), PAGE_AT(emlpp_priority, EMLPP_PRIORITY);
    AT(paged, paging_cause_given, ASTERNHAKEN_PART_PAGING_CAUSE_GIVEN - ASTERNHAKEN_PART_PAGED), AT(paged, paging_cause, ASTERNHAKEN_PART_PAGING_CAUSE - ASTERNHAKEN_PART_PAGED);
    AT(entry, key, ASTERNHAKEN_PART_KEY - ASTERNHAKEN_PART_KEY), AT(entry, told, ASTERNHAKEN_PART_TOLD - ASTERNHAKEN_PART_KEY);
    AT(entry, record, ASTERNHAKEN_PART_CALL_REFERENCE - ASTERNHAKEN_PART_KEY);
    AT(entry, follow, ASTERNHAKEN_PART_FOLLOW - ASTERNHAKEN_PART_KEY), AT(entry, kept_count, ASTERNHAKEN_PART_KEPT_COUNT - ASTERNHAKEN_PART_KEY);
    AT(held, key, 0), AT(held, on, 1), AT(held, half, 2), AT(held, ms_left, 3), AT(held, record, 4);
    AT(answer, expired, ASTERNHAKEN_PART_EXPIRED), AT(answer, dropped, ASTERNHAKEN_PART_DROPPED), AT(answer, entry_count, ASTERNHAKEN_PART_ENTRY_COUNT);
    PCH_AT(key, KEY), PCH_AT(ciphered, CIPHERED), PCH_AT(reference_given, REFERENCE_GIVEN), PCH_AT(reference, REFERENCE), PCH_AT(channel_given, CHANNEL_GIVEN), PCH_AT(channel, CHANNEL);
    PCH_AT(hops, HOPS), PCH_AT(short_list, SHORT_LIST), PCH_AT(allocation_octets, ALLOCATION_OCTETS), PCH_AT(frequencies, FREQUENCIES);
    PCH_AT(rand_given, RAND_GIVEN), PCH_AT(vstk_rand, VSTK_RAND), PCH_AT(count_given, COUNT_GIVEN), PCH_AT(cell_global_count, CELL_GLOBAL_COUNT);

    /* the numbers of a message and of an element as the header counts them */
    AT(nch_message, used, 0), AT(nch_message, nln_given, 1), AT(nch_message, nln, 2), AT(nch_message, n_calls, 3), AT(nch_message, calls, 4);
    AT(nch_message, release_6_given, 48), AT(nch_message, count_given, 49), AT(nch_message, cell_global_count, 50), AT(nch_message, n_reduced, 51);
    AT(nch_message, reduced, 52), AT(nch_message, n_random, 62), AT(nch_message, random, 63), AT(nch_message, release_7_given, 90);
    AT(nch_message, n_emergency_marks, 91), AT(nch_message, emergency_marks, 92), AT(nch_message, uplink_given, 96);
    AT(nch_message, uplink_access, 97), AT(nch_message, amr_given, 98), AT(nch_message, fr_amr_given, 99), AT(nch_message, fr_amr_config, 100);
    AT(nch_message, hr_amr_given, 101), AT(nch_message, hr_amr_config, 102), AT(nch_message, sms_given, 103);
    AT(nch_message, sms_confidentiality, 104), AT(nch_message, sms_privacy, 105);
    AT(call, call_reference, 0), AT(call, vgcs, 1), AT(call, acknowledged, 2), AT(call, priority, 3), AT(call, cipher_key_number, 4), AT(call, channel_given, 5);
    AT(call, channel, 6), AT(call, hops, 7), AT(call, short_list, 8), AT(call, allocation_octets, 9), AT(call, frequencies, 10);
    AT(reduced, call_reference, 0), AT(reduced, vgcs, 1), AT(random, segment_id, 0), AT(random, rand_given, 1), AT(random, vstk_rand, 2);
    AT(facch_message, used, 0), AT(facch_message, paging, 1), AT(facch_message, call, 2), AT(facch_message, page, 13), AT(facch_message, release_6_given, 19);
    AT(facch_message, count_given, 20), AT(facch_message, cell_global_count, 21), AT(facch_message, b22_count, 22), AT(facch_message, rand_given, 23), AT(facch_message, vstk_rand, 24);
    AT(facch_message, release_7_given, 25), AT(facch_message, uplink_access, 26), AT(facch_message, emergency, 27), AT(facch_message, paging_cause_given, 28), AT(facch_message, paging_cause, 29);
    AT(message_type, send_sequence_number, 0), AT(message_type, message_type, 1);
    AT(call_reference, call_reference, 0), AT(call_reference, priority_given, 1), AT(call_reference, priority, 2);
    AT(state_attributes, da, 0), AT(state_attributes, ua, 1), AT(state_attributes, comm, 2), AT(state_attributes, oi, 3), AT(sms, dc, 0), AT(sms, gp, 1);
    AT(cause, meaning, 0), AT(cause, value, 1), AT(cause, n_septets, 2), AT(cause, septets, 3), AT(cause, n_diagnostics, 258), AT(cause, diagnostics, 259);
}

/* ---- The state octet by octet ---- */

static uint8_t *layout; /* what docs/STATE.md says the state is */

/* Least significant octet first. */
static void put(size_t at, size_t width, uint64_t value)
{
    for (size_t i = 0; i < width; i++) layout[at + i] = (uint8_t)(value >> 8 * i);
}

static void clear(size_t at, size_t n)
{
    memset(layout + at, 0, n);
}

/* A record of 4711 VBS with channel 0a4123 and Segment Id 0: flags 24 full, 26 acknowledged, 27 described, 30 Segment Id there. */
static void put_first(size_t at)
{
    clear(at, RECORD);
    put(at, 4, 4711);
    put(at + 4, 4, 0x0a4123);
    layout[at + 24] = layout[at + 26] = layout[at + 27] = layout[at + 30] = 1;
    layout[at + 44] = 2;
    layout[at + 45] = 3;
}

static void put_answer(uint32_t tick, uint32_t expired, uint32_t dropped, uint32_t count)
{
    put(0, 4, tick);
    put(EXPIRED, 4, expired);
    put(EXPIRED + 4, 4, dropped);
    put(COUNT, 4, count);
}

static void put_told(size_t entry, uint64_t key, uint8_t number)
{
    put(ENTRIES + ENTRY * entry, 8, key);
    layout[ENTRIES + ENTRY * entry + 8] = number;
}

/* Octets that the next events leave as they are. */
static void leave(size_t at, size_t n, int octet)
{
    memset(state + at, octet, n), memset(layout + at, octet, n);
}

#define LAID_OUT() CHECK(!memcmp(state, layout, LENGTH))

static void octets(void)
{
    uint32_t keys[3] = { 5, YARD, DISPATCHER };
    memset(state, 0xee, LENGTH);
    ACCEPTED(set_up(keys, 3, 0x01020304, 5000, 4000, 3000));
    clear(0, LENGTH);
    put(0, 4, 0x01020304);
    put(4, 4, 5000);
    put(8, 4, 4000);
    put(12, 4, 3000);
    layout[NLN] = layout[KEPT] = 4;
    layout[BIT_22] = 2;
    layout[N_KEYS] = 3;
    for (size_t i = 0; i < 50; i++) put(KEYS + 4 * i, 4, i < 3 ? keys[i] : UINT32_MAX);
    for (size_t i = 0; i < 3; i++) put(SETS + 4 * i, 4, GROUP_KEYS(i));
    memcpy(layout + MARK, state + MARK, KEYS - MARK); /* tests/views.c has the mark */
    LAID_OUT();

    /* what no event looks at stays as it is: the unused octets, the mark, the answer's entries from the second on */
    leave(MARK, KEYS - MARK, 0xa1);
    leave(KINDS + 150, TICKS - KINDS - 150, 0xa2);
    leave(COUNT + 4, PAGED - COUNT - 4, 0xa3);
    leave(ENTRIES + 11, 5, 0xa4);
    leave(ENTRIES + ENTRY, 8 * ENTRY, 0xa5);

    /* flag 34 is the count's, octet 47 the count */
    const size_t on_nch = PLACE(1, ON_NCH), on_facch = PLACE(2, ON_FACCH), on_pch = PLACE(1, ON_PCH);
    size_t at = RECORDS + RECORD * on_nch;
    CHECK(on_nch == 3 && on_facch == 7 && on_pch == 5);
    ACCEPTED(nch(0x01020305, YARD_FIRST));
    put_answer(0x01020305, 0, 0, 1);
    layout[NLN] = layout[KEPT] = 1;
    layout[KINDS + on_nch] = 1;
    put(TICKS + 4 * on_nch, 4, 0x01020305);
    put_first(at);
    layout[at + 34] = layout[at + 47] = 1;
    put_told(0, YARD, 4);
    LAID_OUT();

    ACCEPTED(facch(0x01020306, FACCH_FIRST));
    put_answer(0x01020306, 0, 0, 1);
    layout[KINDS + on_facch] = 1;
    put(TICKS + 4 * on_facch, 4, 0x01020306);
    at = RECORDS + RECORD * on_facch;
    put(at, 4, 4711);
    put(at + 4, 4, 0x5b8456);
    layout[at + 24] = layout[at + 25] = layout[at + 27] = 1;
    layout[at + 44] = 5;
    layout[at + 45] = 4;
    put_told(0, DISPATCHER, 4);
    LAID_OUT();

    /* a second half by its key alone: flag 32 is the VSTK_RAND's, flag 34 the count's */
    ACCEPTED(pch(0x01020306, &yard_second));
    put_answer(0x01020306, 0, 0, 1);
    layout[KINDS + on_pch] = 2;
    put(TICKS + 4 * on_pch, 4, 0x01020306);
    at = RECORDS + RECORD * on_pch;
    put(at, 4, 4711);
    put(at + 16, 8, 0x987654321);
    layout[at + 32] = layout[at + 34] = 1;
    layout[at + 47] = layout[KEPT] = 2;
    put_told(0, YARD, 4);
    LAID_OUT();

    /* dropped: all zero again */
    ACCEPTED(asternhaken_left_idle(state, LENGTH, 0x01020306));
    put_answer(0x01020306, 0, 1, 0);
    layout[KINDS + on_pch] = 0;
    clear(TICKS + 4 * on_pch, 4);
    clear(at, RECORD);
    LAID_OUT();

    /* who is paged, over octets that held anything: there, length, first octet, channel first, priority there, priority, cause there, cause, the other octets; then nobody */
    memset(state + PAGED, 0xa6, ENTRIES - PAGED);
    ACCEPTED(facch(0x01020306, PAGE_TMSI));
    static const uint8_t of_tmsi[16] = { 1, 5, 0xf4, 2, 1, 3, 0, 0, 0x78, 0x56, 0x34, 0x12, 0, 0, 0, 0 }, of_whole[16] = { 1, 9, 0x33, 3, 1, 7, 1, 1, 7, 6, 5, 4, 3, 2, 1, 0x57 };
    put_answer(0x01020306, 0, 0, 0);
    memcpy(layout + PAGED, of_tmsi, sizeof of_tmsi);
    LAID_OUT();
    ACCEPTED(facch(0x01020306, PAGE_WHOLE)); /* its count is not taken, since bit 22 is not known */
    memcpy(layout + PAGED, of_whole, sizeof of_whole);
    LAID_OUT();
    ACCEPTED(asternhaken_tick(state, LENGTH, 0x01020306));
    clear(PAGED, ENTRIES - PAGED);
    LAID_OUT();

    /* bit 22, and the kept count that it raises */
    ACCEPTED(bit_22(0x01020306, 1));
    put_answer(0x01020306, 0, 0, 0);
    layout[BIT_22] = 1;
    LAID_OUT();
    ACCEPTED(bit_22(0x01020306, 0));
    layout[BIT_22] = 0;
    layout[KEPT] = 3;
    LAID_OUT();

    /* joined: the place is all zero, and the record in the answer has flag 32 and the VSTK_RAND; before it stands that the call can be followed, and with which count */
    ACCEPTED(nch(0x01020307, YARD_SECOND));
    put_answer(0x01020307, 0, 0, 1);
    put_told(0, YARD, 3);
    layout[ENTRIES + 9] = ASTERNHAKEN_FOLLOW_WITH_COUNT;
    layout[ENTRIES + 10] = 3;
    at = ENTRIES + 16;
    put_first(at);
    layout[at + 34] = layout[at + 47] = layout[at + 32] = 1;
    put(at + 16, 8, 0x123456789);
    layout[KINDS + on_nch] = 0;
    clear(TICKS + 4 * on_nch, 4);
    clear(RECORDS + RECORD * on_nch, RECORD);
    LAID_OUT();

    /* not ours: the record of the last answer stays, and is not read */
    ACCEPTED(nch(0x01020308, "b000065e008520918b2b2b2b2b2b2b2b2b2b2b2b"));
    put_answer(0x01020308, 0, 0, 1);
    put_told(0, 1630, 0);
    layout[ENTRIES + 9] = layout[ENTRIES + 10] = 0;
    LAID_OUT();
    CHECK(no_parts(0, 4));

    /* run out: all zero again */
    ACCEPTED(asternhaken_tick(state, LENGTH, 0x01020306 + 4000));
    put_answer(0x01020306 + 4000, 1, 0, 0);
    layout[KINDS + on_facch] = 0;
    clear(TICKS + 4 * on_facch, 4);
    clear(RECORDS + RECORD * on_facch, RECORD);
    LAID_OUT();
    CHECK(no_parts(0, 3));

    /* in another cell count and bit are unknown, after a handover with the NLN as it was */
    ACCEPTED(asternhaken_handed_over(state, LENGTH, 0x01020306 + 4000));
    put_answer(0x01020306 + 4000, 0, 0, 0);
    layout[KEPT] = 4;
    layout[BIT_22] = 2;
    LAID_OUT();
    ACCEPTED(bit_22(0x01020306 + 4000, 1));
    ACCEPTED(asternhaken_reselected(state, LENGTH, 0x01020306 + 4000));
    layout[NLN] = 4;
    LAID_OUT();
}

/* Octets that no setup left are answered by the same tables. */
static void made_by_hand(void)
{
    uint64_t parts_of[ASTERNHAKEN_PARTS] = { 7, 0x01020304, 1, 0x0102030405060708, 3, 0xfffffffe, 0x11223344, 0x1122334455667788, 0x99aabbccddeeff00 };
    const size_t record = ENTRIES + 16;
    memset(layout, 0xee, LENGTH);
    put_answer(0, 7, 0x01020304, 1);
    put_told(0, 0x0102030405060708, 3);
    put(record, 4, 0xfffffffe);
    put(record + 4, 4, 0x11223344);
    put(record + 8, 8, 0x1122334455667788);
    put(record + 16, 8, 0x99aabbccddeeff00);
    for (size_t i = 0; i < 20; i++) layout[record + 24 + i] = (uint8_t)(200 + i), parts_of[9 + i] = 1;
    for (size_t i = 0; i < 6; i++) layout[record + 44 + i] = (uint8_t)(100 + i), parts_of[29 + i] = 100 + i;
    layout[ENTRIES + 9] = 0x77;
    parts_of[ASTERNHAKEN_PART_FOLLOW] = 0x77, parts_of[ASTERNHAKEN_PART_KEPT_COUNT] = 0xee;
    for (uint8_t i = 0; i < 16; i++) layout[PAGED + i] = (uint8_t)(0xf0 + i);
    parts_of[ASTERNHAKEN_PART_PAGED] = parts_of[ASTERNHAKEN_PART_EMLPP_PRIORITY_GIVEN] = parts_of[ASTERNHAKEN_PART_PAGING_CAUSE_GIVEN] = parts_of[ASTERNHAKEN_PART_PAGING_CAUSE] = 1;
    parts_of[ASTERNHAKEN_PART_IDENTITY_OCTETS] = 0xf1, parts_of[ASTERNHAKEN_PART_IDENTITY_FIRST] = 0xf2, parts_of[ASTERNHAKEN_PART_IDENTITY_REST] = 0xfffefdfcfbfaf9f8;
    parts_of[ASTERNHAKEN_PART_CHANNEL_FIRST] = 0xf3, parts_of[ASTERNHAKEN_PART_EMLPP_PRIORITY] = 0xf5;
    memcpy(state, layout, LENGTH);
    for (uint32_t p = 0; p < ASTERNHAKEN_PARTS; p++) CHECK(part(0, p) == parts_of[p]);
    for (uint32_t i = 0; i < 20; i++) { /* each flag alone is 0 */
        state[record + 24 + i] = 0;
        CHECK(part(0, 9 + i) == 0 && part(0, 9 + (i + 1) % 20) == 1 && part(0, 9 + (i + 19) % 20) == 1);
        state[record + 24 + i] = 1;
    }
    CHECK(pages(1, 0xf1, 0xf2, 0xfffefdfcfbfaf9f8, 0xf3, 1, 0xf5, 1, 1));
    state[PAGED] = 0; /* what stands behind it is read as it stands */
    CHECK(pages(0, 0xf1, 0xf2, 0xfffefdfcfbfaf9f8, 0xf3, 1, 0xf5, 1, 1));
    state[PAGED + 4] = 0;
    CHECK(pages(0, 0xf1, 0xf2, 0xfffefdfcfbfaf9f8, 0xf3, 0, 0xf5, 1, 1));
    state[PAGED + 6] = 0;
    CHECK(pages(0, 0xf1, 0xf2, 0xfffefdfcfbfaf9f8, 0xf3, 0, 0xf5, 0, 1));
    memset(state + PAGED, 0, ENTRIES - PAGED);
    CHECK(pages_nobody());
    state[ENTRIES + 8] = 4; /* told 4 has no record; what stands beside it is read as it stands */
    CHECK(follows(4, 0x77, 0xee));
    state[ENTRIES + 9] = state[ENTRIES + 10] = 0;
    CHECK(no_parts(0, 5) && tells(0, 0x0102030405060708, 4) && tells(1, 0, 0));
    state[COUNT] = 200; /* any number is read as it stands, but there are nine entries */
    CHECK(part(0, ASTERNHAKEN_PART_ENTRY_COUNT) == 200);
    CHECK(tells(ASTERNHAKEN_ENTRIES - 1, 0xeeeeeeeeeeeeeeee, 0xee) && no_parts(ASTERNHAKEN_ENTRIES, 3));

    /* the key stands at the places 0 and 1, of which the halving finds the second; a kind of 9 is a second half, which 0a4123's first half joins */
    memset(state, 0, LENGTH);
    state[4] = state[8] = state[12] = 100;
    state[NLN] = 4;
    state[N_KEYS] = 2;
    for (size_t i = 0; i < 2; i++) state[KEYS + 4 * i] = YARD % 256, state[KEYS + 1 + 4 * i] = YARD / 256;
    KIND(0, ON_NCH) = KIND(1, ON_NCH) = 9;
    state[RECORDS + RECORD * PLACE(1, ON_NCH) + 16] = 0x55;
    ACCEPTED(nch(99, YARD_FIRST));
    CHECK(answers(0, 0, 1) && tells(0, YARD, ASTERNHAKEN_TOLD_JOINED) && part(0, ASTERNHAKEN_PART_VSTK_RAND) == 0x55 && KIND(0, ON_NCH) == 9 && KIND(1, ON_NCH) == 0);
    CHECK(part(0, ASTERNHAKEN_PART_FOLLOW) == ASTERNHAKEN_FOLLOW_NO_KEY);

    /* what stands behind so many keys is none; a number above 50 is 50 */
    state[N_KEYS] = 0;
    ACCEPTED(nch(99, YARD_FIRST));
    CHECK(answers(0, 0, 1) && tells(0, YARD, ASTERNHAKEN_TOLD_NOT_OURS));
    memset(state + KEYS, 0, 4 * ASTERNHAKEN_KEYS);
    state[KEYS + 4 * 49] = YARD % 256, state[KEYS + 1 + 4 * 49] = YARD / 256;
    state[N_KEYS] = 49;
    ACCEPTED(nch(99, YARD_FIRST));
    CHECK(tells(0, YARD, ASTERNHAKEN_TOLD_NOT_OURS));
    state[N_KEYS] = 255;
    ACCEPTED(nch(99, YARD_FIRST));
    CHECK(tells(0, YARD, ASTERNHAKEN_TOLD_HALF_STORED) && KIND(49, ON_NCH) == 1);

    /* a count above 3 is none, and a bit above 1; of a set only bits 1 to 15 are looked at */
    memset(state + SETS, 0xff, 4 * ASTERNHAKEN_KEYS);
    state[KEPT] = state[BIT_22] = 255;
    ACCEPTED(nch(99, YARD_PIECE));
    CHECK(follows(ASTERNHAKEN_TOLD_ONE_PIECE, ASTERNHAKEN_FOLLOW_NO_COUNT, 0));
    state[KEPT] = 3;
    ACCEPTED(facch(99, FACCH_PIECE_1));
    ACCEPTED(nch(99, YARD_PIECE));
    CHECK(follows(ASTERNHAKEN_TOLD_ONE_PIECE, ASTERNHAKEN_FOLLOW_WITH_COUNT, 3));
    ACCEPTED(bit_22(99, 0));
    CHECK(state[KEPT] == 3 && state[BIT_22] == 0);
    state[KEPT] = 77;
    ACCEPTED(bit_22(99, 1)), ACCEPTED(bit_22(99, 0));
    CHECK(state[KEPT] == 77);
    state[KEPT] = 2;
    state[SETS + 4 * 49] = 1, state[SETS + 4 * 49 + 1] = 0;
    ACCEPTED(nch(99, YARD_PIECE));
    CHECK(follows(ASTERNHAKEN_TOLD_ONE_PIECE, ASTERNHAKEN_FOLLOW_NO_KEY, 0));
}

/* ---- The codecs ---- */

/* Reads a message into so many numbers. */
static uint32_t read_nch(const char *hex, uint64_t *numbers, size_t n_numbers)
{
    size_t n;
    uint8_t *message = octets_of(hex, &n);
    memset(numbers, 0xff, n_numbers * sizeof *numbers);
    uint32_t result = asternhaken_nch_read(message, n, numbers, n_numbers);
    CHECK(same(message, hex));
    free(message);
    return result;
}

static uint32_t read_facch(const char *hex, uint64_t *numbers, size_t n_numbers)
{
    size_t n;
    uint8_t *message = octets_of(hex, &n);
    memset(numbers, 0xff, n_numbers * sizeof *numbers);
    uint32_t result = asternhaken_facch_read(message, n, numbers, n_numbers);
    CHECK(same(message, hex));
    free(message);
    return result;
}

static void nch_reader(void)
{
    static const uint64_t call[11] = { 99999999, 1, 1, 7, 15, 1, 0x71f3c5, 1, 0, 1, 0x5a };
    uint64_t *numbers = (uint64_t *)lent(110 * 8);
    ACCEPTED(read_nch(NCH_WHOLE, numbers, 110));
    CHECK(numbers[1] == 1 && numbers[2] == 2 && numbers[3] == 1 && !memcmp(numbers + 4, call, sizeof call) && all_zero(numbers + 15, 33));
    CHECK(numbers[48] == 1 && numbers[49] == 1 && numbers[50] == 3 && all_zero(numbers + 51, 11));
    CHECK(numbers[62] == 1 && numbers[63] == 0 && numbers[64] == 1 && numbers[65] == 0xfedcba987 && all_zero(numbers + 66, 24));
    CHECK(numbers[90] == 1 && numbers[91] == 1 && numbers[92] == 1 && all_zero(numbers + 93, 3) && numbers[96] == 1 && numbers[97] == 1);
    CHECK(numbers[98] == 1 && numbers[99] == 1 && numbers[100] == 5 && numbers[101] == 1 && numbers[102] == 11);
    CHECK(numbers[103] == 1 && numbers[104] == 1 && numbers[105] == 1);
    CHECK(numbers[ASTERNHAKEN_NCH_USED] == 149 && all_zero(numbers + 106, 4));
    ACCEPTED(read_nch(BOTH_FIRST, numbers, 110)); /* the second call from 15 on, two random entries */
    CHECK(numbers[1] == 0 && numbers[3] == 2 && numbers[4] == 4711 && numbers[5] == 0 && numbers[15] == 4711 && numbers[16] == 1 && numbers[18] == 5);
    CHECK(numbers[19] == 4 && numbers[21] == 0x5b8456 && numbers[62] == 2 && numbers[ASTERNHAKEN_NCH_USED] == 139);
    /* five reduced references, 1 to 5 */
    ACCEPTED(read_nch("08000001c0000012000000f0000008800000592b", numbers, 110));
    CHECK(numbers[51] == 5 && numbers[52] == 1 && numbers[53] == 1 && numbers[60] == 5 && numbers[61] == 1 && numbers[ASTERNHAKEN_NCH_USED] == 152);
    /* a short list of 64 bits; an emergency mark of 0; a random entry of Segment Id 1 */
    ACCEPTED(read_nch("fbebc1feff80080070000000000000002b2b2b2b", numbers, 110));
    CHECK(numbers[11] == 1 && numbers[12] == 1 && numbers[13] == 0 && numbers[14] == 0x8000000000000001);
    ACCEPTED(read_nch("d000000b008500002000001a044e00000000240b", numbers, 110));
    CHECK(numbers[3] == 2 && numbers[63] == 1 && numbers[65] == 1 && numbers[91] == 1 && numbers[92] == 0);
    ACCEPTED(read_nch(NOTHING, numbers, 110));
    CHECK(numbers[ASTERNHAKEN_NCH_USED] == 4 && all_zero(numbers + 1, 105) && all_zero(numbers + 106, 4));
    CHECK(read_nch("ffffffffffffffffffffffffffffffffffffffff", numbers, 110) == ASTERNHAKEN_REFUSED_REFERENCE && all_zero(numbers, 110));
    CHECK(read_nch("2b", numbers, 110) == ASTERNHAKEN_REFUSED_MESSAGE_LENGTH && all_zero(numbers, 110));
    free(numbers);
    numbers = (uint64_t *)lent(5 * 8); /* five places take the first five numbers */
    ACCEPTED(read_nch(NCH_WHOLE, numbers, 5));
    CHECK(numbers[0] == 149 && numbers[1] == 1 && numbers[2] == 2 && numbers[3] == 1 && numbers[4] == 99999999);
    CHECK(read_nch(BOTH_FIRST, numbers, 1) == ASTERNHAKEN_ACCEPTED && numbers[0] == 139);
    ACCEPTED(read_nch(NCH_WHOLE, numbers, 0));
    free(numbers);
}

/* Writes numbers, one of them another one, into a buffer of so many octets; it must answer so and, where it refuses, touch nothing. */
static void writes_nch(const uint64_t *numbers, size_t at, uint64_t value, size_t n, uint32_t refusal, const char *hex)
{
    uint64_t *copy = (uint64_t *)lent(ASTERNHAKEN_NCH_NUMBERS * 8);
    uint8_t *written = (uint8_t *)lent(n), untouched[21];
    memcpy(copy, numbers, ASTERNHAKEN_NCH_NUMBERS * 8);
    copy[at] = value;
    memset(written, 0x5a, n), memset(untouched, 0x5a, sizeof untouched);
    CHECK(asternhaken_nch_write(copy, ASTERNHAKEN_NCH_NUMBERS, written, n) == refusal);
    if (refusal == ASTERNHAKEN_ACCEPTED) CHECK(same(written, hex));
    else CHECK(!memcmp(written, untouched, n));
    CHECK(copy[at] == value);
    free(copy), free(written);
}

static void nch_writer(void)
{
    uint64_t *numbers = (uint64_t *)lent((ASTERNHAKEN_NCH_NUMBERS + 1) * 8);
    uint8_t octets20[20] = { 0 };
    ACCEPTED(read_nch(NCH_WHOLE, numbers, ASTERNHAKEN_NCH_NUMBERS + 1));
    CHECK(ASTERNHAKEN_NCH_NUMBERS == 106 && ASTERNHAKEN_NCH_USED == 0);
    writes_nch(numbers, 1, 1, 20, ASTERNHAKEN_ACCEPTED, NCH_WHOLE);
    writes_nch(numbers, ASTERNHAKEN_NCH_USED, 0, 20, ASTERNHAKEN_ACCEPTED, NCH_WHOLE); /* the bits used are not looked at */
    writes_nch(numbers, ASTERNHAKEN_NCH_USED, UINT64_MAX, 20, ASTERNHAKEN_ACCEPTED, NCH_WHOLE);
    writes_nch(numbers, 2, 1, 20, ASTERNHAKEN_ACCEPTED, "bbebc1ffffb8f9e2c02b475fedcba98777aefb2b");
    writes_nch(numbers, 2, 4, 20, ASTERNHAKEN_REFUSED_RANGE, "");            /* NLN 4 */
    writes_nch(numbers, 15, 1, 20, ASTERNHAKEN_REFUSED_RANGE, "");           /* a call that is not there */
    writes_nch(numbers, 4, 134217728, 20, ASTERNHAKEN_REFUSED_RANGE, "");
    writes_nch(numbers, 4, 100000000, 20, ASTERNHAKEN_REFUSED_REFERENCE, "");
    writes_nch(numbers, 13, 9, 20, ASTERNHAKEN_REFUSED_ALLOCATION_LENGTH, "");
    writes_nch(numbers, 10, 0x71e3c5, 20, ASTERNHAKEN_REFUSED_HOPPING, "");
    writes_nch(numbers, 8, 0, 20, ASTERNHAKEN_REFUSED_RANDOM_ENTRIES, "");   /* key number 0 beside a random entry */
    writes_nch(numbers, 91, 2, 20, ASTERNHAKEN_REFUSED_EMERGENCY_MARKS, "");
    writes_nch(numbers, 1, 1, 19, ASTERNHAKEN_REFUSED_FORM_SIZE, "");
    writes_nch(numbers, 1, 1, 21, ASTERNHAKEN_REFUSED_FORM_SIZE, "");
    CHECK(asternhaken_nch_write(numbers, ASTERNHAKEN_NCH_NUMBERS - 1, octets20, 20) == ASTERNHAKEN_REFUSED_LENGTH);
    CHECK(asternhaken_nch_write(numbers, ASTERNHAKEN_NCH_NUMBERS + 1, octets20, 20) == ASTERNHAKEN_REFUSED_LENGTH);
    memset(numbers, 0, ASTERNHAKEN_NCH_NUMBERS * 8);
    writes_nch(numbers, 1, 0, 20, ASTERNHAKEN_ACCEPTED, NOTHING);
    free(numbers);
}

static void facch_reader(void)
{
    static const uint64_t whole[30] = { 182, 0, 99999999, 1, 1, 7, 15, 1, 0x8b1fff, 1, 1, 0, 0x8000000000000001, 0, 0, 0, 0, 0, 0, 1, 1, 2, 1, 1, 0x123456789, 1, 1, 1, 0, 0 };
    static const uint64_t page[30] = { 142, 1, 0, 0, 0, 0, 0, 0, 0, 0, 0, 0, 0, 9, 0x33, 0x5701020304050607, 3, 1, 7, 1, 1, 2, 1, 1, 0x123456789, 1, 1, 1, 1, 1 };
    static const uint64_t tmsi[30] = { 65, 1, 0, 0, 0, 0, 0, 0, 0, 0, 0, 0, 0, 5, 0xf4, 0x12345678, 2, 1, 3, 0 };
    uint64_t *numbers = (uint64_t *)lent(32 * 8);
    ACCEPTED(read_facch(FACCH_WHOLE, numbers, 32));
    CHECK(!memcmp(numbers, whole, sizeof whole) && all_zero(numbers + 30, 2));
    CHECK(ASTERNHAKEN_FACCH_NUMBERS == 30 && ASTERNHAKEN_FACCH_USED == 0);
    ACCEPTED(read_facch(FACCH_CAUSED, numbers, 32)); /* a call's Paging Cause is kept */
    CHECK(numbers[28] == 1 && numbers[29] == 1 && numbers[ASTERNHAKEN_FACCH_USED] == 183);
    ACCEPTED(read_facch("040000001004004002080102030405060708", numbers, 32)); /* an allocation of eight octets */
    CHECK(numbers[2] == 1 && numbers[11] == 8 && numbers[12] == 0x0102030405060708 && numbers[0] == 144);
    ACCEPTED(read_facch(PAGE_WHOLE, numbers, 32));
    CHECK(!memcmp(numbers, page, sizeof page) && all_zero(numbers + 30, 2));
    ACCEPTED(read_facch(PAGE_TMSI, numbers, 32));
    CHECK(!memcmp(numbers, tmsi, sizeof tmsi));
    ACCEPTED(read_facch("0482fa091a2b3c57", numbers, 32)); /* without its last octet: Release 7 is nothing */
    CHECK(numbers[0] == 64 && !memcmp(numbers + 1, tmsi + 1, sizeof tmsi - 8));
    ACCEPTED(read_facch(PAGE_IMSI, numbers, 32));
    CHECK(numbers[0] == 90 && numbers[13] == 8 && numbers[14] == 0x29 && numbers[15] == 0x26102143658709 && all_zero(numbers + 16, 9) && numbers[25] == 1 && numbers[28] == 1 && numbers[29] == 0);
    CHECK(read_facch("0480", numbers, 32) == (ASTERNHAKEN_REFUSED_RAN_OUT | 9 << 8) && all_zero(numbers, 32));
    CHECK(read_facch("048000", numbers, 32) == ASTERNHAKEN_REFUSED_IDENTITY_LENGTH && all_zero(numbers, 32));
    CHECK(read_facch("048500", numbers, 32) == ASTERNHAKEN_REFUSED_IDENTITY_LENGTH && all_zero(numbers, 32)); /* as soon as the length is in */
    CHECK(read_facch("048480", numbers, 32) == (ASTERNHAKEN_REFUSED_RAN_OUT | 17 << 8) && all_zero(numbers, 32));
    CHECK(read_facch("04", numbers, 32) == ASTERNHAKEN_REFUSED_MESSAGE_LENGTH && all_zero(numbers, 32));
    free(numbers);
    numbers = (uint64_t *)lent(3 * 8);
    ACCEPTED(read_facch(FACCH_WHOLE, numbers, 3));
    CHECK(numbers[0] == 182 && numbers[1] == 0 && numbers[2] == 99999999);
    ACCEPTED(read_facch(PAGE_WHOLE, numbers, 3));
    CHECK(numbers[0] == 142 && numbers[1] == 1 && numbers[2] == 0);
    ACCEPTED(read_facch(PAGE_WHOLE, numbers, 0));
    free(numbers);
}

/* As writes_nch, for a FACCH message in a buffer of so many octets. */
static void writes_facch(const uint64_t *numbers, size_t at, uint64_t value, size_t n, uint32_t refusal, const char *hex)
{
    uint64_t *copy = (uint64_t *)lent(ASTERNHAKEN_FACCH_NUMBERS * 8);
    uint8_t *written = (uint8_t *)lent(n), untouched[24];
    memcpy(copy, numbers, ASTERNHAKEN_FACCH_NUMBERS * 8);
    copy[at] = value;
    memset(written, 0x5a, n), memset(untouched, 0x5a, sizeof untouched);
    CHECK(asternhaken_facch_write(copy, ASTERNHAKEN_FACCH_NUMBERS, written, n) == refusal);
    if (refusal == ASTERNHAKEN_ACCEPTED) CHECK(strlen(hex) == 2 * n && same(written, hex));
    else CHECK(!memcmp(written, untouched, n));
    CHECK(copy[at] == value);
    free(copy), free(written);
}

#define PADDED_15 "2b2b2b2b2b2b2b2b2b2b2b2b2b2b2b"

static void facch_writer(void)
{
    enum { USED = ASTERNHAKEN_FACCH_USED, RANGE = ASTERNHAKEN_REFUSED_RANGE, LAST = ASTERNHAKEN_FACCH_NUMBERS - 1 };
    uint64_t *numbers = (uint64_t *)lent((ASTERNHAKEN_FACCH_NUMBERS + 1) * 8);
    uint8_t octets23[23], untouched[23];

    /* a call; the first octet is written as 0, whatever was read there */
    ACCEPTED(read_facch(FACCH_CAUSED, numbers, ASTERNHAKEN_FACCH_NUMBERS + 1));
    writes_facch(numbers, USED, 0, 23, ASTERNHAKEN_ACCEPTED, "00" "5f5e0ffffe2c7fff8000000000000001ec48d159e257");
    writes_facch(numbers, USED, UINT64_MAX, 23, ASTERNHAKEN_ACCEPTED, "00" "5f5e0ffffe2c7fff8000000000000001ec48d159e257"); /* not looked at */
    writes_facch(numbers, 1, 0, 22, ASTERNHAKEN_REFUSED_FORM_SIZE, "");
    writes_facch(numbers, 1, 0, 24, ASTERNHAKEN_REFUSED_FORM_SIZE, "");
    writes_facch(numbers, 1, 1, 23, RANGE, ""); /* a page with a call's numbers */
    writes_facch(numbers, 1, 2, 23, RANGE, "");
    writes_facch(numbers, 2, 134217728, 23, RANGE, "");
    writes_facch(numbers, 2, 100000000, 23, ASTERNHAKEN_REFUSED_REFERENCE, "");
    writes_facch(numbers, 8, 0x8b0fff, 23, ASTERNHAKEN_REFUSED_HOPPING, "");
    for (size_t at = 13; at <= 18; at++) writes_facch(numbers, at, 1, 23, RANGE, ""); /* a call with a page's numbers */
    for (size_t at = 1; at <= LAST; at++) writes_facch(numbers, at, UINT64_MAX, 23, at == 12 ? ASTERNHAKEN_ACCEPTED : ASTERNHAKEN_REFUSED_RANGE, "005f5e0ffffe2c7fffffffffffffffffffec48d159e257"); /* 64 bits of a short list */
    numbers[10] = 0, numbers[11] = 9, numbers[12] = 0;
    writes_facch(numbers, 1, 0, 23, ASTERNHAKEN_REFUSED_ALLOCATION_LENGTH, "");

    /* a page */
    ACCEPTED(read_facch(PAGE_WHOLE, numbers, ASTERNHAKEN_FACCH_NUMBERS + 1));
    writes_facch(numbers, 1, 1, 23, ASTERNHAKEN_ACCEPTED, "008499ab80810182028303fed891a2b3c4df2b2b2b2b2b");
    writes_facch(numbers, 1, 1, 18, ASTERNHAKEN_ACCEPTED, "008499ab80810182028303fed891a2b3c4df");
    writes_facch(numbers, 1, 1, 17, ASTERNHAKEN_REFUSED_FORM_SIZE, "");
    writes_facch(numbers, 1, 0, 23, RANGE, "");
    for (size_t at = 2; at <= 12; at++) writes_facch(numbers, at, 1, 23, RANGE, ""); /* a page with a call's numbers */
    for (size_t at = 1; at <= LAST; at++) writes_facch(numbers, at, UINT64_MAX, 23, at == 15 ? ASTERNHAKEN_ACCEPTED : ASTERNHAKEN_REFUSED_RANGE, "008499fffffffffffffffffed891a2b3c4df2b2b2b2b2b"); /* eight octets behind the first */
    for (uint64_t length = 10; length < 256; length += 49) writes_facch(numbers, 13, length, 23, ASTERNHAKEN_REFUSED_IDENTITY_LENGTH, "");
    writes_facch(numbers, 13, 255, 1, ASTERNHAKEN_REFUSED_IDENTITY_LENGTH, "");
    writes_facch(numbers, 13, 256, 23, RANGE, "");
    writes_facch(numbers, 13, 8, 23, RANGE, ""); /* nine octets, of which the first behind the first is not zero */
    writes_facch(numbers, 13, 0, 23, RANGE, "");
    writes_facch(numbers, 14, 256, 23, RANGE, "");
    writes_facch(numbers, 16, 4, 23, RANGE, "");
    writes_facch(numbers, 17, 0, 23, RANGE, ""); /* what is absent is not zero */
    writes_facch(numbers, 18, 8, 23, RANGE, "");
    writes_facch(numbers, 19, 0, 23, RANGE, "");
    writes_facch(numbers, 20, 0, 23, RANGE, "");
    writes_facch(numbers, 21, 4, 23, RANGE, "");
    writes_facch(numbers, 22, 2, 23, RANGE, "");
    writes_facch(numbers, 23, 0, 23, RANGE, "");
    writes_facch(numbers, 24, (uint64_t)1 << 36, 23, RANGE, "");
    writes_facch(numbers, 25, 0, 23, RANGE, "");
    writes_facch(numbers, 28, 0, 23, RANGE, "");
    writes_facch(numbers, 29, 2, 23, RANGE, "");
    writes_facch(numbers, 29, 0, 18, ASTERNHAKEN_ACCEPTED, "008499ab80810182028303fed891a2b3c4db");

    /* a release that is absent is nothing where the buffer is used up, else one bit */
    ACCEPTED(read_facch(PAGE_TMSI, numbers, ASTERNHAKEN_FACCH_NUMBERS + 1));
    for (size_t n = 0; n < 8; n++) writes_facch(numbers, 1, 1, n, ASTERNHAKEN_REFUSED_FORM_SIZE, "");
    writes_facch(numbers, 1, 1, 8, ASTERNHAKEN_ACCEPTED, "0082fa091a2b3c57");
    writes_facch(numbers, 1, 1, 9, ASTERNHAKEN_ACCEPTED, "0082fa091a2b3c572b");
    writes_facch(numbers, 1, 1, 23, ASTERNHAKEN_ACCEPTED, "0082fa091a2b3c57" PADDED_15);
    writes_facch(numbers, 1, 1, 24, ASTERNHAKEN_REFUSED_FORM_SIZE, "");
    writes_facch(numbers, 25, 1, 8, ASTERNHAKEN_REFUSED_FORM_SIZE, ""); /* Release 7 does not fit */
    writes_facch(numbers, 15, 0x12345678ff, 23, RANGE, "");
    writes_facch(numbers, 13, 4, 23, RANGE, "");
    writes_facch(numbers, 13, 6, 23, ASTERNHAKEN_ACCEPTED, "00837a00091a2b3c57" "2b2b2b2b2b2b2b2b2b2b2b2b2b2b"); /* a zero octet behind the first */
    numbers[15] = 0;
    writes_facch(numbers, 13, 0, 23, RANGE, ""); /* no octets, and the first is there */
    writes_facch(numbers, 13, 1, 23, ASTERNHAKEN_ACCEPTED, "0080fa57" PADDED_15 "2b2b2b2b");
    numbers[14] = 0;
    writes_facch(numbers, 13, 0, 23, ASTERNHAKEN_REFUSED_IDENTITY_LENGTH, "");

    /* the array's length goes before everything, then 12, 4, 3, 8, 5, 11 */
    memset(octets23, 0x5a, 23), memset(untouched, 0x5a, 23);
    numbers[16] = 4;
    CHECK(asternhaken_facch_write(numbers, LAST, octets23, 23) == ASTERNHAKEN_REFUSED_LENGTH && !memcmp(octets23, untouched, 23));
    CHECK(asternhaken_facch_write(numbers, LAST + 2, octets23, 23) == ASTERNHAKEN_REFUSED_LENGTH && !memcmp(octets23, untouched, 23));
    CHECK(asternhaken_facch_write(numbers, 0, octets23, 0) == ASTERNHAKEN_REFUSED_LENGTH);
    writes_facch(numbers, 13, 0, 24, RANGE, "");
    numbers[16] = 0;
    writes_facch(numbers, 13, 10, 24, ASTERNHAKEN_REFUSED_IDENTITY_LENGTH, "");
    memset(numbers, 0, ASTERNHAKEN_FACCH_NUMBERS * 8);
    numbers[7] = 1, numbers[9] = 1, numbers[11] = 9; /* hopping, with its bit not set, over nine octets */
    writes_facch(numbers, 2, 100000000, 24, ASTERNHAKEN_REFUSED_REFERENCE, "");
    writes_facch(numbers, 2, 1, 24, ASTERNHAKEN_REFUSED_ALLOCATION_LENGTH, "");
    writes_facch(numbers, 11, 1, 24, ASTERNHAKEN_REFUSED_HOPPING, "");
    numbers[11] = 1, numbers[8] = 0x1000;
    writes_facch(numbers, 2, 1, 24, ASTERNHAKEN_REFUSED_FORM_SIZE, "");
    free(numbers);
}

/* ---- Elements of 44.068 ---- */

typedef uint32_t half_reader(uint8_t half, uint64_t *numbers, size_t n_numbers);
typedef uint32_t half_writer(const uint64_t *numbers, size_t n_numbers, uint8_t *half);
typedef uint32_t octets_reader(const uint8_t *octets, size_t n, uint64_t *numbers, size_t n_numbers);
typedef uint32_t octets_writer(const uint64_t *numbers, size_t n_numbers, uint8_t *octets, size_t n);

/* An element of one octet reads as these numbers, with a zero behind them and without its last ones where there is no place for them. */
static void half_reads(half_reader *reader, uint8_t half, const uint64_t *meant, size_t n, uint32_t refusal)
{
    uint64_t *numbers = (uint64_t *)lent((n + 1) * 8);
    memset(numbers, 0xff, (n + 1) * 8);
    CHECK(reader(half, numbers, n + 1) == refusal);
    if (refusal == ASTERNHAKEN_ACCEPTED) CHECK(!memcmp(numbers, meant, n * 8) && numbers[n] == 0);
    else CHECK(all_zero(numbers, n + 1));
    free(numbers);
    numbers = (uint64_t *)lent((n - 1) * 8);
    CHECK(reader(half, numbers, n - 1) == refusal);
    if (refusal == ASTERNHAKEN_ACCEPTED) CHECK(!memcmp(numbers, meant, (n - 1) * 8));
    else CHECK(all_zero(numbers, n - 1));
    free(numbers);
}

/* These numbers are written as an octet, and an array of another length is refused. */
static void half_writes(half_writer *writer, const uint64_t *meant, size_t n, uint8_t half, uint32_t refusal)
{
    uint64_t *numbers = (uint64_t *)lent((n + 1) * 8);
    uint8_t *written = (uint8_t *)lent(1);
    memcpy(numbers, meant, n * 8);
    numbers[n] = 0;
    *written = 0xc3;
    CHECK(writer(numbers, n + 1, written) == ASTERNHAKEN_REFUSED_LENGTH && *written == 0xc3);
    CHECK(writer(numbers, n - 1, written) == ASTERNHAKEN_REFUSED_LENGTH && *written == 0xc3);
    CHECK(writer(numbers, n, written) == refusal);
    CHECK(*written == (refusal == ASTERNHAKEN_ACCEPTED ? half : 0xc3));
    free(numbers), free(written);
}

static void octets_read(octets_reader *reader, const char *hex, const uint64_t *meant, size_t n, uint32_t refusal)
{
    size_t length;
    uint8_t *element = octets_of(hex, &length);
    uint64_t *numbers = (uint64_t *)lent((n + 1) * 8);
    memset(numbers, 0xff, (n + 1) * 8);
    CHECK(reader(element, length, numbers, n + 1) == refusal);
    if (refusal == ASTERNHAKEN_ACCEPTED) CHECK(!memcmp(numbers, meant, n * 8) && numbers[n] == 0);
    else CHECK(all_zero(numbers, n + 1));
    free(numbers);
    numbers = (uint64_t *)lent((n - 1) * 8);
    CHECK(reader(element, length, numbers, n - 1) == refusal);
    if (refusal == ASTERNHAKEN_ACCEPTED) CHECK(!memcmp(numbers, meant, (n - 1) * 8));
    else CHECK(all_zero(numbers, n - 1));
    free(numbers), free(element);
}

/* These numbers are written as these octets; with a refusal, the hex says how long the buffer is. */
static void octets_written(octets_writer *writer, const uint64_t *meant, size_t n, const char *hex, uint32_t refusal)
{
    size_t length;
    uint8_t *element = octets_of(hex, &length), *written = (uint8_t *)lent(length), *untouched = (uint8_t *)lent(length);
    uint64_t *numbers = (uint64_t *)lent((n + 1) * 8);
    memcpy(numbers, meant, n * 8);
    numbers[n] = 0;
    memset(written, 0xc3, length), memset(untouched, 0xc3, length);
    CHECK(writer(numbers, n + 1, written, length) == ASTERNHAKEN_REFUSED_LENGTH && !memcmp(written, untouched, length));
    CHECK(writer(numbers, n - 1, written, length) == ASTERNHAKEN_REFUSED_LENGTH && !memcmp(written, untouched, length));
    CHECK(writer(numbers, n, written, length) == refusal);
    CHECK(!memcmp(written, refusal == ASTERNHAKEN_ACCEPTED ? element : untouched, length));
    free(element), free(written), free(untouched), free(numbers);
}

static void half_octets(void)
{
    static const uint64_t type[2] = { 1, 0x36 }, no_type[2] = { 0, 0x37 }, state11[1] = { 11 }, reserved[1] = { 12 };
    static const uint64_t one[1] = { 1 }, two[1] = { 2 }, three[1] = { 3 }, nought[1] = { 0 };
    static const uint64_t attributes[4] = { 1, 0, 1, 0 }, no_attributes[4] = { 1, 0, 2, 0 }, sms[2] = { 1, 0 }, no_sms[2] = { 0, 2 };
    CHECK(ASTERNHAKEN_MESSAGE_TYPE_NUMBERS == 2 && ASTERNHAKEN_CALL_STATE_NUMBERS == 1 && ASTERNHAKEN_ORIGINATOR_NUMBERS == 1);
    CHECK(ASTERNHAKEN_STATE_ATTRIBUTES_NUMBERS == 4 && ASTERNHAKEN_SMS_NUMBERS == 2 && ASTERNHAKEN_TALKER_NUMBERS == 1);

    half_reads(asternhaken_message_type_read, 0x76, type, 2, ASTERNHAKEN_ACCEPTED);
    half_reads(asternhaken_message_type_read, 0x37, type, 2, ASTERNHAKEN_REFUSED_RANGE);
    half_reads(asternhaken_message_type_read, 0xb6, type, 2, ASTERNHAKEN_REFUSED_RANGE); /* bit 8 */
    half_writes(asternhaken_message_type_write, type, 2, 0x76, ASTERNHAKEN_ACCEPTED);
    half_writes(asternhaken_message_type_write, no_type, 2, 0, ASTERNHAKEN_REFUSED_RANGE);

    half_reads(asternhaken_call_state_read, 11, state11, 1, ASTERNHAKEN_ACCEPTED);
    half_reads(asternhaken_call_state_read, 14, reserved, 1, ASTERNHAKEN_ACCEPTED);
    half_reads(asternhaken_call_state_read, 16, reserved, 1, ASTERNHAKEN_REFUSED_RANGE);
    half_writes(asternhaken_call_state_write, state11, 1, 11, ASTERNHAKEN_ACCEPTED);
    half_writes(asternhaken_call_state_write, reserved, 1, 0, ASTERNHAKEN_REFUSED_RANGE);

    half_reads(asternhaken_originator_read, 0x0f, one, 1, ASTERNHAKEN_ACCEPTED); /* three spare bits */
    half_reads(asternhaken_originator_read, 0x11, one, 1, ASTERNHAKEN_REFUSED_RANGE);
    half_writes(asternhaken_originator_write, one, 1, 1, ASTERNHAKEN_ACCEPTED);
    half_writes(asternhaken_originator_write, two, 1, 0, ASTERNHAKEN_REFUSED_RANGE);

    half_reads(asternhaken_state_attributes_read, 0x0a, attributes, 4, ASTERNHAKEN_ACCEPTED);
    half_reads(asternhaken_state_attributes_read, 0x1a, attributes, 4, ASTERNHAKEN_REFUSED_RANGE);
    half_writes(asternhaken_state_attributes_write, attributes, 4, 0x0a, ASTERNHAKEN_ACCEPTED);
    half_writes(asternhaken_state_attributes_write, no_attributes, 4, 0, ASTERNHAKEN_REFUSED_RANGE);

    half_reads(asternhaken_sms_read, 0x0e, sms, 2, ASTERNHAKEN_ACCEPTED); /* two spare bits */
    half_reads(asternhaken_sms_read, 0x12, sms, 2, ASTERNHAKEN_REFUSED_RANGE);
    half_writes(asternhaken_sms_write, sms, 2, 2, ASTERNHAKEN_ACCEPTED);
    half_writes(asternhaken_sms_write, no_sms, 2, 0, ASTERNHAKEN_REFUSED_RANGE);

    half_reads(asternhaken_talker_read, 0x0a, two, 1, ASTERNHAKEN_ACCEPTED); /* a spare bit */
    half_reads(asternhaken_talker_read, 0x05, nought, 1, ASTERNHAKEN_ACCEPTED); /* 3 to 7 are normal */
    half_reads(asternhaken_talker_read, 0x10, two, 1, ASTERNHAKEN_REFUSED_RANGE);
    half_writes(asternhaken_talker_write, two, 1, 2, ASTERNHAKEN_ACCEPTED);
    half_writes(asternhaken_talker_write, three, 1, 0, ASTERNHAKEN_REFUSED_RANGE);
}

static void call_references(void)
{
    static const uint64_t bare[3] = { 99999999, 0, 0 }, ranked[3] = { 4711, 1, 5 }, reserved[3] = { 4711, 1, 0 };
    static const uint64_t high[3] = { 100000000, 0, 0 }, wide[3] = { 134217728, 0, 0 }, absent[3] = { 4711, 0, 5 };
    CHECK(ASTERNHAKEN_CALL_REFERENCE_NUMBERS == 3);
    octets_read(asternhaken_call_reference_read, "bebc1fef", bare, 3, ASTERNHAKEN_ACCEPTED); /* four spare bits */
    octets_read(asternhaken_call_reference_read, "00024cfb", ranked, 3, ASTERNHAKEN_ACCEPTED); /* one */
    octets_read(asternhaken_call_reference_read, "00024cf0", reserved, 3, ASTERNHAKEN_ACCEPTED);
    octets_read(asternhaken_call_reference_read, "bebc2000", bare, 3, ASTERNHAKEN_REFUSED_REFERENCE);
    octets_read(asternhaken_call_reference_read, "bebc20", bare, 3, ASTERNHAKEN_REFUSED_LENGTH);
    octets_read(asternhaken_call_reference_read, "", bare, 3, ASTERNHAKEN_REFUSED_LENGTH);
    octets_written(asternhaken_call_reference_write, bare, 3, "bebc1fe0", ASTERNHAKEN_ACCEPTED);
    octets_written(asternhaken_call_reference_write, ranked, 3, "00024cfa", ASTERNHAKEN_ACCEPTED);
    octets_written(asternhaken_call_reference_write, reserved, 3, "00000000", ASTERNHAKEN_REFUSED_RANGE);
    octets_written(asternhaken_call_reference_write, absent, 3, "00000000", ASTERNHAKEN_REFUSED_RANGE);
    octets_written(asternhaken_call_reference_write, wide, 3, "00000000", ASTERNHAKEN_REFUSED_RANGE);
    octets_written(asternhaken_call_reference_write, high, 3, "00000000", ASTERNHAKEN_REFUSED_REFERENCE);
    octets_written(asternhaken_call_reference_write, ranked, 3, "0000000000", ASTERNHAKEN_REFUSED_FORM_SIZE);
}

static void dispatcher_digits(void)
{
    static const uint64_t annex_a[12] = { '0', '0', '0', '0', '0', '0', '0', '0', '9', '1', '2', '3' };
    static const uint64_t nines[12] = { '9', '9', '9', '9', '9', '9', '9', '9', '9', '9', '9', '9' };
    static const uint64_t letter[12] = { '0', '0', '0', '0', '0', '0', '0', '0', '9', '1', '2', 'A' };
    CHECK(ASTERNHAKEN_DIGITS_NUMBERS == 12);
    octets_read(asternhaken_digits_read, "00000023a3", annex_a, 12, ASTERNHAKEN_ACCEPTED);
    octets_read(asternhaken_digits_read, "e8d4a50fff", nines, 12, ASTERNHAKEN_ACCEPTED);
    octets_read(asternhaken_digits_read, "e8d4a51000", nines, 12, ASTERNHAKEN_REFUSED_RANGE);
    octets_read(asternhaken_digits_read, "e8d4a50f", nines, 12, ASTERNHAKEN_REFUSED_LENGTH);
    octets_written(asternhaken_digits_write, annex_a, 12, "00000023a3", ASTERNHAKEN_ACCEPTED);
    octets_written(asternhaken_digits_write, nines, 12, "e8d4a50fff", ASTERNHAKEN_ACCEPTED);
    octets_written(asternhaken_digits_write, letter, 12, "0000000000", ASTERNHAKEN_REFUSED_RANGE);
    octets_written(asternhaken_digits_write, nines, 12, "000000000000", ASTERNHAKEN_REFUSED_FORM_SIZE);
}

/* A cause of these septets and diagnostics; the meaning stands before them. */
static void causes(void)
{
    static uint64_t normal[514], twice[514], invalid[514], never[514];
    CHECK(ASTERNHAKEN_CAUSE_NUMBERS == 514 && ASTERNHAKEN_CAUSE_MEANING == 0 && ASTERNHAKEN_CAUSE_VALUE == 1);
    normal[2] = 1, normal[3] = 16; /* normal call clearing, without diagnostics */
    normal[ASTERNHAKEN_CAUSE_MEANING] = 1, normal[ASTERNHAKEN_CAUSE_VALUE] = 16;
    twice[2] = 2, twice[3] = 16, twice[4] = 17, twice[258] = 3, twice[259] = 0xff, twice[260] = 0, twice[261] = 0x10;
    twice[ASTERNHAKEN_CAUSE_MEANING] = 2;
    octets_read(asternhaken_cause_read, "90", normal, 514, ASTERNHAKEN_ACCEPTED);
    octets_read(asternhaken_cause_read, "1091ff0010", twice, 514, ASTERNHAKEN_ACCEPTED);
    octets_read(asternhaken_cause_read, "10", normal, 514, ASTERNHAKEN_REFUSED_LENGTH);
    octets_read(asternhaken_cause_read, "", normal, 514, ASTERNHAKEN_REFUSED_LENGTH);
    octets_written(asternhaken_cause_write, normal, 514, "90", ASTERNHAKEN_ACCEPTED);
    octets_written(asternhaken_cause_write, twice, 514, "1091ff0010", ASTERNHAKEN_ACCEPTED);
    twice[ASTERNHAKEN_CAUSE_MEANING] = twice[ASTERNHAKEN_CAUSE_VALUE] = UINT64_MAX; /* not looked at */
    octets_written(asternhaken_cause_write, twice, 514, "1091ff0010", ASTERNHAKEN_ACCEPTED);
    octets_written(asternhaken_cause_write, twice, 514, "1091ff00", ASTERNHAKEN_REFUSED_FORM_SIZE);
    octets_written(asternhaken_cause_write, twice, 514, "1091ff001000", ASTERNHAKEN_REFUSED_FORM_SIZE);
    octets_written(asternhaken_cause_write, never, 514, "", ASTERNHAKEN_REFUSED_LENGTH); /* no septet */
    invalid[2] = 1, invalid[3] = 128;
    octets_written(asternhaken_cause_write, invalid, 514, "00", ASTERNHAKEN_REFUSED_RANGE);
    invalid[3] = 1, invalid[513] = 1; /* an unused place */
    octets_written(asternhaken_cause_write, invalid, 514, "00", ASTERNHAKEN_REFUSED_RANGE);

    uint8_t longest[256];
    uint64_t *numbers = (uint64_t *)lent(514 * 8);
    memset(longest, 0xff, sizeof longest);
    ACCEPTED(asternhaken_cause_read(longest, 255, numbers, 514));
    CHECK(numbers[2] == 1 && numbers[3] == 127 && numbers[258] == 254 && numbers[512] == 255 && numbers[513] == 0 && numbers[0] == 2 && numbers[1] == 0);
    CHECK(asternhaken_cause_read(longest, 256, numbers, 514) == ASTERNHAKEN_REFUSED_LENGTH && all_zero(numbers, 514));
    free(numbers);
}

/* ---- The codecs by structs ---- */

/* A struct for a codec, lent at its exact size and full of ones before. */
#define LEND(type, name)                                         \
    struct asternhaken_##type *name = (struct asternhaken_##type *)lent(sizeof *name); \
    memset(name, 0xff, sizeof *name)

static void message_structs(void)
{
    size_t n, m;
    uint8_t *octets = octets_of(NCH_WHOLE, &n), *written = (uint8_t *)lent(20), *other;
    LEND(nch_message, message);
    ACCEPTED(asternhaken_nch_decode(octets, n, message));
    CHECK(message->used == 149 && message->nln_given == 1 && message->nln == 2 && message->n_calls == 1);
    CHECK(message->calls[0].call_reference == 99999999 && message->calls[0].vgcs == 1 && message->calls[0].priority == 7 && message->calls[0].cipher_key_number == 15);
    CHECK(message->calls[0].channel == 0x71f3c5 && message->calls[0].allocation_octets == 1 && message->calls[0].frequencies == 0x5a && message->calls[1].call_reference == 0);
    CHECK(message->release_6_given == 1 && message->count_given == 1 && message->cell_global_count == 3 && message->n_reduced == 0);
    CHECK(message->n_random == 1 && message->random[0].rand_given == 1 && message->random[0].vstk_rand == 0xfedcba987 && message->random[8].vstk_rand == 0);
    CHECK(message->release_7_given == 1 && message->n_emergency_marks == 1 && message->emergency_marks[0] == 1 && message->uplink_access == 1);
    CHECK(message->fr_amr_config == 5 && message->hr_amr_config == 11 && message->sms_given == 1 && message->sms_confidentiality == 1 && message->sms_privacy == 1);
    memset(written, 0, 20);
    message->used = UINT64_MAX; /* not looked at */
    ACCEPTED(asternhaken_nch_encode(message, written, 20));
    CHECK(same(written, NCH_WHOLE) && message->used == UINT64_MAX);
    message->nln = 4;
    CHECK(asternhaken_nch_encode(message, written, 20) == ASTERNHAKEN_REFUSED_RANGE && same(written, NCH_WHOLE));
    CHECK(asternhaken_nch_encode(message, written, 19) == ASTERNHAKEN_REFUSED_RANGE);
    CHECK(asternhaken_nch_decode(octets, n - 1, message) == ASTERNHAKEN_REFUSED_MESSAGE_LENGTH);
    other = (uint8_t *)lent(sizeof *message), memset(other, 0, sizeof *message);
    CHECK(!memcmp(message, other, sizeof *message));
    free(other), other = octets_of("08000001c0000012000000f0000008800000592b", &m);
    ACCEPTED(asternhaken_nch_decode(other, m, message));
    CHECK(message->used == 152 && message->n_reduced == 5 && message->reduced[4].call_reference == 5 && message->reduced[4].vgcs == 1);
    free(octets), free(written), free(message), free(other);

    octets = octets_of(FACCH_WHOLE, &n);
    LEND(facch_message, facch);
    ACCEPTED(asternhaken_facch_decode(octets, n, facch));
    CHECK(facch->used == 182 && facch->call.call_reference == 99999999 && facch->call.short_list == 1 && facch->call.frequencies == 0x8000000000000001);
    CHECK(facch->release_6_given == 1 && facch->count_given == 1 && facch->cell_global_count == 2 && facch->b22_count == 1 && facch->rand_given == 1 && facch->vstk_rand == 0x123456789);
    CHECK(facch->release_7_given == 1 && facch->uplink_access == 1 && facch->emergency == 1 && facch->paging_cause_given == 0 && facch->paging == 0 && facch->page.identity_octets == 0);
    octets[n - 1] = 0x57; /* FACCH_CAUSED */
    ACCEPTED(asternhaken_facch_decode(octets, n, facch));
    CHECK(facch->used == 183 && facch->paging_cause_given == 1 && facch->paging_cause == 1);
    CHECK(asternhaken_facch_decode(octets, 1, facch) == ASTERNHAKEN_REFUSED_MESSAGE_LENGTH && facch->used == 0 && facch->call.call_reference == 0);
    free(octets), octets = octets_of(PAGE_WHOLE, &n), written = (uint8_t *)lent(18);
    ACCEPTED(asternhaken_facch_decode(octets, n, facch));
    CHECK(facch->used == 142 && facch->paging == 1 && facch->call.call_reference == 0 && facch->page.identity_octets == 9 && facch->page.identity_first == 0x33);
    CHECK(facch->page.identity_rest == 0x5701020304050607 && facch->page.channel_first == ASTERNHAKEN_CHANNEL_FIRST_TCH_H_OR_F && facch->page.emlpp_priority_given == 1 && facch->page.emlpp_priority == 7);
    CHECK(facch->cell_global_count == 2 && facch->vstk_rand == 0x123456789 && facch->paging_cause_given == 1 && facch->paging_cause == ASTERNHAKEN_PAGED_FOR_SHORT_MESSAGE);
    CHECK(asternhaken_identity_octet(&facch->page, 1) == 0x57 && asternhaken_identity_octet(&facch->page, 8) == 7);
    memset(written, 0, 18);
    facch->used = UINT64_MAX; /* not looked at */
    ACCEPTED(asternhaken_facch_encode(facch, written, 18));
    CHECK(same(written, "008499ab80810182028303fed891a2b3c4df") && facch->used == UINT64_MAX);
    facch->page.identity_octets = 10;
    CHECK(asternhaken_facch_encode(facch, written, 18) == ASTERNHAKEN_REFUSED_IDENTITY_LENGTH && same(written, "008499ab80810182028303fed891a2b3c4df"));
    free(octets), free(facch), free(written);
}

static void half_octet_structs(void)
{
    uint8_t *octet = (uint8_t *)lent(1);
    LEND(message_type, type);
    ACCEPTED(asternhaken_message_type_decode(0x76, type));
    CHECK(type->send_sequence_number == 1 && type->message_type == 0x36);
    *octet = 0;
    ACCEPTED(asternhaken_message_type_encode(type, octet));
    CHECK(*octet == 0x76);
    type->message_type = 0x37;
    CHECK(asternhaken_message_type_encode(type, octet) == ASTERNHAKEN_REFUSED_RANGE && *octet == 0x76);
    LEND(call_state, call);
    ACCEPTED(asternhaken_call_state_decode(11, call));
    CHECK(call->call_state == 11);
    ACCEPTED(asternhaken_call_state_encode(call, octet));
    CHECK(*octet == 11);
    LEND(originator, originator);
    ACCEPTED(asternhaken_originator_decode(0x0f, originator));
    CHECK(originator->oi == 1);
    ACCEPTED(asternhaken_originator_encode(originator, octet));
    CHECK(*octet == 1);
    LEND(state_attributes, attributes);
    ACCEPTED(asternhaken_state_attributes_decode(0x0a, attributes));
    CHECK(attributes->da == 1 && attributes->ua == 0 && attributes->comm == 1 && attributes->oi == 0);
    ACCEPTED(asternhaken_state_attributes_encode(attributes, octet));
    CHECK(*octet == 0x0a);
    LEND(sms, sms);
    ACCEPTED(asternhaken_sms_decode(0x0e, sms));
    CHECK(sms->dc == 1 && sms->gp == 0);
    ACCEPTED(asternhaken_sms_encode(sms, octet));
    CHECK(*octet == 2);
    LEND(talker, talker);
    ACCEPTED(asternhaken_talker_decode(0x0a, talker));
    CHECK(talker->priority == 2);
    ACCEPTED(asternhaken_talker_encode(talker, octet));
    CHECK(*octet == 2);
    CHECK(asternhaken_talker_decode(0x10, talker) == ASTERNHAKEN_REFUSED_RANGE && talker->priority == 0);
    free(octet), free(type), free(call), free(originator), free(attributes), free(sms), free(talker);
}

static void octets_structs(void)
{
    size_t n;
    uint8_t *octets = octets_of("00024cfb", &n), *written = (uint8_t *)lent(5);
    LEND(call_reference, reference);
    ACCEPTED(asternhaken_call_reference_decode(octets, n, reference));
    CHECK(reference->call_reference == 4711 && reference->priority_given == 1 && reference->priority == 5);
    ACCEPTED(asternhaken_call_reference_encode(reference, written, 4));
    CHECK(same(written, "00024cfa"));
    free(octets), octets = octets_of("00000023a3", &n);
    LEND(digits, digits);
    ACCEPTED(asternhaken_digits_decode(octets, n, digits));
    CHECK(digits->digits[0] == '0' && digits->digits[8] == '9' && digits->digits[11] == '3');
    ACCEPTED(asternhaken_digits_encode(digits, written, 5));
    CHECK(same(written, "00000023a3"));
    CHECK(asternhaken_digits_encode(digits, written, 4) == ASTERNHAKEN_REFUSED_FORM_SIZE);
    free(octets), octets = octets_of("90", &n);
    LEND(cause, cause);
    ACCEPTED(asternhaken_cause_decode(octets, n, cause));
    CHECK(cause->meaning == 1 && cause->value == 16 && cause->n_septets == 1 && cause->septets[0] == 16 && cause->n_diagnostics == 0);
    free(octets), octets = octets_of("1091ff0010", &n);
    ACCEPTED(asternhaken_cause_decode(octets, n, cause));
    CHECK(cause->meaning == 2 && cause->value == 0 && cause->n_septets == 2 && cause->septets[0] == 16 && cause->septets[1] == 17 && cause->septets[254] == 0);
    CHECK(cause->n_diagnostics == 3 && cause->diagnostics[0] == 0xff && cause->diagnostics[2] == 0x10 && cause->diagnostics[254] == 0);
    cause->meaning = cause->value = UINT64_MAX; /* not looked at */
    memset(written, 0, 5);
    ACCEPTED(asternhaken_cause_encode(cause, written, 5));
    CHECK(same(written, "1091ff0010"));
    CHECK(asternhaken_cause_decode(octets, 0, cause) == ASTERNHAKEN_REFUSED_LENGTH && cause->meaning == 0 && cause->n_septets == 0 && cause->diagnostics[254] == 0);
    free(octets), free(written), free(reference), free(digits), free(cause);
}

/* ---- Words and version ---- */

/* Each number has a text of its own, and so have all that are unknown. */
#define ALL_DIFFER(text, n)                                                                  \
    do {                                                                                     \
        int alike = 0;                                                                       \
        for (uint32_t i = 0; i <= (n); i++)                                                  \
            for (uint32_t j = 0; j < i; j++) alike += !strcmp(text(i), text(j));             \
        CHECK(!alike);                                                                       \
        CHECK(text((n) + 1) == text(n) && text(255) == text(n) && text(UINT32_MAX) == text(n)); \
    } while (0)

static int is_sentence(const char *text)
{
    size_t n = strlen(text);
    return n > 10 && text[0] >= 'A' && text[0] <= 'Z' && text[n - 1] == '.' && strchr(text, ' ');
}

static void words(void)
{
    enum { REFUSALS = ASTERNHAKEN_REFUSED_RAN_OUT_7 + 1, TELLINGS = ASTERNHAKEN_TOLD_SECOND_BEFORE_FIRST + 1, FOLLOWINGS = ASTERNHAKEN_FOLLOW_WITH_COUNT + 1 };
    ALL_DIFFER(asternhaken_refusal_word, REFUSALS);
    ALL_DIFFER(asternhaken_refusal_sentence, REFUSALS);
    ALL_DIFFER(asternhaken_told_word, TELLINGS);
    ALL_DIFFER(asternhaken_told_sentence, TELLINGS);
    ALL_DIFFER(asternhaken_follow_word, FOLLOWINGS);
    ALL_DIFFER(asternhaken_follow_sentence, FOLLOWINGS);
    for (uint32_t i = 0; i <= REFUSALS; i++) CHECK(is_sentence(asternhaken_refusal_sentence(i)));
    for (uint32_t i = 0; i <= TELLINGS; i++) CHECK(is_sentence(asternhaken_told_sentence(i)));
    for (uint32_t i = 0; i <= FOLLOWINGS; i++) CHECK(is_sentence(asternhaken_follow_sentence(i)));
    CHECK(!strcmp(asternhaken_follow_word(ASTERNHAKEN_FOLLOW_NO_KEY), "no key") && !strcmp(asternhaken_follow_word(ASTERNHAKEN_FOLLOW_NO_COUNT), "no count"));
    CHECK(!strcmp(asternhaken_follow_word(ASTERNHAKEN_FOLLOW_WITH_COUNT), "follow") && !strcmp(asternhaken_follow_word(FOLLOWINGS), "unknown"));
    CHECK(asternhaken_follow_word(((uint64_t)1 << 32) + ASTERNHAKEN_FOLLOW_NO_KEY) == asternhaken_follow_word(FOLLOWINGS));
    CHECK(!strcmp(asternhaken_refusal_word(ASTERNHAKEN_ACCEPTED), "accepted") && !strcmp(asternhaken_refusal_word(ASTERNHAKEN_REFUSED_CLOCK), "clock"));
    CHECK(!strcmp(asternhaken_refusal_word(ASTERNHAKEN_REFUSED_LENGTH), "length") && !strcmp(asternhaken_refusal_word(REFUSALS), "unknown"));
    CHECK(!strcmp(asternhaken_refusal_word(ASTERNHAKEN_REFUSED_RAN_OUT_7), "bits ran out in Release 7"));
    CHECK(!strcmp(asternhaken_told_word(ASTERNHAKEN_TOLD_JOINED), "complete, joined") && !strcmp(asternhaken_told_word(TELLINGS), "unknown"));
    CHECK(!strcmp(asternhaken_told_word(((uint64_t)1 << 32) + ASTERNHAKEN_TOLD_JOINED), "unknown"));
    CHECK(asternhaken_told_sentence(((uint64_t)1 << 32) + ASTERNHAKEN_TOLD_JOINED) == asternhaken_told_sentence(TELLINGS));
    CHECK(strstr(asternhaken_refusal_sentence(ASTERNHAKEN_REFUSED_REFERENCE), "99,999,999") && strstr(asternhaken_refusal_sentence(ASTERNHAKEN_REFUSED_SETUP), "199,999,999"));
    CHECK(strstr(asternhaken_refusal_sentence(REFUSALS), "does not know") && strstr(asternhaken_told_sentence(TELLINGS), "does not know"));
    CHECK(strstr(asternhaken_told_sentence(ASTERNHAKEN_TOLD_NOT_OURS), "not subscribed") && strstr(asternhaken_told_sentence(ASTERNHAKEN_TOLD_JOINED), "joined"));
    CHECK(ASTERNHAKEN_REFUSAL(0xffffff00u + ASTERNHAKEN_REFUSED_CLOCK) == ASTERNHAKEN_REFUSED_CLOCK);
    CHECK(!strcmp(asternhaken_refusal_word(ASTERNHAKEN_REFUSED_IDENTITY_LENGTH), "identity length"));

    /* of a page */
    enum { IDENTITIES = ASTERNHAKEN_IDENTITY_TMSI + 1, CHANNELS_FIRST = ASTERNHAKEN_CHANNEL_FIRST_TCH_H_OR_F + 1, CAUSES = ASTERNHAKEN_PAGED_FOR_SHORT_MESSAGE + 1 };
    ALL_DIFFER(asternhaken_identity_word, IDENTITIES);
    ALL_DIFFER(asternhaken_channel_first_word, CHANNELS_FIRST);
    ALL_DIFFER(asternhaken_paging_cause_word, CAUSES);
    CHECK(!strcmp(asternhaken_identity_word(ASTERNHAKEN_IDENTITY_IMSI), "IMSI") && !strcmp(asternhaken_identity_word(ASTERNHAKEN_IDENTITY_TMSI), "TMSI") && !strcmp(asternhaken_identity_word(7), "unknown"));
    CHECK(!strcmp(asternhaken_identity_word(ASTERNHAKEN_IDENTITY_IMEI), "IMEI") && !strcmp(asternhaken_identity_word(ASTERNHAKEN_IDENTITY_IMEISV), "IMEISV"));
    CHECK(!strcmp(asternhaken_channel_first_word(ASTERNHAKEN_CHANNEL_FIRST_ANY), "any channel") && !strcmp(asternhaken_channel_first_word(ASTERNHAKEN_CHANNEL_FIRST_SDCCH), "SDCCH"));
    CHECK(!strcmp(asternhaken_channel_first_word(ASTERNHAKEN_CHANNEL_FIRST_TCH_F), "TCH/F") && !strcmp(asternhaken_channel_first_word(CHANNELS_FIRST), "unknown"));
    CHECK(!strcmp(asternhaken_paging_cause_word(ASTERNHAKEN_PAGED_FOR_CALL), "mobile terminating call") && !strcmp(asternhaken_paging_cause_word(ASTERNHAKEN_PAGED_FOR_SHORT_MESSAGE), "short message"));
    CHECK(!strcmp(asternhaken_paging_cause_word(((uint64_t)1 << 32) + ASTERNHAKEN_PAGED_FOR_CALL), "unknown"));
}

static void version(void)
{
    char text[40];
    sprintf(text, "%d.%d.%d", ASTERNHAKEN_VERSION_MAJOR, ASTERNHAKEN_VERSION_MINOR, ASTERNHAKEN_VERSION_PATCH);
    CHECK(!strcmp(text, ASTERNHAKEN_VERSION));
    CHECK(asternhaken_version() == ASTERNHAKEN_VERSION_NUMBER);
    CHECK(ASTERNHAKEN_VERSION_MINOR < 100 && ASTERNHAKEN_VERSION_PATCH < 100);
}

int main(void)
{
    state = (uint8_t *)lent(LENGTH), before = (uint8_t *)lent(LENGTH), layout = (uint8_t *)lent(LENGTH);
    setups();
    lookups();
    lengths();
    told();
    drops();
    timers();
    refusals();
    paging_channel();
    pch_refusals();
    following();
    paging();
    identities();
    parts();
    members();
    octets();
    made_by_hand();
    nch_reader();
    nch_writer();
    facch_reader();
    facch_writer();
    half_octets();
    call_references();
    dispatcher_digits();
    causes();
    message_structs();
    half_octet_structs();
    octets_structs();
    words();
    version();
    free(state), free(before), free(layout);
    printf("%u passed, %u failed\n", passed, failed);
    return failed != 0;
}
