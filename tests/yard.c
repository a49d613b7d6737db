/* The yard set: every function of it with known answers, each member of its struct by its place, its state octet by octet as docs/STATE.md has it, the receiver inside held to a receiver that is fed
 * the same, and octets that chance left. What is lent comes from the heap at its exact length, so that valgrind sees a step past it. The last line is 'N passed, M failed'. */
#include <asternhaken.h>

#include <stddef.h>
#include <stdio.h>
#include <stdlib.h>
#include <string.h>

#define LENGTH ((size_t)ASTERNHAKEN_YARD_LENGTH)
#define INSIDE ((size_t)ASTERNHAKEN_STATE_LENGTH)

static unsigned passed, failed;

static void check(int holds, const char *what, int line)
{
    if (holds) {
        passed++;
        return;
    }
    if (failed++ < 20) printf("tests/yard.c:%d: %s\n", line, what);
}

#define CHECK(holds) check((holds) != 0, #holds, __LINE__)
#define ACCEPTED(call) CHECK((call) == ASTERNHAKEN_ACCEPTED)

static void *lent(size_t size)
{
    void *memory = malloc(size ? size : 1);
    if (!memory) exit(2);
    return memory;
}

/* ---- One yard set, and a receiver that is fed the same ---- */

/* docs/STATE.md: the last NLN, how many keys there are, the keys, and the places of the calls: their ticks, then an entry. */
enum { NLN = 16, N_KEYS = 19, KEYS = 24, CALLS = ASTERNHAKEN_STATE_LENGTH, CALL = 80, ENTRY = 8, TOLD = 16, FOLLOW = 17, KEPT = 18, RECORD = 24 };
enum { HUMP = 1630, YARD = 9422, SHED = 104002 };

static uint8_t *state, *before, *receiver;
static const uint32_t three_keys[3] = { HUMP, YARD, SHED }, three_sets[3] = { 0, ASTERNHAKEN_GROUP_KEY(3), ASTERNHAKEN_GROUP_KEY(3) };

/* 815 clear on 0a4123 with NLN 1, and without one; 4711 with key number 3 on 5b8456: first half and second half with count 2, both with NLN 1, and in one piece with NLN 2; 52001 with key number 5 in one
 * piece with NLN 3, and clear. */
static const char *const hump = "b000065e208520918b2b2b2b2b2b2b2b2b2b2b2b", *const hump_without = "40001978821482462b2b2b2b2b2b2b2b2b2b2b2b";
static const char *const first_half = "b00024ce13adc22b122b2b2b2b2b2b2b2b2b2b2b", *const second_half = "b00024ce1319c48d159e252b2b2b2b2b2b2b2b2b";
static const char *const yard_again = "d00024ce13adc22b1ca468acf1342b2b2b2b2b2b", *const shed = "f0019642058643bb92800000003b2b2b2b2b2b2b", *const shed_clear = "f0019642008643bb8b2b2b2b2b2b2b2b2b2b2b2b";

static uint8_t *octets_of(const char *hex, size_t *n)
{
    uint8_t *octets = (uint8_t *)lent(strlen(hex) / 2);
    unsigned octet;
    for (*n = 0; sscanf(hex + 2 * *n, "%2x", &octet) == 1; ++*n) octets[*n] = (uint8_t)octet;
    return octets;
}

static uint32_t set_up(const uint32_t *keys, size_t n, const uint32_t *sets, size_t n_sets, uint32_t tick, uint32_t timer)
{
    uint32_t *copy = (uint32_t *)lent(n * sizeof *keys), *copy_of_sets = (uint32_t *)lent(n_sets * sizeof *sets);
    memcpy(copy, keys, n * sizeof *keys), memcpy(copy_of_sets, sets, n_sets * sizeof *sets), memcpy(before, state, LENGTH);
    uint32_t result = asternhaken_yard_setup(state, LENGTH, copy, n, copy_of_sets, n_sets, tick, timer, ASTERNHAKEN_T3208, ASTERNHAKEN_T3210);
    CHECK(!memcmp(copy, keys, n * sizeof *keys) && !memcmp(copy_of_sets, sets, n_sets * sizeof *sets));
    CHECK(!result || !memcmp(before, state, LENGTH));
    if (!result) ACCEPTED(asternhaken_setup(receiver, INSIDE, keys, n, sets, n_sets, tick, timer, ASTERNHAKEN_T3208, ASTERNHAKEN_T3210));
    free(copy), free(copy_of_sets);
    return result;
}

static void fresh(uint32_t tick)
{
    ACCEPTED(set_up(three_keys, 3, three_sets, 3, tick, ASTERNHAKEN_T3206));
}

/* The result of an event, with the result of the same event in the receiver: both are the same, a refused one changes nothing, and the receiver inside is that receiver. */
static uint32_t both(uint32_t result, uint32_t other)
{
    CHECK(result == other);
    CHECK(!result || !memcmp(before, state, LENGTH));
    CHECK(!memcmp(state, receiver, INSIDE));
    return result;
}

static uint32_t nch(uint32_t tick, const char *hex)
{
    size_t n;
    uint8_t *octets = octets_of(hex, &n);
    memcpy(before, state, LENGTH);
    uint32_t result = both(asternhaken_yard_nch(state, LENGTH, tick, octets, n), asternhaken_nch(receiver, INSIDE, tick, octets, n));
    free(octets);
    return result;
}

#define PLAIN(event, tick) (memcpy(before, state, LENGTH), both(asternhaken_yard_##event(state, LENGTH, tick), asternhaken_##event(receiver, INSIDE, tick)))
#define NUMBER(event, tick, number) (memcpy(before, state, LENGTH), both(asternhaken_yard_##event(state, LENGTH, tick, number), asternhaken_##event(receiver, INSIDE, tick, number)))

/* ---- What is shown, each view of which leaves the state ---- */

static uint64_t count(void)
{
    uint64_t *into = (uint64_t *)lent(sizeof *into), number;
    *into = UINT64_MAX;
    memcpy(before, state, LENGTH);
    ACCEPTED(asternhaken_yard_count(state, LENGTH, into));
    CHECK(!memcmp(before, state, LENGTH));
    number = *into;
    free(into);
    return number;
}

static struct asternhaken_yard_call call(uint32_t i)
{
    struct asternhaken_yard_call *into = (struct asternhaken_yard_call *)lent(sizeof *into), copy;
    memset(into, 0xff, sizeof *into);
    memcpy(before, state, LENGTH);
    ACCEPTED(asternhaken_yard_call_get(state, LENGTH, i, into));
    CHECK(!memcmp(before, state, LENGTH));
    copy = *into;
    free(into);
    return copy;
}

/* The i-th call has this key, number told, channel and age. */
static int shows(uint32_t i, uint64_t key, uint64_t told, uint64_t channel, uint64_t age)
{
    struct asternhaken_yard_call c = call(i);
    return c.key == key && c.told == told && c.record.channel == channel && c.age == age && c.record.call_reference == key / 2;
}

static int all_zero(const void *memory, size_t n)
{
    for (size_t i = 0; i < n; i++)
        if (((const uint8_t *)memory)[i]) return 0;
    return 1;
}

/* ---- Setups ---- */

static void setups(void)
{
    const uint32_t even[9] = { 0, 2, 4, 6, 8, 10, 12, ASTERNHAKEN_LAST_KEY - 1, ASTERNHAKEN_LAST_KEY + 1 }, none[9] = { 0 }, odd[2] = { 0, ASTERNHAKEN_LAST_KEY }, falling[2] = { 4, 2 }, twice[2] = { 2, 2 }, nine[9] = { 0, 2, 4, 6, 8, 10, 12, 14, 16 };
    CHECK(ASTERNHAKEN_YARD_LENGTH == ASTERNHAKEN_STATE_LENGTH + ASTERNHAKEN_YARD_KEYS * CALL && ASTERNHAKEN_YARD_KEYS == 8);
    memset(state, 0xa5, LENGTH);
    ACCEPTED(set_up(even, 8, none, 8, 7, 1));
    CHECK(!memcmp(state, receiver, INSIDE) && all_zero(state + CALLS, LENGTH - INSIDE) && count() == 0);
    CHECK(asternhaken_is_set_up(state, INSIDE) == 1);
    ACCEPTED(set_up(even, 0, none, 0, 7, 60000));
    CHECK(set_up(nine, 9, none, 9, 0, 1) == ASTERNHAKEN_REFUSED_SETUP);
    CHECK(set_up(odd, 2, none, 2, 0, 1) == ASTERNHAKEN_REFUSED_SETUP && set_up(odd + 1, 1, none, 1, 0, 1) == ASTERNHAKEN_REFUSED_SETUP);
    CHECK(set_up(falling, 2, none, 2, 0, 1) == ASTERNHAKEN_REFUSED_SETUP && set_up(twice, 2, none, 2, 0, 1) == ASTERNHAKEN_REFUSED_SETUP);
    CHECK(set_up(even + 8, 1, none, 1, 0, 1) == ASTERNHAKEN_REFUSED_SETUP && set_up(even, 2, none, 1, 0, 1) == ASTERNHAKEN_REFUSED_SETUP);
    CHECK(set_up(even, 1, nine + 1, 1, 0, 0) == ASTERNHAKEN_REFUSED_SETUP && set_up(even, 1, odd + 1, 1, 0, 1) == ASTERNHAKEN_REFUSED_SETUP);
    /* a refused one leaves the calls, an accepted one takes them away */
    fresh(1000);
    ACCEPTED(nch(1000, hump));
    CHECK(count() == 1 && set_up(nine, 9, none, 9, 0, 1) == ASTERNHAKEN_REFUSED_SETUP && count() == 1);
    fresh(1000);
    CHECK(count() == 0 && all_zero(state + CALLS, LENGTH - INSIDE));
}

/* Every function refuses a state of another length first, that of a receiver too, and writes nothing. */
static void lengths(void)
{
    const size_t all[] = { 0, 1, INSIDE, LENGTH - 1, LENGTH + 1, LENGTH - 80 };
    const uint32_t odd[1] = { 1 };
    for (size_t i = 0; i < sizeof all / sizeof *all; i++) {
        uint8_t *short_one = (uint8_t *)lent(all[i]), octet = 0x2b;
        uint64_t entry[1] = { 0 }, numbers[3] = { 7, 7, 7 }, number = 7;
        memset(short_one, 0x5a, all[i]);
        CHECK(asternhaken_yard_setup(short_one, all[i], odd, 1, odd, 0, 0, 0, 0, 0) == ASTERNHAKEN_REFUSED_LENGTH);
        CHECK(asternhaken_yard_nch(short_one, all[i], 0, &octet, 1) == ASTERNHAKEN_REFUSED_LENGTH && asternhaken_yard_facch(short_one, all[i], 0, &octet, 1) == ASTERNHAKEN_REFUSED_LENGTH);
        CHECK(asternhaken_yard_pch(short_one, all[i], 0, entry, 1) == ASTERNHAKEN_REFUSED_LENGTH && asternhaken_yard_joined(short_one, all[i], 0, UINT32_MAX) == ASTERNHAKEN_REFUSED_LENGTH);
        CHECK(asternhaken_yard_reselected(short_one, all[i], 0) == ASTERNHAKEN_REFUSED_LENGTH && asternhaken_yard_handed_over(short_one, all[i], 0) == ASTERNHAKEN_REFUSED_LENGTH);
        CHECK(asternhaken_yard_reconfigured(short_one, all[i], 0) == ASTERNHAKEN_REFUSED_LENGTH && asternhaken_yard_left_idle(short_one, all[i], 0) == ASTERNHAKEN_REFUSED_LENGTH);
        CHECK(asternhaken_yard_bit_22(short_one, all[i], 0, 2) == ASTERNHAKEN_REFUSED_LENGTH && asternhaken_yard_tick(short_one, all[i], 0) == ASTERNHAKEN_REFUSED_LENGTH);
        CHECK(asternhaken_yard_count(short_one, all[i], &number) == ASTERNHAKEN_REFUSED_LENGTH && number == 0);
        CHECK(asternhaken_yard_call_numbers(short_one, all[i], 0, numbers, 3) == ASTERNHAKEN_REFUSED_LENGTH && all_zero(numbers, sizeof numbers));
        for (size_t j = 0; j < all[i]; j++)
            if (short_one[j] != 0x5a) CHECK(!"a state of another length was written");
        free(short_one);
    }
}

/* ---- Calls that come, are replaced, and go ---- */

static void calls(void)
{
    fresh(1000);
    CHECK(count() == 0 && call(0).told == 0 && all_zero(state + CALLS, LENGTH - INSIDE));
    ACCEPTED(nch(2000, hump));
    CHECK(count() == 1 && shows(0, HUMP, ASTERNHAKEN_TOLD_CLEAR, 0x0a4123, 0) && call(0).follow == ASTERNHAKEN_FOLLOW_NOT_SAID);
    /* a half is no call; the second brings count 2, which is kept before the call is told */
    ACCEPTED(nch(2500, first_half));
    CHECK(count() == 1 && shows(0, HUMP, 1, 0x0a4123, 500) && !call(1).told);
    ACCEPTED(nch(3000, second_half));
    CHECK(count() == 2 && shows(1, YARD, ASTERNHAKEN_TOLD_JOINED, 0x5b8456, 0) && call(1).record.vstk_rand == 0x123456789);
    CHECK(call(1).follow == ASTERNHAKEN_FOLLOW_WITH_COUNT && call(1).kept_count == 2);
    /* what happens to the count, and joining any call, changes nothing shown */
    ACCEPTED(NUMBER(bit_22, 3100, 1));
    ACCEPTED(NUMBER(bit_22, 3200, 0));
    ACCEPTED(NUMBER(joined, 3300, HUMP));
    CHECK(count() == 2 && call(1).follow == ASTERNHAKEN_FOLLOW_WITH_COUNT && call(1).kept_count == 2 && shows(1, YARD, 3, 0x5b8456, 300));
    /* the octets of a place: tick, four unused, an entry with its record; the third has none */
    const uint8_t *place = state + CALLS + CALL;
    CHECK(place[0] == (3000 & 255) && place[1] == 3000 >> 8 && all_zero(place + 2, 6));
    CHECK(place[ENTRY] == (YARD & 255) && place[ENTRY + 1] == YARD >> 8 && all_zero(place + ENTRY + 2, 6) && place[TOLD] == 3 && place[FOLLOW] == 3 && place[KEPT] == 2 && all_zero(place + KEPT + 1, 5));
    CHECK(place[RECORD] == (4711 & 255) && place[RECORD + 4] == 0x56 && place[RECORD + 5] == 0x84 && place[RECORD + 6] == 0x5b && all_zero(place + CALL, CALL));
    /* a record of the same key replaces it, and the calls rise by key, however they came */
    ACCEPTED(nch(4000, hump_without));
    CHECK(count() == 2 && shows(0, HUMP, 1, 0x0a4123, 0) && shows(1, YARD, 3, 0x5b8456, 1000));
    ACCEPTED(nch(4000, hump_without));
    CHECK(count() == 2 && shows(0, HUMP, 1, 0x0a4123, 0));
    /* 29,999 ms after its last record the yard's is there, and a millisecond later gone; the hump's stays */
    ACCEPTED(PLAIN(tick, 32999));
    CHECK(count() == 2 && shows(1, YARD, 3, 0x5b8456, 29999));
    ACCEPTED(PLAIN(tick, 33000));
    CHECK(count() == 1 && shows(0, HUMP, 1, 0x0a4123, 29000) && all_zero(state + CALLS + CALL, CALL));
    /* one that ran out at this very event may come with it */
    ACCEPTED(nch(34000, hump_without));
    CHECK(count() == 1 && shows(0, HUMP, 1, 0x0a4123, 0));
    ACCEPTED(NUMBER(joined, 63999, SHED));
    CHECK(count() == 1);
    ACCEPTED(NUMBER(bit_22, 64000, 0));
    CHECK(count() == 0 && all_zero(state + CALLS, LENGTH - INSIDE));
}

static void cells(void)
{
    fresh(0);
    /* without an NLN yet, the first is no change */
    ACCEPTED(nch(1, hump_without));
    ACCEPTED(nch(2, hump));
    CHECK(count() == 1 && state[NLN] == 1);
    ACCEPTED(nch(3, first_half));
    ACCEPTED(nch(4, second_half));
    CHECK(count() == 2);
    /* NLN 2 takes both away, and the yard's comes in with it */
    ACCEPTED(nch(5, yard_again));
    CHECK(count() == 1 && shows(0, YARD, ASTERNHAKEN_TOLD_ONE_PIECE, 0x5b8456, 0) && all_zero(state + CALLS, CALL));
    ACCEPTED(nch(6, hump_without));
    CHECK(count() == 2);
    /* another cell: nothing is shown; its first NLN, 3, is no change */
    ACCEPTED(PLAIN(reselected, 7));
    CHECK(count() == 0 && state[NLN] == 4);
    ACCEPTED(nch(8, hump_without));
    ACCEPTED(nch(9, shed));
    CHECK(count() == 2 && shows(1, SHED, ASTERNHAKEN_TOLD_ONE_PIECE, 0x0c8777, 0) && call(1).follow == ASTERNHAKEN_FOLLOW_NO_KEY && call(1).kept_count == 0);
    ACCEPTED(nch(10, shed_clear));
    CHECK(count() == 2 && shows(1, SHED, ASTERNHAKEN_TOLD_CLEAR, 0x0c8777, 0) && call(1).follow == ASTERNHAKEN_FOLLOW_NOT_SAID);
    ACCEPTED(nch(11, hump));
    CHECK(count() == 1 && shows(0, HUMP, 1, 0x0a4123, 0));
    /* over the end of the clock */
    fresh(UINT32_MAX - 10);
    ACCEPTED(nch(UINT32_MAX - 5, hump));
    ACCEPTED(PLAIN(tick, 29993));
    CHECK(count() == 1 && shows(0, HUMP, 1, 0x0a4123, 29999));
    ACCEPTED(PLAIN(tick, 29994));
    CHECK(count() == 0);
}

/* ---- What is refused ---- */

static void refusals(void)
{
    const uint8_t page[4] = { 0x04, 0x80, 0xfa, 0x2b };
    const uint64_t entry[ASTERNHAKEN_PCH_NUMBERS] = { HUMP };
    fresh(5000);
    ACCEPTED(nch(5000, hump));
    CHECK(nch(4999, hump) == ASTERNHAKEN_REFUSED_CLOCK && nch(5000, "2b") == ASTERNHAKEN_REFUSED_MESSAGE_LENGTH && PLAIN(tick, 4999) == ASTERNHAKEN_REFUSED_CLOCK);
    CHECK(PLAIN(reselected, 5000u + (1u << 31)) == ASTERNHAKEN_REFUSED_CLOCK && NUMBER(joined, 5000, ASTERNHAKEN_LAST_KEY + 1) == ASTERNHAKEN_REFUSED_REFERENCE && NUMBER(bit_22, 5000, 2) == ASTERNHAKEN_REFUSED_RANGE);
    CHECK(nch(40000, "ffffffffffffffffffffffffffffffffffffffff") == ASTERNHAKEN_REFUSED_REFERENCE && count() == 1);
    /* what it does not take, in time and at a tick that the clock refuses */
    for (uint32_t tick = 4999; tick <= 5000; tick++) {
        memcpy(before, state, LENGTH);
        CHECK(asternhaken_yard_facch(state, LENGTH, tick, page, sizeof page) == ASTERNHAKEN_REFUSED_NOT_FOR_YARD && asternhaken_yard_facch(state, LENGTH, tick, page, 0) == ASTERNHAKEN_REFUSED_NOT_FOR_YARD);
        CHECK(asternhaken_yard_pch(state, LENGTH, tick, entry, ASTERNHAKEN_PCH_NUMBERS) == ASTERNHAKEN_REFUSED_NOT_FOR_YARD && asternhaken_yard_pch(state, LENGTH, tick, entry, 1) == ASTERNHAKEN_REFUSED_NOT_FOR_YARD);
        CHECK(asternhaken_yard_handed_over(state, LENGTH, tick) == ASTERNHAKEN_REFUSED_NOT_FOR_YARD && asternhaken_yard_reconfigured(state, LENGTH, tick) == ASTERNHAKEN_REFUSED_NOT_FOR_YARD);
        CHECK(asternhaken_yard_left_idle(state, LENGTH, tick) == ASTERNHAKEN_REFUSED_NOT_FOR_YARD && !memcmp(before, state, LENGTH));
    }
    CHECK(!strcmp(asternhaken_refusal_word(ASTERNHAKEN_REFUSED_NOT_FOR_YARD), "not for a yard set") && strstr(asternhaken_refusal_sentence(ASTERNHAKEN_REFUSED_NOT_FOR_YARD), "FACCH"));
}

/* ---- The struct and the array are the same numbers ---- */

static void members(void)
{
    uint64_t *numbers = (uint64_t *)lent(40 * sizeof *numbers);
    CHECK(offsetof(struct asternhaken_yard_call, key) == 0 && offsetof(struct asternhaken_yard_call, told) == 8 && offsetof(struct asternhaken_yard_call, record) == 16);
    CHECK(offsetof(struct asternhaken_yard_call, follow) == 8 * 32 && offsetof(struct asternhaken_yard_call, kept_count) == 8 * 33 && offsetof(struct asternhaken_yard_call, age) == 8 * 34);
    fresh(0);
    ACCEPTED(nch(1, first_half));
    ACCEPTED(nch(2, second_half));
    ACCEPTED(PLAIN(tick, 12345));
    struct asternhaken_yard_call shown = call(0);
    for (size_t n = 0; n <= 40; n++) {
        uint64_t *fewer = (uint64_t *)lent(n * sizeof *fewer);
        memset(fewer, 0xff, n * sizeof *fewer);
        ACCEPTED(asternhaken_yard_call_numbers(state, LENGTH, 0, fewer, n));
        size_t there = n < ASTERNHAKEN_YARD_CALL_NUMBERS ? n : (size_t)ASTERNHAKEN_YARD_CALL_NUMBERS;
        CHECK(!memcmp(fewer, &shown, there * sizeof *fewer) && all_zero(fewer + there, (n - there) * sizeof *fewer));
        free(fewer);
    }
    const uint32_t beyond[] = { 1, 2, 8, 255, 256, (uint32_t)1 << 31, UINT32_MAX };
    for (size_t i = 0; i < sizeof beyond / sizeof *beyond; i++) {
        memset(numbers, 0xff, 40 * sizeof *numbers);
        ACCEPTED(asternhaken_yard_call_numbers(state, LENGTH, beyond[i], numbers, 40));
        CHECK(all_zero(numbers, 40 * sizeof *numbers));
    }
    CHECK(shown.age == 12343 && shown.record.cipher_key_number == 3 && shown.record.rand_given == 1 && shown.record.count_given == 1 && shown.record.cell_global_count == 2);
    /* the answer to the last event is read from the receiver inside */
    ACCEPTED(nch(12346, first_half));
    struct asternhaken_answer answer;
    struct asternhaken_entry entry;
    ACCEPTED(asternhaken_answer_get(state, INSIDE, &answer));
    ACCEPTED(asternhaken_entry_get(state, INSIDE, 0, &entry));
    CHECK(answer.entry_count == 1 && entry.key == YARD && entry.told == ASTERNHAKEN_TOLD_HALF_STORED);
    free(numbers);
}

/* ---- Octets that chance left: they are answered, and events go on from them ---- */

static void any_octets(void)
{
    uint64_t dice = 28;
    for (int i = 0; i < 200; i++) {
        for (size_t j = 0; j < LENGTH; j++) state[j] = (uint8_t)((dice = dice * 6364136223846793005u + 1442695040888963407u) >> 56);
        state[N_KEYS] = (uint8_t)(i % 60);
        /* by chance alone few are 1 to 3 */
        for (size_t j = 0; i % 2 && j < ASTERNHAKEN_YARD_KEYS; j++) state[CALLS + CALL * j + TOLD] %= 6;
        memcpy(receiver, state, INSIDE);
        uint64_t there = 0;
        for (size_t j = 0; j < ASTERNHAKEN_YARD_KEYS; j++) there += state[CALLS + CALL * j + TOLD] >= ASTERNHAKEN_TOLD_CLEAR && state[CALLS + CALL * j + TOLD] <= ASTERNHAKEN_TOLD_JOINED;
        CHECK(count() == there);
        for (uint32_t j = 0; j < 10; j++) CHECK((call(j).told != 0) == (j < there));
        uint32_t tick = state[0] | (uint32_t)state[1] << 8 | (uint32_t)state[2] << 16 | (uint32_t)state[3] << 24;
        ACCEPTED(nch(tick + 1, hump));
        ACCEPTED(PLAIN(tick, tick + 2));
        for (uint32_t j = 0; j < count(); j++) CHECK(call(j).age < ASTERNHAKEN_YARD_SHOWN);
        ACCEPTED(PLAIN(reselected, tick + 3));
        CHECK(count() == 0);
    }
}

int main(void)
{
    state = (uint8_t *)lent(LENGTH), before = (uint8_t *)lent(LENGTH), receiver = (uint8_t *)lent(INSIDE);
    setups();
    lengths();
    calls();
    cells();
    refusals();
    members();
    any_octets();
    free(state), free(before), free(receiver);
    printf("%u passed, %u failed\n", passed, failed);
    return failed != 0;
}
