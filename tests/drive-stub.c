/* Seeded faults for tests/drive.sh: the library with one fault in it, the one that the variable FAULT names, which the driver or the comparison must find. The linker puts
 * these functions before the library's own (--wrap), so what they do not name is as it is. */
#include <asternhaken.h>

#include <stdlib.h>
#include <string.h>

static int seeded(const char *name)
{
    const char *wanted = getenv("FAULT");
    return wanted && !strcmp(wanted, name);
}

/* docs/STATE.md: the last NLN, the kinds of the places, and who is paged; the calls of a yard set, with the number told of each. */
enum { NLN = 16, KINDS = 424, PLACES = 150, PAGED = 9592, PAGED_OCTETS = 16, CALLS = ASTERNHAKEN_STATE_LENGTH, CALL_OCTETS = 80, TOLD = 16 };

uint32_t __real_asternhaken_setup(uint8_t *state, size_t state_length, const uint32_t *keys, size_t n_keys, const uint32_t *sets, size_t n_sets, uint32_t tick, uint32_t t3206, uint32_t t3208, uint32_t t3210);
uint32_t __wrap_asternhaken_setup(uint8_t *state, size_t state_length, const uint32_t *keys, size_t n_keys, const uint32_t *sets, size_t n_sets, uint32_t tick, uint32_t t3206, uint32_t t3208, uint32_t t3210)
{
    if (n_sets && seeded("the first set is that of every key")) {
        static uint32_t first[ASTERNHAKEN_KEYS + 1];
        for (size_t i = 0; i < n_sets && i <= ASTERNHAKEN_KEYS; i++) first[i] = sets[0];
        if (n_sets <= ASTERNHAKEN_KEYS) sets = first;
    }
    uint32_t result = __real_asternhaken_setup(state, state_length, keys, n_keys, sets, n_sets, tick, t3206, t3208, t3210);
    if (result && seeded("a refused setup writes")) state[4711] ^= 1;
    if (n_keys && seeded("a setup writes the keys")) ++*(uint32_t *)keys;
    if (n_sets && seeded("a setup writes the sets")) ++*(uint32_t *)sets;
    if (result && seeded("a refused setup gives another number")) result++;
    if (result && seeded("a refused setup forgets who is paged")) memset(state + PAGED, 0, PAGED_OCTETS);
    return result;
}

uint32_t __real_asternhaken_facch(uint8_t *state, size_t state_length, uint32_t tick, const uint8_t *octets, size_t n);
uint32_t __wrap_asternhaken_facch(uint8_t *state, size_t state_length, uint32_t tick, const uint8_t *octets, size_t n)
{
    uint32_t result = __real_asternhaken_facch(state, state_length, tick, octets, n);
    static uint8_t last[PAGED_OCTETS];
    if (result && seeded("a refused event moves the clock")) memcpy(state, &tick, sizeof tick);
    if (!result && seeded("who is paged stays over the next event")) {
        if (state[PAGED]) memcpy(last, state + PAGED, sizeof last);
        else memcpy(state + PAGED, last, sizeof last);
    }
    if (!result && state[PAGED] && seeded("a page drops the halves")) memset(state + KINDS, 0, PLACES);
    if (seeded("an event has an upper bit")) result |= 256;
    return result;
}

uint32_t __real_asternhaken_pch(uint8_t *state, size_t state_length, uint32_t tick, const uint64_t *entry, size_t n);
uint32_t __wrap_asternhaken_pch(uint8_t *state, size_t state_length, uint32_t tick, const uint64_t *entry, size_t n)
{
    uint32_t result = __real_asternhaken_pch(state, state_length, tick, entry, n);
    if (result && seeded("a refused PCH entry drops a half")) memset(state + KINDS, 0, PLACES);
    if (seeded("a PCH entry is written")) ++((uint64_t *)entry)[n - 1];
    if (!result && seeded("a PCH entry is handed in twice")) result = __real_asternhaken_pch(state, state_length, tick, entry, n);
    return result;
}

uint32_t __real_asternhaken_left_idle(uint8_t *state, size_t state_length, uint32_t tick);
uint32_t __wrap_asternhaken_left_idle(uint8_t *state, size_t state_length, uint32_t tick)
{
    if (seeded("leaving idle mode is a tick alone")) return asternhaken_tick(state, state_length, tick);
    return __real_asternhaken_left_idle(state, state_length, tick);
}

uint32_t __real_asternhaken_bit_22(uint8_t *state, size_t state_length, uint32_t tick, uint32_t value);
uint32_t __wrap_asternhaken_bit_22(uint8_t *state, size_t state_length, uint32_t tick, uint32_t value)
{
    if (seeded("the bit is a tick alone")) return asternhaken_tick(state, state_length, tick);
    if (value > 1 && seeded("a bit above 1 is taken")) value = 1;
    uint32_t result = __real_asternhaken_bit_22(state, state_length, tick, value);
    if (result && seeded("a refused bit is kept")) state[18] = (uint8_t)value;
    return result;
}

uint32_t __real_asternhaken_yard_setup(uint8_t *state, size_t state_length, const uint32_t *keys, size_t n_keys, const uint32_t *sets, size_t n_sets, uint32_t tick, uint32_t t3206, uint32_t t3208, uint32_t t3210);
uint32_t __wrap_asternhaken_yard_setup(uint8_t *state, size_t state_length, const uint32_t *keys, size_t n_keys, const uint32_t *sets, size_t n_sets, uint32_t tick, uint32_t t3206, uint32_t t3208, uint32_t t3210)
{
    uint32_t even[ASTERNHAKEN_YARD_KEYS];
    for (size_t i = 0; i < n_keys && i < ASTERNHAKEN_YARD_KEYS; i++) even[i] = keys[i] & ~(uint32_t)1;
    if (n_keys > ASTERNHAKEN_YARD_KEYS && seeded("a ninth key is taken")) n_keys = n_sets = ASTERNHAKEN_YARD_KEYS;
    if (n_keys <= ASTERNHAKEN_YARD_KEYS && seeded("an odd key is taken")) keys = even;
    uint32_t result = __real_asternhaken_yard_setup(state, state_length, keys, n_keys, sets, n_sets, tick, t3206, t3208, t3210);
    if (result && seeded("a refused setup of a yard set writes")) state[CALLS + 477] ^= 1;
    return result;
}

/* The ticks of the calls are put so much back. */
static void make_older(uint8_t *state, uint32_t ms)
{
    for (size_t i = 0; i < ASTERNHAKEN_YARD_KEYS; i++) {
        uint8_t *since = state + CALLS + CALL_OCTETS * i;
        uint32_t tick = since[0] | (uint32_t)since[1] << 8 | (uint32_t)since[2] << 16 | (uint32_t)since[3] << 24;
        for (size_t j = 0; j < 4; j++) since[j] = (uint8_t)((tick - ms) >> 8 * j);
    }
}

uint32_t __real_asternhaken_yard_tick(uint8_t *state, size_t state_length, uint32_t tick);
uint32_t __wrap_asternhaken_yard_tick(uint8_t *state, size_t state_length, uint32_t tick)
{
    uint32_t early = seeded("a call is gone a millisecond early"), late = seeded("a call stays a millisecond longer");
    if (early || late) make_older(state, early - late);
    uint32_t result = __real_asternhaken_yard_tick(state, state_length, tick);
    if (early || late) make_older(state, late - early);
    return result;
}

uint32_t __real_asternhaken_yard_nch(uint8_t *state, size_t state_length, uint32_t tick, const uint8_t *octets, size_t n);
uint32_t __wrap_asternhaken_yard_nch(uint8_t *state, size_t state_length, uint32_t tick, const uint8_t *octets, size_t n)
{
    uint8_t last = state[NLN], calls[CALL_OCTETS * ASTERNHAKEN_YARD_KEYS];
    memcpy(calls, state + CALLS, sizeof calls);
    if (seeded("another NLN takes no call away")) state[NLN] = 4;
    uint32_t result = __real_asternhaken_yard_nch(state, state_length, tick, octets, n);
    if (result && seeded("another NLN takes no call away")) state[NLN] = last;
    if (!result && last != 4 && state[NLN] != last && seeded("another NLN takes its own calls away too")) memset(state + CALLS, 0, sizeof calls);
    if (!result && last == 4 && state[NLN] != 4 && seeded("the first NLN takes the calls away")) memset(state + CALLS, 0, sizeof calls);
    if (result && seeded("a refused message takes the calls away")) memset(state + CALLS, 0, sizeof calls);
    if (!result && calls[TOLD] && state[CALLS + TOLD] && seeded("the older record wins")) memcpy(state + CALLS, calls, CALL_OCTETS);
    return result;
}

uint32_t __real_asternhaken_yard_joined(uint8_t *state, size_t state_length, uint32_t tick, uint32_t key);
uint32_t __wrap_asternhaken_yard_joined(uint8_t *state, size_t state_length, uint32_t tick, uint32_t key)
{
    uint32_t result = __real_asternhaken_yard_joined(state, state_length, tick, key);
    if (!result && seeded("a call is lost where another is joined")) memset(state + CALLS, 0, CALL_OCTETS * ASTERNHAKEN_YARD_KEYS);
    return result;
}

uint32_t __real_asternhaken_yard_reselected(uint8_t *state, size_t state_length, uint32_t tick);
uint32_t __wrap_asternhaken_yard_reselected(uint8_t *state, size_t state_length, uint32_t tick)
{
    uint8_t calls[CALL_OCTETS * ASTERNHAKEN_YARD_KEYS], last = state[NLN];
    memcpy(calls, state + CALLS, sizeof calls);
    uint32_t result = __real_asternhaken_yard_reselected(state, state_length, tick);
    if (!result && seeded("the calls outlive a reselection")) memcpy(state + CALLS, calls, sizeof calls);
    if (!result && seeded("the NLN of the old cell is kept")) state[NLN] = last;
    return result;
}

uint32_t __real_asternhaken_yard_handed_over(uint8_t *state, size_t state_length, uint32_t tick);
uint32_t __wrap_asternhaken_yard_handed_over(uint8_t *state, size_t state_length, uint32_t tick)
{
    uint32_t now = state[0] | (uint32_t)state[1] << 8 | (uint32_t)state[2] << 16 | (uint32_t)state[3] << 24;
    if (tick - now >= (uint32_t)1 << 31 && seeded("the clock is looked at before 19")) return ASTERNHAKEN_REFUSED_CLOCK;
    if (seeded("a yard set is handed over")) return asternhaken_handed_over(state, ASTERNHAKEN_STATE_LENGTH, tick);
    uint32_t result = __real_asternhaken_yard_handed_over(state, state_length, tick);
    if (seeded("a handover moves the clock")) memcpy(state, &tick, sizeof tick);
    return result;
}

uint32_t __real_asternhaken_yard_facch(uint8_t *state, size_t state_length, uint32_t tick, const uint8_t *octets, size_t n);
uint32_t __wrap_asternhaken_yard_facch(uint8_t *state, size_t state_length, uint32_t tick, const uint8_t *octets, size_t n)
{
    if (seeded("a yard set reads the FACCH")) return asternhaken_facch(state, ASTERNHAKEN_STATE_LENGTH, tick, octets, n);
    return __real_asternhaken_yard_facch(state, state_length, tick, octets, n);
}

uint32_t __real_asternhaken_yard_call_numbers(const uint8_t *state, size_t state_length, uint32_t i, uint64_t *numbers, size_t n);
uint32_t __wrap_asternhaken_yard_call_numbers(const uint8_t *state, size_t state_length, uint32_t i, uint64_t *numbers, size_t n)
{
    uint32_t result = __real_asternhaken_yard_call_numbers(state, state_length, i, numbers, n);
    if (seeded("showing a call writes the state")) ((uint8_t *)state)[CALLS] ^= 1;
    if (seeded("a call is shown too long")) numbers[n] = 0;
    if (!numbers[1]) return seeded("there is one more call") ? (numbers[0] = 1, result) : result;
    if (numbers[32] == ASTERNHAKEN_FOLLOW_WITH_COUNT && seeded("the count of now is shown")) numbers[33] = state[17];
    if (seeded("a part of a shown call is another")) numbers[3] ^= 1;
    if (seeded("an age is that of a call that is gone")) numbers[34] = ASTERNHAKEN_YARD_SHOWN;
    if (seeded("a call is shown as it is not told")) numbers[1] = ASTERNHAKEN_TOLD_HALF_STORED;
    if (numbers[1] == ASTERNHAKEN_TOLD_CLEAR && seeded("a clear call is shown with no key")) numbers[32] = ASTERNHAKEN_FOLLOW_NO_KEY;
    if (seeded("the calls are shown by falling key")) numbers[0] = UINT32_MAX - numbers[0];
    return result;
}

uint32_t __real_asternhaken_yard_count(const uint8_t *state, size_t state_length, uint64_t *count);
uint32_t __wrap_asternhaken_yard_count(const uint8_t *state, size_t state_length, uint64_t *count)
{
    uint32_t result = __real_asternhaken_yard_count(state, state_length, count);
    if (*count && seeded("a call is not counted")) --*count;
    return result;
}

uint32_t __real_asternhaken_find(const uint32_t *keys, size_t n_keys, uint32_t key, uint64_t *place, uint64_t *looks);
uint32_t __wrap_asternhaken_find(const uint32_t *keys, size_t n_keys, uint32_t key, uint64_t *place, uint64_t *looks)
{
    uint32_t result = __real_asternhaken_find(keys, n_keys, key, place, looks);
    if (seeded("a place is another")) ++*place;
    if (n_keys == ASTERNHAKEN_KEYS && seeded("a seventh look")) *looks = 7;
    if (n_keys == 1 && seeded("a second look at one key")) *looks = 2;
    if (!n_keys && seeded("a look at no keys")) *looks = 1;
    return result;
}

uint32_t __real_asternhaken_read(const uint8_t *state, size_t state_length, uint32_t entry, uint32_t part, uint64_t *value);
uint32_t __wrap_asternhaken_read(const uint8_t *state, size_t state_length, uint32_t entry, uint32_t part, uint64_t *value)
{
    uint32_t result = __real_asternhaken_read(state, state_length, entry, part, value);
    if (seeded("reading a part writes the state")) ((uint8_t *)state)[state_length - 1] ^= 128;
    if (part == ASTERNHAKEN_PART_EMERGENCY && seeded("a part is another")) ++*value;
    if (part == ASTERNHAKEN_PART_KEPT_COUNT && *value && seeded("a kept count is another")) --*value;
    if (part == ASTERNHAKEN_PART_FOLLOW && *value == ASTERNHAKEN_FOLLOW_NO_COUNT && seeded("no count is no key")) --*value;
    if (part == ASTERNHAKEN_PART_FOLLOW && !*value && seeded("a clear call has no key")) ++*value;
    if (part == ASTERNHAKEN_PART_CHANNEL_FIRST && *value && seeded("a part is unlike its number")) --*value;
    if (part == ASTERNHAKEN_PART_IDENTITY_REST && *value && seeded("an octet of who is paged is another")) *value ^= 256;
    if (part == ASTERNHAKEN_PART_PAGING_CAUSE && !*value && seeded("nobody is paged for a short message")) ++*value;
    return result;
}

uint32_t __real_asternhaken_paged_numbers(const uint8_t *state, size_t state_length, uint64_t *numbers, size_t n);
uint32_t __wrap_asternhaken_paged_numbers(const uint8_t *state, size_t state_length, uint64_t *numbers, size_t n)
{
    uint32_t result = __real_asternhaken_paged_numbers(state, state_length, numbers, n);
    if (seeded("looking who is paged writes the state")) ((uint8_t *)state)[PAGED] ^= 1;
    if (numbers[3] && seeded("an octet of who is paged is another")) numbers[3] ^= 256;
    if (!numbers[8] && seeded("nobody is paged for a short message")) numbers[8] = 1;
    return result;
}

uint32_t __real_asternhaken_nch_read(const uint8_t *octets, size_t n, uint64_t *numbers, size_t n_numbers);
uint32_t __wrap_asternhaken_nch_read(const uint8_t *octets, size_t n, uint64_t *numbers, size_t n_numbers)
{
    uint32_t result = __real_asternhaken_nch_read(octets, n, numbers, n_numbers);
    if (result && seeded("a refused reading leaves a number")) numbers[n_numbers - 1] = 1;
    if (!result && seeded("a reading is too long")) numbers[n_numbers] = 0;
    if (!result && seeded("a reading is another")) numbers[ASTERNHAKEN_NCH_USED]++;
    if (ASTERNHAKEN_BIT(result) && seeded("a bit number is another")) result += 256;
    if (ASTERNHAKEN_REFUSAL(result) == ASTERNHAKEN_REFUSED_RAN_OUT_6 && seeded("Release 6 is not told apart")) result -= ASTERNHAKEN_REFUSED_RAN_OUT_6 - ASTERNHAKEN_REFUSED_RAN_OUT;
    return result;
}

uint32_t __real_asternhaken_nch_write(const uint64_t *numbers, size_t n_numbers, uint8_t *octets, size_t n);
uint32_t __wrap_asternhaken_nch_write(const uint64_t *numbers, size_t n_numbers, uint8_t *octets, size_t n)
{
    uint32_t result = __real_asternhaken_nch_write(numbers, n_numbers, octets, n);
    if (result && n && seeded("a refused writing writes")) octets[n - 1] = 0x2b;
    if (!result && seeded("a writing is an octet too long")) octets[n] = 0x2b;
    if (!result && seeded("a writing begins an octet before")) octets[-1] = 0x2b;
    return result;
}

uint32_t __real_asternhaken_facch_read(const uint8_t *octets, size_t n, uint64_t *numbers, size_t n_numbers);
uint32_t __wrap_asternhaken_facch_read(const uint8_t *octets, size_t n, uint64_t *numbers, size_t n_numbers)
{
    uint32_t result = __real_asternhaken_facch_read(octets, n, numbers, n_numbers);
    if (result) return result;
    if (numbers[1] && seeded("an octet of an identity is another")) numbers[numbers[13] > 1 ? 15 : 14] ^= 1;
    if (!numbers[1] && seeded("the Paging Cause of a call is thrown away")) numbers[28] = numbers[29] = 0;
    if (!numbers[25] && numbers[ASTERNHAKEN_FACCH_USED] < 8 * n && seeded("the bit of an absent release is not counted")) numbers[ASTERNHAKEN_FACCH_USED]--;
    return result;
}

uint32_t __real_asternhaken_facch_write(const uint64_t *numbers, size_t n_numbers, uint8_t *octets, size_t n);
uint32_t __wrap_asternhaken_facch_write(const uint64_t *numbers, size_t n_numbers, uint8_t *octets, size_t n)
{
    uint8_t first[ASTERNHAKEN_FACCH_LONGEST];
    uint64_t again[ASTERNHAKEN_FACCH_NUMBERS];
    int fits = n <= sizeof first && !__real_asternhaken_facch_write(numbers, n_numbers, first, n) && !__real_asternhaken_facch_read(first, n, again, ASTERNHAKEN_FACCH_NUMBERS);
    if (fits && again[ASTERNHAKEN_FACCH_USED] == 8 * n && !numbers[25] && seeded("a bit too many for an absent release")) return ASTERNHAKEN_REFUSED_FORM_SIZE;
    uint32_t result = __real_asternhaken_facch_write(numbers, n_numbers, octets, n);
    if (result && n && seeded("a refused FACCH writing writes")) octets[n - 1] = 0x2b;
    if (result == ASTERNHAKEN_REFUSED_IDENTITY_LENGTH && seeded("the length of an identity is a range")) result = ASTERNHAKEN_REFUSED_RANGE;
    if (result) return result;
    if (seeded("a first octet is not zero")) octets[0] = 4;
    if (again[ASTERNHAKEN_FACCH_USED] <= 8 * n - 8 && seeded("a FACCH writing leaves the last octet")) octets[n - 1] = 0;
    if (seeded("a FACCH writing is an octet too long")) octets[n] = 0x2b;
    return result;
}

/* ---- The uplink ---- */

uint32_t __real_asternhaken_uplink_setup(uint8_t *uplink, size_t uplink_length, uint32_t tick, uint32_t t3128);
uint32_t __wrap_asternhaken_uplink_setup(uint8_t *uplink, size_t uplink_length, uint32_t tick, uint32_t t3128)
{
    uint32_t result = __real_asternhaken_uplink_setup(uplink, uplink_length, tick, t3128);
    if (result && seeded("a refused setup of the uplink writes")) uplink[7] ^= 1;
    return result;
}

uint32_t __real_asternhaken_uplink_free(uint8_t *uplink, size_t uplink_length, uint32_t tick);
uint32_t __wrap_asternhaken_uplink_free(uint8_t *uplink, size_t uplink_length, uint32_t tick)
{
    uint32_t result = __real_asternhaken_uplink_free(uplink, uplink_length, tick);
    if (ASTERNHAKEN_UPLINK_ENDED(result) == ASTERNHAKEN_UPLINK_REJECTED && seeded("a \"free\" that comes too late grants")) result ^= 0x300;
    if (ASTERNHAKEN_UPLINK_ENDED(result) == ASTERNHAKEN_UPLINK_GRANTED && seeded("a grant is told twice")) result |= ASTERNHAKEN_UPLINK_GRANTED << 16;
    if (seeded("a \"free\" is an octet too long")) uplink[uplink_length] = 0;
    return result;
}

uint32_t __real_asternhaken_uplink_busy(uint8_t *uplink, size_t uplink_length, uint32_t tick);
uint32_t __wrap_asternhaken_uplink_busy(uint8_t *uplink, size_t uplink_length, uint32_t tick)
{
    if (seeded("a \"busy\" is a tick alone")) return asternhaken_uplink_tick(uplink, uplink_length, tick);
    return __real_asternhaken_uplink_busy(uplink, uplink_length, tick);
}

uint32_t __real_asternhaken_uplink_request(uint8_t *uplink, size_t uplink_length, uint32_t tick);
uint32_t __wrap_asternhaken_uplink_request(uint8_t *uplink, size_t uplink_length, uint32_t tick)
{
    uint32_t result = __real_asternhaken_uplink_request(uplink, uplink_length, tick);
    if (seeded("a request rejects nobody")) result &= ~0xff00u;
    if (ASTERNHAKEN_UPLINK_TOLD(result) == ASTERNHAKEN_UPLINK_ALREADY_WAITING && seeded("a second request is told to wait")) result ^= 0x70000;
    return result;
}

uint32_t __real_asternhaken_uplink_tick(uint8_t *uplink, size_t uplink_length, uint32_t tick);
uint32_t __wrap_asternhaken_uplink_tick(uint8_t *uplink, size_t uplink_length, uint32_t tick)
{
    uint32_t result = __real_asternhaken_uplink_tick(uplink, uplink_length, tick);
    if (result && seeded("a refused tick moves the clock of the uplink")) uplink[3] ^= (uint8_t)(ASTERNHAKEN_REFUSAL(result) == ASTERNHAKEN_REFUSED_CLOCK);
    if (ASTERNHAKEN_REFUSAL(result) && seeded("a refused tick of the uplink tells something")) result |= ASTERNHAKEN_UPLINK_REJECTED << 8;
    if (seeded("a tick tells a rejection")) result |= ASTERNHAKEN_UPLINK_REJECTED << 16;
    return result;
}
