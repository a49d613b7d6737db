/* Asks this build of the archive what another was asked, and holds its answers against what that one answered: a record of `compare --record` is read from standard
 * input. There the answers were held against the second program's, so what is the same here is the same as the second program's. Everything that is lent has guards
 * around it, and what is lent to be read must stay. The last line is 'N passed, M failed'; a function that is never called has failed.
 *
 *   replay            as above
 *   replay --spoil    the first answer of each function is changed before it is looked at, which must show */
#include <asternhaken.h>

#include <stddef.h>
#include <stdio.h>
#include <stdlib.h>
#include <string.h>

enum { STATE = 255, GUARD = 16, SHOWN = 20 };

/* In the order of src/ffi.rs. */
enum {
    SETUP, NCH, FACCH, PCH, JOINED, RESELECTED, HANDED_OVER, RECONFIGURED, LEFT_IDLE, BIT_22, TICK, READ, ENTRY_NUMBERS, HELD_NUMBERS, PAGED_NUMBERS, HELD_COUNT, NEXT_EXPIRY, IS_SET_UP,
    NCH_READ, NCH_WRITE, FACCH_READ, FACCH_WRITE, MESSAGE_TYPE_READ, MESSAGE_TYPE_WRITE, CALL_REFERENCE_READ, CALL_REFERENCE_WRITE, CALL_STATE_READ, CALL_STATE_WRITE,
    CAUSE_READ, CAUSE_WRITE, ORIGINATOR_READ, ORIGINATOR_WRITE, STATE_ATTRIBUTES_READ, STATE_ATTRIBUTES_WRITE, SMS_READ, SMS_WRITE, TALKER_READ, TALKER_WRITE,
    DIGITS_READ, DIGITS_WRITE, FIND, UPLINK_SETUP, UPLINK_FREE, UPLINK_BUSY, UPLINK_REQUEST, UPLINK_TICK,
    YARD_SETUP, YARD_NCH, YARD_FACCH, YARD_PCH, YARD_JOINED, YARD_RESELECTED, YARD_HANDED_OVER, YARD_RECONFIGURED, YARD_LEFT_IDLE, YARD_BIT_22, YARD_TICK, YARD_CALL_NUMBERS, YARD_COUNT, FUNCTIONS
};

static const char *const names[FUNCTIONS] = {
    "setup", "nch", "facch", "pch", "joined", "reselected", "handed_over", "reconfigured", "left_idle", "bit_22", "tick", "read", "entry_numbers", "held_numbers", "paged_numbers",
    "held_count", "next_expiry", "is_set_up", "nch_read", "nch_write", "facch_read", "facch_write",
    "message_type_read", "message_type_write", "call_reference_read", "call_reference_write", "call_state_read", "call_state_write",
    "cause_read", "cause_write", "originator_read", "originator_write", "state_attributes_read", "state_attributes_write", "sms_read",
    "sms_write", "talker_read", "talker_write", "digits_read", "digits_write", "find",
    "uplink_setup", "uplink_free", "uplink_busy", "uplink_request", "uplink_tick",
    "yard_setup", "yard_nch", "yard_facch", "yard_pch", "yard_joined", "yard_reselected", "yard_handed_over", "yard_reconfigured", "yard_left_idle", "yard_bit_22", "yard_tick",
    "yard_call_numbers", "yard_count"
};

static unsigned long calls[FUNCTIONS], passed, failed;
static int spoil;

/* ---- The record ---- */

static void *room(size_t size)
{
    void *memory = malloc(size ? size : 1);
    if (!memory) exit(2);
    return memory;
}

static void take(void *into, size_t size)
{
    if (fread(into, 1, size, stdin) == size) return;
    printf("the record ends inside a call\n0 passed, 1 failed\n");
    exit(1);
}

static uint32_t small(void)
{
    uint32_t number;
    take(&number, sizeof number);
    return number;
}

/* ---- Lent memory ---- */

struct lent {
    uint8_t *at, *before; /* the content, between its guards; a copy */
    size_t size;
};

static struct lent lend(size_t size)
{
    struct lent lent = { room(size + 2 * GUARD), room(size), size };
    memset(lent.at, 0xa5, size + 2 * GUARD);
    lent.at += GUARD;
    return lent;
}

static struct lent lend_record(size_t size)
{
    struct lent lent = lend(size);
    take(lent.at, size);
    memcpy(lent.before, lent.at, size);
    return lent;
}

static int guarded(const struct lent *lent)
{
    for (size_t i = 0; i < GUARD; i++)
        if (lent->at[lent->size + i] != 0xa5 || lent->at[-1 - (ptrdiff_t)i] != 0xa5) return 0;
    return 1;
}

static int untouched(const struct lent *lent)
{
    return guarded(lent) && !memcmp(lent->at, lent->before, lent->size);
}

static void give_back(struct lent *lent)
{
    free(lent->at - GUARD);
    free(lent->before);
}

/* ---- Comparing ---- */

/* The refusal stands in the record first, then what memory that was lent to be written held. */
static void compare(unsigned function, uint32_t refusal, struct lent *into, int kept)
{
    static uint8_t *after;
    static size_t most;
    uint32_t expected = small();
    if (!after || into->size > most) free(after), after = room(most = into->size);
    take(after, into->size);
    if (spoil && !calls[function]) refusal ^= 1;
    calls[function]++;
    if (refusal == expected && !memcmp(into->at, after, into->size) && guarded(into) && kept) passed++;
    else if (failed++ < SHOWN)
        printf("DIFFERENCE %s, call %lu: refusal %lu, the record has %lu; lent memory %s, guards %s, what was lent to be read %s\n", names[function],
               calls[function], (unsigned long)refusal, (unsigned long)expected, memcmp(into->at, after, into->size) ? "differs" : "is the same",
               guarded(into) ? "stand" : "are gone", kept ? "stayed" : "was written");
}

static struct lent state;

/* Looked at before another call may change the state, or another state is lent: readings since then left it. */
static void state_is_untouched(void)
{
    if (untouched(&state)) return;
    failed++;
    printf("DIFFERENCE a reading wrote the state\n");
}

static void state_call(unsigned function)
{
    state_is_untouched();
    struct lent octets = lend_record(small());
    const uint32_t *keys = (const uint32_t *)(const void *)octets.at; /* of a setup, with the sets behind them */
    int is_setup = function == SETUP || function == YARD_SETUP, has_number = is_setup || function == JOINED || function == BIT_22 || function == YARD_JOINED || function == YARD_BIT_22;
    uint32_t tick = small(), a = has_number ? small() : 0, b = 0, c = 0, n_keys = 0, refusal = 0;
    if (is_setup) b = small(), c = small(), n_keys = small();
    switch (function) {
    case SETUP: refusal = asternhaken_setup(state.at, state.size, keys, n_keys, keys + n_keys, octets.size / 4 - n_keys, tick, a, b, c); break;
    case NCH: refusal = asternhaken_nch(state.at, state.size, tick, octets.at, octets.size); break;
    case FACCH: refusal = asternhaken_facch(state.at, state.size, tick, octets.at, octets.size); break;
    case PCH: refusal = asternhaken_pch(state.at, state.size, tick, (const uint64_t *)(const void *)octets.at, octets.size / 8); break;
    case JOINED: refusal = asternhaken_joined(state.at, state.size, tick, a); break;
    case RESELECTED: refusal = asternhaken_reselected(state.at, state.size, tick); break;
    case HANDED_OVER: refusal = asternhaken_handed_over(state.at, state.size, tick); break;
    case RECONFIGURED: refusal = asternhaken_reconfigured(state.at, state.size, tick); break;
    case LEFT_IDLE: refusal = asternhaken_left_idle(state.at, state.size, tick); break;
    case BIT_22: refusal = asternhaken_bit_22(state.at, state.size, tick, a); break;
    case TICK: refusal = asternhaken_tick(state.at, state.size, tick); break;
    case YARD_SETUP: refusal = asternhaken_yard_setup(state.at, state.size, keys, n_keys, keys + n_keys, octets.size / 4 - n_keys, tick, a, b, c); break;
    case YARD_NCH: refusal = asternhaken_yard_nch(state.at, state.size, tick, octets.at, octets.size); break;
    case YARD_FACCH: refusal = asternhaken_yard_facch(state.at, state.size, tick, octets.at, octets.size); break;
    case YARD_PCH: refusal = asternhaken_yard_pch(state.at, state.size, tick, (const uint64_t *)(const void *)octets.at, octets.size / 8); break;
    case YARD_JOINED: refusal = asternhaken_yard_joined(state.at, state.size, tick, a); break;
    case YARD_RESELECTED: refusal = asternhaken_yard_reselected(state.at, state.size, tick); break;
    case YARD_HANDED_OVER: refusal = asternhaken_yard_handed_over(state.at, state.size, tick); break;
    case YARD_RECONFIGURED: refusal = asternhaken_yard_reconfigured(state.at, state.size, tick); break;
    case YARD_LEFT_IDLE: refusal = asternhaken_yard_left_idle(state.at, state.size, tick); break;
    case YARD_BIT_22: refusal = asternhaken_yard_bit_22(state.at, state.size, tick, a); break;
    default: refusal = asternhaken_yard_tick(state.at, state.size, tick);
    }
    compare(function, refusal, &state, untouched(&octets));
    memcpy(state.before, state.at, state.size);
    give_back(&octets);
}

/* On a state of the uplink's own; nothing else is lent. */
static void uplink_call(unsigned function)
{
    state_is_untouched();
    struct lent octets = lend_record(small());
    uint32_t tick = small(), result = 0;
    switch (function) {
    case UPLINK_SETUP: result = asternhaken_uplink_setup(state.at, state.size, tick, small()); break;
    case UPLINK_FREE: result = asternhaken_uplink_free(state.at, state.size, tick); break;
    case UPLINK_BUSY: result = asternhaken_uplink_busy(state.at, state.size, tick); break;
    case UPLINK_REQUEST: result = asternhaken_uplink_request(state.at, state.size, tick); break;
    default: result = asternhaken_uplink_tick(state.at, state.size, tick);
    }
    compare(function, result, &state, untouched(&octets));
    memcpy(state.before, state.at, state.size);
    give_back(&octets);
}

/* What looks at the state: it fills numbers, or answers alone. */
static void view_call(unsigned function)
{
    int is_asked = function <= PAGED_NUMBERS || function == YARD_CALL_NUMBERS;
    uint32_t a = is_asked ? small() : 0, b = is_asked ? small() : 0, refusal;
    struct lent into = lend((function == IS_SET_UP ? 0 : is_asked && function > READ ? b : 1) * sizeof(uint64_t));
    uint64_t *numbers = (uint64_t *)(void *)into.at;
    memset(into.at, 0x5a, into.size);
    switch (function) {
    case READ: refusal = asternhaken_read(state.at, state.size, a, b, numbers); break;
    case ENTRY_NUMBERS: refusal = asternhaken_entry_numbers(state.at, state.size, a, numbers, b); break;
    case HELD_NUMBERS: refusal = asternhaken_held_numbers(state.at, state.size, a, numbers, b); break;
    case PAGED_NUMBERS: refusal = asternhaken_paged_numbers(state.at, state.size, numbers, b); break;
    case HELD_COUNT: refusal = asternhaken_held_count(state.at, state.size, numbers); break;
    case NEXT_EXPIRY: refusal = asternhaken_next_expiry(state.at, state.size, numbers); break;
    case YARD_CALL_NUMBERS: refusal = asternhaken_yard_call_numbers(state.at, state.size, a, numbers, b); break;
    case YARD_COUNT: refusal = asternhaken_yard_count(state.at, state.size, numbers); break;
    default: refusal = asternhaken_is_set_up(state.at, state.size);
    }
    compare(function, refusal, &into, 1);
    give_back(&into);
}

/* ---- The codecs: a reader fills numbers, a writer octets; an octet is given by itself or lent by itself ---- */

static uint64_t *numbers_of(const struct lent *lent) { return (uint64_t *)(void *)lent->at; }

static void octets_reader(unsigned function, uint32_t (*reader)(const uint8_t *, size_t, uint64_t *, size_t))
{
    struct lent octets = lend_record(small()), numbers = lend(small() * sizeof(uint64_t));
    uint32_t refusal = reader(octets.at, octets.size, numbers_of(&numbers), numbers.size / 8);
    compare(function, refusal, &numbers, untouched(&octets));
    give_back(&octets), give_back(&numbers);
}

static void octet_reader(unsigned function, uint32_t (*reader)(uint8_t, uint64_t *, size_t))
{
    uint8_t octet = (uint8_t)small();
    struct lent numbers = lend(small() * sizeof(uint64_t));
    uint32_t refusal = reader(octet, numbers_of(&numbers), numbers.size / 8);
    compare(function, refusal, &numbers, 1);
    give_back(&numbers);
}

static void octets_writer(unsigned function, uint32_t (*writer)(const uint64_t *, size_t, uint8_t *, size_t))
{
    struct lent numbers = lend_record(small() * sizeof(uint64_t)), octets = lend_record(small());
    uint32_t refusal = writer(numbers_of(&numbers), numbers.size / 8, octets.at, octets.size);
    compare(function, refusal, &octets, untouched(&numbers));
    give_back(&numbers), give_back(&octets);
}

static void octet_writer(unsigned function, uint32_t (*writer)(const uint64_t *, size_t, uint8_t *))
{
    struct lent numbers = lend_record(small() * sizeof(uint64_t)), octet = lend(1);
    *octet.at = (uint8_t)small();
    uint32_t refusal = writer(numbers_of(&numbers), numbers.size / 8, octet.at);
    compare(function, refusal, &octet, untouched(&numbers));
    give_back(&numbers), give_back(&octet);
}

/* Where a key stands, then how many it was compared with. */
static void find_call(unsigned function)
{
    struct lent keys = lend_record(small()), found = lend(2 * sizeof(uint64_t));
    uint32_t key = small(), refusal = asternhaken_find((const uint32_t *)(const void *)keys.at, keys.size / 4, key, numbers_of(&found), numbers_of(&found) + 1);
    compare(function, refusal, &found, untouched(&keys));
    give_back(&keys), give_back(&found);
}

static void codec_call(unsigned f)
{
    switch (f) {
    case NCH_READ: octets_reader(f, asternhaken_nch_read); break;
    case NCH_WRITE: octets_writer(f, asternhaken_nch_write); break;
    case FACCH_READ: octets_reader(f, asternhaken_facch_read); break;
    case FACCH_WRITE: octets_writer(f, asternhaken_facch_write); break;
    case MESSAGE_TYPE_READ: octet_reader(f, asternhaken_message_type_read); break;
    case MESSAGE_TYPE_WRITE: octet_writer(f, asternhaken_message_type_write); break;
    case CALL_REFERENCE_READ: octets_reader(f, asternhaken_call_reference_read); break;
    case CALL_REFERENCE_WRITE: octets_writer(f, asternhaken_call_reference_write); break;
    case CALL_STATE_READ: octet_reader(f, asternhaken_call_state_read); break;
    case CALL_STATE_WRITE: octet_writer(f, asternhaken_call_state_write); break;
    case CAUSE_READ: octets_reader(f, asternhaken_cause_read); break;
    case CAUSE_WRITE: octets_writer(f, asternhaken_cause_write); break;
    case ORIGINATOR_READ: octet_reader(f, asternhaken_originator_read); break;
    case ORIGINATOR_WRITE: octet_writer(f, asternhaken_originator_write); break;
    case STATE_ATTRIBUTES_READ: octet_reader(f, asternhaken_state_attributes_read); break;
    case STATE_ATTRIBUTES_WRITE: octet_writer(f, asternhaken_state_attributes_write); break;
    case SMS_READ: octet_reader(f, asternhaken_sms_read); break;
    case SMS_WRITE: octet_writer(f, asternhaken_sms_write); break;
    case TALKER_READ: octet_reader(f, asternhaken_talker_read); break;
    case TALKER_WRITE: octet_writer(f, asternhaken_talker_write); break;
    case DIGITS_READ: octets_reader(f, asternhaken_digits_read); break;
    case DIGITS_WRITE: octets_writer(f, asternhaken_digits_write); break;
    case FIND: find_call(f); break;
    default: printf("there is no function %u\n0 passed, 1 failed\n", f); exit(1);
    }
}

int main(int argc, char **argv)
{
    int function;
    spoil = argc == 2 && !strcmp(argv[1], "--spoil");
    state = lend(0);
    while ((function = getchar()) != EOF) {
        if (function == STATE) state_is_untouched(), give_back(&state), state = lend_record(small());
        else if (function < READ || (function >= YARD_SETUP && function <= YARD_TICK)) state_call((unsigned)function);
        else if (function < NCH_READ || (function >= YARD_CALL_NUMBERS && function < FUNCTIONS)) view_call((unsigned)function);
        else if (function >= UPLINK_SETUP && function <= UPLINK_TICK) uplink_call((unsigned)function);
        else codec_call((unsigned)function);
    }
    state_is_untouched();
    for (unsigned f = 0; f < FUNCTIONS; f++) {
        if (calls[f]) continue;
        printf("asternhaken_%s is never called\n", names[f]);
        failed++;
    }
    printf("%lu passed, %lu failed\n", passed, failed);
    return failed != 0;
}
