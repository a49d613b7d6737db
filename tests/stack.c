/* How deep the library's functions go: each is run on a stack of its own that was painted before, and what is not paint any more was used. What the call
 * itself and the switch of stacks take counts too, so a function uses no more than is said. The last line is 'N passed, M failed': each is under 4,096 octets.
 *
 * The program is linked so that no function of the C library is looked for at its first call, which would be counted. */
#define _XOPEN_SOURCE 700
#include <asternhaken.h>

#include <stdio.h>
#include <stdlib.h>
#include <string.h>
#include <ucontext.h>

enum { STACK = 65536, LIMIT = 4096 };

static unsigned char *stack;
static ucontext_t here, there;
static uint8_t state[ASTERNHAKEN_STATE_LENGTH], octets[256], yard[ASTERNHAKEN_YARD_LENGTH];
static uint32_t keys[ASTERNHAKEN_KEYS], sets[ASTERNHAKEN_KEYS];
static uint64_t numbers[600], value, entry[ASTERNHAKEN_PCH_NUMBERS];
static size_t n;
static uint32_t tick;

/* ---- The calls, with what they are lent in the variables above ---- */

static uint32_t setup(void) { return asternhaken_setup(state, sizeof state, keys, ASTERNHAKEN_KEYS, sets, ASTERNHAKEN_KEYS, tick, 5000, 5000, 5000); }
static uint32_t nch(void) { return asternhaken_nch(state, sizeof state, tick, octets, n); }
static uint32_t facch(void) { return asternhaken_facch(state, sizeof state, tick, octets, n); }
static uint32_t pch(void) { return asternhaken_pch(state, sizeof state, tick, entry, ASTERNHAKEN_PCH_NUMBERS); }
static uint32_t joined(void) { return asternhaken_joined(state, sizeof state, tick, keys[49]); }
static uint32_t reselected(void) { return asternhaken_reselected(state, sizeof state, tick); }
static uint32_t handed_over(void) { return asternhaken_handed_over(state, sizeof state, tick); }
static uint32_t reconfigured(void) { return asternhaken_reconfigured(state, sizeof state, tick); }
static uint32_t left_idle(void) { return asternhaken_left_idle(state, sizeof state, tick); }
static uint32_t bit_is_1(void) { return asternhaken_bit_22(state, sizeof state, tick, 1); }
static uint32_t bit_is_0(void) { return asternhaken_bit_22(state, sizeof state, tick, 0); }
static uint32_t bit_is_2(void) { return asternhaken_bit_22(state, sizeof state, tick, 2); }
static uint32_t ticked(void) { return asternhaken_tick(state, sizeof state, tick); }
static uint32_t find(void) { return asternhaken_find(keys, ASTERNHAKEN_KEYS, keys[0], &value, numbers); }
static uint32_t read_part(void) { return asternhaken_read(state, sizeof state, 0, ASTERNHAKEN_PART_CHANNEL, &value); }
static uint32_t is_set_up(void) { return asternhaken_is_set_up(state, sizeof state); }
static uint32_t entry_numbers(void) { return asternhaken_entry_numbers(state, sizeof state, 0, numbers, ASTERNHAKEN_ENTRY_NUMBERS); }
static uint32_t paged_numbers(void) { return asternhaken_paged_numbers(state, sizeof state, numbers, ASTERNHAKEN_PAGED_NUMBERS); }
static uint32_t held_count(void) { return asternhaken_held_count(state, sizeof state, &value); }
static uint32_t held_numbers(void) { return asternhaken_held_numbers(state, sizeof state, 1, numbers, ASTERNHAKEN_HELD_NUMBERS); }
static uint32_t next_expiry(void) { return asternhaken_next_expiry(state, sizeof state, &value); }
static uint32_t yard_setup(void) { return asternhaken_yard_setup(yard, sizeof yard, keys, ASTERNHAKEN_YARD_KEYS, sets, ASTERNHAKEN_YARD_KEYS, tick, 5000, 5000, 5000); }
static uint32_t yard_nch(void) { return asternhaken_yard_nch(yard, sizeof yard, tick, octets, n); }
static uint32_t yard_facch(void) { return asternhaken_yard_facch(yard, sizeof yard, tick, octets, n); }
static uint32_t yard_pch(void) { return asternhaken_yard_pch(yard, sizeof yard, tick, entry, ASTERNHAKEN_PCH_NUMBERS); }
static uint32_t yard_joined(void) { return asternhaken_yard_joined(yard, sizeof yard, tick, keys[7]); }
static uint32_t yard_reselected(void) { return asternhaken_yard_reselected(yard, sizeof yard, tick); }
static uint32_t yard_handed_over(void) { return asternhaken_yard_handed_over(yard, sizeof yard, tick); }
static uint32_t yard_reconfigured(void) { return asternhaken_yard_reconfigured(yard, sizeof yard, tick); }
static uint32_t yard_left_idle(void) { return asternhaken_yard_left_idle(yard, sizeof yard, tick); }
static uint32_t yard_bit_22(void) { return asternhaken_yard_bit_22(yard, sizeof yard, tick, 1); }
static uint32_t yard_tick(void) { return asternhaken_yard_tick(yard, sizeof yard, tick); }
static uint32_t yard_count(void) { return asternhaken_yard_count(yard, sizeof yard, &value); }
static uint32_t yard_call_numbers(void) { return asternhaken_yard_call_numbers(yard, sizeof yard, 0, numbers, ASTERNHAKEN_YARD_CALL_NUMBERS); }
static uint32_t nch_read(void) { return asternhaken_nch_read(octets, n, numbers, ASTERNHAKEN_NCH_NUMBERS); }
static uint32_t nch_write(void) { return asternhaken_nch_write(numbers, ASTERNHAKEN_NCH_NUMBERS, octets, 20); }
static uint32_t facch_read(void) { return asternhaken_facch_read(octets, n, numbers, ASTERNHAKEN_FACCH_NUMBERS); }
static uint32_t facch_write(void) { return asternhaken_facch_write(numbers, ASTERNHAKEN_FACCH_NUMBERS, octets, n); }
static uint32_t message_type_read(void) { return asternhaken_message_type_read(0x31, numbers, 2); }
static uint32_t message_type_write(void) { return asternhaken_message_type_write(numbers, 2, octets); }
static uint32_t call_reference_read(void) { return asternhaken_call_reference_read(octets, 4, numbers, 3); }
static uint32_t call_reference_write(void) { return asternhaken_call_reference_write(numbers, 3, octets, 4); }
static uint32_t call_state_read(void) { return asternhaken_call_state_read(11, numbers, 1); }
static uint32_t call_state_write(void) { return asternhaken_call_state_write(numbers, 1, octets); }
static uint32_t cause_read(void) { return asternhaken_cause_read(octets, n, numbers, ASTERNHAKEN_CAUSE_NUMBERS); }
static uint32_t cause_write(void) { return asternhaken_cause_write(numbers, ASTERNHAKEN_CAUSE_NUMBERS, octets, n); }
static uint32_t originator_read(void) { return asternhaken_originator_read(1, numbers, 1); }
static uint32_t originator_write(void) { return asternhaken_originator_write(numbers, 1, octets); }
static uint32_t state_attributes_read(void) { return asternhaken_state_attributes_read(15, numbers, 4); }
static uint32_t state_attributes_write(void) { return asternhaken_state_attributes_write(numbers, 4, octets); }
static uint32_t sms_read(void) { return asternhaken_sms_read(3, numbers, 2); }
static uint32_t sms_write(void) { return asternhaken_sms_write(numbers, 2, octets); }
static uint32_t talker_read(void) { return asternhaken_talker_read(2, numbers, 1); }
static uint32_t talker_write(void) { return asternhaken_talker_write(numbers, 1, octets); }
static uint32_t digits_read(void) { return asternhaken_digits_read(octets, 5, numbers, 12); }
static uint32_t digits_write(void) { return asternhaken_digits_write(numbers, 12, octets, 5); }
static uint32_t nch_trace(void) { return !asternhaken_nch_trace(octets, n, numbers, sizeof numbers / sizeof *numbers); }
static uint32_t facch_trace(void) { return !asternhaken_facch_trace(octets, n, numbers, sizeof numbers / sizeof *numbers); }
static uint32_t uplink_setup(void) { return asternhaken_uplink_setup(state, ASTERNHAKEN_UPLINK_LENGTH, tick, 100); }
static uint32_t uplink_free(void) { return asternhaken_uplink_free(state, ASTERNHAKEN_UPLINK_LENGTH, tick); }
static uint32_t uplink_busy(void) { return asternhaken_uplink_busy(state, ASTERNHAKEN_UPLINK_LENGTH, tick); }
static uint32_t uplink_request(void) { return asternhaken_uplink_request(state, ASTERNHAKEN_UPLINK_LENGTH, tick); }
static uint32_t uplink_tick(void) { return asternhaken_uplink_tick(state, ASTERNHAKEN_UPLINK_LENGTH, tick); }
static uint32_t version(void) { return asternhaken_version() != ASTERNHAKEN_VERSION_NUMBER; }
static uint32_t refusal_word(void) { return !asternhaken_refusal_word(99); }
static uint32_t refusal_sentence(void) { return !asternhaken_refusal_sentence(13); }
static uint32_t told_word(void) { return !asternhaken_told_word(99); }
static uint32_t told_sentence(void) { return !asternhaken_told_sentence(8); }
static uint32_t follow_word(void) { return !asternhaken_follow_word(99); }
static uint32_t follow_sentence(void) { return !asternhaken_follow_sentence(3); }
static uint32_t identity_word(void) { return !asternhaken_identity_word(99); }
static uint32_t channel_first_word(void) { return !asternhaken_channel_first_word(3); }
static uint32_t paging_cause_word(void) { return !asternhaken_paging_cause_word(1); }
static uint32_t uplink_word(void) { return !asternhaken_uplink_word(99); }
static uint32_t uplink_sentence(void) { return !asternhaken_uplink_sentence(4); }

/* ---- Measuring ---- */

static uint32_t (*job)(void);
static uint32_t result;

static void on_the_other_stack(void)
{
    result = job();
}

/* The octets of a painted stack that a call used. */
static size_t used(unsigned char paint)
{
    size_t at = 0;
    memset(stack, paint, STACK);
    if (getcontext(&there)) exit(2);
    there.uc_stack.ss_sp = stack;
    there.uc_stack.ss_size = STACK;
    there.uc_link = &here;
    makecontext(&there, on_the_other_stack, 0);
    if (swapcontext(&here, &there)) exit(2);
    while (at < STACK && stack[at] == paint) at++;
    return STACK - at;
}

static unsigned passed, failed;
static size_t deepest;
static const char *deepest_name;

static uint8_t kept_state[ASTERNHAKEN_STATE_LENGTH], kept_octets[256], kept_yard[ASTERNHAKEN_YARD_LENGTH];
static uint64_t kept_numbers[600];

/* Runs a call twice from the same memory, with two paints, so that an octet that happens to be written like paint is seen. */
static size_t depth(uint32_t (*call)(void), uint32_t expected, const char *name)
{
    size_t most = 0;
    memcpy(kept_state, state, sizeof state), memcpy(kept_octets, octets, sizeof octets), memcpy(kept_numbers, numbers, sizeof numbers), memcpy(kept_yard, yard, sizeof yard);
    job = call;
    for (int i = 0; i < 2; i++) {
        memcpy(state, kept_state, sizeof state), memcpy(octets, kept_octets, sizeof octets), memcpy(numbers, kept_numbers, sizeof numbers), memcpy(yard, kept_yard, sizeof yard);
        size_t one = used(i ? 0x5a : 0xa5);
        if (one > most) most = one;
        if (result == expected) continue;
        printf("%s answered %lu\n", name, (unsigned long)result);
        failed++;
    }
    return most;
}

static void measure(uint32_t (*call)(void), uint32_t expected, const char *name)
{
    size_t most = depth(call, expected, name);
    printf("%6lu  %s\n", (unsigned long)most, name);
    if (most < LIMIT) passed++;
    else failed++;
    if (most <= deepest) return;
    deepest = most;
    deepest_name = name;
}

static void lend(const char *hex)
{
    unsigned octet;
    for (n = 0; sscanf(hex + 2 * n, "%2x", &octet) == 1; n++) octets[n] = (uint8_t)octet;
}

static void message(uint32_t (*call)(void), const char *name, const char *hex, uint32_t expected)
{
    lend(hex);
    tick++;
    measure(call, expected, name);
}

/* The PCH entry of 4711 VGCS, priority 5, key number 4: with a description, or with VSTK_RAND alone. */
static void page(const char *name, uint64_t key, uint64_t described, uint64_t full, uint32_t expected)
{
    const uint64_t numbers_of_it[ASTERNHAKEN_PCH_NUMBERS] = { key, 1, full, 9423 << 8 | 0x54, described, 0x8b1fff, 1, 0, 8, UINT64_MAX, !described, 0x123456789, 1, 3 };
    memcpy(entry, numbers_of_it, sizeof entry);
    tick++;
    measure(pch, expected, name);
}

/* ---- What is run: what fills the state and what is refused late, since both go deep ---- */

static void receiver(void)
{
    for (uint32_t i = 0; i < ASTERNHAKEN_KEYS; i++) keys[i] = i < 47 ? i : 9422 + i - 47;
    keys[49] = ASTERNHAKEN_LAST_KEY;
    for (uint32_t i = 0; i < ASTERNHAKEN_KEYS; i++) sets[i] = ASTERNHAKEN_GROUP_KEY(4) | ASTERNHAKEN_GROUP_KEY(ASTERNHAKEN_LAST_GROUP_KEY);
    measure(setup, 0, "setup, 50 keys");
    measure(is_set_up, 1, "is_set_up");
    measure(find, 0, "find, six looks");
    message(nch, "nch, two first halves stored", "4000933a8e1482468001267aa56e1158922b2b2b", 0);
    measure(held_count, 0, "held_count");
    measure(held_numbers, 0, "held_numbers");
    measure(next_expiry, 0, "next_expiry");
    message(nch, "nch, both held already", "4000933a8e1482468001267aa56e1158922b2b2b", 0);
    message(nch, "nch, a second half joined", "b00024cea30712345678932b2b2b2b2b2b2b2b2b", 0);
    measure(entry_numbers, 0, "entry_numbers");
    message(nch, "nch, one by reduced reference", "a68001267b855e6f780b2b2b2b2b2b2b2b2b2b2b", 0);
    message(nch, "nch, every part, in one piece", "dbebc1ffffb8f9e2c02b475fedcba98777aefb2b", 0);
    message(nch, "nch, five reduced references", "08000001c0000012000000f0000008800000592b", 0);
    message(nch, "nch, four calls", "900000030040000010010000007804000002040b", 0);
    message(nch, "nch, refused at the last bit", "0492492492492492492492492492492492492492", 14 | 160 << 8);
    message(nch, "nch, refused behind it", "4000933a80702b2b2b2b2b2b2b2b2b2b2b2b2b2b", 7);
    message(facch, "facch, a first half stored", "040001267aa56e11592b", 0);
    message(facch, "facch, held already", "040001267aa56e11592b", 0);
    message(facch, "facch, its second joined", "040001267aa0aaaaaaaaab2b", 0);
    message(facch, "facch, every part", "045f5e0ffffe2c7fff8000000000000001ec48d159e257", 0);
    measure(bit_is_1, 0, "bit_22, 1");
    measure(bit_is_0, 0, "bit_22, from 1 to 0");
    measure(bit_is_2, 12, "bit_22, refused");
    message(facch, "facch, its count taken", "045f5e0ffffe2c7fff8000000000000001ec48d159e257", 0);
    message(facch, "facch, a page with every part", "048499ab80810182028303fed891a2b3c4df2b2b2b2b2b", 0);
    measure(paged_numbers, 0, "paged_numbers");
    message(facch, "facch, refused", "048000", 8);
    message(facch, "facch, a page refused at its last bit", "048499ab80810182028303e0", 15 | 96 << 8);
    page("pch, a first half stored", 9423, 1, 1, 0);
    page("pch, held already", 9423, 1, 1, 0);
    page("pch, its second joined", 9423, 0, 0, 0);
    page("pch, a second half stored", 9423, 0, 1, 0);
    page("pch, refused", 9422, 1, 1, 12);
    page("pch, another key", 9422, 0, 0, 0);
    measure(left_idle, 0, "left_idle, a half dropped");
    message(nch, "nch, two first halves stored", "4000933a8e1482468001267aa56e1158922b2b2b", 0);
    measure(joined, 0, "joined, two halves dropped");
    measure(reselected, 0, "reselected");
    measure(handed_over, 0, "handed_over");
    measure(reconfigured, 0, "reconfigured");
    tick += 5000;
    measure(ticked, 0, "tick, halves run out");
    measure(read_part, 0, "read");
}

/* Its own octets, at the beginning of the state's. */
static void uplink(void)
{
    measure(uplink_setup, 0, "uplink_setup");
    measure(uplink_request, ASTERNHAKEN_UPLINK_WAITING << 16, "uplink_request, waiting");
    measure(uplink_busy, 0, "uplink_busy");
    measure(uplink_free, ASTERNHAKEN_UPLINK_GRANTED << 8, "uplink_free, granted");
    tick += ASTERNHAKEN_UPLINK_FREE;
    measure(uplink_request, ASTERNHAKEN_UPLINK_WAITING << 16, "uplink_request, waiting again");
    tick += 100;
    measure(uplink_tick, ASTERNHAKEN_UPLINK_REJECTED << 8, "uplink_tick, rejected");
    tick--;
    measure(uplink_tick, ASTERNHAKEN_REFUSED_CLOCK, "uplink_tick, refused");
}

static void messages(void)
{
    lend("dbebc1ffffb8f9e2c02b475fedcba98777aefb2b");
    measure(nch_trace, 0, "nch_trace");
    measure(nch_read, 0, "nch_read");
    if (nch_read()) exit(2);
    measure(nch_write, 0, "nch_write");
    lend("045f5e0ffffe2c7fff8000000000000001ec48d159e257");
    measure(facch_trace, 0, "facch_trace");
    measure(facch_read, 0, "facch_read");
    if (facch_read()) exit(2);
    measure(facch_write, 0, "facch_write");
    lend("048499ab80810182028303fed891a2b3c4df2b2b2b2b2b");
    measure(facch_trace, 0, "facch_trace, a page");
    measure(facch_read, 0, "facch_read, a page");
    if (facch_read()) exit(2);
    measure(facch_write, 0, "facch_write, a page");
    n = 17;
    measure(facch_write, 11, "facch_write, refused last");
}

/* A reader, and a writer of what was read. */
static void both_ways(uint32_t (*reader)(void), const char *read, uint32_t (*writer)(void), const char *write)
{
    measure(reader, 0, read);
    if (reader()) exit(2);
    measure(writer, 0, write);
}

static void elements(void)
{
    both_ways(message_type_read, "message_type_read", message_type_write, "message_type_write");
    lend("00024cfa");
    both_ways(call_reference_read, "call_reference_read", call_reference_write, "call_reference_write");
    both_ways(call_state_read, "call_state_read", call_state_write, "call_state_write");
    memset(octets, 0x10, sizeof octets);
    octets[254] = 0x90;
    n = 255;
    both_ways(cause_read, "cause_read, 255 septets", cause_write, "cause_write, 255 septets");
    octets[0] = 0x90;
    both_ways(cause_read, "cause_read, 254 diagnostics", cause_write, "cause_write, 254 diagnostics");
    both_ways(originator_read, "originator_read", originator_write, "originator_write");
    both_ways(state_attributes_read, "state_attributes_read", state_attributes_write, "state_attributes_write");
    both_ways(sms_read, "sms_read", sms_write, "sms_write");
    both_ways(talker_read, "talker_read", talker_write, "talker_write");
    lend("e8d4a50fff");
    both_ways(digits_read, "digits_read", digits_write, "digits_write");
}

static void yard_set(void)
{
    for (uint32_t i = 0; i < ASTERNHAKEN_YARD_KEYS; i++) keys[i] = i < 7 ? 2 * i : 9422;
    measure(yard_setup, 0, "yard_setup, 8 keys");
    message(yard_nch, "yard_nch, two first halves stored", "4000933a8e1482468001267aa56e1158922b2b2b", 0);
    message(yard_nch, "yard_nch, a call joined", "b00024cea30712345678932b2b2b2b2b2b2b2b2b", 0);
    measure(yard_count, 0, "yard_count");
    measure(yard_call_numbers, 0, "yard_call_numbers");
    message(yard_nch, "yard_nch, every part, another NLN", "dbebc1ffffb8f9e2c02b475fedcba98777aefb2b", 0);
    message(yard_nch, "yard_nch, four calls", "900000030040000010010000007804000002040b", 0);
    message(yard_nch, "yard_nch, refused at the last bit", "0492492492492492492492492492492492492492", 14 | 160 << 8);
    message(yard_facch, "yard_facch", "048000", 19);
    measure(yard_pch, 19, "yard_pch");
    measure(yard_handed_over, 19, "yard_handed_over");
    measure(yard_reconfigured, 19, "yard_reconfigured");
    measure(yard_left_idle, 19, "yard_left_idle");
    measure(yard_joined, 0, "yard_joined");
    measure(yard_bit_22, 0, "yard_bit_22");
    tick += 30000;
    measure(yard_tick, 0, "yard_tick, calls ran out");
    measure(yard_reselected, 0, "yard_reselected");
}

static void words(void)
{
    measure(version, 0, "version");
    measure(refusal_word, 0, "refusal_word");
    measure(refusal_sentence, 0, "refusal_sentence");
    measure(told_word, 0, "told_word");
    measure(told_sentence, 0, "told_sentence");
    measure(follow_word, 0, "follow_word");
    measure(follow_sentence, 0, "follow_sentence");
    measure(identity_word, 0, "identity_word");
    measure(channel_first_word, 0, "channel_first_word");
    measure(paging_cause_word, 0, "paging_cause_word");
    measure(uplink_word, 0, "uplink_word");
    measure(uplink_sentence, 0, "uplink_sentence");
}

int main(void)
{
    stack = (unsigned char *)malloc(STACK);
    if (!stack) return 2;
    receiver();
    uplink();
    messages();
    elements();
    yard_set();
    words();
    free(stack);
    printf("deepest: %lu octets of stack, in %s\n", (unsigned long)deepest, deepest_name);
    printf("%u passed, %u failed\n", passed, failed);
    return failed != 0;
}
