/* The competent plain implementation that the library's speed is held against: its records, and one table of its functions for each compiler. */
#ifndef PLAIN_H
#define PLAIN_H

#include <stddef.h>
#include <stdint.h>

/* The records have the numbers of the library's arrays in the order of asternhaken.h. A reader writes only what is there: as many places of a list as its count says, nothing behind a release
 * of the NCH that is absent, of the FACCH a call or a page. A refused reading is all zeros. */

/* Group call information with its channel description. */
struct plain_call {
    uint64_t reference, vgcs, acknowledged, priority, cipher_key_number, described, channel, hops, short_list, allocation_octets, frequencies;
};

/* A reduced reference. */
struct plain_reduced {
    uint64_t reference, vgcs;
};

/* A random entry. */
struct plain_random {
    uint64_t segment_id, given, vstk_rand;
};

/* NT/N Rest Octets. */
struct plain_nch {
    uint64_t used, nln_given, nln, n_calls;
    struct plain_call calls[4];
    uint64_t release_6, counted, cell_global_count, n_reduced;
    struct plain_reduced reduced[5];
    uint64_t n_random;
    struct plain_random random[9];
    uint64_t release_7, n_marks, marks[4];
    uint64_t uplink_given, uplink_access, amr, fr_amr_given, fr_amr_config, hr_amr_given, hr_amr_config, sms, sms_confidentiality, sms_privacy;
};

/* Paging Information: the mobile identity by its first octet and the others as one number, of which the first is the highest. */
struct plain_page {
    uint64_t identity_octets, first_octet, other_octets, channel_first, priority_given, priority;
};

/* NOTIFICATION/FACCH: a call, or a page. */
struct plain_facch {
    uint64_t used, paging;
    struct plain_call call;
    struct plain_page page;
    uint64_t release_6, counted, cell_global_count, b22_count, rand_given, vstk_rand, release_7, uplink_access, emergency, cause_given, cause;
};

enum { NCH_NUMBERS = sizeof(struct plain_nch) / sizeof(uint64_t), FACCH_NUMBERS = sizeof(struct plain_facch) / sizeof(uint64_t) };
_Static_assert(NCH_NUMBERS == 106 && FACCH_NUMBERS == 30, "the records are the library's arrays");

enum { UPLINK_FREE, UPLINK_BUSY, UPLINK_REQUEST, UPLINK_TICK, UPLINK_EVENTS };

/* One implementation of the interface of asternhaken.h, so that the benchmark runs the same lines for all of them. */
struct side {
    const char *name;
    size_t state_length;
    uint32_t (*setup)(uint8_t *state, size_t state_length, const uint32_t *keys, size_t n_keys, const uint32_t *sets, size_t n_sets, uint32_t tick, uint32_t t3206, uint32_t t3208, uint32_t t3210);
    uint32_t (*nch)(uint8_t *state, size_t state_length, uint32_t tick, const uint8_t *octets, size_t n);
    uint32_t (*facch)(uint8_t *state, size_t state_length, uint32_t tick, const uint8_t *octets, size_t n);
    uint32_t (*pch)(uint8_t *state, size_t state_length, uint32_t tick, const uint64_t *entry, size_t n);
    uint32_t (*joined)(uint8_t *state, size_t state_length, uint32_t tick, uint32_t key);
    uint32_t (*reselected)(uint8_t *state, size_t state_length, uint32_t tick);
    uint32_t (*handed_over)(uint8_t *state, size_t state_length, uint32_t tick);
    uint32_t (*reconfigured)(uint8_t *state, size_t state_length, uint32_t tick);
    uint32_t (*left_idle)(uint8_t *state, size_t state_length, uint32_t tick);
    uint32_t (*bit_22)(uint8_t *state, size_t state_length, uint32_t tick, uint32_t value);
    uint32_t (*tick)(uint8_t *state, size_t state_length, uint32_t tick);
    uint32_t (*read)(const uint8_t *state, size_t state_length, uint32_t entry, uint32_t part, uint64_t *value);
    uint32_t (*nch_numbers)(const uint8_t *octets, size_t n, uint64_t *numbers, size_t n_numbers);
    uint32_t (*facch_numbers)(const uint8_t *octets, size_t n, uint64_t *numbers, size_t n_numbers);
    uint32_t (*nch_write)(const uint64_t *numbers, size_t n_numbers, uint8_t *octets, size_t n);
    uint32_t (*facch_write)(const uint64_t *numbers, size_t n_numbers, uint8_t *octets, size_t n);
    size_t uplink_length;
    uint32_t (*uplink_setup)(uint8_t *uplink, size_t uplink_length, uint32_t tick, uint32_t t3128);
    uint32_t (*uplink[UPLINK_EVENTS])(uint8_t *uplink, size_t uplink_length, uint32_t tick); /* free, busy, request, tick */
    /* a yard set, whose state begins with a receiver's */
    size_t yard_length;
    uint32_t (*yard_setup)(uint8_t *state, size_t state_length, const uint32_t *keys, size_t n_keys, const uint32_t *sets, size_t n_sets, uint32_t tick, uint32_t t3206, uint32_t t3208, uint32_t t3210);
    uint32_t (*yard_nch)(uint8_t *state, size_t state_length, uint32_t tick, const uint8_t *octets, size_t n);
    uint32_t (*yard_reselected)(uint8_t *state, size_t state_length, uint32_t tick);
    uint32_t (*yard_tick)(uint8_t *state, size_t state_length, uint32_t tick);
    uint32_t (*yard_count)(const uint8_t *state, size_t state_length, uint64_t *count);
    uint32_t (*yard_call_numbers)(const uint8_t *state, size_t state_length, uint32_t i, uint64_t *numbers, size_t n);
};

/* The readers alone, into the records above. */
struct readers {
    uint32_t (*nch)(const uint8_t *octets, size_t n, struct plain_nch *record);
    uint32_t (*facch)(const uint8_t *octets, size_t n, struct plain_facch *record);
};

extern const struct side plain_gcc, plain_clang;
extern const struct readers plain_gcc_readers, plain_clang_readers, bitwise_readers;

#endif
