/* Messages: those that are measured, those that fill a receiver, and random ones. */
#ifndef MESSAGES_H
#define MESSAGES_H

#include <stddef.h>
#include <stdint.h>

struct message {
    uint8_t octets[23];
    size_t n;
    uint64_t entry[14]; /* of the PCH, which has no octets here */
};

/* The NCH messages that are measured. */
struct message clear_call(uint32_t key);
struct message first_half(uint32_t key);
struct message second_half_reduced(uint32_t key);
struct message two_calls(uint32_t key, uint32_t another);

/* The FACCH messages that are measured. */
struct message facch_clear_call(uint32_t key);
struct message facch_first_half(uint32_t key);
struct message facch_second_half(uint32_t key);
struct message facch_page(void);

/* The PCH entries that are measured. */
struct message pch_clear_call(uint32_t key);
struct message pch_first_half(uint32_t key);
struct message pch_second_half(uint32_t key);

/* Random numbers: below n, and 1 in n times true. */
struct dice {
    uint64_t state;
};
uint64_t roll(struct dice *d);
uint32_t below(struct dice *d, uint32_t n);
int one_in(struct dice *d, uint32_t n);

/* Random messages, mostly well-formed, over the lent keys. */
struct message random_nch(struct dice *d, const uint32_t *keys, uint32_t n_keys);
struct message random_facch(struct dice *d, const uint32_t *keys, uint32_t n_keys);
struct message random_pch(struct dice *d, const uint32_t *keys, uint32_t n_keys);

#endif
