/* Whether the sides give the same answers. No figure is printed before they do. */
#ifndef AGREE_H
#define AGREE_H

#include "plain.h"

enum { MOST_SIDES = 3 };

/* The answer to the last accepted event, as the read function of each side tells it: 1 where all are the same, else 0, and the difference is printed. */
int same_answers(const struct side *const *sides, uint8_t *const *states, unsigned n_sides, const char *where);

/* One message through every reader there is: refusal, every number, bits used. */
int same_reading(const struct side *const *sides, unsigned n_sides, int facch, const uint8_t *octets, size_t n);

/* The numbers of a record through every writer, into so many octets: refusal, and the octets, also where it is refused. */
int same_writing(const struct side *const *sides, unsigned n_sides, int facch, const uint64_t *numbers, size_t n);

/* Random messages through every reader, what is read of them through every writer, and random event sequences through every receiver. Each returns how many went well; it stops at the first that did not. */
unsigned messages_alike(const struct side *const *sides, unsigned n_sides, uint64_t seed, unsigned messages);
unsigned sequences_alike(const struct side *const *sides, unsigned n_sides, uint64_t seed, unsigned sequences, unsigned events);

/* Random events through every uplink, each result compared. */
unsigned uplinks_alike(const struct side *const *sides, unsigned n_sides, uint64_t seed, unsigned sequences, unsigned events);

/* How often each number of the uplink came up in these, ended or told. */
extern unsigned long uplink_seen[5];

/* How often each refusal and each told number came up in the random sequences, and beside 2 and 3 whether the call can be followed. */
extern unsigned long refusals_seen[16], told_seen[9], follow_seen[4];

/* How often somebody was paged in them, and how often the writers of the NCH and of the FACCH refused with each number. */
extern unsigned long paged_seen, writer_refusals_seen[2][16];

#endif
