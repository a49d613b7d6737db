/* The yard sets of all sides, beside agree.h. */
#ifndef YARDS_H
#define YARDS_H

#include "agree.h"

enum { YARD_KEYS = 8, YARD_NUMBERS = 35 };

/* The keys of every yard set here, in rising order. */
extern const uint32_t yard_keys[YARD_KEYS];

/* A yard set that shows so many calls, which came at this tick; 0 where it is refused. */
int fill_yard(const struct side *s, uint8_t *state, unsigned calls, uint32_t tick);

/* What is shown: 1 where all sides show the same, else 0, and the difference is printed. */
int same_calls(const struct side *const *sides, uint8_t *const *states, unsigned n_sides, const char *where);

/* Random event sequences through every yard set; it returns how many went well, and stops at the first that did not. */
unsigned yards_alike(const struct side *const *sides, unsigned n_sides, uint64_t seed, unsigned sequences, unsigned events);

#endif
