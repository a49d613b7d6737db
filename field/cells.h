/* The cells of a capture: one receiver for each ARFCN. */
#ifndef CELLS_H
#define CELLS_H

#include "calls.h"
#include "frames.h"

#include <asternhaken.h>

enum {
    NUMBERS = 1 << 15,  /* ARFCNs, and each once more for the 1900 MHz band */
    STEPS = 4,          /* ticks that lead over a pause, at most */
    PAUSE = 0x7fffffff  /* ms: the longest step that the receiver takes */
};

struct timers {
    uint32_t t3206, t3208;
};

struct cell {
    uint32_t arfcn, is_pcs;
    uint64_t ms;           /* where the receiver's clock stands: the last accepted message */
    uint64_t messages, refused;
    uint64_t ran_out;      /* halves, on the way over a pause to the last message */
    int nln;               /* the last list number and 1 more, or 0 */
    uint64_t nln_changes;
    struct cell *next;     /* in the order in which they were first heard */
    uint8_t state[ASTERNHAKEN_STATE_LENGTH];
};

struct cells {
    const struct calls *calls;
    struct timers timers;
    struct cell *first, *last;
    size_t count;
    struct cell *by_number[NUMBERS];
};

/* The cell that a frame is of; it is set up where it is new. Nothing where there is no memory left, or the setup is refused. */
struct cell *cells_of(struct cells *cells, const struct frame *frame, uint64_t ms);

/* Leads a receiver over a pause that is too long for one step, by ticks. Answers how many, and which. */
size_t cell_bridge(struct cell *cell, uint64_t ms, uint32_t ticks[STEPS]);

/* Hands a message to a receiver, at a time. The result is the library's. */
uint32_t cell_feed(struct cell *cell, const struct frame *frame, uint64_t ms);

/* The ticks that lead from one time to a later one, the last of them left out: none where the pause is shorter than 2^31 ms, else so many that no step is too long. Answers how many. */
size_t ticks_between(uint64_t from, uint64_t to, uint32_t ticks[STEPS]);

/* Takes the list number of an accepted NCH message. Answers whether it is another one than before. */
int cell_nln(struct cell *cell, const struct frame *frame);

void cells_free(struct cells *cells);

/* "ARFCN 12", or "ARFCN 512 (PCS)". */
const char *cell_name(const struct cell *cell);

#endif
