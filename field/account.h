/* What was seen of a call on one channel of one cell. */
#ifndef ACCOUNT_H
#define ACCOUNT_H

#include "capture.h"
#include "cells.h"

#include <asternhaken.h>

/* What an entry was, as far as it matters for why a call did not show. */
enum sight {
    SIGHT_FIRST,       /* a first half */
    SIGHT_SECOND,      /* a second half */
    SIGHT_COMPLETE,
    SIGHT_NO_CHANNEL,  /* named, and no more */
    SIGHT_NO_RANDOM,   /* ciphered, with a channel, and no random entry for it: neither Segment Id nor VSTK_RAND */
    SIGHT_SEGMENT,     /* with a channel, and called a second half */
    SIGHT_REDUCED,     /* a reduced reference that is no second half */
    SIGHT_DISAGREES,   /* a half whose reference is unlike that of the half held */
    SIGHTS
};

struct moment {
    uint64_t ms, frame;
};

/* A half that came, and how many times the list number had changed before it, which drops halves. */
struct half_seen {
    struct moment when;
    unsigned half; /* enum asternhaken_half */
    uint64_t changes;
};

struct account {
    size_t call; /* its place among the calls */
    struct cell *cell;
    enum kind kind;
    uint64_t count[SIGHTS];
    struct moment first[SIGHTS], last[SIGHTS];
    uint64_t ran_out, dropped;
    uint64_t follow[4]; /* complete entries by enum asternhaken_follow */
    uint32_t cipher_key_number;
    int is_held;        /* a half is */
    struct moment held_since;
    struct half_seen *halves;
    size_t n_halves, room;
    struct account *next;
};

struct accounts {
    struct account *first, *last;
};

/* Takes an entry of an answer into its account. Answers 0 where there is no memory left. */
int account_take(struct accounts *accounts, const struct calls *calls, struct cell *cell, const struct capture *capture, const struct frame *frame, uint32_t index);

/* Takes halves that ran out or were dropped at this message, before its entries are taken. */
void account_lost(struct accounts *accounts, const struct calls *calls, struct cell *cell, const struct capture *capture, const struct timers *timers);

void accounts_free(struct accounts *accounts);

#endif
