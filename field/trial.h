/* Trying a longer timer: messages that matter are kept, and given to a receiver of one call again. */
#ifndef TRIAL_H
#define TRIAL_H

#include "account.h"

/* A message that names a call, or brings another list number. */
struct kept {
    struct moment when;
    struct cell *cell;
    uint8_t kind, length, octet[ASTERNHAKEN_FACCH_LONGEST];
};

struct log {
    struct kept *kept;
    size_t count, room;
};

/* Answers 0 where there is no memory left. */
int log_add(struct log *log, struct cell *cell, const struct capture *capture, const struct frame *frame);

/* What a longer timer would have brought. */
struct finding {
    uint64_t shortest;       /* ms from a half to the next other one, with no change of the list number between them; 0 where there is none */
    struct moment from, to;  /* those two */
    int is_parted;           /* halves of both kinds came, and the list number changed between each two */
    uint32_t timer;          /* ms: the shortest timer that joins them, or 0 for none */
    struct moment joined;
};

/* Looks for it, for a call that was never complete in this account. */
void find_timer(const struct account *account, const struct calls *calls, const struct log *log, const struct timers *timers, struct finding *finding);

#endif
