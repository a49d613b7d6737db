/* Why a call did not show, in sentences. */
#ifndef VERDICT_H
#define VERDICT_H

#include "trial.h"

enum { SENTENCES = 24, SENTENCE = 320, NAMED = 4096 };

struct sentences {
    char line[SENTENCES][SENTENCE];
    size_t count;
};

/* What is said of one call. */
struct verdict {
    int has_shown;
    struct sentences seen, missing, help;
    uint32_t timer, shortest; /* ms: the timer that would have helped, and the shortest time between halves; 0 for none */
    int is_t3208;
};

/* A call that the capture names, with how often. */
struct named {
    uint32_t key;
    uint64_t count;
};

/* All that was gathered from a capture. */
struct evidence {
    struct calls calls;
    struct timers timers;
    struct cells cells;
    struct capture capture;
    struct accounts accounts;
    struct log log;
    struct named named[NAMED]; /* by the key, with gaps */
    uint64_t messages, refused;
    struct {
        uint64_t count, frame;
        uint32_t result;
    } refused_with[ASTERNHAKEN_KEYS]; /* messages that name the call and were refused */
};

void reach_verdict(const struct evidence *evidence, size_t call, struct verdict *verdict);

/* Whether the capture names a call, in a refused message too. */
int is_named(const struct evidence *evidence, size_t call);

/* Counts a call as named. */
void name_call(struct evidence *evidence, uint32_t key);

#endif
