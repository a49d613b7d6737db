/* What sub-commands are asked for. */
#ifndef OPTIONS_H
#define OPTIONS_H

#include "calls.h"
#include "cells.h"

struct options {
    int json;       /* one object of JSON on a line */
    int all;        /* calls that are not followed too */
    int64_t arfcn;  /* of the cell that is looked at, or -1 for all */
    struct timers timers;
    const char *channel, *link; /* words, or nothing */
    char **words;   /* what is no option */
    int n_words;
};

/* Takes the options that a sub-command has, a letter for each: j json, a all, f arfcn, t timers, c channel, l link. Answers 0; 1 where only help was asked for, which is then shown; or
 * complains and answers 2. */
int options_take(struct options *options, int argc, char **argv, const char *has, const char *help);

/* The calls among the words from one on. Answers 0, or complains and answers 2. */
int options_calls(const struct options *options, int from, struct calls *calls);

#endif
