/* The calls of a capture, gathered where none is named. */
#ifndef WATCH_H
#define WATCH_H

#include "options.h"

/* Takes the calls among the words behind the file; where there are none, all that the file names, up to 50. Answers 0, or complains and answers 2. */
int calls_or_all(const struct options *options, struct calls *calls);

/* Whether a frame is of the cell that is asked for. */
int is_asked_for(const struct options *options, const struct frame *frame);

#endif
