/* The calls that are named on the command line. */
#ifndef CALLS_H
#define CALLS_H

#include <asternhaken.h>

enum { NAME = 24 }; /* characters of a name at most */

struct call {
    uint32_t key, set; /* and the group keys that are held for it */
    int is_either;     /* it was named without a service, and so stands for either */
    char name[NAME + 1];
};

struct calls {
    struct call call[ASTERNHAKEN_KEYS]; /* by rising key */
    uint32_t keys[ASTERNHAKEN_KEYS], sets[ASTERNHAKEN_KEYS]; /* the same, as a setup takes them */
    size_t count;
    uint64_t left_out; /* calls of a capture for which there was no place */
};

/* Adds the calls of a word: REFERENCE for both services, REFERENCE/VBS or REFERENCE/VGCS, with NAME= before it and :3,4 behind it. Answers what is wrong, or nothing. */
const char *calls_add(struct calls *calls, const char *word);

/* Adds a call by its key, unless it is there. Answers whether there was a place for it. */
int calls_put(struct calls *calls, uint32_t key, uint32_t set, const char *name);

/* Whether there is nothing to say of a call: it was named without a service, it is not in the capture, and the one of the other service is, or says as much. */
int is_passed_over(const struct calls *calls, size_t i, int is_in_capture, int is_other_in_capture);

/* Where a key stands, or ASTERNHAKEN_KEYS. */
size_t calls_find(const struct calls *calls, uint64_t key);

#endif
