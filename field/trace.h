/* Every field that a reader comes to, in order: the library's trace of a message. */
#ifndef TRACE_H
#define TRACE_H

#include <asternhaken.h>

/* A field by its numbers; of an L/H bit the value is 0 for L and 1 for H. */
struct field {
    uint64_t kind, bit, width, value;
};

/* The fields of a message, with how many they are. The result is that of reading it: a refusal number, and above it the bit where bits ran out. */
uint32_t trace_message(int is_facch, const uint8_t *octets, size_t n, struct field fields[ASTERNHAKEN_FIELDS], uint32_t *count);

#endif
