/* What a field of a message is called, and what its value means. */
#ifndef NAMES_H
#define NAMES_H

#include "trace.h"

#include <stddef.h>

enum { MEANING = 160 }; /* characters of a meaning at most, with the end */

/* A field's name in words, "Cipher Key Number", and as it stands in the header, "CIPHER_KEY_NUMBER". */
const char *field_title(uint64_t kind);
const char *field_name(uint64_t kind);

/* What a field's value means. */
void field_meaning(const struct field *field, char into[MEANING]);

/* What 24 bits of a Channel Description say: "TCH/F, timeslot 2, training sequence 2, ARFCN 291". */
void channel_meaning(uint64_t channel, char into[MEANING]);

/* "4711 VBS". */
const char *call_words(uint64_t key);

#endif
