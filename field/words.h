/* Words of a command line or of a script: numbers, octets, calls' parts. */
#ifndef WORDS_H
#define WORDS_H

#include <stddef.h>
#include <stdint.h>

/* A decimal number, at most so large. */
int decimal(const char *word, uint64_t most, uint64_t *value);

/* A hexadecimal number of at most so many bits. */
int hexadecimal(const char *word, unsigned bits, uint64_t *value);

/* The octets of a word, two digits for each, with blanks, colons or dashes between octets, and 0x before them. Answers how many; -1 where it is something else, or there are over so many. */
int octets_of(const char *word, uint8_t *octets, size_t most);

/* Cuts a line into words, up to a #; answers how many, at most so many. */
size_t cut_words(char *line, char **words, size_t most);

#endif
