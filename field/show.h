/* Showing: colours where a person looks, JSON where a program reads, complaints on standard error. */
#ifndef SHOW_H
#define SHOW_H

#include <stdint.h>

#if defined __GNUC__
#define LIKE_PRINTF __attribute__((format(printf, 1, 2)))
#else
#define LIKE_PRINTF
#endif

/* "asternhaken: ", a text and a line's end, on standard error. */
void complain(const char *text, ...) LIKE_PRINTF;

/* A colour for what is behind it, or nothing where standard output is no terminal or NO_COLOR is set. */
const char *good(void);
const char *bad(void);
const char *dim(void);
const char *plain(void);

/* One object of JSON on a line. Keys come in the order of the calls. */
void json_open(void);
void json_text(const char *key, const char *value);
void json_number(const char *key, uint64_t value);
void json_signed(const char *key, int64_t value);
void json_flag(const char *key, int value);
void json_hex(const char *key, uint64_t value, int digits);
void json_octets(const char *key, const uint8_t *octets, uint64_t count);
void json_list(const char *key);
void json_item(void);               /* begins an object in a list */
void json_item_end(void);
void json_word(const char *value);  /* a text in a list */
void json_list_end(void);
void json_close(void);

/* "1 time", "2 times": a number and its word. */
const char *many(uint64_t count, const char *one, const char *more);

/* A number with commas between its thousands. */
const char *grouped(uint64_t number);

/* A time in ms as seconds, "12.340". */
const char *seconds(uint64_t ms);

/* Makes what was written stay written: answers 0, or complains and answers 2 where standard output could not take it. */
int finish_output(void);

#endif
