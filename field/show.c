/* Showing: colours where a person looks, JSON where a program reads, complaints on standard error. */
#include "show.h"

#include <errno.h>
#include <inttypes.h>
#include <stdarg.h>
#include <stdio.h>
#include <stdlib.h>
#include <string.h>
#include <unistd.h>

void complain(const char *text, ...)
{
    va_list arguments;
    fflush(stdout); /* so that the two stand in their order */
    fprintf(stderr, "asternhaken: ");
    va_start(arguments, text);
    vfprintf(stderr, text, arguments);
    va_end(arguments);
    fprintf(stderr, "\n");
}

/* ---- Colours ---- */

static int is_coloured(void)
{
    static int known = -1;
    if (known >= 0) return known;
    const char *none = getenv("NO_COLOR"), *terminal = getenv("TERM");
    return known = isatty(STDOUT_FILENO) && !(none && *none) && terminal && strcmp(terminal, "dumb");
}

const char *good(void) { return is_coloured() ? "\033[32m" : ""; }
const char *bad(void) { return is_coloured() ? "\033[31m" : ""; }
const char *dim(void) { return is_coloured() ? "\033[2m" : ""; }
const char *plain(void) { return is_coloured() ? "\033[0m" : ""; }

/* ---- JSON ---- */

static int is_first; /* in the present object or list */

/* There is but one thread, and locks would take a third of the time. */
static void put(char c)
{
    putchar_unlocked(c);
}

static void put_text(const char *text)
{
    put('"');
    for (; *text; text++) {
        unsigned char c = (unsigned char)*text;
        if (c == '"' || c == '\\') put('\\'), put(*text);
        else if (c < 32 || c == 127) printf("\\u%04x", c);
        else put(*text);
    }
    put('"');
}

static void next(void)
{
    if (!is_first) put(',');
    is_first = 0;
}

static void put_key(const char *key)
{
    next();
    put_text(key);
    put(':');
}

void json_open(void)
{
    put('{');
    is_first = 1;
}

void json_text(const char *key, const char *value)
{
    put_key(key);
    put_text(value);
}

void json_number(const char *key, uint64_t value)
{
    put_key(key);
    printf("%" PRIu64, value);
}

void json_signed(const char *key, int64_t value)
{
    put_key(key);
    printf("%" PRId64, value);
}

void json_flag(const char *key, int value)
{
    put_key(key);
    printf(value ? "true" : "false");
}

void json_hex(const char *key, uint64_t value, int digits)
{
    put_key(key);
    printf("\"%0*" PRIx64 "\"", digits, value);
}

void json_octets(const char *key, const uint8_t *octets, uint64_t count)
{
    put_key(key);
    put('"');
    for (uint64_t i = 0; i < count; i++) printf("%02x", octets[i]);
    put('"');
}

void json_list(const char *key)
{
    put_key(key);
    put('[');
    is_first = 1;
}

void json_item(void)
{
    next();
    json_open();
}

void json_item_end(void)
{
    put('}');
    is_first = 0;
}

void json_word(const char *value)
{
    next();
    put_text(value);
}

void json_list_end(void)
{
    put(']');
    is_first = 0;
}

void json_close(void)
{
    printf("}\n");
}

/* ---- Numbers as words; each answer stands until the eighth call behind it ---- */

static char *room(void)
{
    static char rooms[8][64];
    static unsigned next_room;
    return rooms[next_room++ % 8];
}

const char *many(uint64_t count, const char *one, const char *more)
{
    char *into = room();
    snprintf(into, 64, "%s %s", grouped(count), count == 1 ? one : more);
    return into;
}

const char *grouped(uint64_t number)
{
    char digits[24], *into = room(), *at = into;
    int count = snprintf(digits, sizeof digits, "%" PRIu64, number);
    for (int i = 0; i < count; i++) {
        if (i && (count - i) % 3 == 0) *at++ = ',';
        *at++ = digits[i];
    }
    *at = 0;
    return into;
}

const char *seconds(uint64_t ms)
{
    char *into = room();
    snprintf(into, 64, "%" PRIu64 ".%03d", ms / 1000, (int)(ms % 1000));
    return into;
}

int finish_output(void)
{
    if (fflush(stdout) == 0 && !ferror(stdout)) return 0;
    complain("standard output: %s", strerror(errno));
    return 2;
}
