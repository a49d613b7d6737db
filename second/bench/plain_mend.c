/* The plain mending program that the proved one is held against: a capture on standard input, the fields that replay does not refuse on standard output, a list of the others on standard error. */
#define PLAIN plain_mend
#include "plain_fields.h"

enum { DIGITS = 20, MOST_LINE = 3 * (DIGITS + 1) };

static struct stream {
    int file;
    size_t n;
    uint8_t octets[1 << 16];
} copy = { .file = 1 }, list = { .file = 2 };

static void flush(struct stream *s)
{
    write_all(s->file, s->octets, s->n);
    s->n = 0;
}

/* Room for so many octets more. */
static uint8_t *room(struct stream *s, size_t n)
{
    if (sizeof s->octets - s->n < n)
        flush(s);
    return s->octets + s->n;
}

/* A field that is not refused is short. */
static void put_field(size_t length)
{
    memcpy(room(&copy, length), input + from, length);
    copy.n += length;
}

static uint8_t *put_number(uint8_t *at, uint64_t n, char end)
{
    char digits[DIGITS];
    size_t i = DIGITS;
    do
        digits[--i] = (char)('0' + n % 10);
    while (n /= 10);
    memcpy(at, digits + i, DIGITS - i);
    at += DIGITS - i;
    *at++ = (uint8_t)end;
    return at;
}

static void put_line(uint64_t number, uint64_t offset, uint32_t refusal)
{
    uint8_t *at = room(&list, MOST_LINE);
    at = put_number(at, number, ' ');
    at = put_number(at, offset, ' ');
    at = put_number(at, refusal & 255, '\n');
    list.n = (size_t)(at - list.octets);
}

int main(void)
{
    uint64_t number = 1, offset = 0;
    for (size_t length; (length = whole_field()); number++) {
        uint32_t refusal = answer(length);
        if (refusal)
            put_line(number, offset, refusal);
        else
            put_field(length);
        if (!running && refusal) {
            flush(&list);
            return 0;
        }
        running = 1;
        from += length;
        offset += length;
    }
    if (from < to)
        put_line(number, offset, TORN);
    flush(&copy);
    flush(&list);
    return 0;
}
