/* What the plain programs of captures share: the fields of a capture on standard input, and the receiver's answer to each. Written from the documents, over the receiver of plain.c, which is
 * taken in whole, so that the compiler sees through its calls. A field is answered where it stands in the input's buffer, which any whole field fits into. */
#include "plain.c"

#include <errno.h>
#include <unistd.h>

enum { HEAD = 3, TICK = 4, NO_EVENT = 16, NO_SETUP, TORN };
enum { T3210 = 5000 };

static uint8_t input[1 << 17];
static size_t from, to; /* what was read and not answered yet */
static struct receiver receiver;
static int running; /* a setup was accepted */

static void write_all(int file, const void *octets, size_t n)
{
    for (const char *at = octets, *end = at + n; at < end;) {
        ssize_t written = write(file, at, (size_t)(end - at));
        if (written < 0 && errno == EINTR)
            continue;
        if (written <= 0)
            _exit(1);
        at += written;
    }
}

static uint32_t read_32(const uint8_t *p)
{
    uint32_t w;
    memcpy(&w, p, 4);
#if __BYTE_ORDER__ == __ORDER_LITTLE_ENDIAN__
    w = __builtin_bswap32(w);
#endif
    return w;
}

static uint32_t read_16(const uint8_t *p)
{
    return (uint32_t)p[0] << 8 | p[1];
}

static uint32_t first_field(uint8_t tag, const uint8_t *p, size_t n)
{
    uint32_t keys[KEYS], sets[KEYS] = { 0 };
    if (tag != 0 || n < 8 || n % 4 || n > 8 + 4 * KEYS)
        return NO_SETUP;
    size_t n_keys = (n - 8) / 4;
    for (size_t i = 0; i < n_keys; i++) { /* sorted on the way in */
        uint32_t key = read_32(p + 8 + 4 * i);
        size_t at = i;
        for (; at && keys[at - 1] > key; at--)
            keys[at] = keys[at - 1];
        keys[at] = key;
    }
    return setup((uint8_t *)&receiver, sizeof receiver, keys, n_keys, sets, n_keys, read_32(p), read_16(p + 4), read_16(p + 6), T3210) ? NO_SETUP : ACCEPTED;
}

static uint32_t next_field(uint8_t tag, const uint8_t *p, size_t n)
{
    uint8_t *state = (uint8_t *)&receiver;
    size_t rest = n - TICK;
    if (tag == 0)
        return NO_SETUP;
    if (n < TICK || tag > 7 || (tag >= 3 && rest != (tag == 3 ? 4 : 0)))
        return NO_EVENT;
    switch (tag) {
    case 1: return event_nch(state, sizeof receiver, read_32(p), p + TICK, rest);
    case 2: return event_facch(state, sizeof receiver, read_32(p), p + TICK, rest);
    case 3: return event_joined(state, sizeof receiver, read_32(p), read_32(p + TICK));
    case 4: return event_reselected(state, sizeof receiver, read_32(p));
    case 5: return event_handed_over(state, sizeof receiver, read_32(p));
    case 6: return event_reconfigured(state, sizeof receiver, read_32(p));
    default: return event_tick(state, sizeof receiver, read_32(p));
    }
}

/* Octets of the present field, with its head, once it is whole; 0 where the input ends before. */
static size_t whole_field(void)
{
    for (;;) {
        size_t have = to - from, length = HEAD + (have < HEAD ? 0 : read_16(input + from + 1));
        if (have >= length)
            return length;
        memmove(input, input + from, have);
        from = 0;
        to = have;
        ssize_t n = read(0, input + to, sizeof input - to);
        if (n < 0 && errno == EINTR)
            continue;
        if (n <= 0)
            return 0;
        to += (size_t)n;
    }
}

/* The refusal of the present field, of so many octets. */
static uint32_t answer(size_t length)
{
    const uint8_t *p = input + from;
    return running ? next_field(p[0], p + HEAD, length - HEAD) : first_field(p[0], p + HEAD, length - HEAD);
}
