/* The plain replay program that the proved one is held against: a capture on standard input, its answers on standard output. */
#define PLAIN plain_replay
#include "plain_fields.h"

enum { MOST_TEXT = 256 }; /* a field's line, and nine under it, take less */

static char output[1 << 16];
static size_t n_output;

static void flush_output(void)
{
    write_all(1, output, n_output);
    n_output = 0;
}

static const char pairs[] =
    "0001020304050607080910111213141516171819202122232425262728293031323334353637383940414243444546474849"
    "5051525354555657585960616263646566676869707172737475767778798081828384858687888990919293949596979899";

static char *put_decimal(char *to, uint32_t n)
{
    if (n < 10) {
        *to = (char)('0' + n);
        return to + 1;
    }
    unsigned length = n < 100 ? 2 : n < 1000 ? 3 : n < 10000 ? 4 : n < 100000 ? 5 : n < 1000000 ? 6 : n < 10000000 ? 7 : n < 100000000 ? 8 : n < 1000000000 ? 9 : 10;
    char *end = to + length;
    while (n >= 10) {
        memcpy(to + length - 2, pairs + 2 * (n % 100), 2);
        length -= 2;
        n /= 100;
    }
    if (length)
        *to = (char)('0' + n);
    return end;
}

/* The number of the present field, counted in its decimal digits. As many octets stand behind them, so that always as many are copied. */
enum { DIGITS = 20 };
static char field_digits[2 * DIGITS] = "00000000000000000000";
static size_t n_digits = 1;

static void count_field(void)
{
    size_t i = DIGITS - 1;
    while (field_digits[i] == '9')
        field_digits[i--] = '0';
    field_digits[i]++;
    if (DIGITS - i > n_digits)
        n_digits = DIGITS - i;
}

static void put_line(uint8_t tag, uint32_t refusal)
{
    if (sizeof output - n_output < MOST_TEXT)
        flush_output();
    count_field();
    char *to = output + n_output;
    memcpy(to, field_digits + DIGITS - n_digits, DIGITS);
    to += n_digits;
    *to++ = ' ';
    to = put_decimal(to, tag);
    *to++ = ' ';
    to = put_decimal(to, refusal & 255);
    *to++ = ' ';
    to = put_decimal(to, refusal ? 0 : receiver.expired + receiver.dropped);
    *to++ = '\n';
    for (unsigned i = 0; !refusal && i < receiver.count; i++) {
        *to++ = ' ';
        *to++ = ' ';
        to = put_decimal(to, receiver.entries[i].key);
        *to++ = ' ';
        to = put_decimal(to, receiver.entries[i].number);
        *to++ = '\n';
    }
    n_output = (size_t)(to - output);
}

int main(void)
{
    static const char header[] = "field tag refusal dropped\n";
    memcpy(output, header, n_output = sizeof header - 1);
    for (size_t length; (length = whole_field());) {
        uint32_t refusal = answer(length);
        put_line(input[from], refusal);
        if (!running && refusal) {
            flush_output();
            return 0;
        }
        running = 1;
        from += length;
    }
    if (from < to)
        put_line(input[from], TORN);
    flush_output();
    return 0;
}
