/* Words of a command line or of a script: numbers, octets, calls' parts. */
#include "words.h"

#include <string.h>

int decimal(const char *word, uint64_t most, uint64_t *value)
{
    uint64_t n = 0;
    if (!*word) return 0;
    for (; *word; word++) {
        if (*word < '0' || *word > '9') return 0;
        uint64_t digit = (uint64_t)(*word - '0');
        if (digit > most || n > (most - digit) / 10) return 0;
        n = n * 10 + digit;
    }
    *value = n;
    return 1;
}

static int digit_of(char c)
{
    if (c >= '0' && c <= '9') return c - '0';
    if (c >= 'a' && c <= 'f') return c - 'a' + 10;
    if (c >= 'A' && c <= 'F') return c - 'A' + 10;
    return -1;
}

int hexadecimal(const char *word, unsigned bits, uint64_t *value)
{
    uint64_t n = 0;
    if (!*word) return 0;
    for (; *word; word++) {
        int digit = digit_of(*word);
        if (digit < 0 || n >> 60) return 0;
        n = n << 4 | (uint64_t)digit;
    }
    if (bits < 64 && n >> bits) return 0;
    *value = n;
    return 1;
}

int octets_of(const char *word, uint8_t *octets, size_t most)
{
    size_t n = 0;
    if (!strncmp(word, "0x", 2)) word += 2;
    for (;;) {
        while (*word && strchr(" \t\r\n:-", *word)) word++;
        if (!*word) return (int)n;
        int high = digit_of(word[0]), low = high < 0 ? -1 : digit_of(word[1]);
        if (low < 0 || n == most) return -1;
        octets[n++] = (uint8_t)(16 * high + low);
        word += 2;
    }
}

size_t cut_words(char *line, char **words, size_t most)
{
    static const char blanks[] = " \t\r\n";
    size_t n = 0;
    for (char *at = line + strspn(line, blanks); *at && *at != '#' && n < most; at += strspn(at, blanks)) {
        words[n++] = at;
        at += strcspn(at, blanks);
        if (*at) *at++ = 0;
    }
    return n;
}
