/* ns for one reading and one writing of the originator-to-dispatcher digits, the best of many short runs. Each answer is first held to what printf makes of the number.
 *
 *   digits ROUNDS    prints 'reading N ns, writing N ns', and fails where an answer is another */
#define _POSIX_C_SOURCE 200809L
#include "asternhaken.h"

#include <inttypes.h>
#include <stdio.h>
#include <stdlib.h>
#include <string.h>
#include <time.h>

enum { NUMBERS = 1000, OCTETS = 5 };
static uint8_t octets[NUMBERS][OCTETS], written[OCTETS];
static uint64_t digits[NUMBERS][ASTERNHAKEN_DIGITS_NUMBERS], read[ASTERNHAKEN_DIGITS_NUMBERS];

static double now(void)
{
    struct timespec t;
    clock_gettime(CLOCK_MONOTONIC, &t);
    return (double)t.tv_sec * 1e9 + (double)t.tv_nsec;
}

/* Numbers of all sizes, and the digits that printf makes of them. */
static void make_numbers(void)
{
    uint64_t random = 20240601, below = 10;
    for (int i = 0; i < NUMBERS; i++) {
        char text[24];
        random ^= random << 13, random ^= random >> 7, random ^= random << 17;
        uint64_t n = random % below;
        below = below == 1000000000000 ? 10 : below * 10;
        snprintf(text, sizeof text, "%012" PRIu64, n);
        for (int k = 0; k < OCTETS; k++) octets[i][k] = (uint8_t)(n >> (32 - 8 * k));
        for (int k = 0; k < ASTERNHAKEN_DIGITS_NUMBERS; k++) digits[i][k] = (uint8_t)text[k];
    }
}

static uint32_t read_all(void)
{
    uint32_t refused = 0;
    for (int i = 0; i < NUMBERS; i++) refused |= asternhaken_digits_read(octets[i], OCTETS, read, ASTERNHAKEN_DIGITS_NUMBERS);
    return refused;
}

static uint32_t write_all(void)
{
    uint32_t refused = 0;
    for (int i = 0; i < NUMBERS; i++) refused |= asternhaken_digits_write(digits[i], ASTERNHAKEN_DIGITS_NUMBERS, written, OCTETS);
    return refused;
}

int main(int argc, char **argv)
{
    double reading = 1e9, writing = 1e9;
    make_numbers();
    for (int i = 0; i < NUMBERS; i++) {
        uint32_t refused = asternhaken_digits_read(octets[i], OCTETS, read, ASTERNHAKEN_DIGITS_NUMBERS);
        refused |= asternhaken_digits_write(digits[i], ASTERNHAKEN_DIGITS_NUMBERS, written, OCTETS);
        if (refused || memcmp(read, digits[i], sizeof read) || memcmp(written, octets[i], sizeof written)) {
            printf("number %d is read or written as another\n", i);
            return 1;
        }
    }
    for (int rounds = argc > 1 ? atoi(argv[1]) : 1; rounds > 0; rounds--) {
        double begin = now();
        uint32_t refused = read_all();
        double middle = now();
        refused |= write_all();
        double end = now();
        if (refused) return 1;
        if (middle - begin < reading) reading = middle - begin;
        if (end - middle < writing) writing = end - middle;
    }
    printf("reading %.1f ns, writing %.1f ns\n", reading / NUMBERS, writing / NUMBERS);
    return 0;
}
