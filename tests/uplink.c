/* Holds the header's uplink and docs/STATE.md's second part to the archive: every function with known answers, each number that is told, the limits of the setup, the state octet by
 * octet, octets that no setup left, words, and wrong lengths. What is lent comes from the heap and has its exact length, so that valgrind sees a step past it. The last line is 'N passed, M failed'.
 *
 * The answers were worked out by hand from document 02, §9. */
#include <asternhaken.h>

#include <stdio.h>
#include <stdlib.h>
#include <string.h>

#define LENGTH ((size_t)ASTERNHAKEN_UPLINK_LENGTH)

static unsigned passed, failed;

static void check(int holds, const char *what, int line)
{
    if (holds) {
        passed++;
        return;
    }
    failed++;
    printf("tests/uplink.c:%d: %s\n", line, what);
}

#define CHECK(holds) check((holds) != 0, #holds, __LINE__)

static uint8_t *uplink, *before;

static uint8_t *lent(size_t size)
{
    uint8_t *memory = (uint8_t *)malloc(size ? size : 1);
    if (!memory) exit(2);
    return memory;
}

/* ---- One uplink ---- */

static void fresh(uint32_t tick, uint32_t t3128)
{
    memset(uplink, 0x5a, LENGTH);
    CHECK(asternhaken_uplink_setup(uplink, LENGTH, tick, t3128) == ASTERNHAKEN_ACCEPTED);
}

typedef uint32_t event(uint8_t *uplink, size_t uplink_length, uint32_t tick);

/* What an accepted event tells: of the request that waited, and of a new one. */
static int tells(event *happens, uint32_t tick, uint32_t ended, uint32_t told)
{
    uint32_t result = happens(uplink, LENGTH, tick);
    return ASTERNHAKEN_REFUSAL(result) == ASTERNHAKEN_ACCEPTED && ASTERNHAKEN_UPLINK_ENDED(result) == ended && ASTERNHAKEN_UPLINK_TOLD(result) == told && result >> 24 == 0;
}

/* A refused event is its number alone, and leaves every octet. */
static int refuses(event *happens, uint32_t tick, uint32_t refusal)
{
    memcpy(before, uplink, LENGTH);
    return happens(uplink, LENGTH, tick) == refusal && !memcmp(before, uplink, LENGTH);
}

/* Its four numbers: the last tick, T3128, the ms for which it is free, those that the request still has. */
static int holds(uint32_t tick, uint32_t t3128, uint32_t free_for, uint32_t waits_for)
{
    const uint32_t numbers[4] = { tick, t3128, free_for, waits_for };
    for (size_t i = 0; i < LENGTH; i++)
        if (uplink[i] != (uint8_t)(numbers[i / 4] >> 8 * (3 - i % 4))) return 0;
    return 1;
}

static void hold(uint32_t tick, uint32_t t3128, uint32_t free_for, uint32_t waits_for)
{
    const uint32_t numbers[4] = { tick, t3128, free_for, waits_for };
    for (size_t i = 0; i < LENGTH; i++) uplink[i] = (uint8_t)(numbers[i / 4] >> 8 * (3 - i % 4));
}

enum {
    NOTHING = ASTERNHAKEN_UPLINK_NOTHING,
    GRANTED = ASTERNHAKEN_UPLINK_GRANTED,
    REJECTED = ASTERNHAKEN_UPLINK_REJECTED,
    WAITING = ASTERNHAKEN_UPLINK_WAITING,
    ALREADY = ASTERNHAKEN_UPLINK_ALREADY_WAITING
};

static event *const is_free = asternhaken_uplink_free, *const is_busy = asternhaken_uplink_busy, *const request = asternhaken_uplink_request, *const time_passes = asternhaken_uplink_tick;

/* ---- What is told ---- */

static void requests(void)
{
    fresh(1000, 100);
    CHECK(tells(request, 1000, NOTHING, WAITING)); /* no "free" came yet */
    CHECK(tells(request, 1099, NOTHING, ALREADY));
    CHECK(tells(time_passes, 1100, REJECTED, NOTHING));
    CHECK(tells(time_passes, 1100, NOTHING, NOTHING));
    CHECK(tells(is_free, 2000, NOTHING, NOTHING));
    CHECK(tells(request, 2000 + ASTERNHAKEN_UPLINK_FREE - 1, NOTHING, GRANTED));
    CHECK(tells(request, 2000 + ASTERNHAKEN_UPLINK_FREE, NOTHING, WAITING)); /* 480 ms are too long ago */
    CHECK(tells(is_free, 2579, GRANTED, NOTHING));
    CHECK(tells(is_busy, 2580, NOTHING, NOTHING));
    CHECK(tells(request, 2581, NOTHING, WAITING)); /* a "busy" came since */
    CHECK(tells(is_free, 2681, REJECTED, NOTHING)); /* at T3128's end, the "free" comes too late */
    CHECK(tells(request, 2681, NOTHING, GRANTED));
    CHECK(tells(is_busy, 2682, NOTHING, NOTHING));
    CHECK(tells(request, 2700, NOTHING, WAITING));
    CHECK(tells(request, 2800, REJECTED, WAITING)); /* the old one ended, and a new one begins */
    CHECK(tells(is_busy, 2900, REJECTED, NOTHING));
}

/* The age of a "free" is a sum: on a clock of 32 bits it would be 5 ms. */
static void sums(void)
{
    fresh(0, ASTERNHAKEN_LONGEST);
    CHECK(tells(is_free, 0, NOTHING, NOTHING));
    CHECK(tells(time_passes, 0x7fffffffu, NOTHING, NOTHING));
    CHECK(tells(time_passes, 0xfffffffeu, NOTHING, NOTHING));
    CHECK(tells(request, 5, NOTHING, WAITING));
    CHECK(tells(time_passes, 5 + ASTERNHAKEN_LONGEST - 1, NOTHING, NOTHING));
    CHECK(tells(time_passes, 5 + ASTERNHAKEN_LONGEST, REJECTED, NOTHING));
    fresh(UINT32_MAX - 9, 100); /* the tick wraps while a request waits */
    CHECK(tells(request, UINT32_MAX - 9, NOTHING, WAITING));
    CHECK(tells(is_free, 89, GRANTED, NOTHING));
}

/* ---- Refusals ---- */

static void refusals(void)
{
    event *const events[4] = { is_free, is_busy, request, time_passes };
    const uint32_t wrong[4] = { 0, ASTERNHAKEN_LONGEST + 1, 65537, UINT32_MAX };
    CHECK(ASTERNHAKEN_UPLINK_FREE == 480 && ASTERNHAKEN_LONGEST == 60000);
    fresh(1000, 1);
    CHECK(tells(request, 1000, NOTHING, WAITING));
    for (size_t i = 0; i < 4; i++) {
        memcpy(before, uplink, LENGTH);
        CHECK(asternhaken_uplink_setup(uplink, LENGTH, 5, wrong[i]) == 10 && !memcmp(before, uplink, LENGTH));
        CHECK(refuses(events[i], 999, 9));
        CHECK(refuses(events[i], 1000 + 0x80000000u, 9)); /* a step of 2^31 */
    }
    CHECK(tells(time_passes, 1000 + 0x7fffffffu, REJECTED, NOTHING));
}

/* A state of a wrong length is refused before anything else is looked at, and not touched. */
static void wrong_length(size_t length)
{
    uint8_t *octets = lent(length), *copy = lent(length);
    memset(octets, 0x5a, length);
    memcpy(copy, octets, length);
    CHECK(asternhaken_uplink_setup(octets, length, 0, 0) == 13 && asternhaken_uplink_setup(octets, length, 0, 1) == 13);
    CHECK(is_free(octets, length, 0) == 13 && is_busy(octets, length, 0) == 13 && request(octets, length, 0) == 13 && time_passes(octets, length, 0) == 13);
    CHECK(!memcmp(copy, octets, length));
    free(octets), free(copy);
}

/* ---- Octets ---- */

static void octets(void)
{
    CHECK(ASTERNHAKEN_UPLINK_LENGTH == 16);
    fresh(0x01020304, 60000);
    CHECK(holds(0x01020304, 60000, 0, 0) && uplink[0] == 1 && uplink[3] == 4 && uplink[6] == 0xea && uplink[7] == 0x60);
    CHECK(tells(request, 0x01020305, NOTHING, WAITING) && holds(0x01020305, 60000, 0, 60000));
    CHECK(tells(request, 0x01020306, NOTHING, ALREADY) && holds(0x01020306, 60000, 0, 59999));
    CHECK(tells(is_busy, 0x01020307, NOTHING, NOTHING) && holds(0x01020307, 60000, 0, 59998));
    CHECK(tells(is_free, 0x01020308, GRANTED, NOTHING) && holds(0x01020308, 60000, 480, 0));
    CHECK(tells(request, 0x01020309, NOTHING, GRANTED) && holds(0x01020309, 60000, 479, 0));
    CHECK(tells(time_passes, 0x01020309 + 479, NOTHING, NOTHING) && holds(0x01020309 + 479, 60000, 0, 0));
    CHECK(tells(time_passes, 0x7fffffff, NOTHING, NOTHING) && holds(0x7fffffff, 60000, 0, 0));

    /* octets that no setup left */
    hold(7, 0, 0, 0);
    CHECK(tells(request, 7, NOTHING, WAITING) && holds(7, 0, 0, 0));
    CHECK(tells(request, 7, NOTHING, WAITING));
    hold(7, UINT32_MAX, UINT32_MAX, UINT32_MAX);
    CHECK(tells(request, 17, NOTHING, ALREADY) && holds(17, UINT32_MAX, UINT32_MAX - 10, UINT32_MAX - 10));
    hold(7, 100, 500, 5);
    CHECK(tells(request, 12, REJECTED, GRANTED) && holds(12, 100, 495, 0));
}

static void words(void)
{
    int alike = 0; /* each number has a word and a sentence of its own, and so has one that is not known */
    for (uint32_t i = 0; i <= ALREADY + 1; i++)
        for (uint32_t j = 0; j < i; j++)
            alike += !strcmp(asternhaken_uplink_word(i), asternhaken_uplink_word(j)) || !strcmp(asternhaken_uplink_sentence(i), asternhaken_uplink_sentence(j));
    CHECK(!alike);
    CHECK(!strcmp(asternhaken_uplink_word(GRANTED), "granted") && !strcmp(asternhaken_uplink_word(REJECTED), "rejected") && !strcmp(asternhaken_uplink_word(WAITING), "waiting"));
    CHECK(!strcmp(asternhaken_uplink_word(ALREADY), "already waiting") && !strcmp(asternhaken_uplink_word(ALREADY + 1), "unknown") && !strcmp(asternhaken_uplink_word(UINT32_MAX), "unknown"));
    CHECK(strstr(asternhaken_uplink_sentence(GRANTED), "may talk") && strstr(asternhaken_uplink_sentence(REJECTED), "ran out") && strstr(asternhaken_uplink_sentence(UINT32_MAX), "does not know"));
    CHECK(ASTERNHAKEN_UPLINK_ENDED(0xff02ff09u) == 255 && ASTERNHAKEN_UPLINK_TOLD(0xff02ff09u) == 2);
}

int main(void)
{
    uplink = lent(LENGTH), before = lent(LENGTH);
    requests();
    sums();
    refusals();
    wrong_length(15);
    wrong_length(17);
    wrong_length(0);
    octets();
    words();
    free(uplink), free(before);
    printf("%u passed, %u failed\n", passed, failed);
    return failed != 0;
}
