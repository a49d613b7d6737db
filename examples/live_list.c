/* A live list: NT/N Rest Octets come as lines of 40 hexadecimal digits, and after each, and whenever a half runs out, the halves that are held are shown with the time they have left.
 *
 *     cc live_list.c $(pkg-config --cflags --libs asternhaken) -o live_list && ./live_list 10000 9422 9423      T3206 in ms, then the keys to follow, in any order */
#define _POSIX_C_SOURCE 200809L
#include <asternhaken.h>
#include <poll.h>
#include <stdio.h>
#include <stdlib.h>
#include <time.h>

static uint8_t state[ASTERNHAKEN_STATE_LENGTH];

static uint32_t now(void)
{
    struct timespec t;
    clock_gettime(CLOCK_MONOTONIC, &t);
    return (uint32_t)((uint64_t)t.tv_sec * 1000 + (uint64_t)t.tv_nsec / 1000000);
}

static void show(uint32_t result)
{
    static const char *const which[] = { "", "first", "second" }, *const on[] = { "NCH", "FACCH", "PCH" };
    struct asternhaken_held held;
    uint64_t count;
    asternhaken_held_count(state, sizeof state, &count);
    printf("%s; %d held\n", asternhaken_refusal_word(ASTERNHAKEN_REFUSAL(result)), (int)count);
    for (uint32_t i = 0; i < count; i++) {
        asternhaken_held_get(state, sizeof state, i, &held);
        printf("%8d %-4s  %s half on the %s, %.1f s left\n", (int)(held.key / 2), held.key % 2 ? "VGCS" : "VBS", which[held.half], on[held.on], (double)held.ms_left / 1000);
    }
    fflush(stdout);
}

static int rising(const void *one, const void *other)
{
    uint32_t a = *(const uint32_t *)one, b = *(const uint32_t *)other;
    return (a > b) - (a < b);
}

int main(int argc, char **argv)
{
    uint32_t keys[ASTERNHAKEN_KEYS], n_keys = 0, t3206 = argc > 1 ? (uint32_t)strtoul(argv[1], NULL, 10) : 0;
    for (int i = 2; i < argc && n_keys < ASTERNHAKEN_KEYS; i++) keys[n_keys++] = (uint32_t)strtoul(argv[i], NULL, 10);
    qsort(keys, n_keys, sizeof *keys, rising); /* the library takes them in rising order */
    static const uint32_t no_group_keys[ASTERNHAKEN_KEYS] = { 0 }; /* a set for each key: halves are held without them */
    uint32_t result = asternhaken_setup(state, sizeof state, keys, n_keys, no_group_keys, n_keys, now(), t3206, ASTERNHAKEN_T3208, ASTERNHAKEN_T3210);
    setvbuf(stdin, NULL, _IONBF, 0); /* or poll would not see what is read ahead */
    for (show(result); asternhaken_is_set_up(state, sizeof state); show(result)) {
        struct pollfd in = { 0, POLLIN, 0 };
        uint8_t octets[ASTERNHAKEN_NCH_LENGTH], n = 0;
        uint64_t ms;
        asternhaken_next_expiry(state, sizeof state, &ms);
        if (poll(&in, 1, ms == ASTERNHAKEN_NEVER ? -1 : (int)ms)) {
            while (n < sizeof octets && scanf("%2hhx", &octets[n]) == 1) n++;
            if (!n) return 0;
            result = asternhaken_nch(state, sizeof state, now(), octets, n);
        } else result = asternhaken_tick(state, sizeof state, now());
    }
    return 1;
}
