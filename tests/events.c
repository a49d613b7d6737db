/* Feeds the events of standard input to the C library, an event to a line, and shows each answer as the program receiver_events shows the
 * receiver's. A setup there names two timers, T3210 is the default, and no group keys are held. The lines are those of vectors/events.tsv and are taken as right: examples/control_room.c shows how to check what people type. */
#include <asternhaken.h>

#include <stdio.h>
#include <stdlib.h>
#include <string.h>

static uint8_t state[ASTERNHAKEN_STATE_LENGTH];

static unsigned long long part(uint32_t entry, uint32_t which)
{
    uint64_t value = 0;
    if (asternhaken_read(state, sizeof state, entry, which, &value) != ASTERNHAKEN_ACCEPTED) exit(2);
    return value;
}

static void show_if(uint32_t entry, const char *word, uint32_t there, uint32_t which)
{
    if (part(entry, there)) printf("%s %llu", word, part(entry, which));
    else printf("%s -", word);
}

static void show_channel(uint32_t e)
{
    if (!part(e, ASTERNHAKEN_PART_CHANNEL_GIVEN)) {
        printf(" channel -");
        return;
    }
    printf(" channel %06llx", part(e, ASTERNHAKEN_PART_CHANNEL));
    if (!part(e, ASTERNHAKEN_PART_HOPS)) return;
    if (part(e, ASTERNHAKEN_PART_SHORT_LIST)) {
        printf(" list %016llx", part(e, ASTERNHAKEN_PART_FREQUENCIES));
        return;
    }
    int octets = (int)part(e, ASTERNHAKEN_PART_ALLOCATION_OCTETS);
    printf(" allocation %d %0*llx", octets, 2 * octets, part(e, ASTERNHAKEN_PART_FREQUENCIES));
}

static void show_record(uint32_t e)
{
    printf(" call %llu %llu %llu %llu %llu", part(e, ASTERNHAKEN_PART_CALL_REFERENCE), part(e, ASTERNHAKEN_PART_VGCS), part(e, ASTERNHAKEN_PART_ACKNOWLEDGED),
           part(e, ASTERNHAKEN_PART_PRIORITY), part(e, ASTERNHAKEN_PART_CIPHER_KEY_NUMBER));
    show_channel(e);
    show_if(e, " segment", ASTERNHAKEN_PART_SEGMENT_GIVEN, ASTERNHAKEN_PART_SEGMENT_ID);
    if (part(e, ASTERNHAKEN_PART_RAND_GIVEN)) printf(" rand %09llx", part(e, ASTERNHAKEN_PART_VSTK_RAND));
    else printf(" rand -");
    printf(" emergency %llu", part(e, ASTERNHAKEN_PART_EMERGENCY));
    show_if(e, " count", ASTERNHAKEN_PART_COUNT_GIVEN, ASTERNHAKEN_PART_CELL_GLOBAL_COUNT);
    if (part(e, ASTERNHAKEN_PART_COUNT_GIVEN)) printf(" %llu", part(e, ASTERNHAKEN_PART_B22_COUNT));
    show_if(e, " uplink", ASTERNHAKEN_PART_UPLINK_GIVEN, ASTERNHAKEN_PART_UPLINK_ACCESS);
    printf(" amr");
    if (part(e, ASTERNHAKEN_PART_AMR_GIVEN)) {
        show_if(e, "", ASTERNHAKEN_PART_FR_AMR_GIVEN, ASTERNHAKEN_PART_FR_AMR_CONFIG);
        show_if(e, "", ASTERNHAKEN_PART_HR_AMR_GIVEN, ASTERNHAKEN_PART_HR_AMR_CONFIG);
    } else printf(" -");
    show_if(e, " sms", ASTERNHAKEN_PART_SMS_GIVEN, ASTERNHAKEN_PART_SMS_CONFIDENTIALITY);
    if (part(e, ASTERNHAKEN_PART_SMS_GIVEN)) printf(" %llu", part(e, ASTERNHAKEN_PART_SMS_PRIVACY));
}

static void show_answer(uint32_t result)
{
    if (result != ASTERNHAKEN_ACCEPTED) {
        printf("%lu 0 0 0\n", (unsigned long)ASTERNHAKEN_REFUSAL(result));
        return;
    }
    uint32_t count = (uint32_t)part(0, ASTERNHAKEN_PART_ENTRY_COUNT);
    printf("0 %llu %llu %lu\n", part(0, ASTERNHAKEN_PART_EXPIRED), part(0, ASTERNHAKEN_PART_DROPPED), (unsigned long)count);
    for (uint32_t e = 0; e < count; e++) {
        printf("  %llu %llu", part(e, ASTERNHAKEN_PART_KEY), part(e, ASTERNHAKEN_PART_TOLD));
        if (part(e, ASTERNHAKEN_PART_TOLD) >= ASTERNHAKEN_TOLD_CLEAR && part(e, ASTERNHAKEN_PART_TOLD) <= ASTERNHAKEN_TOLD_JOINED) show_record(e);
        printf("\n");
    }
}

/* The numbers of a line, as many as there is room for. */
static size_t numbers(const char *text, uint32_t *into, size_t room)
{
    size_t n = 0;
    char *end;
    for (; n < room; n++, text = end) {
        into[n] = (uint32_t)strtoul(text, &end, 10);
        if (end == text) break;
    }
    return n;
}

static size_t octets_of(const char *hex, uint8_t *into, size_t room)
{
    size_t n = 0;
    unsigned octet;
    for (; n < room && sscanf(hex + 2 * n, "%2x", &octet) == 1; n++) into[n] = (uint8_t)octet;
    return n;
}

static uint32_t event(const char *word, const char *rest)
{
    static const uint32_t no_group_keys[64] = { 0 };
    uint32_t given[3 + 64] = { 0 };
    size_t n = numbers(rest, given, 3 + 64);
    uint32_t tick = given[0];
    if (!strcmp(word, "setup")) return asternhaken_setup(state, sizeof state, given + 3, n - 3, no_group_keys, n - 3, tick, given[1], given[2], ASTERNHAKEN_T3210);
    if (!strcmp(word, "joined")) return asternhaken_joined(state, sizeof state, tick, given[1]);
    if (!strcmp(word, "reselected")) return asternhaken_reselected(state, sizeof state, tick);
    if (!strcmp(word, "handed_over")) return asternhaken_handed_over(state, sizeof state, tick);
    if (!strcmp(word, "reconfigured")) return asternhaken_reconfigured(state, sizeof state, tick);
    if (!strcmp(word, "tick")) return asternhaken_tick(state, sizeof state, tick);

    uint8_t octets[64];
    const char *hex = strchr(rest, ' ');
    size_t length = hex ? octets_of(hex + 1, octets, sizeof octets) : 0;
    if (!strcmp(word, "nch")) return asternhaken_nch(state, sizeof state, tick, octets, length);
    if (!strcmp(word, "facch")) return asternhaken_facch(state, sizeof state, tick, octets, length);
    exit(2);
}

int main(void)
{
    char line[2048], word[16];
    int at;
    while (fgets(line, sizeof line, stdin)) {
        if (sscanf(line, "%15s %n", word, &at) != 1) return 2;
        show_answer(event(word, line + at));
    }
    return 0;
}
