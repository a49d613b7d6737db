/* A driver's set in a talking trial: what the network says of the uplink and what the driver does come as lines on standard input, and what the driver is shown goes to standard output.
 *
 *     setup TICK T3128     follows the uplink of a call from now on; a request waits for T3128 at most
 *     free TICK            a message came that says the uplink is free
 *     busy TICK            UPLINK BUSY came
 *     press TICK           the driver presses the talk key
 *     tick TICK            time passed
 *
 * TICK and T3128 are in ms. A line that begins with # is a comment. A line that cannot be understood is named on standard error and skipped, and the status is then 1.
 *
 *     cc driver.c $(pkg-config --cflags --libs asternhaken) -o driver && ./driver < driver.txt */
#include <asternhaken.h>

#include <stdio.h>
#include <string.h>

static uint8_t uplink[ASTERNHAKEN_UPLINK_LENGTH];
static int is_set_up;

/* What the driver is shown for each number that is told; asternhaken_uplink_word has words for a log. */
static const char *const lamps[] = { "", "TALK", "not now: nobody gave way in time", "please wait", "still waiting" };

static const struct {
    const char *word;
    uint32_t (*event)(uint8_t *uplink, size_t uplink_length, uint32_t tick);
} events[] = {
    { "free", asternhaken_uplink_free },
    { "busy", asternhaken_uplink_busy },
    { "press", asternhaken_uplink_request },
    { "tick", asternhaken_uplink_tick }
};

/* The result of a line: one event may end the request that waited and answer a new one, so there may be two things to show. */
static void show(unsigned long tick, const char *word, uint32_t result)
{
    uint32_t refusal = ASTERNHAKEN_REFUSAL(result), ended = ASTERNHAKEN_UPLINK_ENDED(result), told = ASTERNHAKEN_UPLINK_TOLD(result);
    printf("%10lu  %-*s", tick, result ? 5 : 0, word);
    if (refusal != ASTERNHAKEN_ACCEPTED) printf("  refused %d: %s", (int)refusal, asternhaken_refusal_word(refusal));
    if (ended) printf("  %s", lamps[ended]);
    if (ended && told) printf(";");
    if (told) printf("  %s", lamps[told]);
    printf("\n");
}

/* What is wrong with a line, or nothing. */
static const char *line_says(const char *line)
{
    char word[8];
    unsigned long tick, t3128;
    char rest;
    if (sscanf(line, "%7s %lu %lu %c", word, &tick, &t3128, &rest) == 3 && !strcmp(word, "setup")) {
        if (tick > UINT32_MAX || t3128 > UINT32_MAX) return "a number has more than 32 bits";
        uint32_t result = asternhaken_uplink_setup(uplink, sizeof uplink, (uint32_t)tick, (uint32_t)t3128);
        if (ASTERNHAKEN_REFUSAL(result) == ASTERNHAKEN_ACCEPTED) is_set_up = 1;
        show(tick, word, result);
        return NULL;
    }
    if (sscanf(line, "%7s %lu %c", word, &tick, &rest) != 2 || !strcmp(word, "setup")) return "a line is WORD TICK, or setup TICK T3128";
    if (tick > UINT32_MAX) return "a number has more than 32 bits";
    if (!is_set_up) return "no setup was accepted yet";
    for (size_t i = 0; i < sizeof events / sizeof *events; i++)
        if (!strcmp(word, events[i].word)) {
            show(tick, word, events[i].event(uplink, sizeof uplink, (uint32_t)tick));
            return NULL;
        }
    return "no such event";
}

int main(void)
{
    char line[256];
    int status = 0;
    for (unsigned long place = 1; fgets(line, sizeof line, stdin); place++) {
        const char *text = line + strspn(line, " \t\r\n"), *wrong = *text && *text != '#' ? line_says(text) : NULL;
        if (!wrong) continue;
        fprintf(stderr, "line %lu: %s\n", place, wrong);
        status = 1;
    }
    return status;
}
