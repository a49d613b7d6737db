/* A small control room: events come as lines on standard input, and the calls they tell of go to standard output.
 *
 *     setup TICK T3206 T3208 T3210 CALL..   the calls to follow, in any order; NAME=CALL gives one a name, CALL:3,4 the group keys that are held for it
 *     nch TICK HEX                          NT/N Rest Octets came
 *     facch TICK HEX                        NOTIFICATION/FACCH came: it tells of a call, or pages somebody
 *     pch TICK CALL PART..                  the paging channel told of the call
 *     joined TICK CALL                      the call was joined
 *     bit_22 TICK VALUE                     bit 22 of COUNT has this value now, 0 or 1
 *     reselected TICK, handed_over TICK, reconfigured TICK, left_idle TICK, tick TICK
 *
 * PART is ciphered, full=HEX (the 36 bits of the reference), channel=HEX with allocation=HEX or list=HEX where it hops, rand=HEX (VSTK_RAND) or count=HEX.
 * TICK and the timers are in ms. CALL is a reference and its service, 4711/VBS or 4711/VGCS, or the key itself: reference times 2, and 1 more for VGCS.
 * A word that begins with # begins a comment. A line that cannot be understood is named on standard error and skipped, and the status is then 1.
 *
 *     cc control_room.c $(pkg-config --cflags --libs asternhaken) -o control_room && ./control_room < sample.txt */
#include <asternhaken.h>

#include <stdio.h>
#include <stdlib.h>
#include <string.h>

enum {
    LINE = 4096,      /* characters of a line at most */
    WORDS = LINE / 2, /* so many words fit on it at most */
    NAME = 12         /* characters of a name at most */
};

/* A call that is subscribed to, with the entry that was last complete, when that came and in which cell. */
struct call {
    uint32_t key, tick, cell;
    char name[NAME + 1];
    int is_complete;
    struct asternhaken_entry last;
};

static uint8_t state[ASTERNHAKEN_STATE_LENGTH];
static struct call calls[ASTERNHAKEN_KEYS];
static size_t n_calls;
static uint32_t cells; /* that were left: a channel is of use only in its cell */
static int is_set_up;

/* ---- Showing ---- */

static const char *name_of(uint64_t key)
{
    for (size_t i = 0; i < n_calls; i++)
        if (calls[i].key == key) return calls[i].name;
    return "";
}

static void show_call(uint64_t key)
{
    printf("%-*s  %-4s %8llu", (int)NAME, name_of(key), key % 2 ? "VGCS" : "VBS", (unsigned long long)(key / 2));
}

static void show_event(uint32_t tick, const char *word)
{
    printf("%10lu  %-12s  ", (unsigned long)tick, word);
}

/* Ends a line, and begins the next where an event's further lines stand. */
static void next_line(void)
{
    printf("\n%26s", "");
}

static void show_lost(uint64_t n, const char *how)
{
    printf("%llu %s %s", (unsigned long long)n, n == 1 ? "half" : "halves", how);
}

static void show_frequencies(const struct asternhaken_record *r)
{
    unsigned long long frequencies = r->frequencies;
    if (r->short_list) printf(", hops by the list %016llx", frequencies);
    else printf(", hops by the allocation %0*llx", 2 * (int)r->allocation_octets, frequencies);
}

/* Whether a complete ciphered call can be followed, and with which count. */
static void show_follow(const struct asternhaken_entry *entry)
{
    printf("%s", asternhaken_follow_word(entry->follow));
    if (entry->follow == ASTERNHAKEN_FOLLOW_WITH_COUNT) printf(", count %d", (int)entry->kept_count);
}

/* Who is paged: the kind and the octets of the mobile identity, the channel, and what for. Without a Paging Cause that is 0, a mobile terminating call. */
static void show_page(const struct asternhaken_paged *paged)
{
    printf("paging %s ", asternhaken_identity_word(ASTERNHAKEN_IDENTITY_KIND(paged->page.identity_first)));
    for (uint32_t i = 0; i < paged->page.identity_octets; i++) printf("%02lx", (unsigned long)asternhaken_identity_octet(&paged->page, i));
    printf(", %s", asternhaken_channel_first_word(paged->page.channel_first));
    if (paged->page.emlpp_priority_given) printf(", priority %d", (int)paged->page.emlpp_priority);
    printf(", %s", asternhaken_paging_cause_word(paged->paging_cause));
}

/* The numbers of a set of group keys. */
static void show_group_keys(uint32_t set)
{
    const char *before = "  group keys: ";
    for (unsigned n = 1; n <= ASTERNHAKEN_LAST_GROUP_KEY; n++) {
        if (!(set & ASTERNHAKEN_GROUP_KEY(n))) continue;
        printf("%s%u", before, n);
        before = ", ";
    }
}

/* The list of calls, each as it was last complete. */
static void show_list(void)
{
    printf("\nCall list\n");
    for (size_t i = 0; i < n_calls; i++) {
        const struct asternhaken_record *r = &calls[i].last.record;
        printf("  ");
        show_call(calls[i].key);
        if (!calls[i].is_complete) {
            printf("  not complete yet\n");
            continue;
        }
        printf("  channel %06llx since %lu, priority %d", (unsigned long long)r->channel, (unsigned long)calls[i].tick, (int)r->priority);
        if (calls[i].cell != cells) printf(", in a cell left since");
        if (r->emergency) printf(", EMERGENCY");
        if (r->hops) show_frequencies(r);
        if (r->cipher_key_number) printf(", ciphered with key %d", (int)r->cipher_key_number);
        if (r->rand_given) printf(", VSTK_RAND %09llx", (unsigned long long)r->vstk_rand);
        if (r->count_given) printf(", sent with count %d", (int)r->cell_global_count);
        if (calls[i].last.follow) printf(", "), show_follow(&calls[i].last);
        printf("\n");
    }
}

/* ---- Events ---- */

/* Keeps what a complete call was told. */
static void keep(const struct asternhaken_entry *entry, uint32_t tick)
{
    for (size_t i = 0; i < n_calls; i++) {
        if (calls[i].key != entry->key) continue;
        calls[i].tick = tick;
        calls[i].cell = cells;
        calls[i].is_complete = 1;
        calls[i].last = *entry;
    }
}

static void show_entry(const struct asternhaken_entry *entry, uint32_t tick)
{
    show_call(entry->key);
    if (entry->told < ASTERNHAKEN_TOLD_CLEAR || entry->told > ASTERNHAKEN_TOLD_JOINED) {
        printf("  %d %s", (int)entry->told, asternhaken_told_word(entry->told));
        return;
    }
    printf("  %d %-19s  %06llx", (int)entry->told, asternhaken_told_word(entry->told), (unsigned long long)entry->record.channel);
    if (entry->follow) printf("   "), show_follow(entry);
    keep(entry, tick);
}

/* A refusal of bits that ran out says at which bit: 0 beside every other number. */
static void show_refusal(uint32_t result)
{
    printf("refused %d", (int)ASTERNHAKEN_REFUSAL(result));
    if (ASTERNHAKEN_BIT(result)) printf(" at bit %d", (int)ASTERNHAKEN_BIT(result));
    printf(": %s\n", asternhaken_refusal_word(ASTERNHAKEN_REFUSAL(result)));
}

/* What the library said to an event. */
static void show_answer(uint32_t result, uint32_t tick, const char *word)
{
    show_event(tick, word);
    if (ASTERNHAKEN_REFUSAL(result) != ASTERNHAKEN_ACCEPTED) {
        show_refusal(result);
        return;
    }
    struct asternhaken_answer answer;
    struct asternhaken_entry entry;
    struct asternhaken_paged paged;
    asternhaken_answer_get(state, sizeof state, &answer);
    asternhaken_paged_get(state, sizeof state, &paged);
    if (answer.expired) show_lost(answer.expired, "ran out");
    if (answer.expired && answer.dropped) printf(", ");
    if (answer.dropped) show_lost(answer.dropped, "dropped");
    if (!answer.expired && !answer.dropped && !answer.entry_count && !paged.paged) printf("-");
    if (paged.paged) {
        if (answer.expired) next_line(); /* a page drops nothing */
        show_page(&paged);
    }
    for (uint32_t i = 0; i < answer.entry_count; i++) {
        if (i || answer.expired || answer.dropped) next_line();
        asternhaken_entry_get(state, sizeof state, i, &entry);
        show_entry(&entry, tick);
    }
    printf("\n");
}

/* ---- Words ---- */

/* A decimal number, at most so large. */
static int number(const char *word, uint32_t most, uint32_t *value)
{
    uint64_t n = 0;
    if (!*word) return 0;
    for (; *word; word++) {
        if (*word < '0' || *word > '9') return 0;
        n = n * 10 + (uint64_t)(*word - '0');
        if (n > most) return 0;
    }
    *value = (uint32_t)n;
    return 1;
}

/* A call: a key, or a reference with / and its service. Whether there can be such a call, the library says. */
static int call_key(char *word, uint32_t *key)
{
    char *service = strchr(word, '/');
    int vgcs = service && !strcmp(service, "/VGCS");
    if (!service) return number(word, UINT32_MAX, key);
    if (!vgcs && strcmp(service, "/VBS")) return 0;
    *service = 0;
    if (!number(word, UINT32_MAX / 2, key)) return 0;
    *key = ASTERNHAKEN_KEY(*key, vgcs);
    return 1;
}

/* Numbers of group keys with commas between them, as a set. Whether there can be such a key, the library says, as far as there is a bit for it. */
static int group_keys(char *word, uint32_t *set)
{
    char *next = word;
    uint32_t n;
    *set = 0;
    while (next) {
        word = next;
        next = strchr(word, ',');
        if (next) *next++ = 0;
        if (!number(word, 31, &n)) return 0;
        *set |= ASTERNHAKEN_GROUP_KEY(n);
    }
    return 1;
}

static int digit(char c)
{
    static const char digits[] = "0123456789abcdef0123456789ABCDEF";
    const char *at = c ? strchr(digits, c) : NULL;
    return at ? (int)((at - digits) % 16) : -1;
}

/* The octets whose two digits each stand in a word. There is room for those of the longest line. */
static int hex(const char *word, uint8_t *octets, size_t *n)
{
    for (*n = 0; word[2 * *n]; ++*n) {
        int high = digit(word[2 * *n]), low = digit(word[2 * *n + 1]);
        if (high < 0 || low < 0) return 0;
        octets[*n] = (uint8_t)(16 * high + low);
    }
    return 1;
}

/* ---- Lines: each answers what is wrong with it, or nothing ---- */

/* A call of a setup, with the group keys that are held for it. */
struct named {
    uint32_t key, set;
    const char *name;
};

static int by_key(const void *one, const void *other)
{
    uint32_t a = ((const struct named *)one)->key, b = ((const struct named *)other)->key;
    return (a > b) - (a < b);
}

static const char *set_up(char **words, size_t n)
{
    static struct named named[WORDS];
    static uint32_t keys[WORDS], sets[WORDS];
    uint32_t tick, t3206, t3208, t3210;
    if (n < 5) return "a setup is TICK T3206 T3208 T3210 CALL..";
    if (!number(words[1], UINT32_MAX, &tick)) return "TICK is no number of 32 bits";
    if (!number(words[2], UINT32_MAX, &t3206)) return "T3206 is no number of 32 bits";
    if (!number(words[3], UINT32_MAX, &t3208)) return "T3208 is no number of 32 bits";
    if (!number(words[4], UINT32_MAX, &t3210)) return "T3210 is no number of 32 bits";
    for (size_t i = 5; i < n; i++) {
        char *is = strchr(words[i], '='), *call = is ? is + 1 : words[i], *held = strchr(call, ':');
        if (is) *is = 0;
        if (held) *held++ = 0;
        if (is && (size_t)(is - words[i]) > NAME) return "a name is too long";
        named[i - 5].name = is ? words[i] : "";
        named[i - 5].set = 0;
        if (!call_key(call, &named[i - 5].key)) return "CALL is no key, REFERENCE/VBS or REFERENCE/VGCS";
        if (held && !group_keys(held, &named[i - 5].set)) return "behind CALL: stand no numbers of group keys";
    }

    /* the library takes keys in rising order, and names and group keys go with them */
    qsort(named, n - 5, sizeof *named, by_key);
    for (size_t i = 0; i < n - 5; i++) keys[i] = named[i].key, sets[i] = named[i].set;
    uint32_t result = asternhaken_setup(state, sizeof state, keys, n - 5, sets, n - 5, tick, t3206, t3208, t3210);
    if (ASTERNHAKEN_REFUSAL(result) != ASTERNHAKEN_ACCEPTED) {
        show_event(tick, "setup");
        show_refusal(result);
        return NULL; /* the state is as it was, and so are the calls */
    }
    if (is_set_up) {
        show_list();
        printf("\n");
    }
    is_set_up = 1;
    memset(calls, 0, sizeof calls);
    n_calls = n - 5; /* at most ASTERNHAKEN_KEYS, or it had been refused */
    show_event(tick, "setup");
    printf("T3206 %lu ms, T3208 %lu ms, T3210 %lu ms", (unsigned long)t3206, (unsigned long)t3208, (unsigned long)t3210);
    for (size_t i = 0; i < n_calls; i++) {
        calls[i].key = keys[i];
        strcpy(calls[i].name, named[i].name);
        next_line();
        show_call(keys[i]);
        show_group_keys(sets[i]);
    }
    printf("\n");
    return NULL;
}

static const char *message(char **words, size_t n, uint32_t tick, int is_nch)
{
    static uint8_t octets[WORDS];
    size_t length;
    if (n != 3) return "the words are TICK HEX";
    if (!hex(words[2], octets, &length)) return "HEX is not two hexadecimal digits for each octet";
    uint32_t result = is_nch ? asternhaken_nch(state, sizeof state, tick, octets, length) : asternhaken_facch(state, sizeof state, tick, octets, length);
    show_answer(result, tick, words[0]);
    return NULL;
}

/* A part of a PCH entry: NAME=HEX, whose digits make one number, or a mark. */
static int pch_part(char *word, struct asternhaken_pch_entry *entry)
{
    char *is = strchr(word, '=');
    size_t digits = is ? strlen(is + 1) : 0;
    uint64_t value = 0;
    if (!strcmp(word, "ciphered")) return entry->ciphered = 1;
    if (digits < 1 || digits > 16) return 0;
    *is = 0;
    for (const char *at = is + 1; *at; at++) {
        if (digit(*at) < 0) return 0;
        value = 16 * value + (uint64_t)digit(*at);
    }
    if (!strcmp(word, "full")) entry->reference_given = 1, entry->reference = value;
    else if (!strcmp(word, "channel")) entry->channel_given = 1, entry->channel = value;
    else if (!strcmp(word, "allocation")) entry->hops = 1, entry->allocation_octets = (digits + 1) / 2, entry->frequencies = value;
    else if (!strcmp(word, "list")) entry->hops = entry->short_list = 1, entry->frequencies = value;
    else if (!strcmp(word, "rand")) entry->rand_given = 1, entry->vstk_rand = value;
    else if (!strcmp(word, "count")) entry->count_given = 1, entry->cell_global_count = value;
    else return 0;
    return 1;
}

static const char *paging_channel(char **words, size_t n, uint32_t tick)
{
    struct asternhaken_pch_entry entry;
    uint32_t key;
    memset(&entry, 0, sizeof entry);
    if (n < 3) return "the words are TICK CALL PART..";
    if (!call_key(words[2], &key)) return "CALL is no key, REFERENCE/VBS or REFERENCE/VGCS";
    entry.key = key;
    for (size_t i = 3; i < n; i++)
        if (!pch_part(words[i], &entry)) return "PART is no ciphered, full=, channel=, allocation=, list=, rand= or count= with up to 16 digits";
    show_answer(asternhaken_pch_put(state, sizeof state, tick, &entry), tick, words[0]);
    return NULL;
}

static const char *joined(char **words, size_t n, uint32_t tick)
{
    uint32_t key;
    if (n != 3) return "the words are TICK CALL";
    if (!call_key(words[2], &key)) return "CALL is no key, REFERENCE/VBS or REFERENCE/VGCS";
    show_answer(asternhaken_joined(state, sizeof state, tick, key), tick, words[0]);
    return NULL;
}

static const char *bit_22(char **words, size_t n, uint32_t tick)
{
    uint32_t value;
    if (n != 3) return "the words are TICK VALUE";
    if (!number(words[2], UINT32_MAX, &value)) return "VALUE is no number of 32 bits";
    show_answer(asternhaken_bit_22(state, sizeof state, tick, value), tick, words[0]);
    return NULL;
}

/* The events with nothing but a tick, and whether a cell is left. */
static const struct {
    const char *word;
    uint32_t (*event)(uint8_t *state, size_t state_length, uint32_t tick);
    uint32_t leaves;
} plain[] = {
    { "reselected", asternhaken_reselected, 1 },
    { "handed_over", asternhaken_handed_over, 1 },
    { "reconfigured", asternhaken_reconfigured, 0 },
    { "left_idle", asternhaken_left_idle, 0 },
    { "tick", asternhaken_tick, 0 }
};

enum { PLAIN = sizeof plain / sizeof *plain };

static const char *event(char **words, size_t n)
{
    uint32_t tick;
    int is_nch = !strcmp(words[0], "nch"), is_pch = !strcmp(words[0], "pch"), is_joined = !strcmp(words[0], "joined"), is_bit = !strcmp(words[0], "bit_22");
    size_t k = 0;
    if (!strcmp(words[0], "setup")) return set_up(words, n);
    while (k < PLAIN && strcmp(words[0], plain[k].word)) k++;
    if (k == PLAIN && !is_nch && !is_pch && !is_joined && !is_bit && strcmp(words[0], "facch")) return "no such event";
    if (!is_set_up) return "no setup was accepted yet";
    if (n < 2 || !number(words[1], UINT32_MAX, &tick)) return "TICK is no number of 32 bits";
    if (is_pch) return paging_channel(words, n, tick);
    if (is_joined) return joined(words, n, tick);
    if (is_bit) return bit_22(words, n, tick);
    if (k == PLAIN) return message(words, n, tick, is_nch);
    if (n != 2) return "nothing stands behind the TICK";
    uint32_t result = plain[k].event(state, sizeof state, tick);
    if (ASTERNHAKEN_REFUSAL(result) == ASTERNHAKEN_ACCEPTED) cells += plain[k].leaves;
    show_answer(result, tick, words[0]);
    return NULL;
}

/* Cuts a line into its words, up to a comment. */
static size_t cut(char *line, char **words)
{
    static const char blanks[] = " \t\r";
    size_t n = 0;
    for (char *at = line + strspn(line, blanks); *at && *at != '#'; at += strspn(at, blanks)) {
        words[n++] = at;
        at += strcspn(at, blanks);
        if (*at) *at++ = 0;
    }
    return n;
}

/* Reads a line without its end. What is wrong with it is answered beside. */
static int read_line(char *line, const char **wrong)
{
    size_t n = 0;
    int c;
    *wrong = NULL;
    while ((c = getchar()) != EOF && c != '\n') {
        if (n == LINE - 1) *wrong = "the line is too long";
        else if (c == 0) *wrong = "the line is no text";
        else line[n++] = (char)c;
    }
    line[n] = 0;
    return c != EOF || n > 0 || *wrong;
}

int main(void)
{
    static char line[LINE], *words[WORDS];
    const char *wrong;
    int status = 0;
    printf("%10s  %-12s  %-*s  %-13s  %-21s  %s  %s\n", "tick", "event", (int)NAME, "name", "call", "told", "channel", "follow");
    for (unsigned long place = 1; read_line(line, &wrong); place++) {
        size_t n = cut(line, words);
        if (!wrong && n) wrong = event(words, n);
        if (!wrong) continue;
        fprintf(stderr, "line %lu: %s\n", place, wrong);
        status = 1;
    }
    if (is_set_up) show_list();
    return status;
}
