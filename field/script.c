/* The script of a simulated cell: calls, what is sent of them and when, and what goes wrong. Each line answers what is wrong with it, or nothing. */
#include "script.h"

#include "calls.h"
#include "show.h"
#include "words.h"

#include <string.h>
#include <time.h>

enum { WORDS = 40, LINE = 1024 };

/* ---- Words ---- */

static const char *no_number = "a time, a number or a word for one is missing or wrong";

/* What stands behind a word among those from a place on: as in "from 1000". */
static const char *behind(char **words, size_t n, size_t from, const char *word)
{
    for (size_t i = from; i + 1 < n; i++)
        if (!strcmp(words[i], word)) return words[i + 1];
    return NULL;
}

static int is_there(char **words, size_t n, size_t from, const char *word)
{
    for (size_t i = from; i < n; i++)
        if (!strcmp(words[i], word)) return 1;
    return 0;
}

/* The number behind a word, or the one that stands for it where the word is not there. */
static int number(char **words, size_t n, size_t from, const char *word, uint64_t otherwise, uint64_t *value)
{
    const char *text = behind(words, n, from, word);
    *value = otherwise;
    return text ? decimal(text, FOREVER, value) : !is_there(words, n, from, word);
}

static const struct script_call *call_named(const struct script *script, const char *name)
{
    for (size_t i = 0; i < script->calls; i++)
        if (!strcmp(script->call[i].name, name)) return &script->call[i];
    return NULL;
}

/* ---- call NAME 4711/VBS channel=0a4123 .. ---- */

static int call_part(struct script_call *into, char *word)
{
    struct asternhaken_call *call = &into->call;
    char *value = strchr(word, '=');
    if (!strcmp(word, "ack")) return call->acknowledged = 1;
    if (!strcmp(word, "emergency")) return into->is_emergency = 1;
    if (!value) return 0;
    *value++ = 0;
    if (!strcmp(word, "priority")) return decimal(value, 7, &call->priority);
    if (!strcmp(word, "cipher")) return decimal(value, ASTERNHAKEN_LAST_GROUP_KEY, &call->cipher_key_number);
    if (!strcmp(word, "rand")) return hexadecimal(value, 36, &into->vstk_rand);
    if (!strcmp(word, "channel")) {
        call->channel_given = 1;
        if (!hexadecimal(value, 24, &call->channel)) return 0;
        call->hops = call->channel >> 12 & 1;
        return 1;
    }
    call->short_list = !strcmp(word, "list");
    if (!call->short_list && strcmp(word, "allocation")) return 0;
    call->allocation_octets = call->short_list ? 0 : (strlen(value) + 1) / 2;
    return hexadecimal(value, 64, &call->frequencies);
}

static const char *line_call(struct script *script, char **words, size_t n)
{
    struct calls calls;
    struct script_call *into = &script->call[script->calls];
    memset(&calls, 0, sizeof calls);
    memset(into, 0, sizeof *into);
    if (n < 3) return "the words are: call NAME 4711/VBS channel=0a4123 ..";
    if (strlen(words[1]) > SCRIPT_NAME) return "the name is too long";
    if (call_named(script, words[1])) return "there is a call of this name already";
    strcpy(into->name, words[1]);
    if (calls_add(&calls, words[2]) || calls.count != 1) return "a call is REFERENCE/VBS or REFERENCE/VGCS";
    into->call.call_reference = calls.keys[0] / 2;
    into->call.vgcs = calls.keys[0] % 2;
    for (size_t i = 3; i < n; i++)
        if (!call_part(into, words[i])) return "a part is channel=HEX, allocation=HEX, list=HEX, priority=0..7, cipher=0..15, rand=HEX, ack or emergency";
    script->calls++;
    return NULL;
}

/* ---- send NAME on nch as halves from 0 to 60000 every 480 gap 240 ---- */

static int on_word(const char *word, enum on *on)
{
    if (!word || !strcmp(word, "nch")) *on = ON_NCH;
    else if (!strcmp(word, "facch")) *on = ON_FACCH;
    else if (!strcmp(word, "sacch")) *on = ON_SACCH;
    else return 0;
    return 1;
}

static int as_word(const char *word, struct sending *into)
{
    if (!word) word = into->call->call.cipher_key_number ? "halves" : "whole";
    if (!strcmp(word, "halves")) into->first = HALF_FIRST, into->second = HALF_SECOND;
    else if (!strcmp(word, "reduced")) into->first = HALF_FIRST, into->second = HALF_REDUCED;
    else if (!strcmp(word, "whole")) into->first = HALF_WHOLE;
    else if (!strcmp(word, "first")) into->first = HALF_FIRST;
    else if (!strcmp(word, "second")) into->first = HALF_SECOND;
    else return 0;
    return into->on == ON_NCH || into->second != HALF_REDUCED;
}

static const char *line_send(struct script *script, char **words, size_t n)
{
    struct sending *into = &script->sending[script->sendings];
    memset(into, 0, sizeof *into);
    if (n < 2 || !(into->call = call_named(script, words[1]))) return "behind send stands the name of a call";
    if (!on_word(behind(words, n, 2, "on"), &into->on)) return "behind on stands nch, facch or sacch";
    if (!as_word(behind(words, n, 2, "as"), into)) return "behind as stands halves, whole, first, second, or on the NCH reduced";
    if (!number(words, n, 2, "from", 0, &into->from) || !number(words, n, 2, "to", into->from + 1, &into->to)) return no_number;
    if (!number(words, n, 2, "every", 1000, &into->every) || !number(words, n, 2, "gap", 240, &into->gap)) return no_number;
    if (into->every == 0) return "every is at least 1 ms";
    into->arfcn = script->arfcn;
    script->sendings++;
    return NULL;
}

/* ---- lose, repeat, late: second of NAME from 3000 to 9000 by 7000 times 2 ---- */

static unsigned halves_word(const char *word)
{
    if (!strcmp(word, "first")) return HALF_FIRST;
    if (!strcmp(word, "second")) return HALF_SECOND | HALF_REDUCED;
    if (!strcmp(word, "whole")) return HALF_WHOLE;
    return strcmp(word, "all") ? 0 : HALF_FIRST | HALF_SECOND | HALF_WHOLE | HALF_REDUCED;
}

static const char *line_effect(struct script *script, char **words, size_t n, enum wrong wrong)
{
    struct effect *into = &script->effect[script->effects];
    memset(into, 0, sizeof *into);
    into->wrong = wrong;
    if (n < 4 || strcmp(words[2], "of") || !(into->halves = halves_word(words[1]))) return "the words are: first, second, whole or all, then of and the name of a call";
    if (!(into->call = call_named(script, words[3]))) return "behind of stands the name of a call";
    if (!number(words, n, 4, "from", 0, &into->from) || !number(words, n, 4, "to", FOREVER, &into->to)) return no_number;
    if (!number(words, n, 4, "by", wrong == LATE ? 1000 : 20, &into->by) || !number(words, n, 4, "times", 1, &into->times)) return no_number;
    script->effects++;
    return NULL;
}

static const char *line_lose(struct script *script, char **words, size_t n) { return line_effect(script, words, n, LOSE); }
static const char *line_repeat(struct script *script, char **words, size_t n) { return line_effect(script, words, n, REPEAT); }
static const char *line_late(struct script *script, char **words, size_t n) { return line_effect(script, words, n, LATE); }

/* ---- What the cell's messages have beside calls ---- */

static const char *line_change(struct script *script, char **words, size_t n, int is_count)
{
    struct change *into = &script->change[script->changes];
    uint64_t value = 0;
    memset(into, 0, sizeof *into);
    if (n < 2 || (strcmp(words[1], "-") && !decimal(words[1], 3, &value))) return "a number of 0 to 3 or - for none";
    if (!number(words, n, 2, "at", 0, &into->at)) return no_number;
    into->is_count = is_count;
    into->arfcn = script->arfcn;
    into->value = strcmp(words[1], "-") ? (int)value : -1;
    script->changes++;
    return NULL;
}

static const char *line_nln(struct script *script, char **words, size_t n) { return line_change(script, words, n, 0); }
static const char *line_count(struct script *script, char **words, size_t n) { return line_change(script, words, n, 1); }

static const char *line_arfcn(struct script *script, char **words, size_t n)
{
    uint64_t arfcn;
    if (n != 2 || !decimal(words[1], 1023, &arfcn)) return "an ARFCN is 0 to 1023";
    script->arfcn = (uint32_t)arfcn;
    return NULL;
}

static const char *line_type(struct script *script, char **words, size_t n)
{
    uint64_t type;
    if (n != 2 || !decimal(words[1], 255, &type)) return "a channel type of GSMTAP is 0 to 255; those of NCH blocks are 0, 1, 2, 4 and 5";
    script->channel_type = (uint32_t)type;
    return NULL;
}

static const char *line_begin(struct script *script, char **words, size_t n)
{
    struct tm time;
    const char *end = NULL;
    memset(&time, 0, sizeof time);
    if (n == 3 && (end = strptime(words[1], "%Y-%m-%d", &time)) && !*end) end = strptime(words[2], "%H:%M:%S", &time);
    if (!end || *end) return "the words are: begin 2026-01-31 06:00:00, of UTC";
    script->begin = timegm(&time);
    return NULL;
}

/* ---- nch 1000 HEX, facch 1000 HEX ---- */

static const char *line_octets(struct script *script, char **words, size_t n, enum on on)
{
    struct octets *into = &script->octets[script->n_octets];
    if (n != 3 || !decimal(words[1], FOREVER, &into->at)) return "the words are a time and the octets of a message";
    int count = octets_of(words[2], into->octet, sizeof into->octet);
    if (count <= 0) return "the octets are 1 to 23, two hexadecimal digits each";
    into->on = on;
    into->arfcn = script->arfcn;
    into->count = (size_t)count;
    script->n_octets++;
    return NULL;
}

static const char *line_nch(struct script *script, char **words, size_t n) { return line_octets(script, words, n, ON_NCH); }
static const char *line_facch(struct script *script, char **words, size_t n) { return line_octets(script, words, n, ON_FACCH); }
static const char *line_sacch(struct script *script, char **words, size_t n) { return line_octets(script, words, n, ON_SACCH); }

/* ---- Lines ---- */

static const struct {
    const char *word;
    const char *(*line)(struct script *script, char **words, size_t n);
} lines[] = {
    { "call", line_call }, { "send", line_send }, { "lose", line_lose }, { "repeat", line_repeat }, { "late", line_late }, { "nln", line_nln }, { "count", line_count },
    { "arfcn", line_arfcn }, { "type", line_type }, { "begin", line_begin }, { "nch", line_nch }, { "facch", line_facch }, { "sacch", line_sacch }
};

static const char *line_of(struct script *script, char **words, size_t n)
{
    size_t most = SCRIPT_PARTS - 1;
    if (script->calls > most || script->sendings > most || script->effects > most || script->changes > most || script->n_octets > most) return "that is one line of its kind more than 255";
    for (size_t i = 0; i < sizeof lines / sizeof *lines; i++)
        if (!strcmp(words[0], lines[i].word)) return lines[i].line(script, words, n);
    return "a line begins with arfcn, begin, call, send, lose, repeat, late, nln, count, type, nch, facch or sacch";
}

int script_read(struct script *script, FILE *file, const char *name)
{
    char line[LINE], *words[WORDS];
    memset(script, 0, sizeof *script);
    script->arfcn = 1;
    script->channel_type = 2;
    script->begin = 1767225600; /* 2026-01-01 */
    for (unsigned long place = 1; fgets(line, sizeof line, file); place++) {
        const char *wrong = NULL;
        if (!strchr(line, '\n') && !feof(file)) wrong = "the line is too long";
        size_t n = cut_words(line, words, WORDS);
        if (!wrong && n) wrong = line_of(script, words, n);
        if (!wrong) continue;
        complain("%s, line %lu: %s", name, place, wrong);
        return 2;
    }
    return 0;
}

int script_value(const struct script *script, int is_count, uint32_t arfcn, uint64_t at)
{
    const struct change *last = NULL;
    for (size_t i = 0; i < script->changes; i++) {
        const struct change *change = &script->change[i];
        if (change->is_count == is_count && change->arfcn == arfcn && change->at <= at && (!last || change->at >= last->at)) last = change;
    }
    return last ? last->value : -1;
}
