/* The library by lines: a command to a line on standard input, one answer line for each on standard output. vectors/README.md has every command and its answer;
 * tests/drive.sh compares the answers with those of vectors/.
 *
 * After each call of the library the driver looks at all memory that it lends. A refused call that changes any of it, a call that changes what it may only read,
 * a refused reading that is not all zeros, a record that reads otherwise than it was written, or a write outside of what was lent ends the run: the last line then begins with FAULT, and
 * the status is 3. A line that is no command is answered with '?' and what is wrong; the run goes on, and its status is then 2.
 *
 * A new command is a function here and a row in the table of commands, or in that of events; a record is a table of parts, and of runs that say how the library has them. */
#include <asternhaken.h>

#include <inttypes.h>
#include <stdio.h>
#include <stdlib.h>
#include <string.h>

static unsigned long line_number;

/* ---- The answer line: words with one blank between them ---- */

static int begun; /* the answer has a word */

static void say(const char *text)
{
    printf(begun ? " %s" : "%s", text);
    begun = 1;
}

static void say_number(uint64_t number)
{
    char text[24];
    sprintf(text, "%" PRIu64, number);
    say(text);
}

static void say_octets(const uint8_t *octets, size_t n)
{
    say(n ? "" : "-");
    for (size_t i = 0; i < n; i++) printf("%02x", (unsigned)octets[i]);
}

/* ---- Lending: what a call is lent stands between two zones, and every zone and all that is lent is looked at after each call ---- */

enum { ZONE = 256 }; /* octets; a multiple of every alignment */

struct lent {
    struct lent *next;
    const char *name;
    size_t size;
    unsigned char *block;  /* a zone, the memory, a zone */
    unsigned char *before; /* the memory as it was before the call */
};

static struct lent *lents; /* the newest first */
static unsigned long calls;

static void *room(void *old, size_t size)
{
    void *memory = size < SIZE_MAX / 4 ? realloc(old, size ? size : 1) : NULL;
    if (memory) return memory;
    fprintf(stderr, "drive: no memory\n");
    exit(2);
}

/* The paint is another for each call, so that no value which is written astray looks like it for long. */
static unsigned char paint_at(size_t place)
{
    return (unsigned char)(90 + 7 * place + 13 * calls);
}

static void paint(void *memory, size_t size)
{
    for (size_t i = 0; i < size; i++) ((unsigned char *)memory)[i] = paint_at(i);
}

/* Lends so many octets, which hold anything. */
static void *lend(const char *name, size_t size)
{
    struct lent *new_one = (struct lent *)room(NULL, sizeof *new_one);
    new_one->next = lents;
    new_one->name = name;
    new_one->size = size;
    new_one->before = (unsigned char *)room(NULL, size);
    new_one->block = (unsigned char *)room(NULL, size + 2 * ZONE);
    lents = new_one;
    paint(new_one->block + ZONE, size);
    return new_one->block + ZONE;
}

static uint64_t *lend_numbers(size_t n)
{
    return (uint64_t *)lend("numbers", n * sizeof(uint64_t));
}

/* Takes back all that was lent since. */
static void take_back(struct lent *since)
{
    while (lents != since) {
        struct lent *old = lents;
        lents = old->next;
        free(old->block);
        free(old->before);
        free(old);
    }
}

static void fault(const char *what, const char *name, size_t place)
{
    printf("%sFAULT at line %lu: %s: %s, octet %lu\n", begun ? "\n" : "", line_number, what, name, (unsigned long)place);
    fflush(stdout);
    exit(3);
}

/* How many of something there are; the places for them are what the header says. */
static size_t count_of(uint64_t number, size_t places, const char *name)
{
    if (number > places) fault("there are more than places for them", name, 0);
    return (size_t)number;
}

/* What a refused call does to the memory that it writes where it is accepted. */
enum refused { LEAVES, CLEARS };

static void before_call(void)
{
    calls++;
    for (struct lent *l = lents; l; l = l->next) {
        paint(l->block, ZONE);
        paint(l->block + ZONE + l->size, ZONE);
        memcpy(l->before, l->block + ZONE, l->size);
    }
}

static void look_at_zones(const struct lent *l)
{
    const unsigned char *behind = l->block + ZONE + l->size;
    for (size_t i = 0; i < ZONE; i++) {
        if (behind[i] != paint_at(i)) fault("a write behind what was lent", l->name, l->size + i);
        if (l->block[ZONE - 1 - i] != paint_at(ZONE - 1 - i)) fault("a write before what was lent, counted backwards", l->name, i + 1);
    }
}

static void look_at_memory(const struct lent *l, const unsigned char *wanted, const char *what)
{
    for (size_t i = 0; i < l->size; i++)
        if (l->block[ZONE + i] != (wanted ? wanted[i] : 0)) fault(what, l->name, i);
}

static uint32_t after_call(uint32_t result, const void *written, enum refused refused)
{
    for (const struct lent *l = lents; l; l = l->next) {
        look_at_zones(l);
        if (written != l->block + ZONE) look_at_memory(l, l->before, "a call changed what it may not write");
        else if (ASTERNHAKEN_REFUSAL(result) == ASTERNHAKEN_ACCEPTED) continue;
        else if (refused == LEAVES) look_at_memory(l, l->before, "a refused call changed lent memory");
        else look_at_memory(l, NULL, "a refused reading is not all zeros");
    }
    return result;
}

/* The result of a call that may write this lent memory and no other. */
#define WATCHED(call, written, refused) (before_call(), after_call((call), (written), (refused)))

/* ---- The command line: its words are taken one by one ---- */

static char *line;
static char **words;
static size_t n_words, taken;
static const char *wrong; /* what is wrong with the command, the first thing */

static void is_wrong(const char *what)
{
    if (!wrong) wrong = what;
}

static const char *take(void)
{
    if (taken < n_words) return words[taken++];
    is_wrong("a word is missing");
    return "0";
}

/* A decimal number, at most so large. */
static uint64_t take_number(uint64_t most)
{
    const char *word = take();
    uint64_t number = 0;
    size_t digits = strspn(word, "0123456789");
    if (!digits || word[digits] || (digits > 1 && *word == '0')) is_wrong("a word is no number");
    for (size_t i = 0; i < digits; i++) {
        uint64_t digit = (uint64_t)(word[i] - '0');
        if (number > (most - digit) / 10 || digit > most) {
            is_wrong("a number is too large for what the library takes");
            return 0;
        }
        number = 10 * number + digit;
    }
    return number;
}

static uint32_t take_u32(void)
{
    return (uint32_t)take_number(UINT32_MAX);
}

static uint8_t take_u8(void)
{
    return (uint8_t)take_number(UINT8_MAX);
}

static void take_slash(void)
{
    if (strcmp(take(), "/")) is_wrong("a slash is missing");
}

/* The numbers up to a slash or the end, lent as an array of this name. */
static uint32_t *take_list(const char *name, size_t *n)
{
    size_t end = taken;
    while (end < n_words && strcmp(words[end], "/")) end++;
    *n = end - taken;
    uint32_t *list = (uint32_t *)lend(name, *n * sizeof *list);
    for (size_t i = 0; i < *n; i++) list[i] = take_u32();
    return list;
}

/* Octets as lower-case hex digits, or - for none, lent. */
static uint8_t *take_octets(size_t *n)
{
    static const char digits[] = "0123456789abcdef";
    const char *word = take();
    size_t length = strcmp(word, "-") ? strlen(word) : 0;
    uint8_t *octets = (uint8_t *)lend("octets", length / 2);
    if (length % 2 || strspn(word, digits) < length || !*word) is_wrong("a word is no row of octets");
    *n = length / 2;
    for (size_t i = 0; i < *n && !wrong; i++) octets[i] = (uint8_t)(16 * (strchr(digits, word[2 * i]) - digits) + (strchr(digits, word[2 * i + 1]) - digits));
    return octets;
}

/* The command is as it should be, and no word is left. */
static int understood(void)
{
    if (taken < n_words) is_wrong("a word is too many");
    return !wrong;
}

/* ---- Records: the protocol's places beside the library's numbers ---- */

enum kind {
    SAME,        /* numbers that both have */
    DESCRIPTION, /* 13 places, five numbers: channel, hopping, short list, length, and the octets or the short list as one number */
    IDENTITY,    /* 10 places, three numbers: length, first octet, and the other octets as one number */
    END
};

struct run {
    enum kind kind;
    size_t n;
};

#define CALL { SAME, 6 }, { DESCRIPTION, 1 }

static const struct run nch_record[] = { { SAME, 3 }, CALL, CALL, CALL, CALL, { SAME, 58 }, { END, 0 } };
static const struct run facch_record[] = { { SAME, 1 }, CALL, { IDENTITY, 1 }, { SAME, 14 }, { END, 0 } };
static const struct run call_record[] = { { SAME, 2 }, CALL, { SAME, 19 }, { END, 0 } };
static const struct run paged_record[] = { { IDENTITY, 1 }, { SAME, 5 }, { END, 0 } };

enum { OCTETS = 8, IDENTITY_OCTETS = 9 }; /* places for a mobile allocation, and for a mobile identity */

/* The first octet is all that the others leave: more than an octet where the number is too large for the length. */
static void say_description(const uint64_t *d)
{
    uint64_t octets[OCTETS] = { 0 }, number = d[2] ? 0 : d[4];
    for (size_t i = count_of(d[3], OCTETS, "octets"); i > 1; number >>= 8) octets[--i] = number & 255;
    octets[0] = number;
    for (size_t i = 0; i < 4; i++) say_number(d[i]);
    for (size_t i = 0; i < OCTETS; i++) say_number(octets[i]);
    say_number(d[2] ? d[4] : 0);
}

/* Octets as one number. One that is not zero counts although it stands beyond the length, so that the number is then too large for the length. */
static uint64_t take_allocation(uint64_t length)
{
    uint64_t so_far = 0, number = 0;
    for (size_t i = 0; i < OCTETS; i++) {
        uint64_t octet = take_number(UINT8_MAX);
        so_far = so_far << 8 | octet;
        if (i < length || octet) number = so_far;
    }
    return number;
}

static void take_description(uint64_t *d)
{
    for (size_t i = 0; i < 4; i++) d[i] = take_number(UINT64_MAX);
    uint64_t number = take_allocation(d[3]), list = take_number(UINT64_MAX);
    if ((d[2] == 1 && number) || (d[2] == 0 && list)) is_wrong("octets beside the flag of a short list, or the other way round, are nothing that the library can be told");
    d[4] = number | list;
}

/* The second octet is all that those behind it leave, as the first of an allocation. */
static void say_identity(const uint64_t *d)
{
    uint64_t octets[IDENTITY_OCTETS] = { d[1] }, number = d[2];
    for (size_t i = count_of(d[0], IDENTITY_OCTETS, "identity"); i > 2; number >>= 8) octets[--i] = number & 255;
    octets[1] = number;
    say_number(d[0]);
    for (size_t i = 0; i < IDENTITY_OCTETS; i++) say_number(octets[i]);
}

/* One that is not zero beyond the length makes the number the greatest, which is too large for every length that leaves a place unused. */
static void take_identity(uint64_t *d)
{
    d[0] = take_number(UINT64_MAX);
    d[1] = take_number(UINT64_MAX);
    d[2] = 0;
    for (size_t i = 1; i < IDENTITY_OCTETS; i++) {
        uint64_t octet = take_number(UINT8_MAX);
        if (i < d[0]) d[2] = d[2] << 8 | octet;
        else if (octet) d[2] = UINT64_MAX;
    }
}

static void say_record(const uint64_t *numbers, const struct run *run)
{
    for (; run->kind != END; run++)
        for (size_t i = 0; i < run->n; i++) {
            if (run->kind == SAME) say_number(*numbers++);
            if (run->kind == DESCRIPTION) say_description(numbers), numbers += 5;
            if (run->kind == IDENTITY) say_identity(numbers), numbers += 3;
        }
}

static void take_record(uint64_t *numbers, const struct run *run)
{
    for (; run->kind != END; run++)
        for (size_t i = 0; i < run->n; i++) {
            if (run->kind == SAME) *numbers++ = take_number(UINT64_MAX);
            if (run->kind == DESCRIPTION) take_description(numbers), numbers += 5;
            if (run->kind == IDENTITY) take_identity(numbers), numbers += 3;
        }
}

/* ---- Readers and writers of messages ---- */

typedef uint32_t reader(const uint8_t *octets, size_t n, uint64_t *numbers, size_t n_numbers);
typedef uint32_t writer(const uint64_t *numbers, size_t n_numbers, uint8_t *octets, size_t n);

/* A refusal with its bit number. */
static uint32_t say_result(uint32_t result)
{
    say_number(ASTERNHAKEN_REFUSAL(result));
    say_number(ASTERNHAKEN_BIT(result));
    return ASTERNHAKEN_REFUSAL(result);
}

/* Before the numbers of the record stands how many bits were used. */
enum { USED = 0, RECORD = 1 };
typedef char both_have_it_there[ASTERNHAKEN_NCH_USED == USED && ASTERNHAKEN_FACCH_USED == USED ? 1 : -1];

static void read_record(reader *read, size_t n_numbers, const struct run *record)
{
    size_t n;
    take(); /* VERSION */
    uint8_t *octets = take_octets(&n);
    uint64_t *numbers = lend_numbers(n_numbers);
    if (!understood()) return;
    say_result(WATCHED(read(octets, n, numbers, n_numbers), numbers, CLEARS));
    say_number(numbers[USED]);
    say_record(numbers + RECORD, record);
}

static void nch(void) { read_record(asternhaken_nch_read, ASTERNHAKEN_NCH_NUMBERS, nch_record); }
static void facch(void) { read_record(asternhaken_facch_read, ASTERNHAKEN_FACCH_NUMBERS, facch_record); }

/* A writer says nothing of the bits used, nor looks at their place, which is left as it was painted: they are those that the reader uses of what was written, and it must read the
 * same record there. */
static void write_record(writer *write, reader *read, size_t n_numbers, const struct run *record)
{
    size_t size = (size_t)take_u32();
    uint8_t *octets = (uint8_t *)lend("octets", size);
    uint64_t *numbers = lend_numbers(n_numbers), *again = lend_numbers(n_numbers);
    take_record(numbers + RECORD, record);
    if (!understood()) return;
    uint32_t result = WATCHED(write(numbers, n_numbers, octets, size), octets, LEAVES);
    say_number(result);
    if (result == ASTERNHAKEN_ACCEPTED) {
        WATCHED(read(octets, size, again, n_numbers), again, CLEARS);
        for (size_t i = RECORD; i < n_numbers; i++)
            if (again[i] != numbers[i]) fault("what was written reads as another record", "numbers", i * sizeof *numbers);
    }
    say_number(result == ASTERNHAKEN_ACCEPTED ? again[USED] : 0);
    say_octets(octets, result == ASTERNHAKEN_ACCEPTED ? size : 0);
}

static void wnch(void) { write_record(asternhaken_nch_write, asternhaken_nch_read, ASTERNHAKEN_NCH_NUMBERS, nch_record); }
static void wfacch(void) { write_record(asternhaken_facch_write, asternhaken_facch_read, ASTERNHAKEN_FACCH_NUMBERS, facch_record); }

/* ---- Elements ---- */

typedef uint32_t half_reader(uint8_t octet, uint64_t *numbers, size_t n_numbers);
typedef uint32_t half_writer(const uint64_t *numbers, size_t n_numbers, uint8_t *octet);

/* Reads an element of one octet or half of it, and says the refusal. */
static uint64_t *read_half(half_reader *read, size_t n_numbers, uint32_t *result)
{
    uint8_t octet = take_u8();
    uint64_t *numbers = lend_numbers(n_numbers);
    if (!understood()) return NULL;
    *result = WATCHED(read(octet, numbers, n_numbers), numbers, CLEARS);
    say_number(*result);
    return numbers;
}

/* A half octet that is refused has nothing behind the refusal. */
static void say_half(half_reader *read, size_t n_numbers)
{
    uint32_t result;
    uint64_t *numbers = read_half(read, n_numbers, &result);
    for (size_t i = 0; numbers && result == ASTERNHAKEN_ACCEPTED && i < n_numbers; i++) say_number(numbers[i]);
}

static void originator(void) { say_half(asternhaken_originator_read, ASTERNHAKEN_ORIGINATOR_NUMBERS); }
static void state_attributes(void) { say_half(asternhaken_state_attributes_read, ASTERNHAKEN_STATE_ATTRIBUTES_NUMBERS); }
static void talker_priority(void) { say_half(asternhaken_talker_read, ASTERNHAKEN_TALKER_NUMBERS); }
static void sms_indications(void) { say_half(asternhaken_sms_read, ASTERNHAKEN_SMS_NUMBERS); }

static void call_state(void)
{
    enum { RESERVED = 12 };
    uint32_t result;
    uint64_t *numbers = read_half(asternhaken_call_state_read, ASTERNHAKEN_CALL_STATE_NUMBERS, &result);
    if (!numbers || result != ASTERNHAKEN_ACCEPTED) return;
    say_number(numbers[0] == RESERVED);
    say_number(numbers[0] == RESERVED ? 0 : numbers[0]);
}

static void message_type(void)
{
    uint32_t result;
    uint64_t *numbers = read_half(asternhaken_message_type_read, ASTERNHAKEN_MESSAGE_TYPE_NUMBERS, &result);
    if (!numbers) return;
    say_number(numbers[1]);
    say_number(numbers[0]);
}

static void write_half(half_writer *write, const uint64_t *numbers, size_t n_numbers)
{
    uint8_t *octet = (uint8_t *)lend("octet", 1);
    if (!understood()) return;
    uint32_t result = WATCHED(write(numbers, n_numbers, octet), octet, LEAVES);
    say_number(result);
    say_number(result == ASTERNHAKEN_ACCEPTED ? *octet : 0u);
}

static uint64_t *take_numbers(size_t n)
{
    uint64_t *numbers = lend_numbers(n);
    for (size_t i = 0; i < n; i++) numbers[i] = take_number(UINT64_MAX);
    return numbers;
}

static void wcall_state(void) { write_half(asternhaken_call_state_write, take_numbers(1), ASTERNHAKEN_CALL_STATE_NUMBERS); }
static void woriginator(void) { write_half(asternhaken_originator_write, take_numbers(1), ASTERNHAKEN_ORIGINATOR_NUMBERS); }
static void wtalker_priority(void) { write_half(asternhaken_talker_write, take_numbers(1), ASTERNHAKEN_TALKER_NUMBERS); }
static void wstate_attributes(void) { write_half(asternhaken_state_attributes_write, take_numbers(4), ASTERNHAKEN_STATE_ATTRIBUTES_NUMBERS); }
static void wsms_indications(void) { write_half(asternhaken_sms_write, take_numbers(2), ASTERNHAKEN_SMS_NUMBERS); }

static void wmessage_type(void)
{
    uint64_t *numbers = take_numbers(2), type = numbers[0];
    numbers[0] = numbers[1];
    numbers[1] = type;
    write_half(asternhaken_message_type_write, numbers, ASTERNHAKEN_MESSAGE_TYPE_NUMBERS);
}

/* Reads an element of some octets, and says the refusal. */
static uint64_t *read_element(reader *read, size_t n_numbers, uint32_t *result)
{
    size_t n;
    uint8_t *octets = take_octets(&n);
    uint64_t *numbers = lend_numbers(n_numbers);
    if (!understood()) return NULL;
    *result = WATCHED(read(octets, n, numbers, n_numbers), numbers, CLEARS);
    say_number(*result);
    return numbers;
}

/* Numbers that are octets; one that is none has more than two digits. */
static void say_as_octets(const uint64_t *numbers, size_t n)
{
    say(n ? "" : "-");
    for (size_t i = 0; i < n; i++) printf("%02" PRIx64, numbers[i]);
}

static void call_reference(void)
{
    uint32_t result;
    uint64_t *numbers = read_element(asternhaken_call_reference_read, ASTERNHAKEN_CALL_REFERENCE_NUMBERS, &result);
    for (size_t i = 0; numbers && i < ASTERNHAKEN_CALL_REFERENCE_NUMBERS; i++) say_number(numbers[i]);
}

/* Places of the cause's numbers: what it means, then how many septets and the septets, then the same of diagnostics. */
enum { CAUSE_OCTETS = 255, SEPTETS = 2, DIAGNOSTICS = SEPTETS + 1 + CAUSE_OCTETS };

static void cause(void)
{
    uint32_t result;
    uint64_t *numbers = read_element(asternhaken_cause_read, ASTERNHAKEN_CAUSE_NUMBERS, &result);
    if (!numbers) return;
    say_number(numbers[ASTERNHAKEN_CAUSE_MEANING] == 1);
    say_number(numbers[ASTERNHAKEN_CAUSE_VALUE]);
    for (size_t i = 0; i < count_of(numbers[SEPTETS], CAUSE_OCTETS, "septets"); i++) say_number(numbers[SEPTETS + 1 + i]);
    say_as_octets(numbers + DIAGNOSTICS + 1, count_of(numbers[DIAGNOSTICS], CAUSE_OCTETS, "diagnostics"));
}

static void dispatcher(void)
{
    uint32_t result;
    uint64_t *numbers = read_element(asternhaken_digits_read, ASTERNHAKEN_DIGITS_NUMBERS, &result);
    if (numbers) say_as_octets(numbers, result == ASTERNHAKEN_ACCEPTED ? ASTERNHAKEN_DIGITS_NUMBERS : 0);
}

static void write_element(writer *write, const uint64_t *numbers, size_t n_numbers, size_t size)
{
    uint8_t *octets = (uint8_t *)lend("octets", size);
    if (!understood()) return;
    uint32_t result = WATCHED(write(numbers, n_numbers, octets, size), octets, LEAVES);
    say_number(result);
    say_octets(octets, result == ASTERNHAKEN_ACCEPTED ? size : 0);
}

static void wcall_reference(void)
{
    uint64_t *numbers = take_numbers(ASTERNHAKEN_CALL_REFERENCE_NUMBERS);
    write_element(asternhaken_call_reference_write, numbers, ASTERNHAKEN_CALL_REFERENCE_NUMBERS, take_u32());
}

/* How many there are, then the octets, each a number; where there are more than places, the number alone says it. */
static void take_counted(uint64_t *numbers)
{
    size_t n;
    uint8_t *octets = take_octets(&n);
    numbers[0] = n;
    for (size_t i = 0; i < CAUSE_OCTETS; i++) numbers[1 + i] = i < n ? octets[i] : 0;
}

static void wcause(void)
{
    size_t size = take_u32();
    uint64_t *numbers = lend_numbers(ASTERNHAKEN_CAUSE_NUMBERS);
    take_counted(numbers + SEPTETS);
    take_counted(numbers + DIAGNOSTICS);
    write_element(asternhaken_cause_write, numbers, ASTERNHAKEN_CAUSE_NUMBERS, size);
}

static void wdispatcher(void)
{
    size_t size = take_u32(), n;
    uint8_t *octets = take_octets(&n);
    uint64_t *numbers = lend_numbers(n);
    for (size_t i = 0; i < n; i++) numbers[i] = octets[i];
    write_element(asternhaken_digits_write, numbers, n, size);
}

/* ---- The receiver, and the yard set beside it, whose state begins with a receiver's ---- */

enum { LENGTH = ASTERNHAKEN_STATE_LENGTH };

typedef uint32_t message_event(uint8_t *state, size_t state_length, uint32_t tick, const uint8_t *octets, size_t n);
typedef uint32_t pch_event(uint8_t *state, size_t state_length, uint32_t tick, const uint64_t *entry, size_t n);
typedef uint32_t number_event(uint8_t *state, size_t state_length, uint32_t tick, uint32_t number);
typedef uint32_t plain_event(uint8_t *state, size_t state_length, uint32_t tick);

/* What a command is for: its state, and the functions that take its setup and its events. */
struct set {
    uint8_t *state;
    size_t length;
    uint32_t (*setup)(uint8_t *state, size_t state_length, const uint32_t *keys, size_t n_keys, const uint32_t *sets, size_t n_sets, uint32_t tick, uint32_t t3206, uint32_t t3208, uint32_t t3210);
    message_event *nch, *facch;
    pch_event *pch;
    number_event *joined, *bit_22;
    plain_event *reselected, *handed_over, *reconfigured, *left_idle, *tick;
};

/* What a yard set does not take has a const state. */
static uint32_t yard_facch(uint8_t *state, size_t state_length, uint32_t tick, const uint8_t *octets, size_t n) { return asternhaken_yard_facch(state, state_length, tick, octets, n); }
static uint32_t yard_pch(uint8_t *state, size_t state_length, uint32_t tick, const uint64_t *entry, size_t n) { return asternhaken_yard_pch(state, state_length, tick, entry, n); }
static uint32_t yard_handed_over(uint8_t *state, size_t state_length, uint32_t tick) { return asternhaken_yard_handed_over(state, state_length, tick); }
static uint32_t yard_reconfigured(uint8_t *state, size_t state_length, uint32_t tick) { return asternhaken_yard_reconfigured(state, state_length, tick); }
static uint32_t yard_left_idle(uint8_t *state, size_t state_length, uint32_t tick) { return asternhaken_yard_left_idle(state, state_length, tick); }

static struct set receiver = {
    NULL, LENGTH, asternhaken_setup, asternhaken_nch, asternhaken_facch, asternhaken_pch, asternhaken_joined, asternhaken_bit_22,
    asternhaken_reselected, asternhaken_handed_over, asternhaken_reconfigured, asternhaken_left_idle, asternhaken_tick
};
static struct set yard_set = {
    NULL, ASTERNHAKEN_YARD_LENGTH, asternhaken_yard_setup, asternhaken_yard_nch, yard_facch, yard_pch, asternhaken_yard_joined, asternhaken_yard_bit_22,
    asternhaken_yard_reselected, yard_handed_over, yard_reconfigured, yard_left_idle, asternhaken_yard_tick
};
static const struct set *set = &receiver; /* of the command */
static uint64_t *value;

static void set_up(void)
{
    size_t n_keys, n_sets;
    uint32_t tick = take_u32(), t3206 = take_u32(), t3208 = take_u32(), t3210 = take_u32();
    take_slash();
    uint32_t *keys = take_list("keys", &n_keys);
    take_slash();
    uint32_t *sets = take_list("sets", &n_sets);
    if (!understood()) return;
    say_number(WATCHED(set->setup(set->state, set->length, keys, n_keys, sets, n_sets, tick, t3206, t3208, t3210), set->state, LEAVES));
}

static void setup(void)
{
    take(); /* VERSION */
    set_up();
}

/* Where a key stands. How many keys it was compared with is not in the line, but is at most 1 + log2 of their number, and 0 for none. */
static void find(void)
{
    size_t n, most = 0;
    uint32_t key = take_u32();
    uint64_t *found = lend_numbers(2);
    take_slash();
    uint32_t *keys = take_list("keys", &n);
    if (!understood()) return;
    while (most < ASTERNHAKEN_LOOKS && n >> most) most++;
    if (WATCHED(asternhaken_find(keys, n, key, found, found + 1), found, CLEARS) != ASTERNHAKEN_ACCEPTED) fault("asternhaken_find refuses", "keys", 0);
    count_of(found[1], most, "looks");
    if (found[0] == ASTERNHAKEN_KEYS) say("-");
    else say_number(found[0]);
}

/* A part that the library does not have by itself. */
enum { CIPHERED = ASTERNHAKEN_PARTS };

static uint64_t part(uint32_t entry, uint32_t which)
{
    if (which == CIPHERED) return part(entry, ASTERNHAKEN_PART_CIPHER_KEY_NUMBER) != 0;
    paint(value, sizeof *value);
    if (WATCHED(asternhaken_read(set->state, LENGTH, entry, which, value), value, CLEARS) != ASTERNHAKEN_ACCEPTED) fault("asternhaken_read refuses", "state", 0);
    return *value;
}

/* The parts of a complete record, in the order of call_record. */
static const uint32_t record_parts[] = {
    ASTERNHAKEN_PART_KEY, ASTERNHAKEN_PART_FULL,
    ASTERNHAKEN_PART_CALL_REFERENCE, ASTERNHAKEN_PART_VGCS, ASTERNHAKEN_PART_ACKNOWLEDGED, ASTERNHAKEN_PART_PRIORITY, ASTERNHAKEN_PART_CIPHER_KEY_NUMBER, ASTERNHAKEN_PART_CHANNEL_GIVEN,
    ASTERNHAKEN_PART_CHANNEL, ASTERNHAKEN_PART_HOPS, ASTERNHAKEN_PART_SHORT_LIST, ASTERNHAKEN_PART_ALLOCATION_OCTETS, ASTERNHAKEN_PART_FREQUENCIES,
    CIPHERED,
    ASTERNHAKEN_PART_SEGMENT_GIVEN, ASTERNHAKEN_PART_SEGMENT_ID,
    ASTERNHAKEN_PART_RAND_GIVEN, ASTERNHAKEN_PART_VSTK_RAND,
    ASTERNHAKEN_PART_EMERGENCY,
    ASTERNHAKEN_PART_COUNT_GIVEN, ASTERNHAKEN_PART_CELL_GLOBAL_COUNT, ASTERNHAKEN_PART_B22_COUNT,
    ASTERNHAKEN_PART_UPLINK_GIVEN, ASTERNHAKEN_PART_UPLINK_ACCESS,
    ASTERNHAKEN_PART_AMR_GIVEN, ASTERNHAKEN_PART_FR_AMR_GIVEN, ASTERNHAKEN_PART_FR_AMR_CONFIG, ASTERNHAKEN_PART_HR_AMR_GIVEN, ASTERNHAKEN_PART_HR_AMR_CONFIG,
    ASTERNHAKEN_PART_SMS_GIVEN, ASTERNHAKEN_PART_SMS_CONFIDENTIALITY, ASTERNHAKEN_PART_SMS_PRIVACY
};

enum { RECORD_PARTS = sizeof record_parts / sizeof *record_parts };

static void say_entry(uint32_t entry)
{
    uint64_t told = part(entry, ASTERNHAKEN_PART_TOLD), follow = part(entry, ASTERNHAKEN_PART_FOLLOW), kept_count = part(entry, ASTERNHAKEN_PART_KEPT_COUNT), numbers[RECORD_PARTS];
    int is_ciphered = told == ASTERNHAKEN_TOLD_ONE_PIECE || told == ASTERNHAKEN_TOLD_JOINED;
    say("|");
    say_number(part(entry, ASTERNHAKEN_PART_KEY));
    say_number(told);
    if (!is_ciphered && (follow || kept_count)) fault("an entry that is not told 2 or 3 is said to be followed, or not", "entry", entry);
    if (told < ASTERNHAKEN_TOLD_CLEAR || told > ASTERNHAKEN_TOLD_JOINED) return;
    for (size_t i = 0; i < RECORD_PARTS; i++) numbers[i] = part(entry, record_parts[i]);
    say_record(numbers, call_record);
    if (is_ciphered) say_number(follow), say_number(kept_count);
}

/* Who is paged, in one call and part by part, at any entry; where nobody is, all of it is zero. */
static void paged(void)
{
    uint64_t *numbers = lend_numbers(ASTERNHAKEN_PAGED_NUMBERS);
    if (!understood()) return;
    if (WATCHED(asternhaken_paged_numbers(set->state, LENGTH, numbers, ASTERNHAKEN_PAGED_NUMBERS), numbers, CLEARS) != ASTERNHAKEN_ACCEPTED) fault("asternhaken_paged_numbers refuses", "state", 0);
    for (uint32_t i = 0; i < ASTERNHAKEN_PAGED_NUMBERS; i++) {
        if (part(i, ASTERNHAKEN_PART_PAGED + i) != numbers[i]) fault("a part is unlike its number", "paged", i);
        if (!numbers[0] && numbers[i]) fault("nobody is paged, and a number is not zero", "paged", i);
    }
    say_number(numbers[0]);
    if (numbers[0]) say_record(numbers + 1, paged_record);
}

static void say_answer(uint32_t result)
{
    int accepted = say_result(result) == ASTERNHAKEN_ACCEPTED;
    size_t count = accepted ? count_of(part(0, ASTERNHAKEN_PART_ENTRY_COUNT), ASTERNHAKEN_ENTRIES, "entries") : 0;
    say_number(accepted ? part(0, ASTERNHAKEN_PART_DROPPED) : 0);
    say_number(accepted ? part(0, ASTERNHAKEN_PART_EXPIRED) : 0);
    for (uint32_t entry = 0; entry < count; entry++) say_entry(entry);
}

/* An event with a message. */
static void message(message_event *event)
{
    size_t n;
    uint32_t tick = take_u32();
    uint8_t *octets = take_octets(&n);
    if (understood()) say_answer(WATCHED(event(set->state, set->length, tick, octets, n), set->state, LEAVES));
}

/* An event that is a tick alone. */
static void plain(plain_event *event)
{
    uint32_t tick = take_u32();
    if (understood()) say_answer(WATCHED(event(set->state, set->length, tick), set->state, LEAVES));
}

static void ev_nch(void) { message(set->nch); }
static void ev_facch(void) { message(set->facch); }
/* The description is taken as its short list flag says: what the library is not told, it would not look at. */
static void ev_pch(void)
{
    uint32_t tick = take_u32();
    uint64_t *entry = lend_numbers(ASTERNHAKEN_PCH_NUMBERS);
    for (size_t i = 0; i <= ASTERNHAKEN_PCH_ALLOCATION_OCTETS; i++) entry[i] = take_number(UINT64_MAX);
    uint64_t octets = take_allocation(entry[ASTERNHAKEN_PCH_ALLOCATION_OCTETS]), list = take_number(UINT64_MAX);
    entry[ASTERNHAKEN_PCH_FREQUENCIES] = entry[ASTERNHAKEN_PCH_SHORT_LIST] ? list : octets;
    for (size_t i = ASTERNHAKEN_PCH_RAND_GIVEN; i < ASTERNHAKEN_PCH_NUMBERS; i++) entry[i] = take_number(UINT64_MAX);
    if (understood()) say_answer(WATCHED(set->pch(set->state, set->length, tick, entry, ASTERNHAKEN_PCH_NUMBERS), set->state, LEAVES));
}

static void ev_idle(void) { plain(set->left_idle); }
static void ev_reselected(void) { plain(set->reselected); }
static void ev_handed_over(void) { plain(set->handed_over); }
static void ev_reconfigured(void) { plain(set->reconfigured); }
static void ev_tick(void) { plain(set->tick); }

/* An event with a key or a bit. */
static void with_number(number_event *event)
{
    uint32_t tick = take_u32(), number = take_u32();
    if (understood()) say_answer(WATCHED(event(set->state, set->length, tick, number), set->state, LEAVES));
}

static void ev_joined(void) { with_number(set->joined); }
static void ev_bit(void) { with_number(set->bit_22); }

/* ---- The uplink, on a state of its own ---- */

static uint8_t *uplink;

static void usetup(void)
{
    uint32_t tick = take_u32(), t3128 = take_u32();
    if (understood()) say_number(WATCHED(asternhaken_uplink_setup(uplink, ASTERNHAKEN_UPLINK_LENGTH, tick, t3128), uplink, LEAVES));
}

/* What then became of a request, one that waited or a new one; a rejection stands before it. */
static const char *uplink_said(uint32_t ended, uint32_t told)
{
    if (ended == ASTERNHAKEN_UPLINK_GRANTED || told == ASTERNHAKEN_UPLINK_GRANTED) return "granted";
    if (told == ASTERNHAKEN_UPLINK_WAITING) return "waiting";
    return told == ASTERNHAKEN_UPLINK_ALREADY_WAITING ? "already" : "-";
}

static void uplink_event(uint32_t (*event)(uint8_t *uplink, size_t uplink_length, uint32_t tick))
{
    uint32_t tick = take_u32();
    if (!understood()) return;
    uint32_t result = WATCHED(event(uplink, ASTERNHAKEN_UPLINK_LENGTH, tick), uplink, LEAVES);
    uint32_t refusal = ASTERNHAKEN_REFUSAL(result), ended = ASTERNHAKEN_UPLINK_ENDED(result), told = ASTERNHAKEN_UPLINK_TOLD(result);
    int means_something = !(refusal && result != refusal) && result >> 24 == 0 && told != ASTERNHAKEN_UPLINK_REJECTED && told <= ASTERNHAKEN_UPLINK_ALREADY_WAITING &&
        (ended == ASTERNHAKEN_UPLINK_NOTHING || ended == ASTERNHAKEN_UPLINK_REJECTED || (ended == ASTERNHAKEN_UPLINK_GRANTED && !told));
    if (!means_something) fault("a result that means nothing", "uplink", result);
    say_number(refusal);
    say_number(ended == ASTERNHAKEN_UPLINK_REJECTED);
    say(uplink_said(ended, told));
}

static void uev_free(void) { uplink_event(asternhaken_uplink_free); }
static void uev_busy(void) { uplink_event(asternhaken_uplink_busy); }
static void uev_request(void) { uplink_event(asternhaken_uplink_request); }
static void uev_tick(void) { uplink_event(asternhaken_uplink_tick); }

/* ---- The commands ---- */

struct command {
    const char *word;
    void (*run)(void);
};

/* Runs the command of the next word. */
static void run(const struct command *command)
{
    const char *word = take();
    while (command->word && strcmp(word, command->word)) command++;
    if (command->word) command->run();
    else is_wrong("no such command");
}

static const struct command events[] = {
    { "nch", ev_nch },
    { "facch", ev_facch },
    { "pch", ev_pch },
    { "joined", ev_joined },
    { "reselected", ev_reselected },
    { "handed_over", ev_handed_over },
    { "reconfigured", ev_reconfigured },
    { "idle", ev_idle },
    { "bit", ev_bit },
    { "tick", ev_tick },
    { NULL, NULL }
};

static void ev(void) { run(events); }

static const struct command uplink_events[] = {
    { "free", uev_free },
    { "busy", uev_busy },
    { "request", uev_request },
    { "tick", uev_tick },
    { NULL, NULL }
};

static void uev(void) { run(uplink_events); }

/* ---- The yard set ---- */

static void ysetup(void)
{
    set = &yard_set;
    set_up();
}

static void yev(void)
{
    set = &yard_set;
    run(events);
}

/* All numbers of a call that is shown, which stand in the order of an entry's parts, with its age behind. */
static const uint64_t *shown(uint32_t i, uint64_t *numbers)
{
    paint(numbers, ASTERNHAKEN_YARD_CALL_NUMBERS * sizeof *numbers);
    if (WATCHED(asternhaken_yard_call_numbers(yard_set.state, yard_set.length, i, numbers, ASTERNHAKEN_YARD_CALL_NUMBERS), numbers, CLEARS) != ASTERNHAKEN_ACCEPTED)
        fault("asternhaken_yard_call_numbers refuses", "yard", 0);
    return numbers;
}

static uint64_t shown_part(const uint64_t *numbers, uint32_t which)
{
    if (which == CIPHERED) return shown_part(numbers, ASTERNHAKEN_PART_CIPHER_KEY_NUMBER) != 0;
    return numbers[which - ASTERNHAKEN_PART_KEY];
}

/* A call is told complete, with nothing of following beside 1, and is younger than a call may be; its age is not in the line. */
static void say_shown(const uint64_t *numbers, uint32_t i)
{
    uint64_t told = shown_part(numbers, ASTERNHAKEN_PART_TOLD), follow = shown_part(numbers, ASTERNHAKEN_PART_FOLLOW), kept_count = shown_part(numbers, ASTERNHAKEN_PART_KEPT_COUNT), record[RECORD_PARTS];
    if (told < ASTERNHAKEN_TOLD_CLEAR || told > ASTERNHAKEN_TOLD_JOINED) fault("a call is shown that was not told complete", "call", i);
    if (told == ASTERNHAKEN_TOLD_CLEAR && (follow || kept_count)) fault("a call that is not ciphered is said to be followed, or not", "call", i);
    if (numbers[ASTERNHAKEN_YARD_CALL_NUMBERS - 1] >= ASTERNHAKEN_YARD_SHOWN) fault("a call is shown that ran out", "call", i);
    say("|");
    say_number(shown_part(numbers, ASTERNHAKEN_PART_KEY));
    for (size_t j = 0; j < RECORD_PARTS; j++) record[j] = shown_part(numbers, record_parts[j]);
    say_record(record, call_record);
    say_number(follow);
    say_number(kept_count);
}

/* The calls rise by their keys, and behind the last there is none. */
static void yshown(void)
{
    uint64_t *numbers = lend_numbers(ASTERNHAKEN_YARD_CALL_NUMBERS), last = 0;
    if (!understood()) return;
    if (WATCHED(asternhaken_yard_count(yard_set.state, yard_set.length, value), value, CLEARS) != ASTERNHAKEN_ACCEPTED) fault("asternhaken_yard_count refuses", "yard", 0);
    uint32_t count = (uint32_t)count_of(*value, ASTERNHAKEN_YARD_KEYS, "calls");
    say_number(count);
    for (uint32_t i = 0; i < count; i++) {
        say_shown(shown(i, numbers), i);
        if (i && numbers[0] <= last) fault("the keys of the calls do not rise", "call", i);
        last = numbers[0];
    }
    shown(count, numbers);
    for (size_t i = 0; i < ASTERNHAKEN_YARD_CALL_NUMBERS; i++)
        if (numbers[i]) fault("behind the last call there is another", "numbers", i * sizeof *numbers);
}

static const struct command commands[] = {
    { "nch", nch },
    { "facch", facch },
    { "wnch", wnch },
    { "wfacch", wfacch },
    { "setup", setup },
    { "ev", ev },
    { "paged", paged },
    { "ysetup", ysetup },
    { "yev", yev },
    { "yshown", yshown },
    { "find", find },
    { "usetup", usetup },
    { "uev", uev },
    { "message_type", message_type },
    { "call_reference", call_reference },
    { "call_state", call_state },
    { "originator", originator },
    { "state_attributes", state_attributes },
    { "talker_priority", talker_priority },
    { "sms_indications", sms_indications },
    { "cause", cause },
    { "dispatcher", dispatcher },
    { "wmessage_type", wmessage_type },
    { "wcall_reference", wcall_reference },
    { "wcall_state", wcall_state },
    { "woriginator", woriginator },
    { "wstate_attributes", wstate_attributes },
    { "wtalker_priority", wtalker_priority },
    { "wsms_indications", wsms_indications },
    { "wcause", wcause },
    { "wdispatcher", wdispatcher },
    { NULL, NULL }
};

/* Reads a line of any length, without its end. */
static int read_line(void)
{
    static size_t has_room;
    size_t n = 0;
    int c;
    while ((c = getchar()) != EOF && c != '\n') {
        if (n + 1 >= has_room) line = (char *)room(line, has_room = 2 * has_room + 256);
        if (!c) is_wrong("the line is no text");
        line[n++] = (char)c;
    }
    if (!line) line = (char *)room(NULL, has_room = 256);
    line[n] = 0;
    return c != EOF || n > 0;
}

/* Cuts the line at each blank. */
static void cut(void)
{
    static size_t has_room;
    char *at = line;
    n_words = taken = 0;
    for (;;) {
        if (n_words == has_room) words = (char **)room(words, (has_room = 2 * has_room + 64) * sizeof *words);
        words[n_words++] = at;
        at = strchr(at, ' ');
        if (!at) return;
        *at++ = 0;
    }
}

int main(void)
{
    int status = 0;
    receiver.state = (uint8_t *)lend("state", receiver.length);
    yard_set.state = (uint8_t *)lend("yard", yard_set.length);
    value = (uint64_t *)lend("value", sizeof *value);
    uplink = (uint8_t *)lend("uplink", ASTERNHAKEN_UPLINK_LENGTH);
    struct lent *stays = lents;
    for (; wrong = NULL, read_line(); take_back(stays)) {
        line_number++;
        begun = 0;
        set = &receiver;
        cut();
        if (!wrong) run(commands);
        if (wrong) {
            say("?");
            say(wrong);
            status = 2;
        }
        printf("\n");
        fflush(stdout);
    }
    take_back(NULL);
    free(line);
    free(words);
    return ferror(stdin) || ferror(stdout) ? 2 : status;
}
