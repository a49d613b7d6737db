/* asternhaken decode: every field of a message with its place, up to the one that is refused. The library's trace lists them; here they are printed. */
#include "commands.h"
#include "names.h"
#include "options.h"
#include "show.h"
#include "words.h"

#include <asternhaken.h>
#include <stdio.h>
#include <stdlib.h>
#include <string.h>

enum { BLOCK = 23, HEAD = 3, LINE = 4096 };

static const char help[] =
    "asternhaken decode [-c nch|facch|pch] [--json] HEX|-\n"
    "\n"
    "Shows every field of a message: the bit where it begins, its width, its name, what it means and its bits, up to the field that is refused.\n"
    "HEX is 20 octets of NT/N Rest Octets, a block of 23 octets with them, or NOTIFICATION/FACCH of 2 to 23 octets from its first octet (04) on.\n"
    "Blanks and colons may stand between octets. With - each line of standard input is a message, # begins a comment.\n"
    "\n"
    "  -c, --channel nch|facch|pch   what the octets came on, where their number and first octets do not say it; pch: a block of the paging channel\n"
    "      --json                    one object for each message\n"
    "\n"
    "Status: 0 all is accepted, 1 something is refused, 2 it is no message.\n";

/* A message to decode: the octets for the library, and the block's head before them, if there was one. */
struct message {
    int is_facch;
    const uint8_t *octets, *head;
    size_t length;
    uint64_t number; /* from 1 */
};

/* ---- Which message it is ---- */

static const char *type_name(uint8_t type)
{
    switch (type) {
    case 0x19: return "SYSTEM INFORMATION TYPE 1";
    case 0x1a: return "SYSTEM INFORMATION TYPE 2";
    case 0x1b: return "SYSTEM INFORMATION TYPE 3";
    case 0x1c: return "SYSTEM INFORMATION TYPE 4";
    case 0x21: return "PAGING REQUEST TYPE 1";
    case 0x22: return "PAGING REQUEST TYPE 2";
    case 0x24: return "PAGING REQUEST TYPE 3";
    case 0x39: return "IMMEDIATE ASSIGNMENT EXTENDED";
    case 0x3a: return "IMMEDIATE ASSIGNMENT REJECT";
    case 0x3f: return "IMMEDIATE ASSIGNMENT";
    default: return "another message";
    }
}

/* A block of 23 octets: its message must be NOTIFICATION/NCH. */
static int take_block(struct message *message)
{
    const uint8_t *octets = message->octets;
    if (octets[1] != 0x06 || octets[2] != 0x20) {
        if (octets[1] == 0x06) complain("the block has message type %02x, %s; that of NOTIFICATION/NCH is 20", octets[2], type_name(octets[2]));
        else complain("the block has protocol discriminator %02x; that of NOTIFICATION/NCH is 06", octets[1]);
        if (octets[1] == 0x06 && octets[2] >= 0x21 && octets[2] <= 0x24) complain("what the paging channel's own messages say of calls is read by the paging head, not here");
        return 1;
    }
    message->head = octets;
    message->octets = octets + HEAD;
    message->length = BLOCK - HEAD;
    return 0;
}

static int is_first_of_facch(uint8_t octet)
{
    return (octet & 0xfd) == 0x04;
}

/* Answers 0, or complains and answers the status. */
static int take_message(struct message *message, const char *channel)
{
    const uint8_t *octets = message->octets;
    size_t n = message->length;
    message->is_facch = channel && !strcmp(channel, "facch");
    if (message->is_facch) return 0;
    if (channel && !strcmp(channel, "pch") && n != BLOCK) {
        complain("a block of the paging channel has 23 octets, not %d", (int)n);
        return 1;
    }
    if (channel) return n == BLOCK ? take_block(message) : 0;
    if (n == ASTERNHAKEN_NCH_LENGTH) return 0;
    if (n == BLOCK && octets[1] == 0x06 && !is_first_of_facch(octets[0])) return take_block(message);
    message->is_facch = n > 0 && is_first_of_facch(octets[0]);
    if (message->is_facch) return 0;
    complain("%s: NT/N Rest Octets are 20, with the head of their block 23, and NOTIFICATION/FACCH begins with 04; -c nch or -c facch says which it is", many(n, "octet", "octets"));
    return 2;
}

/* ---- Printing ---- */

static void bits_of(const struct message *message, const struct field *field, char into[65])
{
    size_t n = 0;
    for (uint64_t bit = field->bit; n < 64 && bit < field->bit + field->width && bit < 8 * message->length; bit++) into[n++] = (char)('0' + (message->octets[bit / 8] >> (7 - bit % 8) & 1));
    into[n] = 0;
}

static void print_fields(const struct message *message, const struct field *fields, uint32_t count)
{
    char meaning[MEANING], bits[65];
    if (count) printf("%s bit width  %-23s %-35s %s%s\n", dim(), "field", "meaning", "bits", plain());
    for (uint32_t i = 0; i < count; i++) {
        if (!fields[i].width) continue; /* the other octets of an identity that has but one */
        field_meaning(&fields[i], meaning);
        bits_of(message, &fields[i], bits);
        printf("%4d %5d  %-23s %-35s %s\n", (int)fields[i].bit, (int)fields[i].width, field_title(fields[i].kind), meaning, bits);
    }
}

static void print_head(const struct message *message)
{
    if (message->number > 1) printf("\n");
    printf("%s, %s\n", message->is_facch ? "NOTIFICATION/FACCH" : "NT/N Rest Octets", many(message->length, "octet", "octets"));
    if (message->head) printf("Before them in their block: pseudo length %02x, 06 radio resources, 20 NOTIFICATION/NCH\n", message->head[0]);
}

static uint64_t end_of(const struct field *fields, uint32_t count)
{
    return count ? fields[count - 1].bit + fields[count - 1].width : 0;
}

/* How it ended: the padding, or the refusal at its place. */
static void print_end(const struct message *message, uint32_t result, const struct field *fields, uint32_t count)
{
    uint64_t end = end_of(fields, count), size = 8 * message->length;
    uint32_t refusal = ASTERNHAKEN_REFUSAL(result);
    if (!refusal) {
        if (end < size) printf("%4d %5d  Spare padding\n", (int)end, (int)(size - end));
        printf("%saccepted%s, %s used\n", good(), plain(), many(end, "bit", "bits"));
        return;
    }
    printf("%srefused %d%s", bad(), (int)refusal, plain());
    if (refusal == ASTERNHAKEN_REFUSED_RAN_OUT || refusal == ASTERNHAKEN_REFUSED_RAN_OUT_6 || refusal == ASTERNHAKEN_REFUSED_RAN_OUT_7)
        printf(" at bit %d, where the missing field begins; the message ends behind bit %d", (int)ASTERNHAKEN_BIT(result), (int)size - 1);
    else if (refusal == ASTERNHAKEN_REFUSED_RANDOM_ENTRIES || refusal == ASTERNHAKEN_REFUSED_EMERGENCY_MARKS) printf(" once all was read");
    else if (count) printf(" behind bit %d, by the last field above", (int)end - 1);
    printf(": %s\n", asternhaken_refusal_sentence(refusal));
}

static void print_json(const struct message *message, uint32_t result, const struct field *fields, uint32_t count)
{
    char meaning[MEANING], bits[65];
    json_open();
    json_number("message", message->number);
    json_text("channel", message->is_facch ? "facch" : "nch");
    json_octets("octets", message->octets, message->length);
    json_number("refusal", ASTERNHAKEN_REFUSAL(result));
    json_text("refusal_word", asternhaken_refusal_word(ASTERNHAKEN_REFUSAL(result)));
    json_number("refused_bit", ASTERNHAKEN_BIT(result));
    json_number("read_to", end_of(fields, count));
    json_list("fields");
    for (uint32_t i = 0; i < count; i++) {
        if (!fields[i].width) continue;
        field_meaning(&fields[i], meaning);
        bits_of(message, &fields[i], bits);
        json_item();
        json_number("bit", fields[i].bit);
        json_number("width", fields[i].width);
        json_text("bits", bits);
        json_number("kind", fields[i].kind);
        json_text("name", field_name(fields[i].kind));
        json_number("value", fields[i].value);
        json_text("meaning", meaning);
        json_item_end();
    }
    json_list_end();
    json_close();
}

/* ---- One message, or many ---- */

static int decode(const char *word, const struct options *options, uint64_t number)
{
    static uint8_t octets[LINE];
    struct field fields[ASTERNHAKEN_FIELDS];
    uint32_t count;
    int n = octets_of(word, octets, sizeof octets);
    if (n < 0) {
        complain("'%.60s' is not two hexadecimal digits for each octet", word);
        return 2;
    }
    struct message message = { 0, octets, NULL, (size_t)n, number };
    int status = take_message(&message, options->channel);
    if (status) return status;
    uint32_t result = trace_message(message.is_facch, message.octets, message.length, fields, &count);
    if (options->json) print_json(&message, result, fields, count);
    else {
        print_head(&message);
        print_fields(&message, fields, count);
        print_end(&message, result, fields, count);
    }
    return ASTERNHAKEN_REFUSAL(result) ? 1 : 0;
}

static int decode_lines(const struct options *options)
{
    static char line[LINE];
    int worst = 0;
    for (uint64_t number = 0; fgets(line, sizeof line, stdin);) {
        char *comment = strchr(line, '#');
        if (comment) *comment = 0;
        if (!line[strspn(line, " \t\r\n")]) continue;
        line[strcspn(line, "\r\n")] = 0;
        int status = decode(line, options, ++number);
        if (status > worst) worst = status;
    }
    return worst;
}

/* The words as one: octets may be parted by blanks. */
static int decode_words(const struct options *options)
{
    static char joined[LINE];
    size_t n = 0;
    for (int i = 0; i < options->n_words && n < sizeof joined; i++) n += (size_t)snprintf(joined + n, sizeof joined - n, "%s ", options->words[i]);
    if (n >= sizeof joined) {
        complain("that is too long for a message");
        return 2;
    }
    joined[n - 1] = 0;
    return decode(joined, options, 1);
}

int command_decode(int argc, char **argv)
{
    struct options options;
    int status = options_take(&options, argc, argv, "jc", help);
    if (status) return status == 1 ? 0 : 2;
    const char *c = options.channel;
    if (c && strcmp(c, "nch") && strcmp(c, "facch") && strcmp(c, "pch")) {
        complain("-c is nch, facch or pch, not '%s'", c);
        return 2;
    }
    if (!options.n_words) {
        complain("decode what? HEX, or - for lines of it; asternhaken decode --help says more");
        return 2;
    }
    status = options.n_words == 1 && !strcmp(options.words[0], "-") ? decode_lines(&options) : decode_words(&options);
    return finish_output() ? 2 : status;
}
