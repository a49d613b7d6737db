/* What a field of a message is called, and what its value means. */
#include "names.h"

#include "show.h"

#include <inttypes.h>
#include <stdio.h>

/* A field's two names, and what a value of 0 and of 1 means, where these are words. */
struct row {
    const char *name, *title, *zero, *one;
};

#define ROW(name, title, zero, one) [ASTERNHAKEN_FIELD_##name] = { #name, title, zero, one }

static const struct row rows[] = {
    ROW(NLN_GIVEN, "NLN given", "no", "yes"),
    ROW(NLN, "NLN", NULL, NULL),
    ROW(CALL_GIVEN, "Call", "no more calls", "a call follows"),
    ROW(FIRST_OCTET, "First octet", NULL, NULL),
    ROW(PAGING, "Paging", "a call follows", "a page follows"),
    ROW(CALL_REFERENCE, "Call reference", NULL, NULL),
    ROW(SERVICE_FLAG, "Service", "VBS, a broadcast call", "VGCS, a group call"),
    ROW(ACKNOWLEDGEMENT_FLAG, "Acknowledgement", "not asked for", "asked for"),
    ROW(PRIORITY, "Priority", NULL, NULL),
    ROW(CIPHER_KEY_NUMBER, "Cipher key number", NULL, NULL),
    ROW(CHANNEL_GIVEN, "Channel given", "no", "yes"),
    ROW(CHANNEL, "Channel Description", NULL, NULL),
    ROW(HOPS, "Hopping", "no", "yes, frequencies follow"),
    ROW(SHORT_LIST, "Frequencies", "a Mobile Allocation follows", "a Frequency Short List follows"),
    ROW(ALLOCATION_OCTETS, "Octets of allocation", NULL, NULL),
    ROW(ALLOCATION, "Mobile Allocation", NULL, NULL),
    ROW(FREQUENCY_SHORT_LIST, "Frequency Short List", NULL, NULL),
    ROW(IDENTITY_OCTETS, "Octets of identity", NULL, NULL),
    ROW(IDENTITY_FIRST, "Identity, first octet", NULL, NULL),
    ROW(IDENTITY_REST, "Identity, other octets", NULL, NULL),
    ROW(CHANNEL_FIRST, "Channel first", NULL, NULL),
    ROW(EMLPP_PRIORITY_GIVEN, "eMLPP priority given", "no", "yes"),
    ROW(EMLPP_PRIORITY, "eMLPP priority", NULL, NULL),
    ROW(RELEASE_6_GIVEN, "Release 6", "L: not there", "H: it follows"),
    ROW(COUNT_GIVEN, "Count given", "no", "yes"),
    ROW(CELL_GLOBAL_COUNT, "CELL_GLOBAL_COUNT", NULL, NULL),
    ROW(B22_COUNT, "B22_COUNT", NULL, NULL),
    ROW(REDUCED_GIVEN, "Reduced reference", "no more of them", "one follows"),
    ROW(REDUCED_REFERENCE, "Call reference", NULL, NULL),
    ROW(REDUCED_SERVICE_FLAG, "Service", "VBS, a broadcast call", "VGCS, a group call"),
    ROW(RANDOM_GIVEN, "Random entry", "no more of them", "one follows"),
    ROW(SEGMENT_ID, "Segment Id", "first half, or all in one", "second half"),
    ROW(RAND_GIVEN, "VSTK_RAND given", "no", "yes"),
    ROW(VSTK_RAND, "VSTK_RAND", NULL, NULL),
    ROW(RELEASE_7_GIVEN, "Release 7", "L: not there", "H: it follows"),
    ROW(EMERGENCY_MARK_GIVEN, "Emergency mark", "no more of them", "one follows"),
    ROW(EMERGENCY_MARK, "Emergency_Ind", "no emergency", "EMERGENCY"),
    ROW(UPLINK_GIVEN, "Uplink access given", "no", "yes"),
    ROW(UPLINK_ACCESS, "Priority Uplink Access", "no", "yes"),
    ROW(AMR_GIVEN, "AMR parts given", "no", "yes"),
    ROW(FR_AMR_GIVEN, "FR AMR given", "no", "yes"),
    ROW(FR_AMR_CONFIG, "FR AMR Config", NULL, NULL),
    ROW(HR_AMR_GIVEN, "HR AMR given", "no", "yes"),
    ROW(HR_AMR_CONFIG, "HR AMR Config", NULL, NULL),
    ROW(SMS_GIVEN, "SMS bits given", "no", "yes"),
    ROW(SMS_CONFIDENTIALITY, "SMS confidentiality", "no", "yes"),
    ROW(SMS_PRIVACY, "SMS guaranteed privacy", "no", "yes"),
    ROW(EMERGENCY, "Emergency_Ind", "L: no emergency", "H: EMERGENCY"),
    ROW(PAGING_CAUSE_GIVEN, "Paging Cause given", "no", "yes"),
    ROW(PAGING_CAUSE, "Paging Cause", NULL, NULL),
};

static const struct row *row_of(uint64_t kind)
{
    static const struct row unknown = { "UNKNOWN", "unknown field", NULL, NULL };
    return kind < sizeof rows / sizeof *rows && rows[kind].name ? &rows[kind] : &unknown;
}

const char *field_title(uint64_t kind)
{
    return row_of(kind)->title;
}

const char *field_name(uint64_t kind)
{
    return row_of(kind)->name;
}

/* ---- Channels ---- */

/* Channel type and TDMA offset, the first five bits. */
static void channel_type(unsigned type, char *into, size_t room)
{
    if (type == 1) snprintf(into, room, "TCH/F");
    else if (type >> 1 == 1) snprintf(into, room, "TCH/H %u", type & 1);
    else if (type >> 2 == 1) snprintf(into, room, "SDCCH/4 %u", type & 3);
    else if (type >> 3 == 1) snprintf(into, room, "SDCCH/8 %u", type & 7);
    else snprintf(into, room, "channel type %u", type);
}

void channel_meaning(uint64_t channel, char into[MEANING])
{
    char type[24];
    unsigned bits = (unsigned)(channel & 0xffffff);
    channel_type(bits >> 19, type, sizeof type);
    int n = snprintf(into, MEANING, "%s, timeslot %u, training sequence %u, ", type, bits >> 16 & 7, bits >> 13 & 7);
    if (bits >> 12 & 1) snprintf(into + n, MEANING - (size_t)n, "hops with MAIO %u, HSN %u", bits >> 6 & 63, bits & 63);
    else snprintf(into + n, MEANING - (size_t)n, "ARFCN %u", bits & 1023);
}

/* ---- Values ---- */

static void number_meaning(const struct field *field, char into[MEANING])
{
    switch (field->kind) {
    case ASTERNHAKEN_FIELD_CHANNEL: channel_meaning(field->value, into); break;
    case ASTERNHAKEN_FIELD_CIPHER_KEY_NUMBER: snprintf(into, MEANING, field->value ? "ciphered with group key %d" : "not ciphered", (int)field->value); break;
    case ASTERNHAKEN_FIELD_IDENTITY_FIRST: snprintf(into, MEANING, "%s, %02x", asternhaken_identity_word(ASTERNHAKEN_IDENTITY_KIND(field->value)), (unsigned)field->value); break;
    case ASTERNHAKEN_FIELD_CHANNEL_FIRST: snprintf(into, MEANING, "%s", asternhaken_channel_first_word(field->value)); break;
    case ASTERNHAKEN_FIELD_PAGING_CAUSE: snprintf(into, MEANING, "%s", asternhaken_paging_cause_word(field->value)); break;
    case ASTERNHAKEN_FIELD_FIRST_OCTET: snprintf(into, MEANING, "%02x, not looked at", (unsigned)field->value); break;
    case ASTERNHAKEN_FIELD_VSTK_RAND:
    case ASTERNHAKEN_FIELD_ALLOCATION:
    case ASTERNHAKEN_FIELD_FREQUENCY_SHORT_LIST:
    case ASTERNHAKEN_FIELD_IDENTITY_REST: snprintf(into, MEANING, "%0*" PRIx64, (int)(field->width / 4), field->value); break;
    default: snprintf(into, MEANING, "%" PRIu64, field->value); break;
    }
}

void field_meaning(const struct field *field, char into[MEANING])
{
    const struct row *row = row_of(field->kind);
    if (row->zero) snprintf(into, MEANING, "%s", field->value ? row->one : row->zero);
    else number_meaning(field, into);
}

const char *call_words(uint64_t key)
{
    static char words[32];
    snprintf(words, sizeof words, "%" PRIu64 " %s", key / 2, key % 2 ? "VGCS" : "VBS");
    return words;
}
