/* Every field that a reader comes to: the library's trace of a message, beside what reading it says. */
#include "trace.h"

#include <string.h>

/* Whether a field is L or H: the releases' own bits, and on the FACCH two of Release 7. */
static int is_coded(const struct field *field, int is_facch)
{
    if (field->kind == ASTERNHAKEN_FIELD_RELEASE_6_GIVEN || field->kind == ASTERNHAKEN_FIELD_RELEASE_7_GIVEN) return 1;
    return is_facch && (field->kind == ASTERNHAKEN_FIELD_UPLINK_ACCESS || field->kind == ASTERNHAKEN_FIELD_EMERGENCY);
}

/* H is what the padding, octets of 2B, has not at that place. */
static uint64_t is_high(const struct field *field)
{
    return field->value ^ (0x2bu >> (7 - field->bit % 8) & 1u);
}

static uint32_t result_of(int is_facch, const uint8_t *octets, size_t n)
{
    struct asternhaken_facch_message on_facch;
    struct asternhaken_nch_message on_nch;
    return is_facch ? asternhaken_facch_decode(octets, n, &on_facch) : asternhaken_nch_decode(octets, n, &on_nch);
}

uint32_t trace_message(int is_facch, const uint8_t *octets, size_t n, struct field fields[ASTERNHAKEN_FIELDS], uint32_t *count)
{
    uint64_t numbers[ASTERNHAKEN_FIELDS * ASTERNHAKEN_FIELD_NUMBERS];
    const size_t places = sizeof numbers / sizeof *numbers;
    *count = is_facch ? asternhaken_facch_trace(octets, n, numbers, places) : asternhaken_nch_trace(octets, n, numbers, places);
    memcpy(fields, numbers, *count * sizeof *fields);
    for (uint32_t i = 0; i < *count; i++)
        if (is_coded(&fields[i], is_facch)) fields[i].value = is_high(&fields[i]);
    return result_of(is_facch, octets, n);
}
