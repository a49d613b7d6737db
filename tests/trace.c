/* Holds the header's traces to the archive: the fields of two messages, one by one, messages that are refused, arrays that are too small, and wrong lengths. What is lent comes from the heap and has its
 * exact length, so that valgrind sees a step past it. The last line is 'N passed, M failed'.
 *
 * The fields and the octets were worked out by hand from the grammars of 44.018, 10.5.2.22c and 9.1.21a. */
#include <asternhaken.h>

#include <stdio.h>
#include <stdlib.h>
#include <string.h>

#define FIELD(name) ASTERNHAKEN_FIELD_##name
#define COUNT(array) (sizeof(array) / sizeof *(array))
#define UNTOUCHED 0x5a5a5a5a5a5a5a5au

static unsigned passed, failed;

static void check(int holds, const char *what, int line)
{
    if (holds) {
        passed++;
        return;
    }
    failed++;
    printf("tests/trace.c:%d: %s\n", line, what);
}

#define CHECK(holds) check((holds) != 0, #holds, __LINE__)

struct field {
    uint64_t kind, place, width, value;
};

typedef uint32_t trace(const uint8_t *octets, size_t n, uint64_t *fields, size_t n_places);

static void *lent(size_t size)
{
    void *memory = malloc(size ? size : 1);
    if (!memory) exit(2);
    return memory;
}

/* Lists the message in an array of so many places: these fields and no more, each with its four numbers where it has four places, and every other place as it was. */
static int lists(trace *of, const uint8_t *message, size_t n, const struct field *fields, size_t many, size_t places)
{
    uint8_t *octets = (uint8_t *)lent(n);
    uint64_t *array = (uint64_t *)lent(places * sizeof *array);
    size_t i;
    int good;
    if (n) memcpy(octets, message, n);
    for (i = 0; i < places; i++) array[i] = UNTOUCHED;
    good = of(octets, n, array, places) == many;
    for (i = 0; i < places; i++) {
        const struct field *f = fields + i / 4;
        uint64_t due = UNTOUCHED;
        if (i / 4 < many && i / 4 * 4 + 4 <= places) due = i % 4 == 0 ? f->kind : i % 4 == 1 ? f->place : i % 4 == 2 ? f->width : f->value;
        if (array[i] == due) continue;
        printf("place %u has %llu, not %llu\n", (unsigned)i, (unsigned long long)array[i], (unsigned long long)due);
        good = 0;
    }
    good = good && (!n || !memcmp(octets, message, n));
    free(octets);
    free(array);
    return good;
}

/* ---- NT/N Rest Octets: every part that there is ---- */

static const uint8_t nch[20] = { 0xd0, 0x00, 0x24, 0xcf, 0x59, 0x85, 0x28, 0x91, 0xc0, 0x34, 0xa7, 0xdf, 0x5e, 0x0f, 0xf3, 0x1a, 0xd9, 0xab, 0x2b, 0x2b };

static const struct field nch_fields[] = {
    { FIELD(NLN_GIVEN), 0, 1, 1 },
    { FIELD(NLN), 1, 2, 2 },
    { FIELD(CALL_GIVEN), 3, 1, 1 },
    { FIELD(CALL_REFERENCE), 4, 27, 4711 },
    { FIELD(SERVICE_FLAG), 31, 1, 1 },
    { FIELD(ACKNOWLEDGEMENT_FLAG), 32, 1, 0 },
    { FIELD(PRIORITY), 33, 3, 5 },
    { FIELD(CIPHER_KEY_NUMBER), 36, 4, 9 },
    { FIELD(CHANNEL_GIVEN), 40, 1, 1 },
    { FIELD(CHANNEL), 41, 24, 0x0a5123 },
    { FIELD(HOPS), 65, 1, 1 },
    { FIELD(SHORT_LIST), 66, 1, 0 },
    { FIELD(ALLOCATION_OCTETS), 67, 8, 1 },
    { FIELD(ALLOCATION), 75, 8, 0xa5 },
    { FIELD(CALL_GIVEN), 83, 1, 0 },
    { FIELD(RELEASE_6_GIVEN), 84, 1, 0 }, /* the padding's bit is 1 here: H */
    { FIELD(COUNT_GIVEN), 85, 1, 1 },
    { FIELD(CELL_GLOBAL_COUNT), 86, 2, 3 },
    { FIELD(REDUCED_GIVEN), 88, 1, 1 },
    { FIELD(REDUCED_REFERENCE), 89, 27, 99999999 },
    { FIELD(REDUCED_SERVICE_FLAG), 116, 1, 0 },
    { FIELD(REDUCED_GIVEN), 117, 1, 0 },
    { FIELD(RANDOM_GIVEN), 118, 1, 1 },
    { FIELD(SEGMENT_ID), 119, 1, 1 },
    { FIELD(RAND_GIVEN), 120, 1, 0 },
    { FIELD(RANDOM_GIVEN), 121, 1, 0 },
    { FIELD(RELEASE_7_GIVEN), 122, 1, 0 }, /* H */
    { FIELD(EMERGENCY_MARK_GIVEN), 123, 1, 1 },
    { FIELD(EMERGENCY_MARK), 124, 1, 1 },
    { FIELD(EMERGENCY_MARK_GIVEN), 125, 1, 0 },
    { FIELD(UPLINK_GIVEN), 126, 1, 1 },
    { FIELD(UPLINK_ACCESS), 127, 1, 0 },
    { FIELD(AMR_GIVEN), 128, 1, 1 },
    { FIELD(FR_AMR_GIVEN), 129, 1, 1 },
    { FIELD(FR_AMR_CONFIG), 130, 4, 6 },
    { FIELD(HR_AMR_GIVEN), 134, 1, 0 },
    { FIELD(SMS_GIVEN), 135, 1, 1 },
    { FIELD(SMS_CONFIDENTIALITY), 136, 1, 1 },
    { FIELD(SMS_PRIVACY), 137, 1, 0 },
};

static void on_nch(void)
{
    const size_t all = COUNT(nch_fields);
    uint64_t numbers[ASTERNHAKEN_NCH_NUMBERS];
    uint8_t changed[20];
    static const struct field padding[] = { { FIELD(NLN_GIVEN), 0, 1, 0 }, { FIELD(CALL_GIVEN), 1, 1, 0 }, { FIELD(RELEASE_6_GIVEN), 2, 1, 1 }, { FIELD(RELEASE_7_GIVEN), 3, 1, 0 } };
    struct field high[8];
    size_t n;
    CHECK(asternhaken_nch_read(nch, 20, numbers, ASTERNHAKEN_NCH_NUMBERS) == ASTERNHAKEN_ACCEPTED && numbers[ASTERNHAKEN_NCH_USED] == 138);
    CHECK(lists(asternhaken_nch_trace, nch, 20, nch_fields, all, 4 * ASTERNHAKEN_FIELDS));
    /* an array that ends before, in and behind a field */
    for (n = 0; n <= 4 * all + 5; n++) CHECK(lists(asternhaken_nch_trace, nch, 20, nch_fields, all, n));
    /* other lengths */
    for (n = 0; n < 20; n++) CHECK(lists(asternhaken_nch_trace, nch, n, nch_fields, 0, 8));
    /* padding alone: both releases are L, which is the padding's bit */
    memset(changed, 0x2b, 20);
    CHECK(lists(asternhaken_nch_trace, changed, 20, padding, COUNT(padding), 4 * ASTERNHAKEN_FIELDS));
    /* a reference above 99,999,999: reading ends behind its row (4) */
    memcpy(high, nch_fields, sizeof high);
    high[3].value = 100000000; /* 5f5e100 hex, in bits 4 to 30 */
    memcpy(changed, nch, 20);
    changed[0] = 0xdb, changed[1] = 0xeb, changed[2] = 0xc2, changed[3] = 0x01;
    CHECK(asternhaken_nch_read(changed, 20, numbers, ASTERNHAKEN_NCH_NUMBERS) == ASTERNHAKEN_REFUSED_REFERENCE);
    CHECK(lists(asternhaken_nch_trace, changed, 20, high, COUNT(high), 4 * ASTERNHAKEN_FIELDS));
    /* the hopping flag unlike the channel's bit: it is the last field (5) */
    memcpy(changed, nch, 20);
    changed[8] = 0x80; /* bit 65 is 0 */
    {
        struct field flag[11];
        memcpy(flag, nch_fields, sizeof flag);
        flag[10].value = 0;
        CHECK(asternhaken_nch_read(changed, 20, numbers, ASTERNHAKEN_NCH_NUMBERS) == ASTERNHAKEN_REFUSED_HOPPING);
        CHECK(lists(asternhaken_nch_trace, changed, 20, flag, COUNT(flag), 4 * ASTERNHAKEN_FIELDS));
    }
    /* an allocation of 9 octets: its length octet is the last field (3) */
    memcpy(changed, nch, 20);
    changed[8] = 0xc1; /* bit 71 is 1, so that bits 67 to 74 are 00001001 */
    {
        struct field octets[13];
        memcpy(octets, nch_fields, sizeof octets);
        octets[12].value = 9;
        CHECK(asternhaken_nch_read(changed, 20, numbers, ASTERNHAKEN_NCH_NUMBERS) == ASTERNHAKEN_REFUSED_ALLOCATION_LENGTH);
        CHECK(lists(asternhaken_nch_trace, changed, 20, octets, COUNT(octets), 4 * ASTERNHAKEN_FIELDS));
    }
}

/* ---- NOTIFICATION/FACCH: a page, whose identity has one octet ---- */

static const uint8_t facch[10] = { 0x04, 0x80, 0xfa, 0x56, 0xdc, 0x91, 0xa2, 0xb3, 0xc4, 0xcf };

static const struct field facch_fields[] = {
    { FIELD(FIRST_OCTET), 0, 8, 4 },
    { FIELD(PAGING), 8, 1, 1 },
    { FIELD(IDENTITY_OCTETS), 9, 8, 1 },
    { FIELD(IDENTITY_FIRST), 17, 8, 0xf4 },
    { FIELD(IDENTITY_REST), 25, 0, 0 }, /* no bits */
    { FIELD(CHANNEL_FIRST), 25, 2, 2 },
    { FIELD(EMLPP_PRIORITY_GIVEN), 27, 1, 1 },
    { FIELD(EMLPP_PRIORITY), 28, 3, 3 },
    { FIELD(RELEASE_6_GIVEN), 31, 1, 0 }, /* H */
    { FIELD(COUNT_GIVEN), 32, 1, 1 },
    { FIELD(CELL_GLOBAL_COUNT), 33, 2, 2 },
    { FIELD(B22_COUNT), 35, 1, 1 },
    { FIELD(RAND_GIVEN), 36, 1, 1 },
    { FIELD(VSTK_RAND), 37, 36, 0x923456789 },
    { FIELD(RELEASE_7_GIVEN), 73, 1, 1 }, /* H */
    { FIELD(UPLINK_ACCESS), 74, 1, 0 },   /* H, as it stands */
    { FIELD(EMERGENCY), 75, 1, 0 },       /* L, as it stands */
    { FIELD(PAGING_CAUSE_GIVEN), 76, 1, 1 },
    { FIELD(PAGING_CAUSE), 77, 1, 1 },
};

/* The first octets of the message: it ends where the missing field begins. */
static void cut(size_t n, size_t many, uint32_t refusal)
{
    uint64_t numbers[ASTERNHAKEN_FACCH_NUMBERS];
    uint32_t result = asternhaken_facch_read(facch, n, numbers, ASTERNHAKEN_FACCH_NUMBERS);
    CHECK(ASTERNHAKEN_REFUSAL(result) == refusal && ASTERNHAKEN_BIT(result) == facch_fields[many - 1].place + facch_fields[many - 1].width);
    CHECK(lists(asternhaken_facch_trace, facch, n, facch_fields, many, 4 * ASTERNHAKEN_FIELDS));
}

static void on_facch(void)
{
    const size_t all = COUNT(facch_fields);
    uint64_t numbers[ASTERNHAKEN_FACCH_NUMBERS];
    uint8_t longer[24];
    size_t n;
    CHECK(asternhaken_facch_read(facch, 10, numbers, ASTERNHAKEN_FACCH_NUMBERS) == ASTERNHAKEN_ACCEPTED && numbers[ASTERNHAKEN_FACCH_USED] == 78);
    CHECK(lists(asternhaken_facch_trace, facch, 10, facch_fields, all, 4 * ASTERNHAKEN_FIELDS));
    for (n = 0; n <= 4 * all + 5; n++) CHECK(lists(asternhaken_facch_trace, facch, 10, facch_fields, all, n));
    cut(9, 13, ASTERNHAKEN_REFUSED_RAN_OUT_6);
    cut(5, 13, ASTERNHAKEN_REFUSED_RAN_OUT_6);
    cut(4, 9, ASTERNHAKEN_REFUSED_RAN_OUT_6);
    cut(3, 3, ASTERNHAKEN_REFUSED_RAN_OUT); /* the identity is there whole or not */
    cut(2, 2, ASTERNHAKEN_REFUSED_RAN_OUT);
    CHECK(lists(asternhaken_facch_trace, facch, 1, facch_fields, 0, 8));
    CHECK(lists(asternhaken_facch_trace, facch, 0, facch_fields, 0, 8));
    /* what is left over is padding; 23 octets are the most */
    memset(longer, 0x2b, sizeof longer);
    memcpy(longer, facch, 10);
    CHECK(lists(asternhaken_facch_trace, longer, 23, facch_fields, all, 4 * ASTERNHAKEN_FIELDS));
    CHECK(lists(asternhaken_facch_trace, longer, 24, facch_fields, 0, 8));
    /* an identity of no octets: its length octet is the last field (8) */
    {
        struct field none[3];
        memcpy(none, facch_fields, sizeof none);
        none[2].value = 0;
        longer[2] = 0x7a; /* bit 16 is 0 */
        CHECK(asternhaken_facch_read(longer, 23, numbers, ASTERNHAKEN_FACCH_NUMBERS) == ASTERNHAKEN_REFUSED_IDENTITY_LENGTH);
        CHECK(lists(asternhaken_facch_trace, longer, 23, none, COUNT(none), 4 * ASTERNHAKEN_FIELDS));
    }
}

int main(void)
{
    on_nch();
    on_facch();
    printf("%u passed, %u failed\n", passed, failed);
    return failed != 0;
}
