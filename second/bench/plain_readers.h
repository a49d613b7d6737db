/* The plain readers: a message as 64-bit words with zeros behind, its fields out of a window of 64 bits. Part of plain.c.
 *
 * A field is taken without asking whether it is there: behind the end every flag is 0, so that each list ends and the reading comes to its end after a field or two. What was read
 * counts only if the place then reached, at the end or where something is refused, is inside the message. If it is not, the same grammar is read once more, now asking, for the
 * number and the bit of the first field that is not there.
 *
 * A grammar writes what it reads twice: into a record of plain.h, and packed into a few words, as a receiver takes it. It is inlined wherever it is used, and each user has one of the two only
 * as a local that nobody reads, so that the compiler leaves that one out. */

enum { WORDS = 5, NCH_OCTETS = 20, NCH_BITS = 8 * NCH_OCTETS, FACCH_LEAST = 2, FACCH_MOST = 23 };

/* ---- What was read, packed; only what is there is written ---- */

/* The description of a channel: 24 bits and the hopping flag as they stand, and above them which list of frequencies there is. */
enum { SHORT_LIST = 25, ALLOCATION_OCTETS = 26, DESCRIBED = 30 };

/* A call. Without a description, what follows its 36 bits is 0; its key is what stands above the lowest eight. */
struct call {
    uint64_t bits, description, frequencies;
};

/* A random entry, in one number: VSTK_RAND, 0 where it is not given, and above its 36 bits the others. */
enum { RAND_GIVEN = 36, SEGMENT_ID, SEGMENTED };

/* What a message says of all its calls, and what a receiver's record has beside these, in one number: the places of the fields. */
enum {
    CELL_GLOBAL_COUNT = 0, B22_COUNT = 2, COUNTED, UPLINK_GIVEN, UPLINK_ACCESS, AMR, FR_AMR_GIVEN, FR_AMR_CONFIG, HR_AMR_GIVEN = FR_AMR_CONFIG + 4, HR_AMR_CONFIG,
    SMS = HR_AMR_CONFIG + 4, SMS_CONFIDENTIALITY, SMS_PRIVACY, EMERGENCY, FULL, CAUSE, CAUSE_GIVEN
};
enum { COUNT_PARTS = 1 << COUNTED | 1 << B22_COUNT | 3 << CELL_GLOBAL_COUNT };

/* NT/N Rest Octets. A call or a reduced reference more than there are places may begin inside the message; there are then not bits enough. */
struct nch {
    uint64_t parts, nln_given, nln;
    uint32_t n_calls, n_reduced, n_random, n_marks, marks; /* mark i is bit i */
    struct call calls[4];
    uint64_t random[9];
    uint32_t reduced[5];
};

/* Paging Information but for the other octets, in one number: the places of the fields. */
enum { IDENTITY_OCTETS = 0, FIRST_OCTET = 8, CHANNEL_FIRST = 16, PRIORITY_GIVEN = 18, PAGE_PRIORITY };

struct page {
    uint64_t other_octets, bits;
};

/* NOTIFICATION/FACCH: a call, or a page. */
struct facch {
    uint64_t parts, random, paging;
    struct call call;
    struct page page;
};

/* ---- Bits ---- */

__extension__ typedef unsigned __int128 two_words;

/* A place in a message, and the bits from there on. All of it stays in registers, since everything here is inlined; asks is known there. */
struct bits {
    const uint64_t *words;
    uint64_t window;
    unsigned at, size;
    int asks;
    uint32_t ran_out, missing; /* what a field that is not there is refused with here; that refusal of the first one */
};

INLINE uint64_t word_at(const uint8_t *p)
{
    uint64_t w;
    memcpy(&w, p, 8);
#if __BYTE_ORDER__ == __ORDER_LITTLE_ENDIAN__
    w = __builtin_bswap64(w);
#endif
    return w;
}

/* The window is put at the place. */
INLINE void look(struct bits *b)
{
    unsigned i = b->at >> 6;
    b->window = (uint64_t)(((two_words)b->words[i] << 64 | b->words[i + 1]) << (b->at & 63) >> 64);
}

/* Notes that a field of n bits is not there, which begins so many bits ahead. */
INLINE void ask(struct bits *b, unsigned ahead, unsigned n)
{
    if (b->asks && !b->missing && b->at + ahead + n > b->size)
        b->missing = b->ran_out | (b->at + ahead) << 8;
}

/* The next n bits, 1 to 63, which the window has, however many fields they are. */
INLINE uint64_t take_fields(struct bits *b, unsigned n)
{
    uint64_t x = b->window >> (64 - n);
    b->window <<= n;
    b->at += n;
    return x;
}

/* One field. */
INLINE uint64_t take(struct bits *b, unsigned n)
{
    ask(b, 0, n);
    return take_fields(b, n);
}

/* One field of 1 to 64 bits, whatever the window has; it has 64 bits thereafter. */
INLINE uint64_t take_long(struct bits *b, unsigned n)
{
    ask(b, 0, n);
    look(b);
    uint64_t x = b->window >> (64 - n);
    b->at += n;
    look(b);
    return x;
}

INLINE uint64_t flag(struct bits *b)
{
    return take(b, 1);
}

/* The next bit, 1 where it is H and 0 where it is L. */
INLINE uint64_t high(struct bits *b)
{
    uint64_t padding = 0xD4D4D4D4D4D4D4D4 >> (b->at & 63) & 1; /* 2B, its first bit lowest */
    return flag(b) ^ padding;
}

/* Whether a release is there: not where all bits are used, else by L or H. */
INLINE uint64_t release(struct bits *b)
{
    return b->at < b->size && high(b);
}

/* ---- Grammars ---- */

/* A call in its record. */
INLINE void put_call(struct plain_call *to, const struct call *c)
{
    uint64_t v = c->bits, d = c->description;
    to->reference = v >> 9;
    to->vgcs = v >> 8 & 1;
    to->acknowledged = v >> 7 & 1;
    to->priority = v >> 4 & 7;
    to->cipher_key_number = v & 15;
    to->described = d >> DESCRIBED;
    to->channel = d >> 1 & 0xFFFFFF;
    to->hops = d & 1;
    to->short_list = d >> SHORT_LIST & 1;
    to->allocation_octets = d >> ALLOCATION_OCTETS & 15;
    to->frequencies = c->frequencies;
}

/* Behind the 36 bits and the flag; the window has 27 bits. */
INLINE uint32_t read_description(struct bits *b, struct call *c)
{
    ask(b, 0, 24);
    ask(b, 24, 1);
    uint64_t v = take_fields(b, 25);
    c->description = v | 1ull << DESCRIBED;
    if ((v >> 13 ^ v) & 1) /* bit 11 of the 24 is the hopping bit */
        return HOPPING;
    if (!(v & 1))
        return ACCEPTED;
    if (flag(b)) {
        c->description |= 1ull << SHORT_LIST;
        c->frequencies = take_long(b, 64);
        return ACCEPTED;
    }
    look(b);
    unsigned n = (unsigned)take(b, 8);
    if (n - 1 > 7)
        return ALLOCATION_LENGTH;
    c->description |= (uint64_t)n << ALLOCATION_OCTETS;
    c->frequencies = take_long(b, 8 * n);
    return ACCEPTED;
}

/* The window then has at least one bit. */
INLINE uint32_t read_call(struct bits *b, struct call *c)
{
    look(b);
    c->bits = take(b, 36);
    c->description = c->frequencies = 0;
    if (c->bits >> 9 > LAST_REFERENCE)
        return REFERENCE;
    return flag(b) ? read_description(b, c) : ACCEPTED;
}

/* A field that both have. */
INLINE void keep(uint64_t *field, uint64_t *parts, unsigned place, uint64_t x)
{
    *field = x;
    *parts |= x << place;
}

/* Those past the places are only counted. */
INLINE void read_random(struct bits *b, struct plain_nch *to, struct nch *m)
{
    unsigned n = 0;
    for (; flag(b); n++) {
        uint64_t segment_id = flag(b), given = flag(b), vstk_rand = given ? take(b, 36) : 0;
        look(b);
        if (n >= 9)
            continue;
        to->random[n] = (struct plain_random){ segment_id, given, vstk_rand };
        m->random[n] = 1ull << SEGMENTED | segment_id << SEGMENT_ID | given << RAND_GIVEN | vstk_rand;
    }
    to->n_random = m->n_random = n;
}

INLINE uint32_t read_release_6(struct bits *b, struct plain_nch *to, struct nch *m)
{
    unsigned n = 0;
    b->ran_out = RAN_OUT_6;
    to->counted = to->cell_global_count = 0;
    if (flag(b)) {
        keep(&to->counted, &m->parts, COUNTED, 1);
        keep(&to->cell_global_count, &m->parts, CELL_GLOBAL_COUNT, take(b, 2));
    }
    for (; flag(b); n++) {
        uint32_t key = (uint32_t)take(b, 28);
        look(b);
        if (key > LAST_KEY)
            return REFERENCE;
        if (n >= 5)
            continue;
        to->reduced[n] = (struct plain_reduced){ key >> 1, key & 1 };
        m->reduced[n] = key;
    }
    to->n_reduced = m->n_reduced = n;
    read_random(b, to, m);
    return ACCEPTED;
}

INLINE void read_marks(struct bits *b, struct plain_nch *to, struct nch *m)
{
    unsigned n = 0;
    uint64_t marks = 0;
    for (; flag(b); n++) {
        uint64_t mark = flag(b);
        look(b);
        if (n >= 4)
            continue;
        to->marks[n] = mark;
        marks |= mark << n;
    }
    to->n_marks = m->n_marks = n;
    m->marks = (uint32_t)marks;
}

/* The window has what follows the marks. */
INLINE void read_release_7(struct bits *b, struct plain_nch *to, struct nch *m)
{
    b->ran_out = RAN_OUT_7;
    read_marks(b, to, m);
    to->uplink_access = to->fr_amr_given = to->fr_amr_config = to->hr_amr_given = to->hr_amr_config = to->sms_confidentiality = to->sms_privacy = 0;
    keep(&to->uplink_given, &m->parts, UPLINK_GIVEN, flag(b));
    if (to->uplink_given)
        keep(&to->uplink_access, &m->parts, UPLINK_ACCESS, flag(b));
    keep(&to->amr, &m->parts, AMR, flag(b));
    if (to->amr) {
        keep(&to->fr_amr_given, &m->parts, FR_AMR_GIVEN, flag(b));
        if (to->fr_amr_given)
            keep(&to->fr_amr_config, &m->parts, FR_AMR_CONFIG, take(b, 4));
        keep(&to->hr_amr_given, &m->parts, HR_AMR_GIVEN, flag(b));
        if (to->hr_amr_given)
            keep(&to->hr_amr_config, &m->parts, HR_AMR_CONFIG, take(b, 4));
    }
    keep(&to->sms, &m->parts, SMS, flag(b));
    if (to->sms) {
        keep(&to->sms_confidentiality, &m->parts, SMS_CONFIDENTIALITY, flag(b));
        keep(&to->sms_privacy, &m->parts, SMS_PRIVACY, flag(b));
    }
}

INLINE uint32_t read_nch_parts(struct bits *b, struct plain_nch *to, struct nch *m)
{
    uint32_t refusal;
    unsigned ciphered = 0, described = 0, n = 0;

    m->parts = 0;
    m->n_reduced = m->n_random = m->n_marks = m->marks = 0;
    look(b);
    to->nln_given = m->nln_given = flag(b);
    to->nln = m->nln = m->nln_given ? take(b, 2) : 0;
    for (; flag(b); n++) {
        struct call c;
        refusal = read_call(b, &c);
        if (refusal)
            return refusal;
        ciphered += (c.bits & 15) != 0;
        described += c.description != 0;
        if (n >= 4)
            continue;
        put_call(&to->calls[n], &c);
        m->calls[n].bits = c.bits;
        m->calls[n].description = c.description;
        m->calls[n].frequencies = c.frequencies;
    }
    to->n_calls = m->n_calls = n;
    look(b);
    to->release_6 = release(b);
    if (to->release_6) {
        refusal = read_release_6(b, to, m);
        if (refusal)
            return refusal;
    }
    to->release_7 = release(b);
    if (to->release_7)
        read_release_7(b, to, m);
    to->used = b->at;
    if (m->n_random > ciphered + m->n_reduced)
        return RANDOM_ENTRIES;
    return m->n_marks > described ? EMERGENCY_MARKS : ACCEPTED;
}

/* Who is paged. The identity is one field. */
INLINE uint32_t read_page(struct bits *b, struct plain_page *to, struct page *p)
{
    unsigned n = (unsigned)take(b, 8);
    if (n - 1 > 8)
        return IDENTITY_LENGTH;
    ask(b, 0, 8 * n);
    p->bits = 0;
    keep(&to->identity_octets, &p->bits, IDENTITY_OCTETS, n);
    keep(&to->first_octet, &p->bits, FIRST_OCTET, take(b, 8));
    to->other_octets = p->other_octets = n > 1 ? take_long(b, 8 * (n - 1)) : 0;
    keep(&to->channel_first, &p->bits, CHANNEL_FIRST, take(b, 2));
    keep(&to->priority_given, &p->bits, PRIORITY_GIVEN, flag(b));
    to->priority = 0;
    if (to->priority_given)
        keep(&to->priority, &p->bits, PAGE_PRIORITY, take(b, 3));
    return ACCEPTED;
}

/* Both releases are in one window. */
INLINE void read_facch_releases(struct bits *b, struct plain_facch *to, struct facch *m)
{
    look(b);
    m->parts = m->random = 0;
    to->counted = to->cell_global_count = to->b22_count = to->rand_given = to->vstk_rand = 0;
    to->uplink_access = to->emergency = to->cause_given = to->cause = 0;
    to->release_6 = release(b);
    if (to->release_6) {
        b->ran_out = RAN_OUT_6;
        keep(&to->counted, &m->parts, COUNTED, flag(b));
        if (to->counted) {
            keep(&to->cell_global_count, &m->parts, CELL_GLOBAL_COUNT, take(b, 2));
            keep(&to->b22_count, &m->parts, B22_COUNT, flag(b));
        }
        keep(&to->rand_given, &m->random, RAND_GIVEN, flag(b));
        if (to->rand_given)
            keep(&to->vstk_rand, &m->random, 0, take(b, 36));
    }
    to->release_7 = release(b);
    if (to->release_7) {
        b->ran_out = RAN_OUT_7;
        m->parts |= 1 << UPLINK_GIVEN;
        keep(&to->uplink_access, &m->parts, UPLINK_ACCESS, high(b));
        keep(&to->emergency, &m->parts, EMERGENCY, high(b));
        keep(&to->cause_given, &m->parts, CAUSE_GIVEN, flag(b));
        if (to->cause_given)
            keep(&to->cause, &m->parts, CAUSE, flag(b));
    }
}

INLINE uint32_t read_facch_parts(struct bits *b, struct plain_facch *to, struct facch *m)
{
    uint32_t refusal;
    look(b);
    to->paging = m->paging = flag(b);
    m->call = (struct call){ 0, 0, 0 };
    if (m->paging) {
        refusal = read_page(b, &to->page, &m->page);
    } else {
        refusal = read_call(b, &m->call);
        put_call(&to->call, &m->call);
    }
    if (refusal)
        return refusal;
    read_facch_releases(b, to, m);
    to->used = b->at;
    return ACCEPTED;
}

/* ---- Readings, and what they ask where bits ran out ---- */

static __attribute__((noinline, cold)) uint32_t ask_nch(const uint64_t *words)
{
    struct plain_nch record;
    struct nch m;
    struct bits b = { words, 0, 0, NCH_BITS, 1, RAN_OUT, 0 };
    read_nch_parts(&b, &record, &m);
    return b.missing;
}

static __attribute__((noinline, cold)) uint32_t ask_facch(const uint64_t *words, unsigned size)
{
    struct plain_facch record;
    struct facch m;
    struct bits b = { words, 0, 8, size, 1, RAN_OUT, 0 };
    read_facch_parts(&b, &record, &m);
    return b.missing;
}

INLINE uint32_t read_nch(const uint8_t *octets, size_t n, struct plain_nch *to, struct nch *m)
{
    if (n != NCH_OCTETS)
        return MESSAGE_LENGTH;
    const uint64_t words[WORDS] = { word_at(octets), word_at(octets + 8), word_at(octets + 12) << 32 };
    struct bits b = { words, 0, 0, NCH_BITS, 0, 0, 0 };
    uint32_t refusal = read_nch_parts(&b, to, m);
    return b.at <= NCH_BITS ? refusal : ask_nch(words) | RAN_OUT; /* that bit all three numbers have; so the compiler knows it is a refusal */
}

/* The octets as words; most messages are of as many octets as a frame has. */
INLINE void facch_words(uint64_t *words, const uint8_t *octets, size_t n)
{
    words[3] = words[4] = 0;
    if (n > 16) {
        words[0] = word_at(octets);
        words[1] = word_at(octets + 8);
        words[2] = word_at(octets + n - 8) << 8 * (24 - n);
        return;
    }
    words[0] = words[1] = words[2] = 0;
    for (size_t i = 0; i < n; i++)
        words[i / 8] |= (uint64_t)octets[i] << (56 - 8 * (i % 8));
}

INLINE uint32_t read_facch(const uint8_t *octets, size_t n, struct plain_facch *to, struct facch *m)
{
    if (n < FACCH_LEAST || n > FACCH_MOST)
        return MESSAGE_LENGTH;
    uint64_t words[WORDS];
    facch_words(words, octets, n);
    struct bits b = { words, 0, 8, 8 * (unsigned)n, 0, 0, 0 };
    uint32_t refusal = read_facch_parts(&b, to, m);
    return b.at <= b.size ? refusal : ask_facch(words, b.size) | RAN_OUT;
}

/* ---- Into records, and into arrays, which are records once they are clear; a refused reading is all zeros ---- */

static uint32_t read_nch_record(const uint8_t *octets, size_t n, struct plain_nch *to)
{
    struct nch unread;
    uint32_t refusal = read_nch(octets, n, to, &unread);
    if (refusal)
        memset(to, 0, sizeof *to);
    return refusal;
}

static uint32_t read_facch_record(const uint8_t *octets, size_t n, struct plain_facch *to)
{
    struct facch unread;
    uint32_t refusal = read_facch(octets, n, to, &unread);
    if (refusal)
        memset(to, 0, sizeof *to);
    return refusal;
}

/* As many numbers as the lent array has places, which are clear. */
static void hand_over(const void *all, size_t n_all, uint64_t *numbers, size_t n_numbers)
{
    memcpy(numbers, all, (n_all < n_numbers ? n_all : n_numbers) * sizeof *numbers);
}

static uint32_t read_nch_numbers(const uint8_t *octets, size_t n, uint64_t *numbers, size_t n_numbers)
{
    memset(numbers, 0, n_numbers * sizeof *numbers);
    if (n_numbers >= NCH_NUMBERS)
        return read_nch_record(octets, n, (struct plain_nch *)(void *)numbers);
    struct plain_nch all = { 0 };
    uint32_t refusal = read_nch_record(octets, n, &all);
    hand_over(&all, NCH_NUMBERS, numbers, n_numbers);
    return refusal;
}

static uint32_t read_facch_numbers(const uint8_t *octets, size_t n, uint64_t *numbers, size_t n_numbers)
{
    memset(numbers, 0, n_numbers * sizeof *numbers);
    if (n_numbers >= FACCH_NUMBERS)
        return read_facch_record(octets, n, (struct plain_facch *)(void *)numbers);
    struct plain_facch all = { 0 };
    uint32_t refusal = read_facch_record(octets, n, &all);
    hand_over(&all, FACCH_NUMBERS, numbers, n_numbers);
    return refusal;
}
