/* The plain writers: one pass over the numbers, in which every ground of refusal is noted and the form is put together in 64-bit words; the octets are written last. Part of plain.c. */

/* The longest form has 1,076 bits, and two words of padding are put behind any. */
enum { FORM_WORDS = 20 };
#define PADDING 0x2B2B2B2B2B2B2B2B

struct pen {
    uint64_t word;      /* the last bits; above them stands what is in words already */
    unsigned filled, n; /* how many of them, up to 63; how many words before them */
    uint64_t words[FORM_WORDS];
};

/* What speaks against writing: bits of numbers that their fields cannot hold, or of what should be absent; and a bit for each other refusal. */
struct grounds {
    uint64_t range;
    uint32_t others;
};

/* Nothing but so many zeros before the form; the words are written before they are looked at. */
INLINE void begin(struct pen *p, unsigned zeros)
{
    p->word = 0;
    p->filled = zeros;
    p->n = 0;
}

/* The low n bits of a number that has no more, 0 to 63. */
INLINE void put(struct pen *p, uint64_t x, unsigned n)
{
    unsigned room = 64 - p->filled;
    if (n < room) {
        p->word = p->word << n | x;
        p->filled += n;
    } else {
        p->filled = n - room;
        p->words[p->n++] = p->word << room | x >> p->filled;
        p->word = x;
    }
}

/* So many octets, 1 to 8. */
INLINE void put_octets(struct pen *p, uint64_t x, unsigned n)
{
    if (n > 4) {
        put(p, x >> 32, 8 * (n - 4));
        x = (uint32_t)x;
        n = 4;
    }
    put(p, x, 8 * n);
}

INLINE unsigned place_of(const struct pen *p)
{
    return 64 * p->n + p->filled;
}

/* Small fields are gathered, up to 63 bits of them, and put as one. */
struct run {
    uint64_t bits;
    unsigned from, n; /* the place where they will stand, and how many they are */
};

INLINE struct run gather(const struct pen *p)
{
    return (struct run){ 0, place_of(p), 0 };
}

INLINE void add(struct run *r, uint64_t x, unsigned n)
{
    r->bits = r->bits << n | x;
    r->n += n;
}

/* H for 1, L for 0. */
INLINE void add_high(struct run *r, uint64_t high)
{
    add(r, (0x2B >> (7 - ((r->from + r->n) & 7)) ^ high) & 1, 1);
}

/* A release's own bit; nothing where it is absent and all bits are used. */
INLINE void add_release(struct run *r, uint64_t given, unsigned size)
{
    if (given || r->from + r->n != size)
        add_high(r, given);
}

/* A flag and, where it is 1, a field of n bits; without it the field is absent. */
INLINE void add_flagged(struct run *r, struct grounds *g, uint64_t given, uint64_t x, unsigned n)
{
    if (given) {
        g->range |= given >> 1 | x >> n;
        add(r, 1ull << n | x, n + 1);
    } else {
        g->range |= x;
        add(r, 0, 1);
    }
}

/* A list of frequencies, or none. */
INLINE void put_list(struct pen *p, struct grounds *g, const struct plain_call *c)
{
    uint64_t n = c->allocation_octets;
    if (!c->hops) {
        g->range |= c->short_list | n | c->frequencies;
    } else if (c->short_list) {
        g->range |= c->short_list >> 1 | n;
        put(p, 1, 1);
        put_octets(p, c->frequencies, 8);
    } else if (n - 1 > 7) {
        g->range |= n ? n >> 8 : c->frequencies;
        g->others |= 1 << ALLOCATION_LENGTH;
    } else {
        g->range |= n < 8 ? c->frequencies >> 8 * n : 0;
        put(p, n, 9);
        put_octets(p, c->frequencies, (unsigned)n);
    }
}

/* A call behind one bit: its own flag in a list, or that it is no page. */
INLINE void put_written_call(struct pen *p, struct grounds *g, const struct plain_call *c, uint64_t before)
{
    uint64_t v = before << 36 | c->reference << 9 | c->vgcs << 8 | c->acknowledged << 7 | c->priority << 4 | c->cipher_key_number;
    g->range |= c->reference >> 27 | (c->vgcs | c->acknowledged | c->described) >> 1 | c->priority >> 3 | c->cipher_key_number >> 4;
    g->others |= (uint32_t)(c->reference > LAST_REFERENCE) << REFERENCE;
    if (!c->described) {
        g->range |= c->channel | c->hops | c->short_list | c->allocation_octets | c->frequencies;
        put(p, v << 1, 38);
        return;
    }
    g->range |= c->channel >> 24 | c->hops >> 1;
    g->others |= (uint32_t)((c->channel >> 12 ^ c->hops) & 1) << HOPPING;
    put(p, v << 26 | 1 << 25 | c->channel << 1 | c->hops, 63);
    put_list(p, g, c);
}

/* What stands in so many numbers that should be zeros, two at a time. */
INLINE uint64_t any(const void *at, size_t n)
{
    typedef uint64_t pair __attribute__((vector_size(16), aligned(8), may_alias));
    const pair *from = at, *eights = from + n / 8 * 4, *twos = from + n / 2;
    pair x = { 0, 0 };
    for (; from != eights; from += 4)
        x |= from[0] | from[1] | from[2] | from[3];
    for (; from != twos; from++)
        x |= *from;
    return x[0] | x[1] | (n & 1 ? *(const uint64_t *)(const void *)from : 0);
}

/* How many numbers stand between two fields of a record. */
#define FROM_TO(record, one, other) ((offsetof(struct record, other) - offsetof(struct record, one)) / sizeof(uint64_t))

/* The first ground in the writers' order: 12, 4, 3, 8, 5, 6, 7. */
static uint32_t first_ground(const struct grounds *g)
{
    static const uint8_t order[] = { REFERENCE, ALLOCATION_LENGTH, IDENTITY_LENGTH, HOPPING, RANDOM_ENTRIES, EMERGENCY_MARKS };
    if (g->range)
        return RANGE;
    for (unsigned i = 0; i < sizeof order; i++)
        if (g->others >> order[i] & 1)
            return order[i];
    return ACCEPTED;
}

/* Padding behind the form, to the end of three words. */
INLINE void put_padding(struct pen *p)
{
    uint64_t *last = &p->words[p->n];
    last[0] = p->word << 1 << (63 - p->filled) | (PADDING & ~0ull >> p->filled);
    last[1] = last[2] = PADDING;
}

INLINE void store_word(uint8_t *to, uint64_t w)
{
#if __BYTE_ORDER__ == __ORDER_LITTLE_ENDIAN__
    w = __builtin_bswap64(w);
#endif
    memcpy(to, &w, 8);
}

/* ---- NT/N Rest Octets. The flag that ends a list is put with what follows it. ---- */

INLINE void put_calls(struct pen *p, struct grounds *g, const struct plain_nch *m, uint64_t *ciphered, uint64_t *described)
{
    for (uint64_t i = 0; i < m->n_calls; i++) {
        const struct plain_call *c = &m->calls[i];
        put_written_call(p, g, c, 1);
        *ciphered += c->cipher_key_number != 0;
        *described += c->described;
    }
    g->range |= any(m->calls + m->n_calls, (4 - m->n_calls) * FROM_TO(plain_nch, calls[0], calls[1]));
}

INLINE void put_reduced(struct pen *p, struct grounds *g, const struct plain_nch *m)
{
    for (uint64_t i = 0; i < m->n_reduced; i++) {
        uint64_t reference = m->reduced[i].reference, vgcs = m->reduced[i].vgcs;
        g->range |= reference >> 27 | vgcs >> 1;
        g->others |= (uint32_t)(reference > LAST_REFERENCE) << REFERENCE;
        put(p, 1 << 28 | reference << 1 | vgcs, 29);
    }
    g->range |= any(m->reduced + m->n_reduced, (5 - m->n_reduced) * FROM_TO(plain_nch, reduced[0], reduced[1]));
}

/* The first one stands behind the flag that ends the reduced references. */
INLINE void put_random(struct pen *p, struct grounds *g, const struct plain_nch *m)
{
    struct run r = gather(p);
    add(&r, 0, 1);
    for (uint64_t i = 0; i < m->n_random; i++) {
        const struct plain_random *x = &m->random[i];
        g->range |= x->segment_id >> 1;
        add(&r, 2 | x->segment_id, 2);
        add_flagged(&r, g, x->given, x->vstk_rand, 36);
        put(p, r.bits, r.n);
        r = gather(p);
    }
    add(&r, 0, 1);
    put(p, r.bits, r.n);
    g->range |= any(m->random + m->n_random, (9 - m->n_random) * FROM_TO(plain_nch, random[0], random[1]));
}

INLINE void put_written_6(struct pen *p, struct grounds *g, const struct plain_nch *m)
{
    struct run r = gather(p);
    add(&r, 0, 1);
    add_release(&r, m->release_6, NCH_BITS);
    if (m->release_6) {
        g->range |= m->release_6 >> 1;
        add_flagged(&r, g, m->counted, m->cell_global_count, 2);
        put(p, r.bits, r.n);
        put_reduced(p, g, m);
        put_random(p, g, m);
        return;
    }
    put(p, r.bits, r.n);
    g->range |= any((const char *)m + offsetof(struct plain_nch, counted), FROM_TO(plain_nch, counted, release_7));
}

INLINE void add_marks(struct run *r, struct grounds *g, const struct plain_nch *m)
{
    for (uint64_t i = 0; i < 4; i++) {
        g->range |= m->marks[i] >> (i < m->n_marks);
        if (i < m->n_marks)
            add(r, 2 | m->marks[i], 2);
    }
    add(r, 0, 1);
}

INLINE void put_written_7(struct pen *p, struct grounds *g, const struct plain_nch *m)
{
    uint64_t amr = m->fr_amr_given | m->fr_amr_config | m->hr_amr_given | m->hr_amr_config, sms = m->sms_confidentiality | m->sms_privacy;
    struct run r = gather(p);
    add_release(&r, m->release_7, NCH_BITS);
    if (m->release_7) {
        g->range |= m->release_7 >> 1 | sms >> 1;
        add_marks(&r, g, m);
        add_flagged(&r, g, m->uplink_given, m->uplink_access, 1);
        add(&r, m->amr, 1);
        g->range |= m->amr ? m->amr >> 1 : amr;
        if (m->amr) {
            add_flagged(&r, g, m->fr_amr_given, m->fr_amr_config, 4);
            add_flagged(&r, g, m->hr_amr_given, m->hr_amr_config, 4);
        }
        add_flagged(&r, g, m->sms, m->sms_confidentiality << 1 | m->sms_privacy, 2);
    } else {
        g->range |= m->n_marks | m->marks[0] | m->marks[1] | m->marks[2] | m->marks[3] | m->uplink_given | m->uplink_access | m->amr | amr | m->sms | sms;
    }
    put(p, r.bits, r.n);
}

static uint32_t write_nch(const uint64_t *numbers, size_t n_numbers, uint8_t *octets, size_t n)
{
    const struct plain_nch *m = (const struct plain_nch *)(const void *)numbers;
    struct pen p;
    struct grounds g = { 0, 0 };
    uint64_t ciphered = 0, described = 0;
    if (n_numbers != NCH_NUMBERS)
        return STATE_LENGTH;
    if (m->n_calls > 4 || m->n_reduced > 5 || m->n_random > 9 || m->n_marks > 4)
        return RANGE;
    begin(&p, 0);
    struct run r = gather(&p);
    add_flagged(&r, &g, m->nln_given, m->nln, 2);
    put(&p, r.bits, r.n);
    put_calls(&p, &g, m, &ciphered, &described);
    put_written_6(&p, &g, m);
    put_written_7(&p, &g, m);
    g.others |= (uint32_t)(m->n_random > ciphered + m->n_reduced) << RANDOM_ENTRIES | (uint32_t)(m->n_marks > described) << EMERGENCY_MARKS;
    if (g.range || g.others)
        return first_ground(&g);
    if (n != NCH_OCTETS || place_of(&p) > NCH_BITS)
        return FORM_SIZE;
    put_padding(&p);
    store_word(octets, p.words[0]);
    store_word(octets + 8, p.words[1]);
    store_word(octets + 12, p.words[1] << 32 | p.words[2] >> 32);
    return ACCEPTED;
}

/* ---- NOTIFICATION/FACCH ---- */

INLINE void put_written_page(struct pen *p, struct grounds *g, const struct plain_page *page)
{
    uint64_t n = page->identity_octets;
    g->range |= n ? n >> 8 | page->first_octet >> 8 : page->first_octet | page->other_octets;
    g->others |= (uint32_t)(n - 1 > 8) << IDENTITY_LENGTH;
    put(p, 1 << 16 | n << 8 | page->first_octet, 17);
    if (n > 1 && n < 10) {
        g->range |= n < 9 ? page->other_octets >> 8 * (n - 1) : 0;
        put_octets(p, page->other_octets, (unsigned)n - 1);
    } else if (n == 1) {
        g->range |= page->other_octets;
    }
    struct run r = gather(p);
    g->range |= page->channel_first >> 2;
    add(&r, page->channel_first, 2);
    add_flagged(&r, g, page->priority_given, page->priority, 3);
    put(p, r.bits, r.n);
}

INLINE void put_written_releases(struct pen *p, struct grounds *g, const struct plain_facch *m, unsigned size)
{
    struct run r = gather(p);
    add_release(&r, m->release_6, size);
    if (m->release_6) {
        g->range |= m->release_6 >> 1 | m->b22_count >> 1 | m->cell_global_count >> 2;
        add_flagged(&r, g, m->counted, m->cell_global_count << 1 | m->b22_count, 3);
        add_flagged(&r, g, m->rand_given, m->vstk_rand, 36);
    } else {
        g->range |= m->counted | m->cell_global_count | m->b22_count | m->rand_given | m->vstk_rand;
    }
    add_release(&r, m->release_7, size);
    if (m->release_7) {
        g->range |= (m->release_7 | m->uplink_access | m->emergency) >> 1;
        add_high(&r, m->uplink_access);
        add_high(&r, m->emergency);
        add_flagged(&r, g, m->cause_given, m->cause, 1);
    } else {
        g->range |= m->uplink_access | m->emergency | m->cause_given | m->cause;
    }
    put(p, r.bits, r.n);
}

/* The padded form as octets, which are at least 2. */
INLINE void store_facch(const struct pen *p, uint8_t *octets, size_t n)
{
    if (n > 16) {
        unsigned beyond = 8 * (24 - (unsigned)n);
        store_word(octets, p->words[0]);
        store_word(octets + 8, p->words[1]);
        store_word(octets + n - 8, p->words[1] << (64 - beyond) | p->words[2] >> beyond);
        return;
    }
    for (size_t i = 0; i < n; i++)
        octets[i] = (uint8_t)(p->words[i / 8] >> (56 - 8 * (i % 8)));
}

static uint32_t write_facch(const uint64_t *numbers, size_t n_numbers, uint8_t *octets, size_t n)
{
    const struct plain_facch *m = (const struct plain_facch *)(const void *)numbers;
    struct pen p;
    struct grounds g = { 0, 0 };
    if (n_numbers != FACCH_NUMBERS)
        return STATE_LENGTH;
    begin(&p, 8); /* the first octet is 0 */
    if (m->paging) {
        g.range = m->paging >> 1 | any(&m->call, FROM_TO(plain_facch, call, page));
        put_written_page(&p, &g, &m->page);
    } else {
        g.range = m->page.identity_octets | m->page.first_octet | m->page.other_octets | m->page.channel_first | m->page.priority_given | m->page.priority;
        put_written_call(&p, &g, &m->call, 0);
    }
    put_written_releases(&p, &g, m, 8 * (unsigned)n);
    if (g.range || g.others)
        return first_ground(&g);
    if (n < FACCH_LEAST || n > FACCH_MOST || place_of(&p) > 8 * n)
        return FORM_SIZE;
    put_padding(&p);
    store_facch(&p, octets, n);
    return ACCEPTED;
}
