/* The same readers in the style of bit vectors: octets and a cursor, every field gathered one bit at a time, as the protocol stacks of this field do it.
 * Held beside the library's readers only; the functions on the vector are kept out of line, since in those stacks they stand in a library. */
#include "plain.h"

#include <stdbool.h>
#include <string.h>

enum { ACCEPTED, MESSAGE_LENGTH, RAN_OUT, ALLOCATION_LENGTH, REFERENCE, HOPPING, RANDOM_ENTRIES, EMERGENCY_MARKS, IDENTITY_LENGTH, RAN_OUT_6 = 14, RAN_OUT_7 };

struct bit_vector {
    const uint8_t *data;
    size_t n;      /* octets */
    size_t cursor; /* the next bit */
    bool short_of; /* bits ran out */
    uint32_t ran_out; /* what is then told: the number, by the part of the message, and, once they did, the bit where the missing field begins */
};

static unsigned bit_at(const struct bit_vector *v, size_t at)
{
    return v->data[at / 8] >> (7 - at % 8) & 1u;
}

/* Whether a field of n bits is not there; the first such field is told. */
static bool lacks(struct bit_vector *v, unsigned n)
{
    if (v->cursor + n > 8 * v->n && !v->short_of) {
        v->short_of = true;
        v->ran_out |= (uint32_t)v->cursor << 8;
    }
    return v->short_of;
}

/* The next n bits as one number; 0 once bits ran out. */
__attribute__((noinline)) static uint64_t get_field(struct bit_vector *v, unsigned n)
{
    uint64_t x = 0;
    if (lacks(v, n))
        return 0;
    for (unsigned i = 0; i < n; i++)
        x = x << 1 | bit_at(v, v->cursor++);
    return x;
}

/* The next bit, 1 where it is H. */
__attribute__((noinline)) static unsigned get_high(struct bit_vector *v)
{
    unsigned padding = 0x2B >> (7 - v->cursor % 8) & 1;
    return (unsigned)get_field(v, 1) != padding;
}

static bool at_end(const struct bit_vector *v)
{
    return v->cursor == 8 * v->n;
}

static uint32_t get_call(struct bit_vector *v, struct plain_call *c)
{
    if (lacks(v, 36)) /* one field, of five numbers */
        return v->ran_out;
    c->reference = (uint32_t)get_field(v, 27);
    c->vgcs = (uint8_t)get_field(v, 1);
    c->acknowledged = (uint8_t)get_field(v, 1);
    c->priority = (uint8_t)get_field(v, 3);
    c->cipher_key_number = (uint8_t)get_field(v, 4);
    if (c->reference > 99999999)
        return REFERENCE;
    c->described = (uint8_t)get_field(v, 1);
    if (!c->described)
        return v->short_of ? v->ran_out : ACCEPTED;
    c->channel = (uint32_t)get_field(v, 24);
    c->hops = (uint8_t)get_field(v, 1);
    if (v->short_of)
        return v->ran_out;
    if ((c->channel >> 12 & 1) != c->hops)
        return HOPPING;
    if (!c->hops)
        return ACCEPTED;
    c->short_list = (uint8_t)get_field(v, 1);
    if (v->short_of)
        return v->ran_out;
    if (c->short_list) {
        c->frequencies = get_field(v, 64);
    } else {
        c->allocation_octets = (uint8_t)get_field(v, 8);
        if (v->short_of)
            return v->ran_out;
        if (c->allocation_octets < 1 || c->allocation_octets > 8)
            return ALLOCATION_LENGTH;
        c->frequencies = get_field(v, 8u * c->allocation_octets);
    }
    return v->short_of ? v->ran_out : ACCEPTED;
}

static uint32_t get_release_6(struct bit_vector *v, struct plain_nch *m)
{
    m->release_6 = 1;
    v->ran_out = RAN_OUT_6;
    m->counted = (uint8_t)get_field(v, 1);
    if (m->counted)
        m->cell_global_count = (uint8_t)get_field(v, 2);
    while (get_field(v, 1)) {
        if (lacks(v, 28))
            return v->ran_out;
        uint32_t reference = (uint32_t)get_field(v, 27), vgcs = (uint32_t)get_field(v, 1);
        if (reference > 99999999)
            return REFERENCE;
        m->reduced[m->n_reduced++] = (struct plain_reduced){ reference, vgcs };
    }
    while (get_field(v, 1)) {
        struct plain_random x = { 0, 0, 0 };
        x.segment_id = (uint8_t)get_field(v, 1);
        x.given = (uint8_t)get_field(v, 1);
        if (x.given)
            x.vstk_rand = get_field(v, 36);
        if (m->n_random < 9)
            m->random[m->n_random] = x;
        m->n_random++;
    }
    return v->short_of ? v->ran_out : ACCEPTED;
}

static uint32_t get_release_7(struct bit_vector *v, struct plain_nch *m)
{
    m->release_7 = 1;
    v->ran_out = RAN_OUT_7;
    while (get_field(v, 1)) {
        uint8_t mark = (uint8_t)get_field(v, 1);
        if (m->n_marks < 4)
            m->marks[m->n_marks] = mark;
        m->n_marks++;
    }
    m->uplink_given = (uint8_t)get_field(v, 1);
    if (m->uplink_given)
        m->uplink_access = (uint8_t)get_field(v, 1);
    m->amr = (uint8_t)get_field(v, 1);
    if (m->amr) {
        m->fr_amr_given = (uint8_t)get_field(v, 1);
        if (m->fr_amr_given)
            m->fr_amr_config = (uint8_t)get_field(v, 4);
        m->hr_amr_given = (uint8_t)get_field(v, 1);
        if (m->hr_amr_given)
            m->hr_amr_config = (uint8_t)get_field(v, 4);
    }
    m->sms = (uint8_t)get_field(v, 1);
    if (m->sms) {
        m->sms_confidentiality = (uint8_t)get_field(v, 1);
        m->sms_privacy = (uint8_t)get_field(v, 1);
    }
    return v->short_of ? v->ran_out : ACCEPTED;
}

static uint32_t get_nch_parts(struct bit_vector *v, struct plain_nch *m)
{
    unsigned ciphered = 0, described = 0;
    uint32_t refusal;
    m->nln_given = (uint8_t)get_field(v, 1);
    if (m->nln_given)
        m->nln = (uint8_t)get_field(v, 2);
    while (get_field(v, 1)) {
        struct plain_call c = { 0 };
        refusal = get_call(v, &c);
        if (refusal)
            return refusal;
        ciphered += c.cipher_key_number != 0;
        described += c.described;
        m->calls[m->n_calls++] = c;
    }
    if (v->short_of)
        return v->ran_out;
    if (!at_end(v) && get_high(v) && (refusal = get_release_6(v, m)) != 0)
        return refusal;
    if (!at_end(v) && get_high(v) && (refusal = get_release_7(v, m)) != 0)
        return refusal;
    m->used = (uint8_t)v->cursor;
    if (m->n_random > ciphered + m->n_reduced)
        return RANDOM_ENTRIES;
    return m->n_marks > described ? EMERGENCY_MARKS : ACCEPTED;
}

static uint32_t get_nch(const uint8_t *octets, size_t n, struct plain_nch *m)
{
    memset(m, 0, sizeof *m);
    if (n != 20)
        return MESSAGE_LENGTH;
    struct bit_vector v = { octets, n, 0, false, RAN_OUT };
    uint32_t refusal = get_nch_parts(&v, m);
    if (refusal)
        memset(m, 0, sizeof *m);
    return refusal;
}

static uint32_t get_page(struct bit_vector *v, struct plain_page *p)
{
    p->identity_octets = (uint8_t)get_field(v, 8);
    if (v->short_of)
        return v->ran_out;
    if (p->identity_octets < 1 || p->identity_octets > 9)
        return IDENTITY_LENGTH;
    if (lacks(v, 8u * p->identity_octets)) /* one field */
        return v->ran_out;
    p->first_octet = (uint8_t)get_field(v, 8);
    p->other_octets = get_field(v, 8u * (p->identity_octets - 1u));
    p->channel_first = (uint8_t)get_field(v, 2);
    p->priority_given = (uint8_t)get_field(v, 1);
    if (p->priority_given)
        p->priority = (uint8_t)get_field(v, 3);
    return v->short_of ? v->ran_out : ACCEPTED;
}

static uint32_t get_facch_parts(struct bit_vector *v, struct plain_facch *m)
{
    m->paging = (uint8_t)get_field(v, 1);
    uint32_t refusal = m->paging ? get_page(v, &m->page) : get_call(v, &m->call);
    if (refusal)
        return refusal;
    if (!at_end(v) && get_high(v)) {
        m->release_6 = 1;
        v->ran_out = RAN_OUT_6;
        m->counted = (uint8_t)get_field(v, 1);
        if (m->counted) {
            m->cell_global_count = (uint8_t)get_field(v, 2);
            m->b22_count = (uint8_t)get_field(v, 1);
        }
        m->rand_given = (uint8_t)get_field(v, 1);
        if (m->rand_given)
            m->vstk_rand = get_field(v, 36);
    }
    if (v->short_of)
        return v->ran_out;
    if (!at_end(v) && get_high(v)) {
        m->release_7 = 1;
        v->ran_out = RAN_OUT_7;
        m->uplink_access = (uint8_t)get_high(v);
        m->emergency = (uint8_t)get_high(v);
        m->cause_given = (uint8_t)get_field(v, 1);
        if (m->cause_given)
            m->cause = (uint8_t)get_field(v, 1);
    }
    m->used = (uint8_t)v->cursor;
    return v->short_of ? v->ran_out : ACCEPTED;
}

static uint32_t get_facch(const uint8_t *octets, size_t n, struct plain_facch *m)
{
    memset(m, 0, sizeof *m);
    if (n < 2 || n > 23)
        return MESSAGE_LENGTH;
    struct bit_vector v = { octets, n, 8, false, RAN_OUT };
    uint32_t refusal = get_facch_parts(&v, m);
    if (refusal)
        memset(m, 0, sizeof *m);
    return refusal;
}

const struct readers bitwise_readers = { get_nch, get_facch };
