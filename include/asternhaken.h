/* Asternhaken: notifications of group calls (VGCS, VBS) in a GSM cell, read and followed.
 *
 * One lent state of ASTERNHAKEN_STATE_LENGTH octets is a receiver. Fill it with asternhaken_setup, then hand it each event as it comes:
 *
 *     uint8_t state[ASTERNHAKEN_STATE_LENGTH];
 *     uint32_t keys[2] = { ASTERNHAKEN_KEY(1234, 0), ASTERNHAKEN_KEY(1234, 1) }; // in rising order
 *     uint32_t sets[2] = { 0, ASTERNHAKEN_GROUP_KEY(3) | ASTERNHAKEN_GROUP_KEY(4) }; // the group keys that are held for each
 *     uint32_t result = asternhaken_setup(state, sizeof state, keys, 2, sets, 2, tick, ASTERNHAKEN_T3206, ASTERNHAKEN_T3208, ASTERNHAKEN_T3210);
 *     ...
 *     result = asternhaken_nch(state, sizeof state, tick, octets, 20);
 *     if (ASTERNHAKEN_REFUSAL(result) == ASTERNHAKEN_ACCEPTED) {
 *         uint64_t count;
 *         struct asternhaken_entry entry;
 *         asternhaken_read(state, sizeof state, 0, ASTERNHAKEN_PART_ENTRY_COUNT, &count);
 *         for (uint32_t i = 0; i < count; i++) asternhaken_entry_get(state, sizeof state, i, &entry), show(entry.key, entry.told, entry.record.channel);
 *     }
 *
 * Every function answers for every input; nothing has to be checked before a call. No pointer may be null, not even to lend nothing; lent memory must be
 * as long as the length beside it says, and what one call lends to be written must not overlap anything else lent to it. Nothing is kept between calls
 * but what stands in the state, so each state may be used by a thread of its own, and a state may be copied, saved and sent.
 *
 * Every function that is lent something, but for asternhaken_is_set_up, asternhaken_identity_octet and the two traces, answers with a refusal number in the low octet of its result, and ASTERNHAKEN_ACCEPTED (0)
 * where it refuses nothing. Where bits ran out (2, 14, 15), the number of the bit where the missing field begins stands above it, else 0: take the two apart with
 * ASTERNHAKEN_REFUSAL(result) and ASTERNHAKEN_BIT(result). A refused event leaves every octet of the state as it was, the clock included. The octets of the state are laid out in docs/STATE.md; docs/C-API.md tells a host's programmer the rest.
 *
 * Names: ASTERNHAKEN_REFUSED_ is a refusal number, ASTERNHAKEN_TOLD_ a told number, ASTERNHAKEN_FOLLOW_ says whether a call can be followed, ASTERNHAKEN_PART_ is a part for
 * asternhaken_read, ASTERNHAKEN_PCH_ a number of a PCH entry; of a page, ASTERNHAKEN_IDENTITY_ is a kind of identity, ASTERNHAKEN_CHANNEL_FIRST_ and ASTERNHAKEN_PAGED_FOR_ are what is wanted; ASTERNHAKEN_UPLINK_ is of the uplink; ASTERNHAKEN_FIELD_ is a kind of field of a trace.
 * A flag that says whether something is there ends in _GIVEN, or _given: channel_given stands beside channel. What is not there is 0.
 * Each struct is made of uint64_t alone and has the layout of the array of numbers that it stands for; get, put, decode and encode are for structs, read, write and numbers for arrays. */
#ifndef ASTERNHAKEN_H
#define ASTERNHAKEN_H

#include <stddef.h>
#include <stdint.h>

/* A result that must not be ignored, where the compiler can be told. */
#if (defined __cplusplus && __cplusplus >= 201703L) || (defined __STDC_VERSION__ && __STDC_VERSION__ >= 202311L)
#define ASTERNHAKEN_MUST_USE [[nodiscard]]
#elif defined __GNUC__
#define ASTERNHAKEN_MUST_USE __attribute__((warn_unused_result))
#else
#define ASTERNHAKEN_MUST_USE
#endif

/* A struct has the size of so many numbers, or the header does not compile. */
#if defined __cplusplus && __cplusplus >= 201103L
#define ASTERNHAKEN_SIZE_(name, numbers) static_assert(sizeof(struct name) == (numbers) * sizeof(uint64_t), "struct " #name)
#elif defined __STDC_VERSION__ && __STDC_VERSION__ >= 201112L
#define ASTERNHAKEN_SIZE_(name, numbers) _Static_assert(sizeof(struct name) == (numbers) * sizeof(uint64_t), "struct " #name)
#else
#define ASTERNHAKEN_SIZE_(name, numbers) typedef char name##_size_[sizeof(struct name) == (numbers) * sizeof(uint64_t) ? 1 : -1]
#endif

/* A struct as the array of its numbers. */
#ifdef __cplusplus
#define ASTERNHAKEN_AS_(type, pointer) reinterpret_cast<type *>(pointer)
#else
#define ASTERNHAKEN_AS_(type, pointer) ((type *)(pointer))
#endif

#ifdef __cplusplus
extern "C" {
#endif

/* The version of this header, in three numbers. Everything else that names a version follows from them: the text, the number, the library's file names, the pkg-config file. */
#define ASTERNHAKEN_VERSION_MAJOR 0
#define ASTERNHAKEN_VERSION_MINOR 4
#define ASTERNHAKEN_VERSION_PATCH 0
#define ASTERNHAKEN_VERSION_NUMBER (ASTERNHAKEN_VERSION_MAJOR * 10000 + ASTERNHAKEN_VERSION_MINOR * 100 + ASTERNHAKEN_VERSION_PATCH)
#define ASTERNHAKEN_VERSION ASTERNHAKEN_TEXT_(ASTERNHAKEN_VERSION_MAJOR, ASTERNHAKEN_VERSION_MINOR, ASTERNHAKEN_VERSION_PATCH) /* as "1.2.3" */
#define ASTERNHAKEN_TEXT_(major, minor, patch) ASTERNHAKEN_DOTS_(major, minor, patch)
#define ASTERNHAKEN_DOTS_(major, minor, patch) #major "." #minor "." #patch

/* The number of the library that is linked; that of the header is ASTERNHAKEN_VERSION_NUMBER. */
uint32_t asternhaken_version(void);

/* Sizes and limits. */
#define ASTERNHAKEN_STATE_LENGTH 10256 /* octets of the lent state */
#define ASTERNHAKEN_KEYS 50            /* subscriptions at most */
#define ASTERNHAKEN_LOOKS 6            /* keys that a key is compared with at most, where there are so many */
#define ASTERNHAKEN_ENTRIES 9          /* entries of one message at most */
#define ASTERNHAKEN_PARTS 46           /* parts for asternhaken_read, from 0 */
#define ASTERNHAKEN_LONGEST 60000      /* ms: the longest timer; the shortest is 1 */
#define ASTERNHAKEN_T3206 10000        /* ms: how long an NCH half is kept, unless the setup says another time */
#define ASTERNHAKEN_T3208 5000         /* ms: the same for a FACCH half */
#define ASTERNHAKEN_T3210 5000         /* ms: the same for a PCH half */
#define ASTERNHAKEN_LAST_KEY 199999999
#define ASTERNHAKEN_LAST_GROUP_KEY 15  /* the highest number of a group key; the lowest is 1 */
#define ASTERNHAKEN_NCH_LENGTH 20      /* octets of an NCH message */
#define ASTERNHAKEN_FACCH_SHORTEST 2   /* octets of a FACCH message */
#define ASTERNHAKEN_FACCH_LONGEST 23
#define ASTERNHAKEN_IDENTITY_LONGEST 9 /* octets of a mobile identity; the fewest are 1 */
#define ASTERNHAKEN_PCH_NUMBERS 14     /* numbers of a PCH entry */
#define ASTERNHAKEN_RECORD_NUMBERS 30  /* numbers of a record: the parts from ASTERNHAKEN_PART_CALL_REFERENCE to ASTERNHAKEN_PART_HR_AMR_CONFIG */
#define ASTERNHAKEN_ENTRY_NUMBERS 34   /* numbers of an entry of an answer: the parts from ASTERNHAKEN_PART_KEY to ASTERNHAKEN_PART_KEPT_COUNT */
#define ASTERNHAKEN_PAGE_NUMBERS 6     /* numbers of a page: the parts from ASTERNHAKEN_PART_IDENTITY_OCTETS to ASTERNHAKEN_PART_EMLPP_PRIORITY */
#define ASTERNHAKEN_PAGED_NUMBERS 9    /* numbers of who is paged: the parts from ASTERNHAKEN_PART_PAGED on */
#define ASTERNHAKEN_HELD_NUMBERS 34    /* numbers of a half that is held */
#define ASTERNHAKEN_NEVER 4294967295u  /* ms: no half is held, and none will run out */
#define ASTERNHAKEN_UPLINK_LENGTH 16   /* octets of the uplink's own lent state */
#define ASTERNHAKEN_UPLINK_FREE 480    /* ms: the uplink is free for less than so long after a "free" */
#define ASTERNHAKEN_YARD_LENGTH 10896  /* octets of the lent state of a yard set: a receiver's, and the places of its calls */
#define ASTERNHAKEN_YARD_KEYS 8        /* subscriptions of a yard set at most */
#define ASTERNHAKEN_YARD_SHOWN 30000   /* ms: how long a yard set shows a call that is not told complete again */
#define ASTERNHAKEN_YARD_CALL_NUMBERS 35 /* numbers of a call that a yard set shows */

/* A subscription's key: the reference (at most 99,999,999) times 2 plus the service flag, 1 for VGCS and 0 for VBS. */
#define ASTERNHAKEN_KEY(reference, vgcs) ((uint32_t)(reference) * 2u + (uint32_t)(vgcs))

/* A set of group keys has bit n for the key of number n, 1 to 15: this is the set of one key, and | makes one of several. 0 is no key. */
#define ASTERNHAKEN_GROUP_KEY(n) ((uint32_t)1 << (n))

/* The refusal number of a result; the bit where the missing field begins, with 2, 14 and 15, else 0. Bits are numbered from 0, the top bit of the first octet. */
#define ASTERNHAKEN_REFUSAL(result) ((result) & 255u)
#define ASTERNHAKEN_BIT(result) ((result) >> 8)

enum asternhaken_refusal {
    ASTERNHAKEN_ACCEPTED = 0,
    ASTERNHAKEN_REFUSED_MESSAGE_LENGTH = 1,    /* an NCH message not of 20 octets, a FACCH message not of 2 to 23 */
    ASTERNHAKEN_REFUSED_RAN_OUT = 2,           /* the bits ran out before the releases */
    ASTERNHAKEN_REFUSED_ALLOCATION_LENGTH = 3, /* a mobile allocation's length is not 1 to 8 */
    ASTERNHAKEN_REFUSED_REFERENCE = 4,         /* a reference above 99,999,999, in a message or a call reference element; a key above 199,999,999, joined or on the PCH */
    ASTERNHAKEN_REFUSED_HOPPING = 5,           /* the hopping bit is unlike the hopping flag */
    ASTERNHAKEN_REFUSED_RANDOM_ENTRIES = 6,    /* NCH: more random entries than ciphered calls, reduced references included */
    ASTERNHAKEN_REFUSED_EMERGENCY_MARKS = 7,   /* NCH: more emergency marks than described calls */
    ASTERNHAKEN_REFUSED_IDENTITY_LENGTH = 8,   /* FACCH: the length of the mobile identity that is paged is not 1 to 9 */
    ASTERNHAKEN_REFUSED_CLOCK = 9,             /* a clock step of 2^31 ms or more: after such a pause, set up anew */
    ASTERNHAKEN_REFUSED_SETUP = 10,            /* over 50 keys (a yard set: over 8, or an odd one), a key above 199,999,999, keys that do not strictly rise, a timer outside 1 to 60,000 (T3128 too), not one set of group keys for each key, a number in it that is not 1 to 15 */
    ASTERNHAKEN_REFUSED_FORM_SIZE = 11,        /* a written form over 160 bits, or a write buffer not of the form's exact size; FACCH: a write buffer not of 2 to 23 octets, or too small for the form */
    ASTERNHAKEN_REFUSED_RANGE = 12,            /* a field out of its range; to write, anything but zero in an absent part or an unused place; PCH: parts that do not fit each other; a bit 22 above 1 */
    ASTERNHAKEN_REFUSED_LENGTH = 13,           /* an element, an array to write, a PCH entry or a lent state of a wrong length; a cause that never ends */
    ASTERNHAKEN_REFUSED_RAN_OUT_6 = 14,        /* the bits ran out inside Release 6 */
    ASTERNHAKEN_REFUSED_RAN_OUT_7 = 15,        /* the bits ran out inside Release 7 */
    ASTERNHAKEN_REFUSED_NOT_FOR_YARD = 19      /* a yard set takes no FACCH and PCH events, no handover, no reconfiguration and no leaving of idle mode; 16 to 18 are no refusals of these functions */
};

/* What an entry of a message is told. Only 1 to 3 carry a record, and only 2 and 3, the ciphered ones, say whether the call can be followed. */
enum asternhaken_told {
    ASTERNHAKEN_TOLD_NOT_OURS = 0,           /* its key is not subscribed */
    ASTERNHAKEN_TOLD_CLEAR = 1,              /* complete: not ciphered, with a channel */
    ASTERNHAKEN_TOLD_ONE_PIECE = 2,          /* complete: ciphered, with channel and VSTK_RAND in one message */
    ASTERNHAKEN_TOLD_JOINED = 3,             /* complete: the missing half came */
    ASTERNHAKEN_TOLD_HALF_STORED = 4,        /* one half, kept until the other comes or it is dropped */
    ASTERNHAKEN_TOLD_HALF_HELD = 5,          /* the same half again; the one held and its timer stay */
    ASTERNHAKEN_TOLD_NO_CHANNEL = 6,         /* a call without a channel, and no second half */
    ASTERNHAKEN_TOLD_UNUSABLE = 7,           /* any other case, or a half whose reference disagrees with the one held */
    ASTERNHAKEN_TOLD_SECOND_BEFORE_FIRST = 8 /* FACCH: a second half with no first one held; nothing is stored */
};

/* Whether a complete ciphered call can be followed: its group key first, then the cell's count. */
enum asternhaken_follow {
    ASTERNHAKEN_FOLLOW_NOT_SAID = 0,  /* beside every other told number than 2 and 3 */
    ASTERNHAKEN_FOLLOW_NO_KEY = 1,    /* its cipher key number is not in its subscription's set of group keys */
    ASTERNHAKEN_FOLLOW_NO_COUNT = 2,  /* no CELL_GLOBAL_COUNT of the cell is kept */
    ASTERNHAKEN_FOLLOW_WITH_COUNT = 3 /* it can be followed, with the kept count */
};

/* What became of the driver's request for the uplink. */
enum asternhaken_uplink {
    ASTERNHAKEN_UPLINK_NOTHING = 0,        /* nothing is to be told */
    ASTERNHAKEN_UPLINK_GRANTED = 1,        /* the driver may talk */
    ASTERNHAKEN_UPLINK_REJECTED = 2,       /* T3128 ran out */
    ASTERNHAKEN_UPLINK_WAITING = 3,        /* the uplink is not free, and T3128 was started */
    ASTERNHAKEN_UPLINK_ALREADY_WAITING = 4 /* a request waits already, and its T3128 runs on as it was */
};

/* Parts for asternhaken_read. What a part is not there for reads as 0. */
enum asternhaken_part {
    /* of the last accepted event; the entry is not looked at */
    ASTERNHAKEN_PART_EXPIRED = 0,     /* halves that ran out at this event */
    ASTERNHAKEN_PART_DROPPED = 1,     /* halves that the event itself dropped */
    ASTERNHAKEN_PART_ENTRY_COUNT = 2, /* its entries, 0 to 9; entries are numbered from 0 */
    /* of an entry */
    ASTERNHAKEN_PART_KEY = 3,  /* reference times 2 plus service flag */
    ASTERNHAKEN_PART_TOLD = 4, /* enum asternhaken_told */
    /* of its record, where it was told 1 to 3 */
    ASTERNHAKEN_PART_CALL_REFERENCE = 5,
    ASTERNHAKEN_PART_CHANNEL = 6,     /* Channel Description, 24 bits */
    ASTERNHAKEN_PART_FREQUENCIES = 7, /* the octets of a Mobile Allocation, the first the highest, or the 64 bits of a Frequency Short List, as one number */
    ASTERNHAKEN_PART_VSTK_RAND = 8,   /* 36 bits */
    /* flags, 0 or 1 */
    ASTERNHAKEN_PART_FULL = 9,           /* a full reference of 36 bits, not a reduced one */
    ASTERNHAKEN_PART_VGCS = 10,          /* the service flag: 1 VGCS, 0 VBS */
    ASTERNHAKEN_PART_ACKNOWLEDGED = 11,  /* the acknowledgement flag */
    ASTERNHAKEN_PART_CHANNEL_GIVEN = 12, /* a channel description is there */
    ASTERNHAKEN_PART_HOPS = 13,          /* the channel hops */
    ASTERNHAKEN_PART_SHORT_LIST = 14,    /* the frequencies are a short list, not a mobile allocation */
    ASTERNHAKEN_PART_SEGMENT_GIVEN = 15, /* a Segment Id is there */
    ASTERNHAKEN_PART_SEGMENT_ID = 16,
    ASTERNHAKEN_PART_RAND_GIVEN = 17,    /* a VSTK_RAND is there */
    ASTERNHAKEN_PART_EMERGENCY = 18,
    ASTERNHAKEN_PART_COUNT_GIVEN = 19,   /* a CELL_GLOBAL_COUNT is there */
    ASTERNHAKEN_PART_B22_COUNT = 20,
    ASTERNHAKEN_PART_UPLINK_GIVEN = 21,  /* a Priority Uplink Access is there */
    ASTERNHAKEN_PART_UPLINK_ACCESS = 22,
    ASTERNHAKEN_PART_AMR_GIVEN = 23,     /* AMR parts are there */
    ASTERNHAKEN_PART_FR_AMR_GIVEN = 24,
    ASTERNHAKEN_PART_HR_AMR_GIVEN = 25,
    ASTERNHAKEN_PART_SMS_GIVEN = 26,     /* the two SMS bits are there */
    ASTERNHAKEN_PART_SMS_CONFIDENTIALITY = 27,
    ASTERNHAKEN_PART_SMS_PRIVACY = 28,
    /* small numbers */
    ASTERNHAKEN_PART_PRIORITY = 29,          /* 0 to 7 */
    ASTERNHAKEN_PART_CIPHER_KEY_NUMBER = 30, /* 0 is not ciphered */
    ASTERNHAKEN_PART_ALLOCATION_OCTETS = 31, /* the octets of a Mobile Allocation, 1 to 8 */
    ASTERNHAKEN_PART_CELL_GLOBAL_COUNT = 32, /* 0 to 3, as it was sent */
    ASTERNHAKEN_PART_FR_AMR_CONFIG = 33,
    ASTERNHAKEN_PART_HR_AMR_CONFIG = 34,
    /* of an entry again, where it was told 2 or 3 */
    ASTERNHAKEN_PART_FOLLOW = 35,            /* enum asternhaken_follow */
    ASTERNHAKEN_PART_KEPT_COUNT = 36,        /* beside ASTERNHAKEN_FOLLOW_WITH_COUNT: the CELL_GLOBAL_COUNT that is kept of the cell, 0 to 3, as it stood behind this message */
    /* of the last accepted event again, where it was a FACCH message that pages a mobile station; the entry is not looked at */
    ASTERNHAKEN_PART_PAGED = 37,                /* 1, and 0 where nobody is paged */
    ASTERNHAKEN_PART_IDENTITY_OCTETS = 38,      /* the octets of the mobile identity, 1 to 9 */
    ASTERNHAKEN_PART_IDENTITY_FIRST = 39,       /* the first of them, whose low three bits are its kind, enum asternhaken_identity */
    ASTERNHAKEN_PART_IDENTITY_REST = 40,        /* the others as one number, the first of them the highest: of a TMSI the TMSI */
    ASTERNHAKEN_PART_CHANNEL_FIRST = 41,        /* the channel wanted, enum asternhaken_channel_first */
    ASTERNHAKEN_PART_EMLPP_PRIORITY_GIVEN = 42, /* an eMLPP priority is there */
    ASTERNHAKEN_PART_EMLPP_PRIORITY = 43,       /* 0 to 7 */
    ASTERNHAKEN_PART_PAGING_CAUSE_GIVEN = 44,   /* a Paging Cause is there; without one, a mobile terminating call is assumed */
    ASTERNHAKEN_PART_PAGING_CAUSE = 45          /* enum asternhaken_paging_cause */
};

/* The kinds of mobile identity, by the low three bits of the first octet (3GPP TS 24.008, 10.5.1.4). */
enum asternhaken_identity {
    ASTERNHAKEN_IDENTITY_NONE = 0,
    ASTERNHAKEN_IDENTITY_IMSI = 1,
    ASTERNHAKEN_IDENTITY_IMEI = 2,
    ASTERNHAKEN_IDENTITY_IMEISV = 3,
    ASTERNHAKEN_IDENTITY_TMSI = 4
};
#define ASTERNHAKEN_IDENTITY_KIND(first) ((first) & 7u)

/* The channel that a page wants first (Channel Needed, 3GPP TS 44.018, 10.5.2.8). */
enum asternhaken_channel_first {
    ASTERNHAKEN_CHANNEL_FIRST_ANY = 0,
    ASTERNHAKEN_CHANNEL_FIRST_SDCCH = 1,
    ASTERNHAKEN_CHANNEL_FIRST_TCH_F = 2,     /* full rate */
    ASTERNHAKEN_CHANNEL_FIRST_TCH_H_OR_F = 3 /* half or full rate */
};

/* What a mobile station is paged for. A Paging Cause that is absent is 0 as well: a call is then assumed. */
enum asternhaken_paging_cause {
    ASTERNHAKEN_PAGED_FOR_CALL = 0, /* a mobile terminating call */
    ASTERNHAKEN_PAGED_FOR_SHORT_MESSAGE = 1
};

/* The numbers of a PCH entry. What stands behind a flag of 0 is not looked at, nor is what the description does not use: behind a hopping flag of 0 the short list flag, the
 * length and the frequencies, beside a short list the length. */
enum asternhaken_pch_number {
    ASTERNHAKEN_PCH_KEY = 0,               /* reference times 2 plus service flag */
    ASTERNHAKEN_PCH_CIPHERED = 1,          /* flag; with a full reference, as its cipher key number says */
    ASTERNHAKEN_PCH_REFERENCE_GIVEN = 2,   /* a full reference is there: needed for a description */
    ASTERNHAKEN_PCH_REFERENCE = 3,         /* its 36 bits as one number: reference 27, service flag 1 (both as in the key), acknowledgement flag 1, priority 3, cipher key number 4 */
    ASTERNHAKEN_PCH_CHANNEL_GIVEN = 4,     /* a channel description is there */
    ASTERNHAKEN_PCH_CHANNEL = 5,           /* Channel Description, 24 bits; bit 11 as the hopping flag */
    ASTERNHAKEN_PCH_HOPS = 6,              /* the hopping flag */
    ASTERNHAKEN_PCH_SHORT_LIST = 7,        /* the frequencies are a short list, not a mobile allocation */
    ASTERNHAKEN_PCH_ALLOCATION_OCTETS = 8, /* the octets of a Mobile Allocation, 1 to 8 */
    ASTERNHAKEN_PCH_FREQUENCIES = 9,       /* the octets of a Mobile Allocation, the first the highest, or the 64 bits of a Frequency Short List, as one number */
    ASTERNHAKEN_PCH_RAND_GIVEN = 10,       /* a VSTK_RAND is there */
    ASTERNHAKEN_PCH_VSTK_RAND = 11,        /* 36 bits */
    ASTERNHAKEN_PCH_COUNT_GIVEN = 12,      /* a CELL_GLOBAL_COUNT is there */
    ASTERNHAKEN_PCH_CELL_GLOBAL_COUNT = 13 /* 0 to 3 */
};

/* The same numbers by name; asternhaken_pch_put hands such an entry in. */
struct asternhaken_pch_entry {
    uint64_t key, ciphered, reference_given, reference;
    uint64_t channel_given, channel, hops, short_list, allocation_octets, frequencies;
    uint64_t rand_given, vstk_rand, count_given, cell_global_count;
};
ASTERNHAKEN_SIZE_(asternhaken_pch_entry, ASTERNHAKEN_PCH_NUMBERS);

/* The parts of the last accepted event by name. */
struct asternhaken_answer {
    uint64_t expired, dropped, entry_count;
};

/* The parts of a record by name: where enum asternhaken_part has ASTERNHAKEN_PART_VSTK_RAND, it has vstk_rand, and in the same order. */
struct asternhaken_record {
    uint64_t call_reference, channel, frequencies, vstk_rand;
    uint64_t full, vgcs, acknowledged, channel_given, hops, short_list, segment_given, segment_id, rand_given, emergency;
    uint64_t count_given, b22_count, uplink_given, uplink_access, amr_given, fr_amr_given, hr_amr_given, sms_given, sms_confidentiality, sms_privacy;
    uint64_t priority, cipher_key_number, allocation_octets, cell_global_count, fr_amr_config, hr_amr_config;
};
ASTERNHAKEN_SIZE_(asternhaken_record, ASTERNHAKEN_RECORD_NUMBERS);

/* An entry of the answer: what it is told, its record where that is 1 to 3, and where it is 2 or 3 whether the call can be followed; else zeros. */
struct asternhaken_entry {
    uint64_t key;  /* reference times 2 plus service flag */
    uint64_t told; /* enum asternhaken_told */
    struct asternhaken_record record;
    uint64_t follow;     /* enum asternhaken_follow */
    uint64_t kept_count; /* to follow the call with; the record's own count stays as it was sent */
};
ASTERNHAKEN_SIZE_(asternhaken_entry, ASTERNHAKEN_ENTRY_NUMBERS);

/* A page: the mobile identity, the channel wanted first, and how urgently. */
struct asternhaken_page {
    uint64_t identity_octets;               /* how many, 1 to 9; asternhaken_identity_octet gives each */
    uint64_t identity_first, identity_rest; /* the first, and the others as one number: of a TMSI the TMSI */
    uint64_t channel_first;                 /* enum asternhaken_channel_first */
    uint64_t emlpp_priority_given, emlpp_priority;
};
ASTERNHAKEN_SIZE_(asternhaken_page, ASTERNHAKEN_PAGE_NUMBERS);

/* Who is paged by the last accepted event, and for what; all zeros where nobody is. */
struct asternhaken_paged {
    uint64_t paged; /* 1, and 0 where nobody is */
    struct asternhaken_page page;
    uint64_t paging_cause_given, paging_cause; /* enum asternhaken_paging_cause */
};
ASTERNHAKEN_SIZE_(asternhaken_paged, ASTERNHAKEN_PAGED_NUMBERS);

/* The i-th octet of a page's identity, from 0; 0 where there is none. */
static inline uint32_t asternhaken_identity_octet(const struct asternhaken_page *page, uint32_t i)
{
    if (i >= page->identity_octets || page->identity_octets > ASTERNHAKEN_IDENTITY_LONGEST) return 0;
    return (i ? page->identity_rest >> 8 * (page->identity_octets - 1 - i) : page->identity_first) & 255;
}

/* What a half came on, and which it is. */
enum asternhaken_on { ASTERNHAKEN_ON_NCH = 0, ASTERNHAKEN_ON_FACCH = 1, ASTERNHAKEN_ON_PCH = 2 };
enum asternhaken_half { ASTERNHAKEN_FIRST_HALF = 1, ASTERNHAKEN_SECOND_HALF = 2 };

/* A half that is held. */
struct asternhaken_held {
    uint64_t key;     /* of its subscription */
    uint64_t on;      /* enum asternhaken_on */
    uint64_t half;    /* enum asternhaken_half; in octets that no setup left, it may be another number, but not 0 */
    uint64_t ms_left; /* from the last accepted event: it runs out at the first event so much later */
    struct asternhaken_record record;
};
ASTERNHAKEN_SIZE_(asternhaken_held, ASTERNHAKEN_HELD_NUMBERS);

/* A call that a yard set shows: the entry that it was last told complete with, and how long ago. */
struct asternhaken_yard_call {
    uint64_t key;  /* of its subscription: the reference times 2 */
    uint64_t told; /* enum asternhaken_told, 1 to 3 */
    struct asternhaken_record record;
    uint64_t follow;     /* enum asternhaken_follow, as it was told then */
    uint64_t kept_count; /* as it was told then: what happened to the cell's count since changes nothing here */
    uint64_t age;        /* ms, from that message to the last accepted event: below ASTERNHAKEN_YARD_SHOWN */
};
ASTERNHAKEN_SIZE_(asternhaken_yard_call, ASTERNHAKEN_YARD_CALL_NUMBERS);

/* ---- The receiver ---- */

/* Makes the lent octets a receiver that holds nothing, whatever they held. The keys are lent in strictly rising order, so none twice. The place of a
 * subscription is its place among the keys. Beside them one set of group keys is lent for each key, in the same order: those that are held for that call, by their numbers
 * (ASTERNHAKEN_GROUP_KEY), and 0 where none is. */
ASTERNHAKEN_MUST_USE uint32_t asternhaken_setup(uint8_t *state, size_t state_length, const uint32_t *keys, size_t n_keys, const uint32_t *sets, size_t n_sets, uint32_t tick, uint32_t t3206, uint32_t t3208, uint32_t t3210);

/* 1 where the lent octets have the mark of an accepted setup of this layout, which events leave; else 0, as for another length. It is no ground of refusal: events answer octets
 * that nobody set up too, and their entries are then mostly not ours. */
uint32_t asternhaken_is_set_up(const uint8_t *state, size_t state_length);

/* The events. tick is a millisecond counter of 32 bits that wraps. */

/* NT/N Rest Octets came: 20 octets, those behind the pseudo length, 06 and 20 of the block of 23. */
ASTERNHAKEN_MUST_USE uint32_t asternhaken_nch(uint8_t *state, size_t state_length, uint32_t tick, const uint8_t *octets, size_t n);
/* NOTIFICATION/FACCH came: 2 to 23 octets, from the message's first on. One that pages a mobile station has no entries: asternhaken_paged_get says who is paged. */
ASTERNHAKEN_MUST_USE uint32_t asternhaken_facch(uint8_t *state, size_t state_length, uint32_t tick, const uint8_t *octets, size_t n);
/* A notification came on the paging channel: its numbers in the order of enum asternhaken_pch_number. */
ASTERNHAKEN_MUST_USE uint32_t asternhaken_pch(uint8_t *state, size_t state_length, uint32_t tick, const uint64_t *entry, size_t n);
/* The call of this key was joined. */
ASTERNHAKEN_MUST_USE uint32_t asternhaken_joined(uint8_t *state, size_t state_length, uint32_t tick, uint32_t key);
/* Another cell was selected: its first NLN is no change, and its count and bit 22 are not known. */
ASTERNHAKEN_MUST_USE uint32_t asternhaken_reselected(uint8_t *state, size_t state_length, uint32_t tick);
/* The mobile was handed over to another cell: its count and bit 22 are not known. */
ASTERNHAKEN_MUST_USE uint32_t asternhaken_handed_over(uint8_t *state, size_t state_length, uint32_t tick);
ASTERNHAKEN_MUST_USE uint32_t asternhaken_reconfigured(uint8_t *state, size_t state_length, uint32_t tick);
/* Idle mode was left. */
ASTERNHAKEN_MUST_USE uint32_t asternhaken_left_idle(uint8_t *state, size_t state_length, uint32_t tick);
/* Bit 22 of COUNT has this value now, 0 or 1. From 1 to 0 the count that is kept of the cell is raised by one, modulo 4; while the bit is not known, a FACCH message's count is not taken. */
ASTERNHAKEN_MUST_USE uint32_t asternhaken_bit_22(uint8_t *state, size_t state_length, uint32_t tick, uint32_t value);
/* Time passed. */
ASTERNHAKEN_MUST_USE uint32_t asternhaken_tick(uint8_t *state, size_t state_length, uint32_t tick);

ASTERNHAKEN_MUST_USE static inline uint32_t asternhaken_pch_put(uint8_t *state, size_t state_length, uint32_t tick, const struct asternhaken_pch_entry *entry)
{
    return asternhaken_pch(state, state_length, tick, ASTERNHAKEN_AS_(const uint64_t, entry), ASTERNHAKEN_PCH_NUMBERS);
}

/* The answer to the last accepted event; after a refused event that is still the answer to the one before. What is not there is 0, and so is everything
 * after a setup. A state of another length is ASTERNHAKEN_REFUSED_LENGTH, and everything is then 0; nothing else is refused. */

/* One number of it. */
uint32_t asternhaken_read(const uint8_t *state, size_t state_length, uint32_t entry, uint32_t part, uint64_t *value);
/* All numbers of an entry, as struct asternhaken_entry has them: as many as there are places, and zeros beyond them. */
uint32_t asternhaken_entry_numbers(const uint8_t *state, size_t state_length, uint32_t entry, uint64_t *numbers, size_t n);
/* Who is paged, as struct asternhaken_paged has it: as many numbers as there are places, and zeros beyond them. */
uint32_t asternhaken_paged_numbers(const uint8_t *state, size_t state_length, uint64_t *numbers, size_t n);

static inline uint32_t asternhaken_answer_get(const uint8_t *state, size_t state_length, struct asternhaken_answer *into)
{
    asternhaken_read(state, state_length, 0, ASTERNHAKEN_PART_EXPIRED, &into->expired);
    asternhaken_read(state, state_length, 0, ASTERNHAKEN_PART_DROPPED, &into->dropped);
    return asternhaken_read(state, state_length, 0, ASTERNHAKEN_PART_ENTRY_COUNT, &into->entry_count);
}

static inline uint32_t asternhaken_entry_get(const uint8_t *state, size_t state_length, uint32_t entry, struct asternhaken_entry *into)
{
    return asternhaken_entry_numbers(state, state_length, entry, ASTERNHAKEN_AS_(uint64_t, into), ASTERNHAKEN_ENTRY_NUMBERS);
}

static inline uint32_t asternhaken_paged_get(const uint8_t *state, size_t state_length, struct asternhaken_paged *into)
{
    return asternhaken_paged_numbers(state, state_length, ASTERNHAKEN_AS_(uint64_t, into), ASTERNHAKEN_PAGED_NUMBERS);
}

/* What the state holds. A state of another length is ASTERNHAKEN_REFUSED_LENGTH, and every number is then 0; nothing else is refused. */

/* How many halves are held. */
uint32_t asternhaken_held_count(const uint8_t *state, size_t state_length, uint64_t *count);
/* All numbers of one, as struct asternhaken_held has them: as many as there are places, and zeros beyond them. i counts from 0, by the subscriptions' places and NCH, FACCH, PCH
 * for each; from the count on, all is 0. */
uint32_t asternhaken_held_numbers(const uint8_t *state, size_t state_length, uint32_t i, uint64_t *numbers, size_t n);
/* In how many ms from the last accepted event the next half runs out; ASTERNHAKEN_NEVER where none is held. */
uint32_t asternhaken_next_expiry(const uint8_t *state, size_t state_length, uint64_t *ms);

static inline uint32_t asternhaken_held_get(const uint8_t *state, size_t state_length, uint32_t i, struct asternhaken_held *into)
{
    return asternhaken_held_numbers(state, state_length, i, ASTERNHAKEN_AS_(uint64_t, into), ASTERNHAKEN_HELD_NUMBERS);
}

/* Looks a key up among lent keys by halving, as an event looks up the key of a call: place is where it stands, from 0, and ASTERNHAKEN_KEYS where it is not there; looks is how
 * many keys it was compared with, ASTERNHAKEN_LOOKS at most and 0 for no keys. The keys are lent in rising order, as for a setup; in another order, it may pass a key by.
 * More than 50 keys are ASTERNHAKEN_REFUSED_SETUP, and both numbers are then 0; nothing else is refused. */
ASTERNHAKEN_MUST_USE uint32_t asternhaken_find(const uint32_t *keys, size_t n_keys, uint32_t key, uint64_t *place, uint64_t *looks);

/* ---- The uplink: may our driver talk? ----
 *
 * For networks without talker priority (3GPP TS 44.018, 3.3.1.2.1.1). One lent state of ASTERNHAKEN_UPLINK_LENGTH octets, beside that of the receiver and apart from it, follows
 * the uplink of one call. Each message that says whether it is free is an event, and so is the driver's wish to talk:
 *
 *     uint8_t uplink[ASTERNHAKEN_UPLINK_LENGTH];
 *     if (ASTERNHAKEN_REFUSAL(asternhaken_uplink_setup(uplink, sizeof uplink, tick, 3000))) return;
 *     ...
 *     uint32_t result = asternhaken_uplink_request(uplink, sizeof uplink, tick);
 *     if (ASTERNHAKEN_UPLINK_TOLD(result) == ASTERNHAKEN_UPLINK_GRANTED) talk();
 *
 * The uplink is free for less than 480 ms from a "free" on, and until a "busy". A request on a free uplink is granted at once; any other starts T3128 and waits: the next "free" grants
 * it, and at T3128's end it is rejected, also where the event at the end is a "free". So ticks must come while a request waits. One event may end the request that waited and
 * answer a new one; the result has a place for each, and a bit number (ASTERNHAKEN_BIT) never. A refused event has 0 in both places, and leaves every octet as it was. */

/* What became of the request that waited: nothing, granted or rejected. What a new request is told: nothing (there was none), granted, waiting or already waiting. */
#define ASTERNHAKEN_UPLINK_ENDED(result) ((result) >> 8 & 255u)
#define ASTERNHAKEN_UPLINK_TOLD(result) ((result) >> 16 & 255u)

/* Makes the lent octets an uplink that is not free and that nobody waits for, whatever they held. T3128 is 1 to ASTERNHAKEN_LONGEST ms; another is ASTERNHAKEN_REFUSED_SETUP. */
ASTERNHAKEN_MUST_USE uint32_t asternhaken_uplink_setup(uint8_t *uplink, size_t uplink_length, uint32_t tick, uint32_t t3128);

/* A message came that says that the uplink is free. */
ASTERNHAKEN_MUST_USE uint32_t asternhaken_uplink_free(uint8_t *uplink, size_t uplink_length, uint32_t tick);
/* A message came that says that the uplink is busy. */
ASTERNHAKEN_MUST_USE uint32_t asternhaken_uplink_busy(uint8_t *uplink, size_t uplink_length, uint32_t tick);
/* The driver wants to talk. */
ASTERNHAKEN_MUST_USE uint32_t asternhaken_uplink_request(uint8_t *uplink, size_t uplink_length, uint32_t tick);
/* Time passed. */
ASTERNHAKEN_MUST_USE uint32_t asternhaken_uplink_tick(uint8_t *uplink, size_t uplink_length, uint32_t tick);

/* ---- The yard set ----
 *
 * A listen-only set for shunters: a receiver, and above it one current call for each key. One lent state of ASTERNHAKEN_YARD_LENGTH octets is a yard set; its first ASTERNHAKEN_STATE_LENGTH octets are
 * the receiver, so that asternhaken_answer_get, asternhaken_entry_get, asternhaken_held_get, asternhaken_is_set_up and the others that only read take (state, ASTERNHAKEN_STATE_LENGTH). An event is handed in here, and not to
 * the receiver by itself, or the calls would not hear of it.
 *
 * A complete record (told 1 to 3) is the current call of its key, in the place of the one before. A call leaves where another cell was selected, where an NCH message has another NLN than the last of the
 * cell (before its own entries come in; the first NLN of a cell is no change), and when ASTERNHAKEN_YARD_SHOWN ms have passed with no complete record for it, which every accepted event looks at first.
 * A refused event changes nothing, the clock included. A state of another length is ASTERNHAKEN_REFUSED_LENGTH, before anything else. */

/* As asternhaken_setup, and no call is shown; at most ASTERNHAKEN_YARD_KEYS keys, all of them of VBS, so even. */
ASTERNHAKEN_MUST_USE uint32_t asternhaken_yard_setup(uint8_t *state, size_t state_length, const uint32_t *keys, size_t n_keys, const uint32_t *sets, size_t n_sets, uint32_t tick, uint32_t t3206, uint32_t t3208, uint32_t t3210);

/* The events that a yard set takes, as the receiver's. Joined and the bit take no call away. */
ASTERNHAKEN_MUST_USE uint32_t asternhaken_yard_nch(uint8_t *state, size_t state_length, uint32_t tick, const uint8_t *octets, size_t n);
ASTERNHAKEN_MUST_USE uint32_t asternhaken_yard_joined(uint8_t *state, size_t state_length, uint32_t tick, uint32_t key);
ASTERNHAKEN_MUST_USE uint32_t asternhaken_yard_reselected(uint8_t *state, size_t state_length, uint32_t tick);
ASTERNHAKEN_MUST_USE uint32_t asternhaken_yard_bit_22(uint8_t *state, size_t state_length, uint32_t tick, uint32_t value);
ASTERNHAKEN_MUST_USE uint32_t asternhaken_yard_tick(uint8_t *state, size_t state_length, uint32_t tick);

/* The events that it does not take: each is ASTERNHAKEN_REFUSED_NOT_FOR_YARD, and nothing but the state's length is looked at. */
ASTERNHAKEN_MUST_USE uint32_t asternhaken_yard_facch(const uint8_t *state, size_t state_length, uint32_t tick, const uint8_t *octets, size_t n);
ASTERNHAKEN_MUST_USE uint32_t asternhaken_yard_pch(const uint8_t *state, size_t state_length, uint32_t tick, const uint64_t *entry, size_t n);
ASTERNHAKEN_MUST_USE uint32_t asternhaken_yard_handed_over(const uint8_t *state, size_t state_length, uint32_t tick);
ASTERNHAKEN_MUST_USE uint32_t asternhaken_yard_reconfigured(const uint8_t *state, size_t state_length, uint32_t tick);
ASTERNHAKEN_MUST_USE uint32_t asternhaken_yard_left_idle(const uint8_t *state, size_t state_length, uint32_t tick);

/* What is shown. A state of another length is ASTERNHAKEN_REFUSED_LENGTH, and every number is then 0; nothing else is refused. */

/* How many calls are shown. */
uint32_t asternhaken_yard_count(const uint8_t *state, size_t state_length, uint64_t *count);
/* All numbers of one, as struct asternhaken_yard_call has them: as many as there are places, and zeros beyond them. i counts from 0, by rising keys; from the count on, all is 0. */
uint32_t asternhaken_yard_call_numbers(const uint8_t *state, size_t state_length, uint32_t i, uint64_t *numbers, size_t n);

static inline uint32_t asternhaken_yard_call_get(const uint8_t *state, size_t state_length, uint32_t i, struct asternhaken_yard_call *into)
{
    return asternhaken_yard_call_numbers(state, state_length, i, ASTERNHAKEN_AS_(uint64_t, into), ASTERNHAKEN_YARD_CALL_NUMBERS);
}

/* ---- The codecs, for test rigs ----
 *
 * A record is an array of numbers, in the order given here; a flag is 0 or 1. What is only read (how many bits were used, what a cause means) stands first, so that a field which is
 * added behind moves nothing; a writer does not look at it. A reader fills the lent array from its start with as many numbers as it has places, and with zeros beyond them; a refused
 * reading is all zeros. A writer takes an array of exactly the same length (another is ASTERNHAKEN_REFUSED_LENGTH), then a number that its field cannot hold is
 * ASTERNHAKEN_REFUSED_RANGE, then the writer's own grounds follow (a cause without a septet, or of over 255 octets, is ASTERNHAKEN_REFUSED_LENGTH even beside such a number); a
 * refused writing leaves the lent octets untouched. Elements are whole octets or halves of one, and their readers count no bits.
 *
 * The same by structs, each the array with names: decode fills one, encode writes what stands in one. */

/* A call of a message. */
struct asternhaken_call {
    uint64_t call_reference, vgcs, acknowledged, priority, cipher_key_number;
    uint64_t channel_given, channel, hops, short_list, allocation_octets, frequencies;
};

/* NT/N Rest Octets:
 *   0 the number of bits used (when read), 1 NLN there, 2 NLN, 3 how many calls, then four calls of eleven numbers (from 4):
 *       +0 reference, +1 service flag, +2 acknowledgement flag, +3 priority, +4 cipher key number, +5 channel description there,
 *       +6 channel description, +7 hopping, +8 short list, +9 octets of the mobile allocation, +10 frequencies;
 *   48 Release 6 there, 49 count there, 50 CELL_GLOBAL_COUNT, 51 how many reduced references, then five of two numbers (from 52):
 *       +0 reference, +1 service flag;
 *   62 how many random entries, then nine of three numbers (from 63): +0 Segment Id, +1 VSTK_RAND there, +2 VSTK_RAND;
 *   90 Release 7 there, 91 how many emergency marks, 92 to 95 the marks, 96 uplink there, 97 Priority Uplink Access, 98 AMR there,
 *   99 FR AMR there, 100 FR AMR Config, 101 HR AMR there, 102 HR AMR Config, 103 SMS there, 104 SMS Data Confidentiality, 105 SMS Guaranteed Privacy. */
#define ASTERNHAKEN_NCH_NUMBERS 106
#define ASTERNHAKEN_NCH_USED 0
ASTERNHAKEN_MUST_USE uint32_t asternhaken_nch_read(const uint8_t *octets, size_t n, uint64_t *numbers, size_t n_numbers);
ASTERNHAKEN_MUST_USE uint32_t asternhaken_nch_write(const uint64_t *numbers, size_t n_numbers, uint8_t *octets, size_t n);

struct asternhaken_reduced {
    uint64_t call_reference, vgcs;
};
struct asternhaken_random {
    uint64_t segment_id, rand_given, vstk_rand;
};
struct asternhaken_nch_message {
    uint64_t used; /* bits, when read */
    uint64_t nln_given, nln;
    uint64_t n_calls;
    struct asternhaken_call calls[4];
    uint64_t release_6_given, count_given, cell_global_count;
    uint64_t n_reduced;
    struct asternhaken_reduced reduced[5];
    uint64_t n_random;
    struct asternhaken_random random[9];
    uint64_t release_7_given;
    uint64_t n_emergency_marks, emergency_marks[4];
    uint64_t uplink_given, uplink_access, amr_given, fr_amr_given, fr_amr_config, hr_amr_given, hr_amr_config, sms_given, sms_confidentiality, sms_privacy;
};
ASTERNHAKEN_SIZE_(asternhaken_nch_message, ASTERNHAKEN_NCH_NUMBERS);

ASTERNHAKEN_MUST_USE static inline uint32_t asternhaken_nch_decode(const uint8_t *octets, size_t n, struct asternhaken_nch_message *into)
{
    return asternhaken_nch_read(octets, n, ASTERNHAKEN_AS_(uint64_t, into), ASTERNHAKEN_NCH_NUMBERS);
}

ASTERNHAKEN_MUST_USE static inline uint32_t asternhaken_nch_encode(const struct asternhaken_nch_message *from, uint8_t *octets, size_t n)
{
    return asternhaken_nch_write(ASTERNHAKEN_AS_(const uint64_t, from), ASTERNHAKEN_NCH_NUMBERS, octets, n);
}

/* NOTIFICATION/FACCH, a call or a page:
 *   0 the number of bits used (when read), 1 paging: 0 for a call, 1 for a page; 2 to 12 a call as above; the page: 13 the octets of the mobile identity,
 *   14 the first of them, 15 the others as one number, 16 channel first, 17 eMLPP priority there, 18 eMLPP priority;
 *   19 Release 6 there, 20 count there, 21 CELL_GLOBAL_COUNT, 22 B22_COUNT, 23 VSTK_RAND there, 24 VSTK_RAND;
 *   25 Release 7 there, 26 Priority Uplink Access, 27 emergency, 28 Paging Cause there, 29 Paging Cause (a call's is kept too, and means nothing).
 * Of a call the page's numbers are 0, and of a page the call's. The writer fills a buffer of 2 to 23 octets, padding included; the first octet, which no reader looks at,
 * is written as 0. A release that is absent is nothing where the buffer is used up, else one bit. */
#define ASTERNHAKEN_FACCH_NUMBERS 30
#define ASTERNHAKEN_FACCH_USED 0
ASTERNHAKEN_MUST_USE uint32_t asternhaken_facch_read(const uint8_t *octets, size_t n, uint64_t *numbers, size_t n_numbers);
ASTERNHAKEN_MUST_USE uint32_t asternhaken_facch_write(const uint64_t *numbers, size_t n_numbers, uint8_t *octets, size_t n);

struct asternhaken_facch_message {
    uint64_t used; /* bits, when read */
    uint64_t paging; /* 0 for a call, 1 for a page; the other one is all zeros */
    struct asternhaken_call call;
    struct asternhaken_page page;
    uint64_t release_6_given, count_given, cell_global_count, b22_count, rand_given, vstk_rand;
    uint64_t release_7_given, uplink_access, emergency, paging_cause_given, paging_cause;
};
ASTERNHAKEN_SIZE_(asternhaken_facch_message, ASTERNHAKEN_FACCH_NUMBERS);

ASTERNHAKEN_MUST_USE static inline uint32_t asternhaken_facch_decode(const uint8_t *octets, size_t n, struct asternhaken_facch_message *into)
{
    return asternhaken_facch_read(octets, n, ASTERNHAKEN_AS_(uint64_t, into), ASTERNHAKEN_FACCH_NUMBERS);
}

ASTERNHAKEN_MUST_USE static inline uint32_t asternhaken_facch_encode(const struct asternhaken_facch_message *from, uint8_t *octets, size_t n)
{
    return asternhaken_facch_write(ASTERNHAKEN_AS_(const uint64_t, from), ASTERNHAKEN_FACCH_NUMBERS, octets, n);
}

/* Elements of 44.068, clause 9. */

/* Message type: 0 send sequence number, 1 message type (31 to 36 or 38 to 3B hex). */
#define ASTERNHAKEN_MESSAGE_TYPE_NUMBERS 2
ASTERNHAKEN_MUST_USE uint32_t asternhaken_message_type_read(uint8_t octet, uint64_t *numbers, size_t n_numbers);
ASTERNHAKEN_MUST_USE uint32_t asternhaken_message_type_write(const uint64_t *numbers, size_t n_numbers, uint8_t *octet);

struct asternhaken_message_type {
    uint64_t send_sequence_number, message_type;
};
ASTERNHAKEN_SIZE_(asternhaken_message_type, ASTERNHAKEN_MESSAGE_TYPE_NUMBERS);

ASTERNHAKEN_MUST_USE static inline uint32_t asternhaken_message_type_decode(uint8_t octet, struct asternhaken_message_type *into)
{
    return asternhaken_message_type_read(octet, ASTERNHAKEN_AS_(uint64_t, into), ASTERNHAKEN_MESSAGE_TYPE_NUMBERS);
}

ASTERNHAKEN_MUST_USE static inline uint32_t asternhaken_message_type_encode(const struct asternhaken_message_type *from, uint8_t *octet)
{
    return asternhaken_message_type_write(ASTERNHAKEN_AS_(const uint64_t, from), ASTERNHAKEN_MESSAGE_TYPE_NUMBERS, octet);
}

/* Call reference, four octets: 0 reference, 1 priority there, 2 priority (1 to 7; 0 beside a 1 is the reserved one, which is read and not written). */
#define ASTERNHAKEN_CALL_REFERENCE_NUMBERS 3
ASTERNHAKEN_MUST_USE uint32_t asternhaken_call_reference_read(const uint8_t *octets, size_t n, uint64_t *numbers, size_t n_numbers);
ASTERNHAKEN_MUST_USE uint32_t asternhaken_call_reference_write(const uint64_t *numbers, size_t n_numbers, uint8_t *octets, size_t n);

struct asternhaken_call_reference {
    uint64_t call_reference, priority_given, priority;
};
ASTERNHAKEN_SIZE_(asternhaken_call_reference, ASTERNHAKEN_CALL_REFERENCE_NUMBERS);

ASTERNHAKEN_MUST_USE static inline uint32_t asternhaken_call_reference_decode(const uint8_t *octets, size_t n, struct asternhaken_call_reference *into)
{
    return asternhaken_call_reference_read(octets, n, ASTERNHAKEN_AS_(uint64_t, into), ASTERNHAKEN_CALL_REFERENCE_NUMBERS);
}

ASTERNHAKEN_MUST_USE static inline uint32_t asternhaken_call_reference_encode(const struct asternhaken_call_reference *from, uint8_t *octets, size_t n)
{
    return asternhaken_call_reference_write(ASTERNHAKEN_AS_(const uint64_t, from), ASTERNHAKEN_CALL_REFERENCE_NUMBERS, octets, n);
}

/* Call state, a half octet: 0 state, 0 to 11; 12 stands for every reserved one, which is read and not written. */
#define ASTERNHAKEN_CALL_STATE_NUMBERS 1
ASTERNHAKEN_MUST_USE uint32_t asternhaken_call_state_read(uint8_t half, uint64_t *numbers, size_t n_numbers);
ASTERNHAKEN_MUST_USE uint32_t asternhaken_call_state_write(const uint64_t *numbers, size_t n_numbers, uint8_t *half);

struct asternhaken_call_state {
    uint64_t call_state;
};
ASTERNHAKEN_SIZE_(asternhaken_call_state, ASTERNHAKEN_CALL_STATE_NUMBERS);

ASTERNHAKEN_MUST_USE static inline uint32_t asternhaken_call_state_decode(uint8_t half, struct asternhaken_call_state *into)
{
    return asternhaken_call_state_read(half, ASTERNHAKEN_AS_(uint64_t, into), ASTERNHAKEN_CALL_STATE_NUMBERS);
}

ASTERNHAKEN_MUST_USE static inline uint32_t asternhaken_call_state_encode(const struct asternhaken_call_state *from, uint8_t *half)
{
    return asternhaken_call_state_write(ASTERNHAKEN_AS_(const uint64_t, from), ASTERNHAKEN_CALL_STATE_NUMBERS, half);
}

/* Cause, 1 to 255 octets: 0 is 1 for a specific cause and 2 for an unspecific one, 1 the number of a specific one (both when read); 2 how many septets, 3 to 257 the septets,
 * 258 how many diagnostics, 259 to 513 the diagnostics. */
#define ASTERNHAKEN_CAUSE_NUMBERS 514
#define ASTERNHAKEN_CAUSE_MEANING 0
#define ASTERNHAKEN_CAUSE_VALUE 1
ASTERNHAKEN_MUST_USE uint32_t asternhaken_cause_read(const uint8_t *octets, size_t n, uint64_t *numbers, size_t n_numbers);
ASTERNHAKEN_MUST_USE uint32_t asternhaken_cause_write(const uint64_t *numbers, size_t n_numbers, uint8_t *octets, size_t n);

struct asternhaken_cause {
    uint64_t meaning, value; /* when read */
    uint64_t n_septets, septets[255];
    uint64_t n_diagnostics, diagnostics[255];
};
ASTERNHAKEN_SIZE_(asternhaken_cause, ASTERNHAKEN_CAUSE_NUMBERS);

ASTERNHAKEN_MUST_USE static inline uint32_t asternhaken_cause_decode(const uint8_t *octets, size_t n, struct asternhaken_cause *into)
{
    return asternhaken_cause_read(octets, n, ASTERNHAKEN_AS_(uint64_t, into), ASTERNHAKEN_CAUSE_NUMBERS);
}

ASTERNHAKEN_MUST_USE static inline uint32_t asternhaken_cause_encode(const struct asternhaken_cause *from, uint8_t *octets, size_t n)
{
    return asternhaken_cause_write(ASTERNHAKEN_AS_(const uint64_t, from), ASTERNHAKEN_CAUSE_NUMBERS, octets, n);
}

/* Originator indication, a half octet: 0 OI. */
#define ASTERNHAKEN_ORIGINATOR_NUMBERS 1
ASTERNHAKEN_MUST_USE uint32_t asternhaken_originator_read(uint8_t half, uint64_t *numbers, size_t n_numbers);
ASTERNHAKEN_MUST_USE uint32_t asternhaken_originator_write(const uint64_t *numbers, size_t n_numbers, uint8_t *half);

struct asternhaken_originator {
    uint64_t oi;
};
ASTERNHAKEN_SIZE_(asternhaken_originator, ASTERNHAKEN_ORIGINATOR_NUMBERS);

ASTERNHAKEN_MUST_USE static inline uint32_t asternhaken_originator_decode(uint8_t half, struct asternhaken_originator *into)
{
    return asternhaken_originator_read(half, ASTERNHAKEN_AS_(uint64_t, into), ASTERNHAKEN_ORIGINATOR_NUMBERS);
}

ASTERNHAKEN_MUST_USE static inline uint32_t asternhaken_originator_encode(const struct asternhaken_originator *from, uint8_t *half)
{
    return asternhaken_originator_write(ASTERNHAKEN_AS_(const uint64_t, from), ASTERNHAKEN_ORIGINATOR_NUMBERS, half);
}

/* State attributes, a half octet: 0 DA, 1 UA, 2 COMM, 3 OI. */
#define ASTERNHAKEN_STATE_ATTRIBUTES_NUMBERS 4
ASTERNHAKEN_MUST_USE uint32_t asternhaken_state_attributes_read(uint8_t half, uint64_t *numbers, size_t n_numbers);
ASTERNHAKEN_MUST_USE uint32_t asternhaken_state_attributes_write(const uint64_t *numbers, size_t n_numbers, uint8_t *half);

struct asternhaken_state_attributes {
    uint64_t da, ua, comm, oi;
};
ASTERNHAKEN_SIZE_(asternhaken_state_attributes, ASTERNHAKEN_STATE_ATTRIBUTES_NUMBERS);

ASTERNHAKEN_MUST_USE static inline uint32_t asternhaken_state_attributes_decode(uint8_t half, struct asternhaken_state_attributes *into)
{
    return asternhaken_state_attributes_read(half, ASTERNHAKEN_AS_(uint64_t, into), ASTERNHAKEN_STATE_ATTRIBUTES_NUMBERS);
}

ASTERNHAKEN_MUST_USE static inline uint32_t asternhaken_state_attributes_encode(const struct asternhaken_state_attributes *from, uint8_t *half)
{
    return asternhaken_state_attributes_write(ASTERNHAKEN_AS_(const uint64_t, from), ASTERNHAKEN_STATE_ATTRIBUTES_NUMBERS, half);
}

/* SMS indications, a half octet: 0 DC, 1 GP. */
#define ASTERNHAKEN_SMS_NUMBERS 2
ASTERNHAKEN_MUST_USE uint32_t asternhaken_sms_read(uint8_t half, uint64_t *numbers, size_t n_numbers);
ASTERNHAKEN_MUST_USE uint32_t asternhaken_sms_write(const uint64_t *numbers, size_t n_numbers, uint8_t *half);

struct asternhaken_sms {
    uint64_t dc, gp;
};
ASTERNHAKEN_SIZE_(asternhaken_sms, ASTERNHAKEN_SMS_NUMBERS);

ASTERNHAKEN_MUST_USE static inline uint32_t asternhaken_sms_decode(uint8_t half, struct asternhaken_sms *into)
{
    return asternhaken_sms_read(half, ASTERNHAKEN_AS_(uint64_t, into), ASTERNHAKEN_SMS_NUMBERS);
}

ASTERNHAKEN_MUST_USE static inline uint32_t asternhaken_sms_encode(const struct asternhaken_sms *from, uint8_t *half)
{
    return asternhaken_sms_write(ASTERNHAKEN_AS_(const uint64_t, from), ASTERNHAKEN_SMS_NUMBERS, half);
}

/* Talker priority, a half octet: 0 priority, 0 normal, 1 privileged, 2 emergency. */
#define ASTERNHAKEN_TALKER_NUMBERS 1
ASTERNHAKEN_MUST_USE uint32_t asternhaken_talker_read(uint8_t half, uint64_t *numbers, size_t n_numbers);
ASTERNHAKEN_MUST_USE uint32_t asternhaken_talker_write(const uint64_t *numbers, size_t n_numbers, uint8_t *half);

struct asternhaken_talker {
    uint64_t priority;
};
ASTERNHAKEN_SIZE_(asternhaken_talker, ASTERNHAKEN_TALKER_NUMBERS);

ASTERNHAKEN_MUST_USE static inline uint32_t asternhaken_talker_decode(uint8_t half, struct asternhaken_talker *into)
{
    return asternhaken_talker_read(half, ASTERNHAKEN_AS_(uint64_t, into), ASTERNHAKEN_TALKER_NUMBERS);
}

ASTERNHAKEN_MUST_USE static inline uint32_t asternhaken_talker_encode(const struct asternhaken_talker *from, uint8_t *half)
{
    return asternhaken_talker_write(ASTERNHAKEN_AS_(const uint64_t, from), ASTERNHAKEN_TALKER_NUMBERS, half);
}

/* Originator-to-dispatcher, five octets: 0 to 11 the twelve ASCII digits. */
#define ASTERNHAKEN_DIGITS_NUMBERS 12
ASTERNHAKEN_MUST_USE uint32_t asternhaken_digits_read(const uint8_t *octets, size_t n, uint64_t *numbers, size_t n_numbers);
ASTERNHAKEN_MUST_USE uint32_t asternhaken_digits_write(const uint64_t *numbers, size_t n_numbers, uint8_t *octets, size_t n);

struct asternhaken_digits {
    uint64_t digits[12];
};
ASTERNHAKEN_SIZE_(asternhaken_digits, ASTERNHAKEN_DIGITS_NUMBERS);

ASTERNHAKEN_MUST_USE static inline uint32_t asternhaken_digits_decode(const uint8_t *octets, size_t n, struct asternhaken_digits *into)
{
    return asternhaken_digits_read(octets, n, ASTERNHAKEN_AS_(uint64_t, into), ASTERNHAKEN_DIGITS_NUMBERS);
}

ASTERNHAKEN_MUST_USE static inline uint32_t asternhaken_digits_encode(const struct asternhaken_digits *from, uint8_t *octets, size_t n)
{
    return asternhaken_digits_write(ASTERNHAKEN_AS_(const uint64_t, from), ASTERNHAKEN_DIGITS_NUMBERS, octets, n);
}

/* ---- The fields of a message ----
 *
 * A trace lists each field that reading meets, in the order of the message and without a gap: every number of the grammar, every flag of it (the 0 that closes a list among them) and every L/H bit. It
 * begins at bit 0 and ends behind the last bit used; where bits ran out it ends at the refusing bit, ASTERNHAKEN_BIT of what asternhaken_nch_read or asternhaken_facch_read answers; where a test was not
 * met (3, 4, 5, 8) with the field that was tested. Spare padding is no field, and a message of a wrong length has none.
 *
 *     uint64_t fields[ASTERNHAKEN_FIELDS * ASTERNHAKEN_FIELD_NUMBERS];
 *     uint32_t met = asternhaken_nch_trace(octets, 20, fields, ASTERNHAKEN_FIELDS * ASTERNHAKEN_FIELD_NUMBERS);
 *     for (uint32_t i = 0; i < met; i++) show(fields[4 * i], fields[4 * i + 1], fields[4 * i + 2], fields[4 * i + 3]); // kind, place, width, value
 *
 * The result is no refusal: it is how many fields were met. The place is the number of the field's first bit; the value is the number in its bits as they stand, and so is that of an L/H bit, which is L
 * where it is the padding's (2B hex) at that place. A field that has no four places in the array is counted and not stored, and the rest of the array stays as it was. */
enum asternhaken_field {
    ASTERNHAKEN_FIELD_NLN_GIVEN = 1, /* 1 bit. 0 no NLN, 1 it follows */
    ASTERNHAKEN_FIELD_NLN = 2, /* 2 bits. NLN(NCH) */
    ASTERNHAKEN_FIELD_CALL_GIVEN = 3, /* 1 bit. 1 a call follows, 0 ends the list of calls */
    ASTERNHAKEN_FIELD_FIRST_OCTET = 4, /* 8 bits. FACCH: RR short PD, message type, short layer 2 header */
    ASTERNHAKEN_FIELD_PAGING = 5, /* 1 bit. 0 a call follows, 1 a page */
    ASTERNHAKEN_FIELD_CALL_REFERENCE = 6, /* 27 bits. group call reference, and with it the next four */
    ASTERNHAKEN_FIELD_SERVICE_FLAG = 7, /* 1 bit. 0 VBS, 1 VGCS */
    ASTERNHAKEN_FIELD_ACKNOWLEDGEMENT_FLAG = 8, /* 1 bit. acknowledgement flag */
    ASTERNHAKEN_FIELD_PRIORITY = 9, /* 3 bits. call priority */
    ASTERNHAKEN_FIELD_CIPHER_KEY_NUMBER = 10, /* 4 bits. 0 not ciphered */
    ASTERNHAKEN_FIELD_CHANNEL_GIVEN = 11, /* 1 bit. 0 no channel, 1 it follows */
    ASTERNHAKEN_FIELD_CHANNEL = 12, /* 24 bits. Channel Description */
    ASTERNHAKEN_FIELD_HOPS = 13, /* 1 bit. hopping flag: 1 frequencies follow */
    ASTERNHAKEN_FIELD_SHORT_LIST = 14, /* 1 bit. 0 a Mobile Allocation follows, 1 a Frequency Short List */
    ASTERNHAKEN_FIELD_ALLOCATION_OCTETS = 15, /* 8 bits. 1 to 8, else reading ends here */
    ASTERNHAKEN_FIELD_ALLOCATION = 16, /* 8 to 64 bits. Mobile Allocation, so many octets */
    ASTERNHAKEN_FIELD_FREQUENCY_SHORT_LIST = 17, /* 64 bits. Frequency Short List */
    ASTERNHAKEN_FIELD_IDENTITY_OCTETS = 18, /* 8 bits. 1 to 9, else reading ends here */
    ASTERNHAKEN_FIELD_IDENTITY_FIRST = 19, /* 8 bits. the first octet of the mobile identity, and with it the others */
    ASTERNHAKEN_FIELD_IDENTITY_REST = 20, /* 0 to 64 bits. the other octets as one number; of one octet it has no bits */
    ASTERNHAKEN_FIELD_CHANNEL_FIRST = 21, /* 2 bits. enum asternhaken_channel_first */
    ASTERNHAKEN_FIELD_EMLPP_PRIORITY_GIVEN = 22, /* 1 bit. 0 no eMLPP priority, 1 it follows */
    ASTERNHAKEN_FIELD_EMLPP_PRIORITY = 23, /* 3 bits. eMLPP priority */
    ASTERNHAKEN_FIELD_RELEASE_6_GIVEN = 24, /* 1 bit. L or H: Release 6 follows where it is H */
    ASTERNHAKEN_FIELD_COUNT_GIVEN = 25, /* 1 bit. 0 no count, 1 it follows */
    ASTERNHAKEN_FIELD_CELL_GLOBAL_COUNT = 26, /* 2 bits. CELL_GLOBAL_COUNT */
    ASTERNHAKEN_FIELD_B22_COUNT = 27, /* 1 bit. B22_COUNT */
    ASTERNHAKEN_FIELD_REDUCED_GIVEN = 28, /* 1 bit. 1 a reduced reference follows, 0 ends the list of them */
    ASTERNHAKEN_FIELD_REDUCED_REFERENCE = 29, /* 27 bits. its reference, and with it the next one */
    ASTERNHAKEN_FIELD_REDUCED_SERVICE_FLAG = 30, /* 1 bit. 0 VBS, 1 VGCS */
    ASTERNHAKEN_FIELD_RANDOM_GIVEN = 31, /* 1 bit. 1 a random entry follows, 0 ends the list of them */
    ASTERNHAKEN_FIELD_SEGMENT_ID = 32, /* 1 bit. Segment Id */
    ASTERNHAKEN_FIELD_RAND_GIVEN = 33, /* 1 bit. 0 no VSTK_RAND, 1 it follows */
    ASTERNHAKEN_FIELD_VSTK_RAND = 34, /* 36 bits. VSTK_RAND */
    ASTERNHAKEN_FIELD_RELEASE_7_GIVEN = 35, /* 1 bit. L or H: Release 7 follows where it is H */
    ASTERNHAKEN_FIELD_EMERGENCY_MARK_GIVEN = 36, /* 1 bit. 1 an emergency mark follows, 0 ends the list of them */
    ASTERNHAKEN_FIELD_EMERGENCY_MARK = 37, /* 1 bit. Emergency_Ind */
    ASTERNHAKEN_FIELD_UPLINK_GIVEN = 38, /* 1 bit. 0 no Priority Uplink Access, 1 it follows */
    ASTERNHAKEN_FIELD_UPLINK_ACCESS = 39, /* 1 bit. Priority Uplink Access; on the FACCH L or H */
    ASTERNHAKEN_FIELD_AMR_GIVEN = 40, /* 1 bit. 0 no AMR parts, 1 they follow */
    ASTERNHAKEN_FIELD_FR_AMR_GIVEN = 41, /* 1 bit. 0 none, 1 it follows */
    ASTERNHAKEN_FIELD_FR_AMR_CONFIG = 42, /* 4 bits. FR AMR Config */
    ASTERNHAKEN_FIELD_HR_AMR_GIVEN = 43, /* 1 bit. 0 none, 1 it follows */
    ASTERNHAKEN_FIELD_HR_AMR_CONFIG = 44, /* 4 bits. HR AMR Config */
    ASTERNHAKEN_FIELD_SMS_GIVEN = 45, /* 1 bit. 0 no SMS bits, 1 they follow */
    ASTERNHAKEN_FIELD_SMS_CONFIDENTIALITY = 46, /* 1 bit. SMS Data Confidentiality Ind */
    ASTERNHAKEN_FIELD_SMS_PRIVACY = 47, /* 1 bit. SMS Guaranteed Privacy Ind */
    ASTERNHAKEN_FIELD_EMERGENCY = 48, /* 1 bit. Emergency_Ind: L or H */
    ASTERNHAKEN_FIELD_PAGING_CAUSE_GIVEN = 49, /* 1 bit. 0 no Paging Cause, 1 it follows */
    ASTERNHAKEN_FIELD_PAGING_CAUSE = 50 /* 1 bit. enum asternhaken_paging_cause */
};
#define ASTERNHAKEN_FIELDS 184      /* no message has more fields than bits: 160 of the NCH, 184 of the FACCH */
#define ASTERNHAKEN_FIELD_NUMBERS 4 /* numbers of a field: kind, place, width, value */
ASTERNHAKEN_MUST_USE uint32_t asternhaken_nch_trace(const uint8_t *octets, size_t n, uint64_t *fields, size_t n_places);
ASTERNHAKEN_MUST_USE uint32_t asternhaken_facch_trace(const uint8_t *octets, size_t n, uint64_t *fields, size_t n_places);

/* ---- Words ----
 *
 * A short word and a sentence for each refusal number, each told number and each number of enum asternhaken_follow and enum asternhaken_uplink, to be shown or logged. They answer for every number: one
 * that this version does not know has the word "unknown" and a sentence that says so. Of a page, each kind of identity (ASTERNHAKEN_IDENTITY_KIND of its first octet), channel
 * first and paging cause has a word. The texts are constant; they are for people, and a program goes by the numbers. */
const char *asternhaken_refusal_word(uint32_t refusal);
const char *asternhaken_refusal_sentence(uint32_t refusal);
const char *asternhaken_told_word(uint64_t told);
const char *asternhaken_told_sentence(uint64_t told);
const char *asternhaken_follow_word(uint64_t follow);
const char *asternhaken_follow_sentence(uint64_t follow);
const char *asternhaken_identity_word(uint64_t kind);
const char *asternhaken_channel_first_word(uint64_t channel_first);
const char *asternhaken_paging_cause_word(uint64_t paging_cause);
const char *asternhaken_uplink_word(uint32_t told);
const char *asternhaken_uplink_sentence(uint32_t told);

#ifdef __cplusplus
}
#endif

#endif
